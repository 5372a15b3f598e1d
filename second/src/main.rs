//! The line program: standard input to standard output.

use second::line::{serve, Program};

fn main() {
    let mut program = Program::default();
    serve(|line, answer| program.answer(line, answer));
}
