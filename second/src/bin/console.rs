//! The console: standard input to standard output.

use second::console::Console;
use second::line::serve;

fn main() {
    let mut console = Console::default();
    serve(|line, answer| console.answer(line, answer));
}
