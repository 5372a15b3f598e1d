//! Makes the input of a measure: `busy NAME` writes the lines of a load, `busy` alone names the
//! loads, a line each with its words.

use std::io::{self, BufWriter, Write};
use std::process::ExitCode;

use second::line::write_digits;
use second::load::{Load, LOADS};

fn main() -> ExitCode {
    let arguments: Vec<String> = std::env::args().skip(1).collect();
    let done = match arguments.as_slice() {
        [] => write_names(),
        [name] => match Load::named(name) {
            Some(load) => write_lines(load),
            None => return fail("usage: busy [NAME]"),
        },
        _ => return fail("usage: busy [NAME]"),
    };
    match done {
        Ok(()) => ExitCode::SUCCESS,
        Err(error) => fail(&error.to_string()),
    }
}

fn fail(why: &str) -> ExitCode {
    eprintln!("busy: {why}");
    ExitCode::FAILURE
}

fn write_names() -> io::Result<()> {
    let mut output = io::stdout().lock();
    for load in LOADS {
        writeln!(output, "{} {}", load.name, load.words)?;
    }
    Ok(())
}

fn write_lines(load: Load) -> io::Result<()> {
    let mut output = BufWriter::new(io::stdout().lock());
    load.each(|frame| {
        let mut line = Vec::new();
        write_digits(frame, &mut line);
        line.push(b'\n');
        output.write_all(&line)
    })?;
    output.flush()
}
