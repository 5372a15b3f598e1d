//! Makes input lines for the line program.
//!
//! `lines SEED COUNT` writes COUNT lines, always the same for one seed; `lines SEED COUNT open`
//! leaves the line feed after the last one out.
//!
//! Each line also runs through a program of the generator's own, so that the next lines can aim at
//! the PauseIDs and deadlines the streams then have.

use std::process::ExitCode;

use second::line::Program;
use second::make::{digits, generate, Generator, Maker, EARLY};
use second::row::PLACES;

struct Lines {
    maker: Maker,
    program: Program,
    /// Lines made so far.
    made: usize,
    /// From this one on the table shall run full.
    fill_from: usize,
}

impl Lines {
    /// Runs a line through the generator's own program.
    fn follow(&mut self, line: &[u8]) {
        self.program.answer(line, &mut Vec::new());
        self.maker.streams = self.program.table().streams().to_vec();
        self.made += 1;
    }

    fn next(&mut self) -> Vec<u8> {
        let filling = self.made >= self.fill_from;
        let maker = &mut self.maker;
        if maker.random.chance(7) {
            return self.broken_line();
        }
        let frame = match maker.streams.len() {
            count if count < EARLY && maker.random.chance(40) => maker.new_stream(),
            count if count < PLACES && filling && maker.random.chance(40) => maker.new_stream(),
            _ => maker.frame(),
        };
        digits(&frame)
    }

    /// A line that is no frame.
    fn broken_line(&mut self) -> Vec<u8> {
        let maker = &mut self.maker;
        let first = maker.random.below(7) as u8;
        let mut frame = maker.frame_of(first);
        match maker.random.below(11) {
            0 => return Vec::new(),
            1 | 2 => return maker.bad_digit(&frame),
            3 => return maker.odd_digits(&frame),
            4 | 5 => return maker.long_line(),
            6 => frame[0] = 7 + maker.random.below(249) as u8,
            7 => {
                frame = maker.refused_add();
                frame[17] = maker.random.pick(&[2, 3, 0x10, 0x80, 0xff]);
            }
            8 => {
                let extra = 1 + maker.random.below(3);
                frame.extend_from_slice(&maker.random.bytes(extra));
            }
            _ => frame.truncate(maker.random.below(frame.len().min(18))),
        }
        digits(&frame)
    }
}

impl Generator for Lines {
    /// There is no remove, so a table once full stays full: in every third seed from early on, in
    /// the others in the last part.
    fn new(seed: u64, count: usize) -> Self {
        Lines {
            maker: Maker::new(seed),
            program: Program::default(),
            made: 0,
            fill_from: match seed % 3 {
                0 => 0,
                _ => count - count / 3,
            },
        }
    }

    fn line(&mut self) -> Vec<u8> {
        let line = self.next();
        self.follow(&line);
        line
    }

    fn last_line(&mut self) -> Vec<u8> {
        digits(&self.maker.local_frame(6))
    }
}

fn main() -> ExitCode {
    generate::<Lines>("lines")
}
