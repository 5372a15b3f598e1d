//! "The line program": frames in, answers out.

use std::io::{self, BufRead, BufReader, BufWriter, Read, Write};

use crate::packet::{self, Entry, MOST_ENTRIES, PACKET};
use crate::refusal::{Case, Refusal};
use crate::table::{Add, Served, Table};

/// "Over 3,100 digits" is Line.
pub const MOST_DIGITS: usize = 3_100;

/// "The reply buffer is large enough that Room never occurs": 3,720 bytes, a packet for each entry.
pub const ROOM: usize = PACKET * MOST_ENTRIES;

/// Bytes that are read, and written, at a time.
const AT_ONCE: usize = 1 << 16;

/// One frame, "one frame a line".
#[derive(Clone, Copy, Debug, PartialEq, Eq)]
pub enum Frame<'a> {
    Datagram { time: u32, bytes: &'a [u8] },
    Add(Add),
    LocalPause { ssrc: u32 },
    LocalResume { ssrc: u32 },
    Time { ssrc: u32, time: u32 },
    Report { ssrc: u32 },
    Send { ssrc: u32 },
}

impl<'a> Frame<'a> {
    /// Nothing for "another first byte, a wrong length (an empty line too; for 00, under 5 bytes),
    /// a nowait byte over 01".
    pub fn read(bytes: &'a [u8]) -> Option<Self> {
        let (&first, rest) = bytes.split_first()?;
        let frame = match (first, rest.len()) {
            (0, 4..) => Frame::Datagram {
                time: u32_at(rest, 0),
                bytes: &rest[4..],
            },
            (1, 17) if rest[16] <= 1 => Frame::Add(Add {
                ssrc: u32_at(rest, 0),
                pause_id: u16_at(rest, 4),
                sequence: u16_at(rest, 6),
                rtt: u32_at(rest, 8),
                dither: u32_at(rest, 12),
                nowait: rest[16] == 1,
            }),
            (2, 4) => Frame::LocalPause {
                ssrc: u32_at(rest, 0),
            },
            (3, 4) => Frame::LocalResume {
                ssrc: u32_at(rest, 0),
            },
            (4, 8) => Frame::Time {
                ssrc: u32_at(rest, 0),
                time: u32_at(rest, 4),
            },
            (5, 4) => Frame::Report {
                ssrc: u32_at(rest, 0),
            },
            (6, 4) => Frame::Send {
                ssrc: u32_at(rest, 0),
            },
            _ => return None,
        };
        Some(frame)
    }
}

pub fn u16_at(bytes: &[u8], place: usize) -> u16 {
    u16::from_be_bytes([bytes[place], bytes[place + 1]])
}

pub fn u32_at(bytes: &[u8], place: usize) -> u32 {
    u32::from(u16_at(bytes, place)) << 16 | u32::from(u16_at(bytes, place + 2))
}

/// What Done carries.
#[derive(Debug, PartialEq, Eq)]
pub enum Answer {
    /// Add and local resume: "nothing more".
    Nothing,
    /// Local pause, time and report: "one 20-byte packet or nothing".
    Reply(Option<Entry>),
    /// A datagram.
    Served(Served),
    /// Send: the sequence number.
    Number(u16),
}

impl Answer {
    /// Appends what stands before the reply: "n and u (2 bytes each) for a datagram", "for send,
    /// the number (2)".
    pub fn write_values(&self, done: &mut Vec<u8>) {
        match self {
            Answer::Nothing | Answer::Reply(_) => {}
            Answer::Number(number) => done.extend_from_slice(&number.to_be_bytes()),
            Answer::Served(served) => {
                done.extend_from_slice(&(served.n as u16).to_be_bytes());
                done.extend_from_slice(&(served.u as u16).to_be_bytes());
            }
        }
    }

    pub fn replies(&self) -> &[Entry] {
        match self {
            Answer::Nothing | Answer::Number(_) => &[],
            Answer::Reply(reply) => reply.as_slice(),
            Answer::Served(served) => &served.replies,
        }
    }
}

/// The program between two lines.
#[derive(Debug, Default)]
pub struct Program {
    table: Table,
    /// The frame of the line in hand.
    frame: Vec<u8>,
    /// What Done prints after 00 for the line in hand.
    done: Vec<u8>,
}

impl Program {
    pub fn table(&self) -> &Table {
        &self.table
    }

    /// Appends the answer to one line, with its line feed.
    pub fn answer(&mut self, line: &[u8], output: &mut Vec<u8>) {
        let answer = self.run(line);
        write_answer(answer, &self.done, output);
    }

    fn run(&mut self, line: &[u8]) -> Result<(), Refusal> {
        read_digits(line, &mut self.frame).ok_or(Case::Line)?;
        let frame = Frame::read(&self.frame).ok_or(Case::Line)?;
        let answer = perform(&mut self.table, ROOM, frame)?;
        self.done.clear();
        answer.write_values(&mut self.done);
        packet::write_replies(answer.replies(), &mut self.done);
        Ok(())
    }
}

/// Runs one frame on the table, with a reply buffer of `room` bytes.
pub fn perform(table: &mut Table, room: usize, frame: Frame) -> Result<Answer, Refusal> {
    let answer = match frame {
        Frame::Datagram { time, bytes } => Answer::Served(table.datagram(bytes, time, room)?),
        Frame::Add(add) => {
            table.add(add)?;
            Answer::Nothing
        }
        Frame::LocalPause { ssrc } => Answer::Reply(table.replying(ssrc, room)?.local_pause()),
        Frame::LocalResume { ssrc } => {
            table.local(ssrc)?.local_resume();
            Answer::Nothing
        }
        Frame::Time { ssrc, time } => Answer::Reply(table.replying(ssrc, room)?.time(time)),
        Frame::Report { ssrc } => Answer::Reply(table.replying(ssrc, room)?.report()),
        Frame::Send { ssrc } => Answer::Number(table.local(ssrc)?.send().ok_or(Case::Held)?),
    };
    Ok(answer)
}

/// Appends an answer as a line: "00 for Done", then what it carries; "a refusal prints its number
/// and its place (2 bytes)".
pub fn write_answer(answer: Result<(), Refusal>, done: &[u8], output: &mut Vec<u8>) {
    match answer {
        Ok(()) => {
            write_digits(&[0], output);
            write_digits(done, output);
        }
        Err(refusal) => {
            write_digits(&[refusal.case.number()], output);
            write_digits(&(refusal.place as u16).to_be_bytes(), output);
        }
    }
    output.push(b'\n');
}

/// A program that answers lines, on standard input and output.
pub fn serve(answer: impl FnMut(&[u8], &mut Vec<u8>)) {
    // Whoever reads the output may stop reading it: that ends the program and is no fault.
    let _ = run(io::stdin().lock(), io::stdout().lock(), answer);
}

/// "Reads standard input, lines of lower-case hexadecimal, one frame a line, and prints one line
/// for each."
fn run(
    input: impl Read,
    output: impl Write,
    mut answer: impl FnMut(&[u8], &mut Vec<u8>),
) -> io::Result<()> {
    let mut input = BufReader::with_capacity(AT_ONCE, input);
    let mut output = BufWriter::with_capacity(AT_ONCE, output);
    let mut line = Vec::new();
    let mut answered = Vec::new();
    loop {
        // No answer is held back while the program waits for input.
        if input.buffer().is_empty() {
            output.flush()?;
        }
        if !read_line(&mut input, &mut line)? {
            return output.flush();
        }
        answered.clear();
        answer(&line, &mut answered);
        output.write_all(&answered)?;
    }
}

/// Reads the next line, without its line feed; false when there is no line left.
///
/// "A line ends at a line feed or at the end of input; nothing after the last line feed is no
/// line." Of a line that is too long one digit over the limit is kept, which is enough to answer
/// it, and the rest is read away.
fn read_line(input: &mut impl BufRead, line: &mut Vec<u8>) -> io::Result<bool> {
    line.clear();
    let most = MOST_DIGITS as u64 + 1;
    if input.by_ref().take(most).read_until(b'\n', line)? == 0 {
        return Ok(false);
    }
    if line.last() == Some(&b'\n') {
        line.pop();
    } else if line.len() > MOST_DIGITS {
        input.skip_until(b'\n')?;
    }
    Ok(true)
}

/// The bytes of a line; nothing for "a bad or odd digit, over 3,100 digits".
pub fn read_digits(line: &[u8], bytes: &mut Vec<u8>) -> Option<()> {
    bytes.clear();
    if line.len() > MOST_DIGITS || line.len() % 2 == 1 {
        return None;
    }
    for pair in line.chunks_exact(2) {
        let (high, low) = (digit(pair[0]), digit(pair[1]));
        // A bad digit's value has bits above the low four.
        if (high | low) > 0x0f {
            return None;
        }
        bytes.push(high << 4 | low);
    }
    Some(())
}

/// The value of a lower-case hexadecimal digit, or `BAD`.
fn digit(digit: u8) -> u8 {
    VALUES[usize::from(digit)]
}

const BAD: u8 = 0xff;

const DIGITS: &[u8; 16] = b"0123456789abcdef";

const VALUES: [u8; 256] = {
    let mut values = [BAD; 256];
    let mut value = 0;
    while value < DIGITS.len() {
        values[DIGITS[value] as usize] = value as u8;
        value += 1;
    }
    values
};

pub fn write_digits(bytes: &[u8], output: &mut Vec<u8>) {
    let digit = |value: u8| DIGITS[usize::from(value)];
    output.extend(bytes.iter().flat_map(|b| [digit(b >> 4), digit(b & 0x0f)]));
}

#[cfg(test)]
mod tests {
    use super::*;
    use crate::packet::tests::datagram_of;
    use crate::packet::Kind;

    /// Runs pairs of a line and its answer through one program.
    fn check(pairs: &[(&str, &str)]) {
        let mut program = Program::default();
        for (line, expected) in pairs {
            let mut output = Vec::new();
            program.answer(line.as_bytes(), &mut output);
            assert_eq!(
                String::from_utf8(output).as_deref(),
                Ok(format!("{expected}\n").as_str()),
                "line {line}"
            );
        }
    }

    #[test]
    fn example() {
        check(&[
            ("01112233440007006400000064000000c800", "00"),
            ("0611223344", "000064"),
            (
                "00ffffff0089cd0004aabbccdd000000001122334400000007",
                "0000010000",
            ),
            ("04112233440000008f", "00"),
            (
                "041122334400000090",
                "0089cd000411223344000000001122334420000007",
            ),
            ("0611223344", "0d0000"),
            (
                "000000010089cd0004aabbccdd000000001122334410000008",
                "000001000089cd000411223344000000001122334430000007",
            ),
            (
                "000000010089cd0004aabbccdd000000001122334410000007",
                "0000010000",
            ),
            ("0611223344", "000065"),
        ]);
    }

    #[test]
    fn broken_lines() {
        for line in [
            "",
            "0",
            "07",
            "ff00000001",
            "00000000",
            "0611223344 ",
            "0611223344\r",
            " 0611223344",
            "061122334A",
            "061122334g",
            "06112233440",
            "061122334400",
            "06112233",
            "01112233440007006400000064000000c802",
            "01112233440007006400000064000000c8",
        ] {
            check(&[(line, "110000")]);
        }
    }

    #[test]
    fn longest_line() {
        let zeros = |digits| "0".repeat(digits);
        check(&[
            (&zeros(10), "020000"),
            (&zeros(3_010), "030000"),
            (&zeros(3_012), "010000"),
            (&zeros(3_100), "010000"),
            (&zeros(3_101), "110000"),
            (&zeros(3_102), "110000"),
        ]);
    }

    #[test]
    fn longest_answer() {
        let datagram = datagram_of(&[(0x1122_3344, Kind::Pause, 8); MOST_ENTRIES]);
        let mut line = b"0000000000".to_vec();
        write_digits(&datagram, &mut line);
        let line = String::from_utf8(line).expect("hexadecimal digits");
        let reply = "89cd000411223344000000001122334430000007";
        let answer = format!("0000ba0000{}", reply.repeat(186));
        assert_eq!(answer.len(), 7_450);
        check(&[
            ("01112233440007006400000064000000c800", "00"),
            (&line, &answer),
        ]);
    }

    #[test]
    fn line_comes_before_the_table() {
        check(&[
            ("01112233440007006400000064000000c800", "00"),
            ("01112233440007006400000064000000c800", "0f0000"),
            ("011122334400070064ffffffff000000c802", "110000"),
        ]);
    }

    #[test]
    fn streams_that_are_not_there() {
        check(&[
            ("0200000000", "0c0000"),
            ("0300000000", "0c0000"),
            ("040000000000000000", "0c0000"),
            ("0500000000", "0c0000"),
            ("0600000000", "0c0000"),
        ]);
    }

    fn output(input: &[u8]) -> String {
        let mut output = Vec::new();
        let mut program = Program::default();
        run(input, &mut output, |line, answer| {
            program.answer(line, answer)
        })
        .expect("memory can be read and written");
        String::from_utf8(output).expect("hexadecimal digits")
    }

    #[test]
    fn ends_of_lines() {
        assert_eq!(output(b""), "");
        assert_eq!(output(b"\n"), "110000\n");
        assert_eq!(output(b"\n\n"), "110000\n110000\n");
        assert_eq!(output(b"0600000000"), "0c0000\n");
        assert_eq!(output(b"0600000000\n"), "0c0000\n");
        assert_eq!(output(b"0600000000\n\n"), "0c0000\n110000\n");
    }

    #[test]
    fn a_line_that_is_too_long_is_answered_once() {
        for digits in [3_101, 3_102, 6_200, 65_536, 200_000] {
            let mut input = vec![b'0'; digits];
            assert_eq!(output(&input), "110000\n");
            input.extend_from_slice(b"\n0600000000");
            assert_eq!(output(&input), "110000\n0c0000\n");
        }
        let mut input = vec![b'0'; 3_100];
        input.extend_from_slice(b"\n0600000000");
        assert_eq!(output(&input), "010000\n0c0000\n");
    }

    /// A reader of the output that has gone away.
    struct Gone;

    impl Write for Gone {
        fn write(&mut self, _: &[u8]) -> io::Result<usize> {
            Err(io::ErrorKind::BrokenPipe.into())
        }

        fn flush(&mut self) -> io::Result<()> {
            Ok(())
        }
    }

    #[test]
    fn a_failed_write_ends_it() {
        let endless = io::repeat(b'\n');
        assert!(run(endless, Gone, |_, answer| answer.push(b'\n')).is_err());
    }
}
