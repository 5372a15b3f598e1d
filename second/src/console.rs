//! The console: a second line program, for what document 01's has no frame for.
//!
//! The rules quoted are those of the console's page.

use crate::line::{self, perform, read_digits, u16_at, u32_at, write_answer};
use crate::packet::{self, Entry, Found, Kind, Walk};
use crate::receiver::Receiver;
use crate::receiver_frames;
use crate::refusal::{Case, Refusal};
use crate::stream::{State, Stream};
use crate::table::Table;

/// "Each table has 65 records."
pub const RECORDS: usize = 65;

/// "The reply buffer has 4,000 bytes."
pub const BUFFER: usize = 4_000;

/// "The house SSRC is 1." By document 02, "Two", it "stays only for request One's messages".
const HOUSE: u32 = 1;

/// A sender's record, in bytes.
pub const RECORD: usize = 19;

/// One frame of a line.
#[derive(Clone, Debug, PartialEq, Eq)]
pub enum Frame<'a> {
    /// 00 to 06, "as in the line program".
    Line(line::Frame<'a>),
    Room(usize),
    Size(usize),
    Fill(u8),
    Bytes,
    Remove {
        ssrc: u32,
    },
    Record {
        place: usize,
    },
    Lend {
        place: usize,
        record: Stream,
    },
    Write {
        sender: u32,
        entry: Entry,
    },
    Step {
        number: u64,
        bytes: &'a [u8],
    },
    /// 20 to 28, for the receiver's table.
    Receiver(receiver_frames::Frame<'a>),
}

impl<'a> Frame<'a> {
    /// Nothing for "a wrong length, a flag, used or nowait byte over 01, a state over 03, a place
    /// over 64, a size over 65, a room over 4,000 or another first byte".
    pub fn read(bytes: &'a [u8]) -> Option<Self> {
        let (&first, rest) = bytes.split_first()?;
        let frame = match (first, rest.len()) {
            (0x00..=0x06, _) => Frame::Line(line::Frame::read(bytes)?),
            (0x20..=0x28, _) => Frame::Receiver(receiver_frames::Frame::read(bytes)?),
            (0xe0, 2) => Frame::Room(at_most(BUFFER, u16_at(rest, 0))?),
            (0xe1, 1) => Frame::Size(at_most(RECORDS, rest[0])?),
            (0xe2, 1) => Frame::Fill(rest[0]),
            (0xe3, 0) => Frame::Bytes,
            (0x10, 4) => Frame::Remove {
                ssrc: u32_at(rest, 0),
            },
            (0x11, 1) => Frame::Record {
                place: at_most(RECORDS - 1, rest[0])?,
            },
            (0x12, _) => {
                let (&place, record) = rest.split_first()?;
                Frame::Lend {
                    place: at_most(RECORDS - 1, place)?,
                    record: read_record(record.try_into().ok()?)?,
                }
            }
            (0x30, 11) => Frame::Write {
                sender: u32_at(rest, 0),
                entry: Entry {
                    target: u32_at(rest, 4),
                    kind: Kind::from_number(rest[8]),
                    pause_id: u16_at(rest, 9),
                },
            },
            (0x31, 8..) => {
                let (number, bytes) = rest.split_first_chunk()?;
                Frame::Step {
                    number: u64::from_be_bytes(*number),
                    bytes,
                }
            }
            _ => return None,
        };
        Some(frame)
    }
}

pub fn at_most(most: usize, number: impl Into<usize>) -> Option<usize> {
    Some(number.into()).filter(|&number| number <= most)
}

/// "Used (1), SSRC (4), state (1: 00 Playing, 01 Pausing, 02 Paused, 03 Local paused), deadline
/// (4; ... passed over in lend unless Pausing), c (2), next sequence number (2), H (4), r (1)."
fn read_record(record: &[u8; RECORD]) -> Option<Stream> {
    Some(Stream {
        in_use: at_most(1, record[0])? == 1,
        ssrc: u32_at(record, 1),
        state: match record[5] {
            0 => State::Playing,
            1 => State::Pausing {
                deadline: u32_at(record, 6),
            },
            2 => State::Paused,
            3 => State::LocalPaused,
            _ => return None,
        },
        pause_id: u16_at(record, 10),
        sequence: u16_at(record, 12),
        hold_off: u32_at(record, 14),
        repeats: record[18],
    })
}

/// The same the other way: the deadline is "0 unless Pausing".
fn write_record(record: &Stream, bytes: &mut Vec<u8>) {
    let (state, deadline) = record.state.numbers();
    bytes.push(record.in_use.into());
    bytes.extend_from_slice(&record.ssrc.to_be_bytes());
    bytes.push(state);
    bytes.extend_from_slice(&deadline.to_be_bytes());
    bytes.extend_from_slice(&record.pause_id.to_be_bytes());
    bytes.extend_from_slice(&record.sequence.to_be_bytes());
    bytes.extend_from_slice(&record.hold_off.to_be_bytes());
    bytes.push(record.repeats);
}

/// "00 for End; or 01 and the entry with number k: place (2), sender (4), target (4), type (1),
/// PauseID (2), parameter length (1)."
fn write_step(step: Option<Found>, done: &mut Vec<u8>) {
    let Some(found) = step else {
        return done.push(0);
    };
    done.push(1);
    done.extend_from_slice(&(found.place as u16).to_be_bytes());
    done.extend_from_slice(&found.sender.to_be_bytes());
    done.extend_from_slice(&found.entry.target.to_be_bytes());
    done.push(found.entry.kind.number());
    done.extend_from_slice(&found.entry.pause_id.to_be_bytes());
    done.push(found.words);
}

/// The console between two lines.
#[derive(Clone, Debug)]
pub struct Console {
    table: Table,
    receiver: Receiver,
    buffer: Vec<u8>,
    /// "A call is lent the first R bytes of the reply buffer."
    room: usize,
}

/// "At the start each table has 65 records, unused, every field 0; a call is lent the first 64 of
/// them. The reply buffer has 4,000 bytes, all 00, and is lent whole."
impl Default for Console {
    fn default() -> Self {
        Console {
            table: Table::new(RECORDS),
            receiver: Receiver::new(RECORDS),
            buffer: vec![0; BUFFER],
            room: BUFFER,
        }
    }
}

impl Console {
    /// The sender's table.
    pub fn table(&self) -> &Table {
        &self.table
    }

    pub fn receiver(&self) -> &Receiver {
        &self.receiver
    }

    pub fn buffer(&self) -> &[u8] {
        &self.buffer
    }

    pub fn room(&self) -> usize {
        self.room
    }

    /// Appends the answer to one line, with its line feed.
    pub fn answer(&mut self, line: &[u8], output: &mut Vec<u8>) {
        let mut done = Vec::new();
        let answer = self.run(line, &mut done);
        write_answer(answer, &done, output);
    }

    fn run(&mut self, line: &[u8], done: &mut Vec<u8>) -> Result<(), Refusal> {
        let mut bytes = Vec::new();
        read_digits(line, &mut bytes).ok_or(Case::Line)?;
        let frame = Frame::read(&bytes).ok_or(Case::Line)?;
        self.perform(frame, done)
    }

    /// Runs one frame, and appends what Done prints after 00.
    pub fn perform(&mut self, frame: Frame, done: &mut Vec<u8>) -> Result<(), Refusal> {
        match frame {
            Frame::Line(frame) => {
                let answer = perform(&mut self.table, self.room, frame)?;
                answer.write_values(done);
                let mut packets = Vec::new();
                packet::write_replies(answer.replies(), &mut packets);
                self.reply(&packets, done);
            }
            Frame::Receiver(frame) => {
                if let Some(ask) = frame.perform(&mut self.receiver, self.room, done)? {
                    self.reply(&packet::packet_of(HOUSE, ask), done);
                }
            }
            Frame::Room(room) => self.room = room,
            // "S holds for both tables."
            Frame::Size(size) => {
                self.table.lend_first(size);
                self.receiver.lend_first(size);
            }
            Frame::Fill(byte) => self.buffer.fill(byte),
            Frame::Bytes => done.extend_from_slice(&self.buffer[..self.room]),
            Frame::Remove { ssrc } => self.table.remove(ssrc)?,
            Frame::Record { place } => write_record(&self.table.records()[place], done),
            Frame::Lend { place, record } => self.table.put(place, record),
            Frame::Write { sender, entry } => {
                let packet = packet::write_one(sender, entry, self.room)?;
                self.reply(&packet, done);
            }
            Frame::Step { number, bytes } => write_step(Walk::open(bytes)?.step(number), done),
        }
        Ok(())
    }

    /// Puts packets "at the buffer's start" and prints them from there. "Bytes after the reply
    /// stay."
    fn reply(&mut self, packets: &[u8], done: &mut Vec<u8>) {
        let place = &mut self.buffer[..self.room][..packets.len()];
        place.copy_from_slice(packets);
        done.extend_from_slice(place);
    }
}

#[cfg(test)]
pub mod tests {
    use super::*;

    /// Runs pairs of a line and its answer through one console.
    pub fn check(pairs: &[(&str, &str)]) {
        let mut console = Console::default();
        for (line, expected) in pairs {
            let mut output = Vec::new();
            console.answer(line.as_bytes(), &mut output);
            assert_eq!(
                String::from_utf8(output).as_deref(),
                Ok(format!("{expected}\n").as_str()),
                "line {line}"
            );
        }
    }

    #[test]
    fn example() {
        check(&[
            ("01112233440007006400000064000000c800", "00"),
            ("0211223344", "0089cd000411223344000000001122334420000007"),
            ("1100", "0001112233440300000000000700640000019002"),
            ("e00013", "00"),
            ("0511223344", "0a0000"),
            ("e3", "0089cd0004112233440000000011223344200000"),
        ]);
    }

    #[test]
    fn the_deadline_is_passed_over_unless_pausing() {
        for (state, shown) in [
            ("00", "00000000"),
            ("01", "01020304"),
            ("02", "00000000"),
            ("03", "00000000"),
        ] {
            check(&[
                (
                    &format!("124000aabbccdd{state}01020304fffffffeffffffff05"),
                    "00",
                ),
                (
                    "1140",
                    &format!("0000aabbccdd{state}{shown}fffffffeffffffff05"),
                ),
            ]);
        }
    }

    #[test]
    fn bytes_after_a_reply_stay() {
        check(&[
            ("01112233440007006400000064000000c800", "00"),
            ("e2ee", "00"),
            ("e00016", "00"),
            ("0211223344", "0089cd000411223344000000001122334420000007"),
            ("e3", "0089cd000411223344000000001122334420000007eeee"),
            ("0211223344", "00"),
            ("e3", "0089cd000411223344000000001122334420000007eeee"),
        ]);
    }

    #[test]
    fn replies_from_their_streams_asks_from_the_house_and_a_packet_from_its_sender() {
        check(&[
            ("011122334400070064000000000000000001", "00"),
            ("21112233440009", "00"),
            ("0211223344", "0089cd000411223344000000001122334420000007"),
            ("2211223344", "0089cd000400000001000000001122334400000009"),
            (
                "30aabbccdd11223344030007",
                "0089cd0004aabbccdd000000001122334430000007",
            ),
        ]);
    }

    #[test]
    fn line_changes_nothing() {
        check(&[
            ("e2ee", "00"),
            ("e00002", "00"),
            ("e00fa1", "110000"),
            ("e142", "110000"),
            ("1141", "110000"),
            ("124002aabbccdd0001020304fffffffeffffffff05", "110000"),
            ("124001aabbccdd0401020304fffffffeffffffff05", "110000"),
            ("29", "110000"),
            ("40", "110000"),
            ("e3", "00eeee"),
            ("1140", "0000000000000000000000000000000000000000"),
        ]);
    }

    #[test]
    fn longest_line() {
        let step = |digits: usize| format!("31{}", "0".repeat(digits - 2));
        check(&[
            (&step(3_100), "010000"),
            (&step(3_101), "110000"),
            (&step(3_102), "110000"),
        ]);
    }
}
