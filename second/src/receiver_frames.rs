//! The console's frames for the receiver's table, 20 to 28, and its record.
//!
//! The rules quoted are those of the console's page.

use crate::console::{at_most, RECORDS};
use crate::line::{u16_at, u32_at};
use crate::packet::Entry;
use crate::receiver::{Counted, Receiver};
use crate::refusal::Refusal;
use crate::remote::{Remote, State};

/// A receiver's record, in bytes.
pub const RECORD: usize = 9;

/// One frame of a line.
#[derive(Clone, Debug, PartialEq, Eq)]
pub enum Frame<'a> {
    Datagram { bytes: &'a [u8] },
    Add { ssrc: u32, pause_id: u16 },
    AskToPause { ssrc: u32 },
    AskToResume { ssrc: u32 },
    Report { ssrc: u32 },
    MediaSeen { ssrc: u32 },
    Remove { ssrc: u32 },
    Record { place: usize },
    Lend { place: usize, record: Remote },
}

impl<'a> Frame<'a> {
    /// Nothing for "a wrong length, a flag, used or nowait byte over 01, a state over 03, a place
    /// over 64 ... or another first byte".
    pub fn read(bytes: &'a [u8]) -> Option<Self> {
        let (&first, rest) = bytes.split_first()?;
        let frame = match (first, rest.len()) {
            // "The bytes (none too)."
            (0x20, _) => Frame::Datagram { bytes: rest },
            (0x21, 6) => Frame::Add {
                ssrc: u32_at(rest, 0),
                pause_id: u16_at(rest, 4),
            },
            (0x22..=0x26, 4) => {
                let ssrc = u32_at(rest, 0);
                match first {
                    0x22 => Frame::AskToPause { ssrc },
                    0x23 => Frame::AskToResume { ssrc },
                    0x24 => Frame::Report { ssrc },
                    0x25 => Frame::MediaSeen { ssrc },
                    _ => Frame::Remove { ssrc },
                }
            }
            (0x27, 1) => Frame::Record {
                place: at_most(RECORDS - 1, rest[0])?,
            },
            (0x28, _) => {
                let (&place, record) = rest.split_first()?;
                Frame::Lend {
                    place: at_most(RECORDS - 1, place)?,
                    record: read_record(record.try_into().ok()?)?,
                }
            }
            _ => return None,
        };
        Some(frame)
    }

    /// Runs the frame with a reply buffer of `room` bytes. Appends what Done prints after 00, but
    /// for the packet, which it gives.
    pub fn perform(
        self,
        table: &mut Receiver,
        room: usize,
        done: &mut Vec<u8>,
    ) -> Result<Option<Entry>, Refusal> {
        match self {
            Frame::Datagram { bytes } => write_counted(table.datagram(bytes)?, done),
            Frame::Add { ssrc, pause_id } => table.add(ssrc, pause_id)?,
            Frame::AskToPause { ssrc } => return table.ask_to_pause(ssrc, room),
            Frame::AskToResume { ssrc } => return table.ask_to_resume(ssrc, room),
            Frame::Report { ssrc } => return table.report(ssrc, room),
            Frame::MediaSeen { ssrc } => table.media_seen(ssrc)?,
            Frame::Remove { ssrc } => table.remove(ssrc)?,
            Frame::Record { place } => write_record(&table.records()[place], done),
            Frame::Lend { place, record } => table.put(place, record),
        }
        Ok(None)
    }
}

/// "n (2), u (2)."
fn write_counted(counted: Counted, done: &mut Vec<u8>) {
    done.extend_from_slice(&(counted.n as u16).to_be_bytes());
    done.extend_from_slice(&(counted.u as u16).to_be_bytes());
}

/// "Used (1), SSRC (4), state (1: 00 Receiving, 01 Asked to pause, 02 Paused, 03 Asked to resume),
/// ID (2), repeats left (1; 0 unless Asked, and passed over in lend unless Asked)."
fn read_record(record: &[u8; RECORD]) -> Option<Remote> {
    let left = record[8];
    Some(Remote {
        in_use: at_most(1, record[0])? == 1,
        ssrc: u32_at(record, 1),
        state: match record[5] {
            0 => State::Receiving,
            1 => State::AskedToPause { left },
            2 => State::Paused,
            3 => State::AskedToResume { left },
            _ => return None,
        },
        pause_id: u16_at(record, 6),
    })
}

/// The same the other way.
fn write_record(record: &Remote, bytes: &mut Vec<u8>) {
    let (state, left) = record.state.numbers();
    bytes.push(record.in_use.into());
    bytes.extend_from_slice(&record.ssrc.to_be_bytes());
    bytes.push(state);
    bytes.extend_from_slice(&record.pause_id.to_be_bytes());
    bytes.push(left);
}

#[cfg(test)]
mod tests {
    use crate::console::tests::check;

    #[test]
    fn each_frame() {
        check(&[
            ("21112233440007", "00"),
            ("2211223344", "0089cd000400000001000000001122334400000007"),
            ("2411223344", "0089cd000400000001000000001122334400000007"),
            ("2700", "00011122334401000703"),
            ("2089cd0004aabbccdd000000001122334420000009", "0000010000"),
            ("2311223344", "0089cd000400000001000000001122334410000009"),
            ("2211223344", "120000"),
            ("2511223344", "00"),
            ("2700", "00011122334400000a00"),
            ("2611223344", "00"),
            ("2511223344", "0c0000"),
            ("284001aabbccdd03ffffff", "00"),
            ("2740", "0001aabbccdd03ffffff"),
            ("20", "020000"),
        ]);
    }

    #[test]
    fn repeats_left_are_passed_over_unless_asked() {
        for (state, shown) in [("00", "00"), ("01", "05"), ("02", "00"), ("03", "05")] {
            check(&[
                (&format!("284000aabbccdd{state}fffe05"), "00"),
                ("2740", &format!("0000aabbccdd{state}fffe{shown}")),
            ]);
        }
    }

    #[test]
    fn line_changes_nothing() {
        check(&[
            ("210000000500", "110000"),
            ("2100000005000700", "110000"),
            ("22000000", "110000"),
            ("2600000005ff", "110000"),
            ("27", "110000"),
            ("2741", "110000"),
            ("2841010000000500000700", "110000"),
            ("2800020000000500000700", "110000"),
            ("2800010000000504000700", "110000"),
            ("28000100000005000007", "110000"),
            ("280001000000050000070000", "110000"),
            ("29", "110000"),
            ("2700", "00000000000000000000"),
        ]);
    }

    #[test]
    fn the_tables_are_apart() {
        check(&[
            ("01112233440007006400000000000000c800", "00"),
            ("2511223344", "0c0000"),
            ("21112233440009", "00"),
            ("2211223344", "0089cd000400000001000000001122334400000009"),
            ("1100", "000111223344000000000000070064000000c800"),
            ("1011223344", "00"),
            ("2700", "00011122334401000904"),
            ("e141", "00"),
            ("2511223344", "0b0000"),
            ("0611223344", "0b0000"),
        ]);
    }
}
