//! The receiver's table: "a table of its own of 1 to 64 remote streams", and the calls on it.
//!
//! The rules quoted are those of document 02, "One". What it says nothing of is as in the sender's
//! table.

use crate::packet::{self, Entry};
use crate::refusal::{Case, Refusal};
use crate::remote::Remote;
use crate::row::{self, Row};

/// The receiver's row of records. Its remove is the row's: "Size, NoStream".
pub type Receiver = Row<Remote>;

/// Done from a datagram: "no reply is written".
#[derive(Clone, Copy, Debug, PartialEq, Eq)]
pub struct Counted {
    /// "Entries of every type."
    pub n: usize,
    /// "Entries whose target no used record has."
    pub u: usize,
}

impl Receiver {
    /// "A stream is added in Receiving with an ID": Size, Duplicate, Full.
    pub fn add(&mut self, ssrc: u32, pause_id: u16) -> Result<(), Refusal> {
        *row::unused(self.lent()?, ssrc)? = Remote::new(ssrc, pause_id);
        Ok(())
    }

    /// The stream of an ask: "18 Busy, for asking while Asked, after NoStream and before Room
    /// (under 20 bytes, for asks and reports)".
    fn asking(&mut self, ssrc: u32, room: usize) -> Result<&mut Remote, Refusal> {
        let stream = self.local(ssrc)?;
        if stream.is_asked() {
            return Err(Case::Busy.into());
        }
        packet::judge_room(1, room)?;
        Ok(stream)
    }

    pub fn ask_to_pause(&mut self, ssrc: u32, room: usize) -> Result<Option<Entry>, Refusal> {
        Ok(self.asking(ssrc, room)?.ask_to_pause())
    }

    pub fn ask_to_resume(&mut self, ssrc: u32, room: usize) -> Result<Option<Entry>, Refusal> {
        Ok(self.asking(ssrc, room)?.ask_to_resume())
    }

    /// Size, NoStream, Room: a fifth report without room is refused too, and does not count.
    pub fn report(&mut self, ssrc: u32, room: usize) -> Result<Option<Entry>, Refusal> {
        Ok(self.replying(ssrc, room)?.report())
    }

    /// Size, NoStream.
    pub fn media_seen(&mut self, ssrc: u32) -> Result<(), Refusal> {
        self.local(ssrc)?.media_seen();
        Ok(())
    }

    /// "A datagram is handed to one table or the other; here PAUSE and RESUME do nothing and no
    /// reply is written, so no Room."
    pub fn datagram(&mut self, datagram: &[u8]) -> Result<Counted, Refusal> {
        let (lent, entries) = self.read(datagram)?;
        let n = entries.len();
        let u = row::run(lent, entries, |remote, entry| {
            remote.receive(entry.kind, entry.pause_id)
        });
        Ok(Counted { n, u })
    }
}

#[cfg(test)]
mod tests {
    use super::*;
    use crate::packet::tests::datagram_of;
    use crate::packet::Kind;
    use crate::remote::State;

    fn table(streams: &[(u32, State)]) -> Receiver {
        let mut table = Receiver::new(65);
        for (place, &(ssrc, state)) in streams.iter().enumerate() {
            let record = Remote {
                state,
                ..Remote::new(ssrc, 7)
            };
            table.put(place, record);
        }
        table
    }

    #[test]
    fn busy_stands_between_no_stream_and_room() {
        let asked = [
            State::AskedToPause { left: 1 },
            State::AskedToResume { left: 1 },
        ];
        for state in asked {
            let mut table = table(&[(5, state)]);
            for room in [0, 19, 20] {
                assert_eq!(table.ask_to_pause(5, room), Err(Case::Busy.into()));
                assert_eq!(table.ask_to_resume(5, room), Err(Case::Busy.into()));
                assert_eq!(table.ask_to_pause(6, room), Err(Case::NoStream.into()));
                assert_eq!(table.report(6, room), Err(Case::NoStream.into()));
            }
            assert_eq!(table.report(5, 19), Err(Case::Room.into()));
            assert_eq!(table.records()[0].state, state);
        }
    }

    #[test]
    fn the_other_ask_needs_room_too() {
        let mut table = table(&[(5, State::Receiving)]);
        assert_eq!(table.ask_to_resume(5, 19), Err(Case::Room.into()));
        assert_eq!(table.ask_to_resume(5, 20), Ok(None));
        assert_eq!(table.ask_to_pause(5, 19), Err(Case::Room.into()));
        assert_eq!(table.records()[0], Remote::new(5, 7));
        assert!(table.ask_to_pause(5, 20).is_ok_and(|ask| ask.is_some()));
    }

    #[test]
    fn a_fifth_report_without_room_does_not_count() {
        let state = State::AskedToPause { left: 0 };
        let mut table = table(&[(5, state)]);
        assert_eq!(table.report(5, 19), Err(Case::Room.into()));
        assert_eq!(table.records()[0].state, state);
        assert_eq!(table.report(5, 20), Ok(None));
        assert_eq!(table.records()[0].state, State::Receiving);
    }

    #[test]
    fn entries_run_in_order_and_are_counted() {
        let mut table = table(&[(5, State::AskedToPause { left: 4 })]);
        let datagram = datagram_of(&[
            (5, Kind::Refused, 8),
            (6, Kind::Paused, 9),
            (5, Kind::Refused, 10),
            (5, Kind::Other(4), 11),
            (5, Kind::Pause, 12),
        ]);
        assert_eq!(table.datagram(&datagram), Ok(Counted { n: 5, u: 1 }));
        assert_eq!(table.records()[0], Remote::new(5, 8));
    }

    #[test]
    fn a_fault_in_the_last_packet_leaves_all_undone() {
        let mut table = table(&[(5, State::Receiving)]);
        let mut datagram = datagram_of(&[(5, Kind::Paused, 9)]);
        datagram.push(0x80);
        let refusal = Refusal {
            case: Case::Short,
            place: 20,
        };
        assert_eq!(table.datagram(&datagram), Err(refusal));
        assert_eq!(table.records()[0], Remote::new(5, 7));
    }

    #[test]
    fn tables_of_0_and_over_64_records() {
        let mut table = table(&[(5, State::Paused)]);
        for size in [0, 65] {
            table.lend_first(size);
            let refusal = Refusal::from(Case::Size);
            assert_eq!(table.add(5, 7), Err(refusal));
            assert_eq!(table.remove(6), Err(refusal));
            assert_eq!(table.media_seen(6), Err(refusal));
            assert_eq!(table.ask_to_pause(6, 0), Err(refusal));
            assert_eq!(table.ask_to_resume(6, 0), Err(refusal));
            assert_eq!(table.report(6, 0), Err(refusal));
            assert_eq!(table.datagram(&[]), Err(refusal));
        }
        table.lend_first(1);
        assert_eq!(table.add(6, 7), Err(Case::Full.into()));
        assert_eq!(table.add(5, 7), Err(Case::Duplicate.into()));
        assert_eq!(table.remove(5), Ok(()));
        assert_eq!(table.add(6, 7), Ok(()));
        assert_eq!(table.records()[0], Remote::new(6, 7));
    }

    #[test]
    fn the_first_record_in_use_answers() {
        let mut table = table(&[
            (5, State::Paused),
            (5, State::Paused),
            (5, State::AskedToResume { left: 2 }),
        ]);
        let unused = Remote {
            in_use: false,
            ..table.records()[0].clone()
        };
        table.put(0, unused.clone());
        assert_eq!(table.media_seen(5), Ok(()));
        assert_eq!(table.records()[1], Remote::new(5, 8));
        assert_eq!(table.remove(5), Ok(()));
        assert_eq!(table.ask_to_pause(5, 20), Err(Case::Busy.into()));
        assert_eq!(table.records()[0], unused);
    }
}
