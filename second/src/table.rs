//! "The table": the sender's row of stream records and the calls on it.

use crate::packet::{self, Entry};
use crate::refusal::{Case, Refusal};
use crate::row::{self, Row};
use crate::stream::Stream;

/// "RTT and dither are at most 60,000 each."
pub const MOST_MILLISECONDS: u32 = 60_000;

/// What an add takes.
#[derive(Clone, Copy, Debug, PartialEq, Eq)]
pub struct Add {
    pub ssrc: u32,
    pub pause_id: u16,
    pub sequence: u16,
    pub rtt: u32,
    pub dither: u32,
    pub nowait: bool,
}

/// Done from a datagram: n, u and the replies in order.
#[derive(Debug, PartialEq, Eq)]
pub struct Served {
    /// "Entries of every type."
    pub n: usize,
    /// "Entries whose target no used record has."
    pub u: usize,
    pub replies: Vec<Entry>,
}

/// The sender's row of records.
pub type Table = Row<Stream>;

/// "Local calls Size, NoStream, Room, Held": the row finds their stream.
impl Table {
    /// "Add Size, Limit, Duplicate, Full."
    pub fn add(&mut self, add: Add) -> Result<(), Refusal> {
        let lent = self.lent()?;
        // "Nowait or not"; and judged first, so that doubling the RTT cannot run over.
        if add.rtt > MOST_MILLISECONDS || add.dither > MOST_MILLISECONDS {
            return Err(Case::Limit.into());
        }
        let unused = row::unused(lent, add.ssrc)?;
        // H is twice the RTT plus the largest dither, "in milliseconds", "or 0 with nowait".
        let hold_off = if add.nowait {
            0
        } else {
            2 * add.rtt + add.dither
        };
        *unused = Stream::new(add.ssrc, add.pause_id, add.sequence, hold_off);
        Ok(())
    }

    /// "All is checked before the first event; then the entries run in order." "Datagram call
    /// Size, 1, then packet by packet 2 to 9, then Room": the room is judged by n, whatever the
    /// replies.
    pub fn datagram(&mut self, datagram: &[u8], time: u32, room: usize) -> Result<Served, Refusal> {
        let (lent, entries) = self.read(datagram)?;
        let n = entries.len();
        packet::judge_room(n, room)?;
        let mut replies = Vec::with_capacity(n);
        let u = row::run(lent, entries, |stream, entry| {
            replies.extend(stream.receive(entry.kind, entry.pause_id, time))
        });
        Ok(Served { n, u, replies })
    }
}

#[cfg(test)]
mod tests {
    use super::*;
    use crate::line::ROOM;
    use crate::packet::tests::datagram_of;
    use crate::packet::Kind;
    use crate::stream::State;

    fn add(ssrc: u32, rtt: u32, dither: u32) -> Add {
        Add {
            ssrc,
            pause_id: 7,
            sequence: 100,
            rtt,
            dither,
            nowait: false,
        }
    }

    #[test]
    fn sixty_four_streams_pass_and_the_next_add_is_full() {
        let mut table = Table::default();
        for ssrc in 0..64 {
            assert_eq!(table.add(add(ssrc, 0, 0)), Ok(()));
        }
        assert_eq!(table.add(add(64, 0, 0)), Err(Case::Full.into()));
        assert_eq!(table.add(add(63, 0, 0)), Err(Case::Duplicate.into()));
        assert_eq!(table.add(add(63, 60_001, 0)), Err(Case::Limit.into()));
    }

    #[test]
    fn limits_of_rtt_and_dither() {
        let mut table = Table::default();
        assert_eq!(table.add(add(1, 60_001, 0)), Err(Case::Limit.into()));
        assert_eq!(table.add(add(1, 0, 60_001)), Err(Case::Limit.into()));
        assert_eq!(table.add(add(1, u32::MAX, 0)), Err(Case::Limit.into()));
        let nowait = Add {
            nowait: true,
            ..add(1, 60_001, 0)
        };
        assert_eq!(table.add(nowait), Err(Case::Limit.into()));
        assert_eq!(table.add(add(1, 60_000, 60_000)), Ok(()));
        assert_eq!(table.streams()[0].hold_off, 180_000);
    }

    #[test]
    fn nowait_sets_the_hold_off_to_0() {
        let mut table = Table::default();
        let nowait = Add {
            nowait: true,
            ..add(1, 100, 200)
        };
        assert_eq!(table.add(nowait), Ok(()));
        assert_eq!(table.streams()[0].hold_off, 0);
    }

    #[test]
    fn a_fault_in_the_last_packet_leaves_all_undone() {
        let mut table = Table::default();
        assert_eq!(table.add(add(5, 0, 0)), Ok(()));
        let mut datagram = datagram_of(&[(5, Kind::Pause, 7)]);
        datagram.push(0x80);
        let refusal = Refusal {
            case: Case::Short,
            place: 20,
        };
        assert_eq!(table.datagram(&datagram, 0, ROOM), Err(refusal));
        assert_eq!(table.streams()[0].state, State::Playing);
    }

    #[test]
    fn entries_run_in_order_and_are_counted() {
        let mut table = Table::default();
        assert_eq!(table.add(add(5, 0, 0)), Ok(()));
        let datagram = datagram_of(&[
            (5, Kind::Pause, 7),
            (6, Kind::Pause, 7),
            (5, Kind::Resume, 7),
            (5, Kind::Other(15), 9),
            (5, Kind::Pause, 9),
        ]);
        let served = table.datagram(&datagram, 0, ROOM).expect("no fault");
        assert_eq!((served.n, served.u), (5, 1));
        let kinds: Vec<_> = served
            .replies
            .iter()
            .map(|reply| (reply.kind, reply.pause_id))
            .collect();
        assert_eq!(kinds, [(Kind::Paused, 7), (Kind::Refused, 8)]);
    }

    #[test]
    fn remove_clears_in_use_alone_and_the_place_is_used_again() {
        let mut table = Table::default();
        for ssrc in 0..3 {
            assert_eq!(table.add(add(ssrc, 100, 200)), Ok(()));
        }
        assert!(table.local(1).expect("in use").local_pause().is_some());
        let mut before = table.records()[1].clone();
        assert_eq!(table.remove(1), Ok(()));
        before.in_use = false;
        assert_eq!(table.records()[1], before);
        assert_eq!(table.remove(1), Err(Case::NoStream.into()));
        assert_eq!(table.add(add(9, 0, 0)), Ok(()));
        assert_eq!(table.records()[1], Stream::new(9, 7, 100, 0));
    }

    #[test]
    fn the_first_record_in_use_answers() {
        let mut table = Table::default();
        let unused = Stream {
            in_use: false,
            ..Stream::new(5, 1, 10, 0)
        };
        table.put(0, unused.clone());
        table.put(1, Stream::new(5, 2, 20, 0));
        table.put(2, Stream::new(5, 3, 30, 0));
        assert_eq!(table.local(5).map(|stream| stream.send()), Ok(Some(20)));
        assert_eq!(table.remove(5), Ok(()));
        assert_eq!(table.local(5).map(|stream| stream.send()), Ok(Some(30)));
        assert_eq!(table.add(add(5, 0, 0)), Err(Case::Duplicate.into()));
        assert_eq!(table.records()[0], unused);
    }

    #[test]
    fn tables_of_0_and_over_64_records() {
        let mut table = Table::new(65);
        assert_eq!(table.add(add(5, 0, 0)), Ok(()));
        for size in [0, 65] {
            table.lend_first(size);
            let refusal = Refusal::from(Case::Size);
            assert_eq!(table.add(add(5, 60_001, 0)), Err(refusal));
            assert_eq!(table.remove(6), Err(refusal));
            assert_eq!(table.local(6), Err(refusal));
            assert_eq!(table.datagram(&[], 0, 0), Err(refusal));
        }
        table.lend_first(1);
        assert_eq!(table.add(add(6, 0, 0)), Err(Case::Full.into()));
        assert_eq!(table.remove(5), Ok(()));
    }

    #[test]
    fn room_is_judged_by_the_entries() {
        let mut table = Table::default();
        assert_eq!(table.add(add(5, 0, 0)), Ok(()));
        let datagram = datagram_of(&[(5, Kind::Pause, 7), (6, Kind::Pause, 7)]);
        for room in [0, 20, 28, 39] {
            assert_eq!(table.datagram(&datagram, 0, room), Err(Case::Room.into()));
        }
        assert_eq!(table.records()[0].state, State::Playing);
        assert!(table.datagram(&datagram, 0, 40).is_ok());
        assert!(table.datagram(&[0x80, 0xc9, 0, 0], 0, 0).is_ok());
        assert_eq!(table.replying(5, 19), Err(Case::Room.into()));
        assert!(table.replying(5, 20).is_ok());
    }
}
