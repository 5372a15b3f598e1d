//! "The RTCP datagram": reading it, and writing the packet of one entry.

use crate::refusal::{Case, Refusal};

/// "A datagram has 1 to 1,500 bytes."
pub const LONGEST: usize = 1_500;

/// Every packet starts with a header of 4 bytes.
pub const HEADER: usize = 4;

/// SSRC of packet sender and SSRC of media source stand before the entries.
pub const HEAD: usize = 8;

/// An entry has 8 bytes before its parameters.
pub const ENTRY: usize = 8;

/// "The 20-byte packet of one entry."
pub const PACKET: usize = HEADER + HEAD + ENTRY;

/// "n (entries of every type, at most 186)."
pub const MOST_ENTRIES: usize = (LONGEST - HEADER - HEAD) / ENTRY;

const VERSION: u8 = 2;
const PADDING_FLAG: u8 = 0x20;
const RTPFB: u8 = 205;
const PAUSE_RESUME: u8 = 9;

/// "Types: 0 PAUSE, 1 RESUME, 2 PAUSED, 3 REFUSED; 4 to 15 are passed over by their length."
#[derive(Clone, Copy, Debug, PartialEq, Eq)]
pub enum Kind {
    Pause,
    Resume,
    Paused,
    Refused,
    Other(u8),
}

impl Kind {
    pub fn from_number(number: u8) -> Self {
        match number {
            0 => Kind::Pause,
            1 => Kind::Resume,
            2 => Kind::Paused,
            3 => Kind::Refused,
            other => Kind::Other(other),
        }
    }

    pub fn number(self) -> u8 {
        match self {
            Kind::Pause => 0,
            Kind::Resume => 1,
            Kind::Paused => 2,
            Kind::Refused => 3,
            Kind::Other(number) => number,
        }
    }
}

/// One entry of an FMT 9 packet, without what is "ignored on reading".
#[derive(Clone, Copy, Debug, PartialEq, Eq)]
pub struct Entry {
    pub target: u32,
    pub kind: Kind,
    pub pause_id: u16,
}

impl Entry {
    /// The entry at the start of `bytes` and what follows its parameters; nothing when it "lacks
    /// its 8 bytes or its parameters".
    pub fn read(bytes: &[u8]) -> Option<(Entry, &[u8])> {
        let (head, rest) = bytes.split_first_chunk::<ENTRY>()?;
        let [t0, t1, t2, t3, kind, words, p0, p1] = *head;
        let after = rest.get(4 * usize::from(words)..)?;
        let entry = Entry {
            target: u32::from_be_bytes([t0, t1, t2, t3]),
            kind: Kind::from_number(kind >> 4),
            pause_id: u16::from_be_bytes([p0, p1]),
        };
        Some((entry, after))
    }
}

/// An entry where it stands in a datagram.
#[derive(Clone, Copy, Debug, PartialEq, Eq)]
pub struct Found {
    pub entry: Entry,
    /// Place of its first byte in the datagram.
    pub place: usize,
    /// SSRC of packet sender.
    pub sender: u32,
    /// Parameter length in words.
    pub words: u8,
}

/// One packet that has passed the checks made on every packet, cases 2 to 6.
#[derive(Clone, Copy, Debug)]
pub struct Packet<'a> {
    /// Place of its first byte in the datagram.
    pub start: usize,
    /// Place of the byte after its last.
    pub end: usize,
    /// Count or FMT.
    pub count: u8,
    /// Packet type.
    pub kind: u8,
    /// What stands between the header and the padding.
    pub body: &'a [u8],
}

impl<'a> Packet<'a> {
    /// Reads the packet that starts at `start`, with cases 2 to 6 in their order.
    pub fn read(datagram: &'a [u8], start: usize) -> Result<Self, Refusal> {
        let refuse = |case| Refusal { case, place: start };
        let rest = &datagram[start..];
        let &[first, kind, high, low, ..] = rest else {
            return Err(refuse(Case::Short));
        };
        if first >> 6 != VERSION {
            return Err(refuse(Case::Version));
        }
        // "Length in 32-bit words less one."
        let length = 4 * (usize::from(u16::from_be_bytes([high, low])) + 1);
        if length > rest.len() {
            return Err(refuse(Case::Overrun));
        }
        let mut body = &rest[HEADER..length];
        if first & PADDING_FLAG != 0 {
            if length < rest.len() {
                return Err(refuse(Case::PadPlace));
            }
            body = without_padding(body).ok_or(refuse(Case::PadCount))?;
        }
        Ok(Packet {
            start,
            end: start + length,
            count: first & 0x1f,
            kind,
            body,
        })
    }

    /// "Packets other than type 205 with FMT 9 are passed over after these checks."
    pub fn has_entries(&self) -> bool {
        self.kind == RTPFB && self.count == PAUSE_RESUME
    }

    /// Reads the entries "up to the padding", with cases 7 to 9.
    fn read_entries(&self, found: &mut impl FnMut(Found)) -> Result<(), Refusal> {
        let refuse = |case| Refusal {
            case,
            place: self.start,
        };
        let Some((head, mut rest)) = self.body.split_first_chunk::<HEAD>() else {
            return Err(refuse(Case::NoHead));
        };
        if rest.is_empty() {
            return Err(refuse(Case::NoEntry));
        }
        let sender = u32::from_be_bytes([head[0], head[1], head[2], head[3]]);
        while !rest.is_empty() {
            let place = self.start + HEADER + self.body.len() - rest.len();
            let Some((entry, after)) = Entry::read(rest) else {
                return Err(Refusal {
                    case: Case::Entry,
                    place,
                });
            };
            found(Found {
                entry,
                place,
                sender,
                words: rest[5],
            });
            rest = after;
        }
        Ok(())
    }
}

/// Takes the padding off: "its last byte counts the padding bytes, itself included; the count is
/// not 0, is divisible by 4 and is at most the bytes after the header".
fn without_padding(after_header: &[u8]) -> Option<&[u8]> {
    let count = usize::from(*after_header.last()?);
    if count == 0 || count % 4 != 0 {
        return None;
    }
    let body_length = after_header.len().checked_sub(count)?;
    Some(&after_header[..body_length])
}

/// Reads the whole datagram, "packet by packet 2 to 9", and gives its entries in order.
///
/// Before a refusal the entries before the fault are given; none of them may be used.
fn read_each(datagram: &[u8], mut found: impl FnMut(Found)) -> Result<(), Refusal> {
    if datagram.len() > LONGEST {
        return Err(Case::TooLong.into());
    }
    let mut start = 0;
    // The first packet is asked for in any case, so that "an empty datagram" is Short.
    loop {
        let packet = Packet::read(datagram, start)?;
        if packet.has_entries() {
            packet.read_entries(&mut found)?;
        }
        start = packet.end;
        if start == datagram.len() {
            return Ok(());
        }
    }
}

/// Reads the whole datagram and appends its entries in order; after a refusal `entries` holds those
/// before the fault.
pub fn read(datagram: &[u8], entries: &mut Vec<Entry>) -> Result<(), Refusal> {
    read_each(datagram, |found| entries.push(found.entry))
}

/// "Opening a walk checks the whole datagram. The step with number k gives entry k in order,
/// counted from 0, with its place and parameter length, or End when there is none."
#[derive(Clone, Debug)]
pub struct Walk(Vec<Found>);

impl Walk {
    /// "Opening refuses with cases 1 to 9 alone, in the datagram call's order."
    pub fn open(datagram: &[u8]) -> Result<Self, Refusal> {
        let mut entries = Vec::new();
        read_each(datagram, |found| entries.push(found))?;
        Ok(Walk(entries))
    }

    /// Nothing for End. A number that is past every place of a row is past the last entry too.
    pub fn step(&self, number: u64) -> Option<Found> {
        self.0.get(usize::try_from(number).ok()?).copied()
    }

    /// How many entries it goes over.
    pub fn count(&self) -> usize {
        self.0.len()
    }
}

/// Document 02, "Two": "Room for a datagram when n > 0 and the buffer is under 20n". With an n of 0 no
/// buffer is under it. A local call and the writer have an n of 1, "reply or none".
pub fn judge_room(entries: usize, room: usize) -> Result<(), Refusal> {
    if room < PACKET * entries {
        return Err(Case::Room.into());
    }
    Ok(())
}

/// "A public writer makes the 20-byte packet of one entry from sender, target, type 0 to 3 and
/// PauseID." "Writer Limit, Room."
pub fn write_one(sender: u32, entry: Entry, room: usize) -> Result<[u8; PACKET], Refusal> {
    if entry.kind.number() > Kind::Refused.number() {
        return Err(Case::Limit.into());
    }
    judge_room(1, room)?;
    Ok(packet_of(sender, entry))
}

/// The packet of one entry. The media source is "written 0", reserved bits and parameters are
/// "written as 0 and empty".
pub fn packet_of(sender: u32, entry: Entry) -> [u8; PACKET] {
    let words_less_one = PACKET as u8 / 4 - 1;
    let mut packet = [0; PACKET];
    packet[..4].copy_from_slice(&[VERSION << 6 | PAUSE_RESUME, RTPFB, 0, words_less_one]);
    packet[4..8].copy_from_slice(&sender.to_be_bytes());
    packet[12..16].copy_from_slice(&entry.target.to_be_bytes());
    packet[16] = entry.kind.number() << 4;
    packet[18..].copy_from_slice(&entry.pause_id.to_be_bytes());
    packet
}

/// Document 02, "Two": "Each reply becomes its own 20-byte packet with the stream's SSRC as sender and
/// as target, in the order of the entries." "With no reply, no byte is written."
pub fn write_replies(replies: &[Entry], packets: &mut Vec<u8>) {
    for &reply in replies {
        packets.extend_from_slice(&packet_of(reply.target, reply));
    }
}

#[cfg(test)]
pub mod tests {
    use super::*;
    use crate::make;

    /// A datagram of one FMT 9 packet that has these entries.
    pub fn datagram_of(entries: &[(u32, Kind, u16)]) -> Vec<u8> {
        let mut body = vec![0xaa, 0xbb, 0xcc, 0xdd, 0, 0, 0, 0];
        for &(target, kind, pause_id) in entries {
            body.extend_from_slice(&make::entry_head(target, kind.number(), 0, pause_id));
        }
        make::packet(0x89, RTPFB, &body)
    }

    fn refusal(datagram: &[u8]) -> (Case, usize) {
        let refusal = read(datagram, &mut Vec::new()).expect_err("a refusal");
        (refusal.case, refusal.place)
    }

    fn entries(datagram: &[u8]) -> Vec<Entry> {
        let mut entries = Vec::new();
        read(datagram, &mut entries).expect("a datagram without fault");
        entries
    }

    /// An FMT 9 packet with `extra` bytes of 0 after its header.
    fn zeros(extra: u8) -> Vec<u8> {
        let mut packet = vec![0x89, 0xcd, 0, extra / 4];
        packet.resize(HEADER + usize::from(extra), 0);
        packet
    }

    #[test]
    fn no_entry_and_no_head() {
        assert_eq!(refusal(&zeros(8)), (Case::NoEntry, 0));
        assert_eq!(refusal(&zeros(4)), (Case::NoHead, 0));
        assert_eq!(refusal(&zeros(0)), (Case::NoHead, 0));
        assert_eq!(entries(&zeros(16)).len(), 1);
    }

    #[test]
    fn longest_datagram() {
        let mut datagram = vec![0x89, 0xcd, 0x01, 0x76];
        datagram.resize(LONGEST, 0);
        assert_eq!(entries(&datagram).len(), MOST_ENTRIES);
        datagram.push(0);
        assert_eq!(refusal(&datagram), (Case::TooLong, 0));
    }

    #[test]
    fn short_version_overrun() {
        assert_eq!(refusal(&[]), (Case::Short, 0));
        assert_eq!(refusal(&[0x80, 0xc9, 0]), (Case::Short, 0));
        assert_eq!(refusal(&[0x80, 0xc9, 0, 0, 0x80]), (Case::Short, 4));
        assert_eq!(refusal(&[0x40, 0xc9, 0, 9]), (Case::Version, 0));
        assert_eq!(refusal(&[0x80, 0xc9, 0, 1]), (Case::Overrun, 0));
        assert_eq!(
            refusal(&[0x80, 0xc9, 0, 0, 0xc0, 0, 0, 0]),
            (Case::Version, 4)
        );
    }

    #[test]
    fn padding() {
        let padded = |count| [0xa0, 0xc9, 0, 1, 0, 0, 0, count];
        assert_eq!(entries(&padded(4)), []);
        for count in [0, 1, 2, 3, 5, 8, 255] {
            assert_eq!(refusal(&padded(count)), (Case::PadCount, 0));
        }
        assert_eq!(refusal(&[0xa0, 0xc9, 0, 0]), (Case::PadCount, 0));
        assert_eq!(refusal(&[0xa0, 0xc9, 0, 0, 0x80]), (Case::PadPlace, 0));
    }

    #[test]
    fn padding_is_no_part_of_the_entries() {
        let mut packet = zeros(24);
        packet[0] |= PADDING_FLAG;
        let mut with_count = |count| {
            packet[27] = count;
            read(&packet, &mut Vec::new()).map_err(|refusal| (refusal.case, refusal.place))
        };
        assert_eq!(with_count(8), Ok(()));
        assert_eq!(with_count(4), Err((Case::Entry, 20)));
        assert_eq!(with_count(12), Err((Case::Entry, 12)));
        assert_eq!(with_count(16), Err((Case::NoEntry, 0)));
        assert_eq!(with_count(20), Err((Case::NoHead, 0)));
        assert_eq!(with_count(24), Err((Case::NoHead, 0)));
        assert_eq!(with_count(28), Err((Case::PadCount, 0)));
    }

    #[test]
    fn entry_lacks_its_parameters() {
        let mut packet = zeros(20);
        packet[17] = 1;
        assert_eq!(entries(&packet).len(), 1);
        packet[17] = 2;
        assert_eq!(refusal(&packet), (Case::Entry, 12));
    }

    #[test]
    fn reserved_bits_and_parameters_are_ignored() {
        let mut packet = zeros(20);
        packet[12..20].copy_from_slice(&[1, 2, 3, 4, 0x1f, 1, 5, 6]);
        let expected = Entry {
            target: 0x0102_0304,
            kind: Kind::Resume,
            pause_id: 0x0506,
        };
        assert_eq!(entries(&packet), [expected]);
    }

    #[test]
    fn a_written_packet_reads_back() {
        for kind in [Kind::Pause, Kind::Resume, Kind::Paused, Kind::Refused] {
            let written = Entry {
                target: 0xa1b2_c3d4,
                kind,
                pause_id: 0xfffe,
            };
            assert_eq!(entries(&packet_of(1, written)), [written]);
        }
    }

    #[test]
    fn replies_read_back_packet_by_packet() {
        let reply = |target, kind| Entry {
            target,
            kind,
            pause_id: 7,
        };
        let written = [
            reply(9, Kind::Refused),
            reply(5, Kind::Paused),
            reply(9, Kind::Refused),
            reply(9, Kind::Refused),
        ];
        let mut packets = Vec::new();
        write_replies(&written, &mut packets);
        assert_eq!(packets.len(), 80);
        for (packet, entry) in packets.chunks(PACKET).zip(written) {
            let walk = Walk::open(packet).expect("a datagram without fault");
            let found = walk.step(0).expect("one entry");
            assert_eq!((walk.count(), found.entry), (1, entry));
            assert_eq!((found.sender, found.words), (entry.target, 0));
        }
        packets.clear();
        write_replies(&[], &mut packets);
        assert_eq!(packets, []);
    }

    #[test]
    fn room_is_20_bytes_for_each_entry() {
        let judge = |entries, room| judge_room(entries, room).map_err(|refusal| refusal.case);
        assert_eq!(judge(0, 0), Ok(()));
        for entries in [1, 2, MOST_ENTRIES] {
            assert_eq!(judge(entries, 20 * entries - 1), Err(Case::Room));
            assert_eq!(judge(entries, 20 * entries), Ok(()));
        }
    }

    #[test]
    fn a_walk_gives_each_entry_and_then_end() {
        let mut datagram = zeros(28);
        datagram[4..8].fill(1);
        datagram[17] = 1;
        datagram.extend_from_slice(&[0x80, 0xc9, 0, 0]);
        datagram.extend_from_slice(&zeros(16));
        let walk = Walk::open(&datagram).expect("a datagram without fault");
        let step = |number| {
            let found = walk.step(number)?;
            Some((found.place, found.sender, found.words))
        };
        assert_eq!(step(0), Some((12, 0x0101_0101, 1)));
        assert_eq!(step(1), Some((24, 0x0101_0101, 0)));
        assert_eq!(step(2), Some((48, 0, 0)));
        for number in [3, 1 << 32, 1 << 32 | 1, 1 << 63, u64::MAX] {
            assert_eq!(step(number), None);
        }
        datagram.push(0x80);
        assert_eq!(
            Walk::open(&datagram).map(|walk| walk.count()),
            Err(Refusal {
                case: Case::Short,
                place: 56
            })
        );
    }

    #[test]
    fn the_writer_refuses_a_type_first_and_then_the_room() {
        let write = |kind, room| {
            let entry = Entry {
                target: 5,
                kind: Kind::from_number(kind),
                pause_id: 7,
            };
            write_one(9, entry, room).map_err(|refusal| refusal.case)
        };
        assert_eq!(write(4, 0), Err(Case::Limit));
        assert_eq!(write(16, 20), Err(Case::Limit));
        assert_eq!(write(3, 19), Err(Case::Room));
        let packet = write(3, 20).expect("room for it");
        assert_eq!(packet.len(), 20);
        assert_eq!(entries(&packet)[0].kind, Kind::Refused);
    }
}
