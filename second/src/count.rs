//! Counts what input lines reach; shared by the counters.

use std::cmp::Ordering;
use std::collections::HashMap;
use std::io::{self, Read};
use std::process::ExitCode;

use crate::line::{read_digits, MOST_DIGITS};
use crate::packet::{self, Entry, Kind, Packet, Walk, HEAD, HEADER, LONGEST, PACKET};
use crate::refusal::{Case, Refusal};
use crate::stream::{is_due, Age, State, Stream};

pub const STATES: [&str; 4] = ["Playing", "Pausing", "Paused", "Local paused"];

/// The rows of the state table; "time" and "report" are parted further in `cell_details`.
const EVENTS: [&str; 14] = [
    "PAUSE past",
    "RESUME past",
    "PAUSE future",
    "RESUME future",
    "PAUSE current",
    "RESUME current",
    "PAUSED received",
    "REFUSED received",
    "type 4 to 15 received",
    "time",
    "local pause",
    "local resume",
    "report",
    "send",
];

/// What a datagram can hold, and be refused for.
const DATAGRAM: &[&str] = &[
    "refusal: TooLong",
    "refusal: Short, first packet",
    "refusal: Short, later packet",
    "refusal: Short, 0 of 4 bytes",
    "refusal: Short, 1 of 4 bytes",
    "refusal: Short, 2 of 4 bytes",
    "refusal: Short, 3 of 4 bytes",
    "refusal: Version, first packet",
    "refusal: Version, later packet",
    "refusal: Version 0",
    "refusal: Version 1",
    "refusal: Version 3",
    "refusal: Version, length over the rest too",
    "refusal: Overrun, first packet",
    "refusal: Overrun, later packet",
    "refusal: Overrun by less than a word",
    "refusal: Overrun by one word",
    "refusal: Overrun of the largest length",
    "refusal: Overrun, padding flag too",
    "refusal: PadPlace, first packet",
    "refusal: PadPlace, later packet",
    "refusal: PadPlace, FMT 9",
    "refusal: PadPlace, passed-over packet",
    "refusal: PadPlace, bad count too",
    "refusal: PadPlace, under 4 bytes follow",
    "refusal: PadCount, first packet",
    "refusal: PadCount, later packet",
    "refusal: PadCount 0, FMT 9",
    "refusal: PadCount 0, passed-over packet",
    "refusal: PadCount not divisible by 4, FMT 9",
    "refusal: PadCount not divisible by 4, passed-over packet",
    "refusal: PadCount too large, FMT 9",
    "refusal: PadCount too large, passed-over packet",
    "refusal: PadCount one word too large",
    "refusal: PadCount of a bare header, FMT 9",
    "refusal: PadCount of a bare header, passed-over packet",
    "refusal: NoHead, first packet",
    "refusal: NoHead, later packet",
    "refusal: NoHead, 0 bytes",
    "refusal: NoHead, 4 bytes",
    "refusal: NoHead by padding",
    "refusal: NoHead, later packet at fault too",
    "refusal: NoEntry, first packet",
    "refusal: NoEntry, later packet",
    "refusal: NoEntry without padding",
    "refusal: NoEntry by padding",
    "refusal: NoEntry, later packet at fault too",
    "refusal: Entry, first packet",
    "refusal: Entry, later packet",
    "refusal: Entry, first of its packet",
    "refusal: Entry, later in its packet",
    "refusal: Entry lacks its 8 bytes",
    "refusal: Entry lacks its parameters",
    "refusal: Entry lacks one word of its parameters",
    "refusal: Entry by padding",
    "refusal: Entry, later packet at fault too",
    "limit: datagram of 4 bytes",
    "limit: datagram of 1,500 bytes passes",
    "limit: datagram of 1,501 bytes",
    "padding: FMT 9",
    "padding: passed-over packet",
    "padding: first packet",
    "padding: later packet",
    "padding: count 4",
    "padding: count 252",
    "padding: all after the header",
    "packets: SR",
    "packets: RR",
    "packets: SDES",
    "packets: BYE",
    "packets: APP",
    "packets: bare header",
    "packets: type 205 with another FMT",
    "packets: another type with FMT 9",
    "packets: passed-over before FMT 9",
    "packets: passed-over after FMT 9",
    "packets: two of FMT 9",
    "packets: media source not 0",
    "packets: no FMT 9, n is 0",
    "entries: type 0",
    "entries: type 1",
    "entries: type 2",
    "entries: type 3",
    "entries: type 4",
    "entries: type 5",
    "entries: type 6",
    "entries: type 7",
    "entries: type 8",
    "entries: type 9",
    "entries: type 10",
    "entries: type 11",
    "entries: type 12",
    "entries: type 13",
    "entries: type 14",
    "entries: type 15",
    "entries: reserved bits set",
    "entries: parameters on types 0 to 3",
    "entries: parameters on types 4 to 15",
    "entries: 255 words of parameters",
    "entries: parameters of the last reach the padding",
];

/// The replies to one datagram, each "its own 20-byte packet".
const REPLIES: &[&str] = &[
    "replies: none to n > 0 entries",
    "replies: fewer than n",
    "replies: n, over 1",
    "replies: two of one stream, next to each other",
    "replies: two of one stream, another's between them",
    "replies: over two of one stream",
    "replies: of two streams in the table's order",
    "replies: of two streams in another order than the table's",
    "replies: the same PAUSED twice",
    "replies: the same REFUSED twice",
    "replies: PAUSED and REFUSED of one stream",
    "replies: to entries of two packets",
    "replies: more than one datagram holds",
    "replies: from SSRC 0",
    "replies: from SSRC 1",
    "replies: from SSRC ffffffff",
];

/// Distances of a PauseID from c, and of a time from a deadline.
const DISTANCES: &[&str] = &[
    "PauseID: distance -32,768",
    "PauseID: distance -32,767",
    "PauseID: distance -1",
    "PauseID: distance 1",
    "PauseID: distance 32,767",
    "PauseID: future and a smaller number",
    "PauseID: past and a larger number",
    "clock: time one before the deadline",
    "clock: time at the deadline",
    "clock: time 2^31 - 1 after the deadline",
    "clock: time 2^31 after the deadline",
    "clock: due time below the deadline as a plain number",
    "clock: not due time above the deadline as a plain number",
];

/// Lines as such, and what is wrong with their digits.
const LINES: &[&str] = &[
    "line: last one without a line feed",
    "line: empty",
    "line: upper-case digit",
    "line: space",
    "line: carriage return",
    "line: another bad byte",
    "line: odd digits",
    "line: 3,100 digits",
    "line: 3,101 digits",
    "line: 3,102 digits and otherwise a frame",
    "line: over 10,000 digits",
    "line: over 65,536 digits",
];

/// The cells of the state table. A current PAUSE in Playing is parted by H, the time in Pausing by
/// due and not due, a report by r, of which the given ones are listed.
pub fn cell_names(repeats: &[&str]) -> Vec<String> {
    let mut names = Vec::new();
    for event in EVENTS {
        for state in STATES {
            let details: &[&str] = match (event, state) {
                ("PAUSE current", "Playing") => &["H = 0", "H > 0"],
                ("time", "Pausing") => &["due", "not due"],
                ("report", "Paused" | "Local paused") => repeats,
                _ => &[""],
            };
            names.extend(details.iter().map(|detail| cell_name(event, detail, state)));
        }
    }
    names
}

fn cell_name(event: &str, detail: &str, state: &str) -> String {
    match detail {
        "" => format!("cell: {event}, {state}"),
        _ => format!("cell: {event}, {state}, {detail}"),
    }
}

/// The cell an event falls into, seen from the record before it.
pub fn cell_of(event: &str, before: &Stream, time: u32) -> String {
    let detail = match (event, before.state) {
        ("PAUSE current", State::Playing) if before.hold_off == 0 => "H = 0",
        ("PAUSE current", State::Playing) => "H > 0",
        ("time", State::Pausing { deadline }) if is_due(deadline, time) => "due",
        ("time", State::Pausing { .. }) => "not due",
        ("report", State::Paused | State::LocalPaused) => match before.repeats {
            0 => "r = 0",
            1 => "r = 1",
            2 => "r = 2",
            3 => "r = 3",
            255 => "r = 255",
            _ => "another r",
        },
        _ => "",
    };
    cell_name(event, detail, state_name(before.state))
}

pub fn state_name(state: State) -> &'static str {
    STATES[usize::from(state.numbers().0)]
}

/// The row of the state table an entry falls into.
pub fn entry_event(stream: &Stream, entry: &Entry) -> &'static str {
    match (entry.kind, stream.judge(entry.pause_id)) {
        (Kind::Pause, Age::Past) => "PAUSE past",
        (Kind::Pause, Age::Current) => "PAUSE current",
        (Kind::Pause, Age::Future) => "PAUSE future",
        (Kind::Resume, Age::Past) => "RESUME past",
        (Kind::Resume, Age::Current) => "RESUME current",
        (Kind::Resume, Age::Future) => "RESUME future",
        (Kind::Paused, _) => "PAUSED received",
        (Kind::Refused, _) => "REFUSED received",
        (Kind::Other(_), _) => "type 4 to 15 received",
    }
}

fn sort_of_packet(first: u8, kind: u8) -> &'static str {
    match (kind, first & 0x1f) {
        (205, 9) => "FMT 9",
        _ => "passed-over packet",
    }
}

/// The length a packet header gives, in bytes.
fn length_of(packet: &[u8]) -> usize {
    4 * (usize::from(u16::from_be_bytes([packet[2], packet[3]])) + 1)
}

/// The packets that start before `place`, as far as they are framed well.
pub fn packets_before(bytes: &[u8], place: usize) -> Vec<Packet<'_>> {
    let mut packets = Vec::new();
    let mut start = 0;
    while start < place {
        match Packet::read(bytes, start) {
            Ok(packet) => {
                start = packet.end;
                packets.push(packet);
            }
            Err(_) => break,
        }
    }
    packets
}

/// The number of the packet, counted from 1, that each entry of a good datagram stands in.
pub fn packets_of_entries(bytes: &[u8]) -> Vec<usize> {
    let Ok(walk) = Walk::open(bytes) else {
        return Vec::new();
    };
    let found = (0..walk.count() as u64).filter_map(|number| walk.step(number));
    found
        .map(|found| packets_before(bytes, found.place).len())
        .collect()
}

/// The counts by name, in the order of printing.
#[derive(Debug)]
pub struct Counts {
    names: Vec<String>,
    counts: HashMap<String, u64>,
}

impl Counts {
    pub fn new(names: Vec<String>) -> Self {
        Counts {
            counts: names.iter().map(|name| (name.clone(), 0)).collect(),
            names,
        }
    }

    pub fn hit(&mut self, name: &str) {
        match self.counts.get_mut(name) {
            Some(count) => *count += 1,
            None => panic!("the list of names lacks: {name}"),
        }
    }

    pub fn hit_if(&mut self, reached: bool, name: &str) {
        if reached {
            self.hit(name);
        }
    }

    /// Prints all counts; false when one of them is 0.
    fn print(&self) -> bool {
        let mut all = true;
        for name in &self.names {
            let count = self.counts[name];
            println!("{count} {name}");
            all &= count > 0;
        }
        all
    }
}

/// What `distance` and `clock` count.
pub fn distance_names() -> impl Iterator<Item = String> {
    DISTANCES.iter().map(|name| name.to_string())
}

/// A PauseID received for a stream.
pub fn distance(counts: &mut Counts, stream: &Stream, pause_id: u16) {
    match pause_id.wrapping_sub(stream.pause_id) {
        0x8000 => counts.hit("PauseID: distance -32,768"),
        0x8001 => counts.hit("PauseID: distance -32,767"),
        0xffff => counts.hit("PauseID: distance -1"),
        0x0001 => counts.hit("PauseID: distance 1"),
        0x7fff => counts.hit("PauseID: distance 32,767"),
        _ => {}
    }
    let age = stream.judge(pause_id);
    counts.hit_if(
        age == Age::Future && pause_id < stream.pause_id,
        "PauseID: future and a smaller number",
    );
    counts.hit_if(
        age == Age::Past && pause_id > stream.pause_id,
        "PauseID: past and a larger number",
    );
}

/// A time event of a stream.
pub fn clock(counts: &mut Counts, stream: &Stream, time: u32) {
    let State::Pausing { deadline } = stream.state else {
        return;
    };
    match time.wrapping_sub(deadline) {
        0 => counts.hit("clock: time at the deadline"),
        u32::MAX => counts.hit("clock: time one before the deadline"),
        0x7fff_ffff => counts.hit("clock: time 2^31 - 1 after the deadline"),
        0x8000_0000 => counts.hit("clock: time 2^31 after the deadline"),
        _ => {}
    }
    let due = is_due(deadline, time);
    counts.hit_if(
        due && time < deadline,
        "clock: due time below the deadline as a plain number",
    );
    counts.hit_if(
        !due && time > deadline,
        "clock: not due time above the deadline as a plain number",
    );
}

/// A reply to an entry of a datagram.
#[derive(Clone, Copy, Debug)]
pub struct Reply {
    pub entry: Entry,
    /// The place of the record that gave it.
    pub place: usize,
    /// The number of the packet that it answers an entry of.
    pub packet: usize,
}

/// What `replies` counts.
pub fn reply_names() -> impl Iterator<Item = String> {
    REPLIES.iter().map(|name| name.to_string())
}

/// The replies to the n entries of a datagram, in their order.
pub fn replies(counts: &mut Counts, n: usize, replies: &[Reply]) {
    match replies.len() {
        0 => counts.hit_if(n > 0, "replies: none to n > 0 entries"),
        count if count < n => counts.hit("replies: fewer than n"),
        _ => counts.hit_if(n > 1, "replies: n, over 1"),
    }
    counts.hit_if(
        PACKET * replies.len() > LONGEST,
        "replies: more than one datagram holds",
    );
    for (number, reply) in replies.iter().enumerate() {
        match reply.entry.target {
            0 => counts.hit("replies: from SSRC 0"),
            1 => counts.hit("replies: from SSRC 1"),
            u32::MAX => counts.hit("replies: from SSRC ffffffff"),
            _ => {}
        }
        if let Some(next) = replies.get(number + 1) {
            next_reply(counts, reply, next);
        }
        let later = &replies[number + 1..];
        let of_same = later.iter().position(|other| other.place == reply.place);
        counts.hit_if(
            of_same > Some(0),
            "replies: two of one stream, another's between them",
        );
        let count = later.iter().filter(|other| other.place == reply.place);
        counts.hit_if(count.count() > 1, "replies: over two of one stream");
    }
}

/// A reply and the one after it.
fn next_reply(counts: &mut Counts, reply: &Reply, next: &Reply) {
    counts.hit_if(
        reply.packet != next.packet,
        "replies: to entries of two packets",
    );
    match reply.place.cmp(&next.place) {
        Ordering::Less => counts.hit("replies: of two streams in the table's order"),
        Ordering::Greater => {
            counts.hit("replies: of two streams in another order than the table's")
        }
        Ordering::Equal => {
            counts.hit("replies: two of one stream, next to each other");
            match (reply.entry == next.entry, reply.entry.kind) {
                (true, Kind::Paused) => counts.hit("replies: the same PAUSED twice"),
                (true, _) => counts.hit("replies: the same REFUSED twice"),
                (false, _) => counts.hit_if(
                    reply.entry.kind != next.entry.kind,
                    "replies: PAUSED and REFUSED of one stream",
                ),
            }
        }
    }
}

/// What `datagram` counts, each name after a prefix.
pub fn datagram_names(prefix: &str) -> impl Iterator<Item = String> + '_ {
    DATAGRAM.iter().map(move |name| format!("{prefix}{name}"))
}

/// Counts what one datagram holds, or what it is refused for. Gives what reading it gave.
pub fn datagram(
    counts: &mut Counts,
    prefix: &str,
    bytes: &[u8],
) -> (Result<(), Refusal>, Vec<Entry>) {
    let mut seen = Seen { counts, prefix };
    let mut entries = Vec::new();
    let read = packet::read(bytes, &mut entries);
    match read {
        Ok(()) => seen.packets(bytes),
        Err(refusal) => seen.refused(bytes, refusal),
    }
    (read, entries)
}

/// One datagram under a prefix.
struct Seen<'a> {
    counts: &'a mut Counts,
    prefix: &'a str,
}

impl Seen<'_> {
    fn hit(&mut self, name: &str) {
        self.counts.hit(&format!("{}{name}", self.prefix));
    }

    fn hit_if(&mut self, reached: bool, name: &str) {
        if reached {
            self.hit(name);
        }
    }

    /// The packets of a datagram without fault.
    fn packets(&mut self, bytes: &[u8]) {
        self.hit_if(bytes.len() == 4, "limit: datagram of 4 bytes");
        self.hit_if(
            bytes.len() == LONGEST,
            "limit: datagram of 1,500 bytes passes",
        );
        let packets = packets_before(bytes, bytes.len());
        for packet in &packets {
            self.padding(bytes, packet);
            if packet.has_entries() {
                self.raw_entries(packet)
            } else {
                self.passed_over(packet)
            }
        }
        let (mut first, mut last, mut count) = (None, None, 0);
        for (number, packet) in packets.iter().enumerate() {
            if packet.has_entries() {
                first = first.or(Some(number));
                last = Some(number);
                count += 1;
            }
        }
        self.hit_if(count == 0, "packets: no FMT 9, n is 0");
        self.hit_if(count > 1, "packets: two of FMT 9");
        self.hit_if(first > Some(0), "packets: passed-over before FMT 9");
        self.hit_if(
            last.is_some_and(|last| last + 1 < packets.len()),
            "packets: passed-over after FMT 9",
        );
    }

    fn padding(&mut self, bytes: &[u8], packet: &Packet) {
        let count = packet.end - packet.start - HEADER - packet.body.len();
        if count == 0 {
            return;
        }
        let sort = sort_of_packet(bytes[packet.start], packet.kind);
        self.hit(&format!("padding: {sort}"));
        match packet.start {
            0 => self.hit("padding: first packet"),
            _ => self.hit("padding: later packet"),
        }
        self.hit_if(count == 4, "padding: count 4");
        self.hit_if(count == 252, "padding: count 252");
        self.hit_if(packet.body.is_empty(), "padding: all after the header");
    }

    fn passed_over(&mut self, packet: &Packet) {
        match packet.kind {
            200 => self.hit("packets: SR"),
            201 => self.hit("packets: RR"),
            202 => self.hit("packets: SDES"),
            203 => self.hit("packets: BYE"),
            204 => self.hit("packets: APP"),
            205 => self.hit("packets: type 205 with another FMT"),
            _ => {}
        }
        self.hit_if(packet.count == 9, "packets: another type with FMT 9");
        self.hit_if(packet.end - packet.start == HEADER, "packets: bare header");
    }

    /// What is ignored on reading, so that it must be seen on the bytes.
    fn raw_entries(&mut self, packet: &Packet) {
        let media_source = &packet.body[4..HEAD];
        self.hit_if(media_source != [0; 4], "packets: media source not 0");
        let mut rest = &packet.body[HEAD..];
        while let Some((entry, after)) = Entry::read(rest) {
            let (kind, words) = (entry.kind.number(), rest[5]);
            self.hit(&format!("entries: type {kind}"));
            self.hit_if(rest[4] & 0x0f != 0, "entries: reserved bits set");
            self.hit_if(words == 255, "entries: 255 words of parameters");
            if words > 0 {
                self.hit(match kind {
                    0..=3 => "entries: parameters on types 0 to 3",
                    _ => "entries: parameters on types 4 to 15",
                });
                let padded = packet.start + HEADER + packet.body.len() < packet.end;
                self.hit_if(
                    padded && after.is_empty(),
                    "entries: parameters of the last reach the padding",
                );
            }
            rest = after;
        }
    }

    /// A refused datagram, by the case and by what else could have been said of it.
    fn refused(&mut self, bytes: &[u8], refusal: Refusal) {
        if refusal.case == Case::TooLong {
            self.hit("refusal: TooLong");
            self.hit_if(bytes.len() == LONGEST + 1, "limit: datagram of 1,501 bytes");
            return;
        }
        let start = match refusal.case {
            Case::Entry => packets_before(bytes, refusal.place)
                .last()
                .map_or(0, |packet| packet.start),
            _ => refusal.place,
        };
        let case = format!("refusal: {:?}", refusal.case);
        match start {
            0 => self.hit(&format!("{case}, first packet")),
            _ => self.hit(&format!("{case}, later packet")),
        }
        let rest = &bytes[start..];
        match refusal.case {
            Case::Short => self.hit(&format!("{case}, {} of 4 bytes", rest.len())),
            Case::Version => {
                self.hit(&format!("{case} {}", rest[0] >> 6));
                self.hit_if(
                    length_of(rest) > rest.len(),
                    "refusal: Version, length over the rest too",
                );
            }
            Case::Overrun => self.overrun(rest),
            Case::PadPlace => self.pad_place(rest),
            Case::PadCount => self.pad_count(rest),
            _ => self.bad_entries(bytes, refusal, start),
        }
    }

    fn overrun(&mut self, rest: &[u8]) {
        let over = length_of(rest) - rest.len();
        self.hit_if(over < 4, "refusal: Overrun by less than a word");
        self.hit_if(over == 4, "refusal: Overrun by one word");
        self.hit_if(
            rest[2..4] == [0xff; 2],
            "refusal: Overrun of the largest length",
        );
        self.hit_if(rest[0] & 0x20 != 0, "refusal: Overrun, padding flag too");
    }

    fn pad_place(&mut self, rest: &[u8]) {
        let sort = sort_of_packet(rest[0], rest[1]);
        self.hit(&format!("refusal: PadPlace, {sort}"));
        let alone = &rest[..length_of(rest)];
        self.hit_if(
            Packet::read(alone, 0).is_err(),
            "refusal: PadPlace, bad count too",
        );
        self.hit_if(
            rest.len() - alone.len() < 4,
            "refusal: PadPlace, under 4 bytes follow",
        );
    }

    fn pad_count(&mut self, rest: &[u8]) {
        let sort = sort_of_packet(rest[0], rest[1]);
        let after_header = &rest[HEADER..];
        let Some(&count) = after_header.last() else {
            return self.hit(&format!("refusal: PadCount of a bare header, {sort}"));
        };
        let fault = match count {
            0 => "0",
            _ if count % 4 != 0 => "not divisible by 4",
            _ => "too large",
        };
        self.hit(&format!("refusal: PadCount {fault}, {sort}"));
        self.hit_if(
            usize::from(count) == after_header.len() + 4,
            "refusal: PadCount one word too large",
        );
    }

    /// NoHead, NoEntry and Entry: the packet at `start` itself is framed well.
    fn bad_entries(&mut self, bytes: &[u8], refusal: Refusal, start: usize) {
        let Ok(packet) = Packet::read(bytes, start) else {
            return;
        };
        let case = format!("refusal: {:?}", refusal.case);
        let padded = bytes[start] & 0x20 != 0;
        self.hit_if(padded, &format!("{case} by padding"));
        if packet.end < bytes.len() {
            let later = packet::read(&bytes[packet.end..], &mut Vec::new());
            self.hit_if(
                later.is_err(),
                &format!("{case}, later packet at fault too"),
            );
        }
        match refusal.case {
            Case::NoHead if !padded => self.hit(&format!("{case}, {} bytes", packet.body.len())),
            Case::NoEntry if !padded => self.hit("refusal: NoEntry without padding"),
            Case::Entry => {
                let head = start + HEADER + HEAD;
                self.hit(if refusal.place == head {
                    "refusal: Entry, first of its packet"
                } else {
                    "refusal: Entry, later in its packet"
                });
                let entry = &bytes[refusal.place..start + HEADER + packet.body.len()];
                self.lacking_entry(entry);
            }
            _ => {}
        }
    }

    fn lacking_entry(&mut self, entry: &[u8]) {
        if entry.len() < packet::ENTRY {
            return self.hit("refusal: Entry lacks its 8 bytes");
        }
        self.hit("refusal: Entry lacks its parameters");
        let whole = packet::ENTRY + 4 * usize::from(entry[5]);
        self.hit_if(
            whole == entry.len() + 4,
            "refusal: Entry lacks one word of its parameters",
        );
    }
}

/// What `count` and `broken_digits` count.
pub fn line_names() -> impl Iterator<Item = String> {
    LINES.iter().map(|name| name.to_string())
}

/// What is wrong with the digits of a line that is Line; a bad byte counts where it is the only
/// fault. True where the digits are good and not none.
pub fn broken_digits(counts: &mut Counts, line: &[u8], frame: fn(&[u8]) -> bool) -> bool {
    let is_frame = |line: &[u8]| {
        let mut bytes = Vec::new();
        read_digits(line, &mut bytes).is_some() && frame(&bytes)
    };
    if line.is_empty() {
        counts.hit("line: empty");
        return false;
    }
    if line.len() > MOST_DIGITS {
        counts.hit_if(line.len() == MOST_DIGITS + 1, "line: 3,101 digits");
        counts.hit_if(
            line.len() == MOST_DIGITS + 2 && is_frame(&line[..MOST_DIGITS]),
            "line: 3,102 digits and otherwise a frame",
        );
        counts.hit_if(line.len() > 10_000, "line: over 10,000 digits");
        counts.hit_if(line.len() > 1 << 16, "line: over 65,536 digits");
        return false;
    }
    if read_digits(line, &mut Vec::new()).is_some() {
        return true;
    }
    let without = |bad: &[u8]| -> Vec<u8> {
        let good = line.iter().filter(|byte| !bad.contains(byte));
        good.copied().collect()
    };
    let is_hexadecimal = line.iter().all(u8::is_ascii_hexdigit);
    let has_capital = line.iter().any(u8::is_ascii_uppercase);
    if has_capital && is_frame(&line.to_ascii_lowercase()) {
        counts.hit("line: upper-case digit");
    } else if line.contains(&b' ') && is_frame(&without(b" ")) {
        counts.hit("line: space");
    } else if line.ends_with(b"\r") && is_frame(&without(b"\r")) {
        counts.hit("line: carriage return");
    } else if !is_hexadecimal {
        counts.hit("line: another bad byte");
    } else if line.len() % 2 == 1 && is_frame(&line[..line.len() - 1]) {
        counts.hit("line: odd digits");
    }
    false
}

/// A counter of what the runs of a program reach.
pub trait Counter {
    /// The start of a run.
    fn start(&mut self);

    /// The next line of the run.
    fn line(&mut self, line: &[u8]);

    fn counts(&mut self) -> &mut Counts;
}

fn run(counter: &mut impl Counter, input: &[u8]) {
    counter.start();
    for line in input.split_inclusive(|&byte| byte == b'\n') {
        let ended = line.strip_suffix(b"\n");
        let counts = counter.counts();
        counts.hit_if(ended.is_none(), "line: last one without a line feed");
        let line = ended.unwrap_or(line);
        counts.hit_if(line.len() == MOST_DIGITS, "line: 3,100 digits");
        counter.line(line);
    }
}

/// `name [FILE...]` counts over each file, or standard input without one, as the input of one run.
/// It prints `count name` lines, and ends with status 1 when a count is 0.
pub fn count(name: &str, counter: impl Counter) -> ExitCode {
    match count_all(counter) {
        Ok(true) => ExitCode::SUCCESS,
        Ok(false) => ExitCode::FAILURE,
        Err(error) => {
            eprintln!("{name}: {error}");
            ExitCode::from(2)
        }
    }
}

fn count_all(mut counter: impl Counter) -> io::Result<bool> {
    let files: Vec<_> = std::env::args_os().skip(1).collect();
    if files.is_empty() {
        let mut input = Vec::new();
        io::stdin().lock().read_to_end(&mut input)?;
        run(&mut counter, &input);
    }
    for file in files {
        run(&mut counter, &std::fs::read(file)?);
    }
    Ok(counter.counts().print())
}
