//! Counts what input lines of the console reach, so that a hole in the generated lines shows.
//!
//! `console_reached [FILE...]` reads each file, or standard input without one, as the input of one
//! run of the console. It prints `count name` for each thing in a fixed order, and ends with status
//! 1 when a count is 0.
//!
//! A name that begins with `record:` or `bytes:` counts only where the lines also look: by a frame
//! 11 at that place, or by an e3 that reaches so far, before anything else changes it. So do those
//! of the receiver's table, in `receiver.rs`, by a frame 27.

mod receiver;
mod receiver_names;

use std::collections::BTreeSet;
use std::process::ExitCode;

use second::console::{Console, Frame, BUFFER, RECORD, RECORDS};
use second::count::{
    broken_digits, cell_names, cell_of, clock, count, datagram, datagram_names, distance,
    distance_names, entry_event, line_names, packets_before, packets_of_entries, replies,
    reply_names, state_name, Counter, Counts, Reply, STATES,
};
use second::line::{self, read_digits};
use second::packet::{Entry, Kind, Walk, ENTRY, HEAD, HEADER, MOST_ENTRIES, PACKET};
use second::receiver_frames;
use second::refusal::Case;
use second::remote::Remote;
use second::row::{Record, PLACES};
use second::stream::{State, Stream};

/// The calls, each with the refusals it can give.
const ANSWERS: &[(&str, &[Case])] = &[
    (
        "datagram",
        &[
            Case::TooLong,
            Case::Short,
            Case::Version,
            Case::Overrun,
            Case::PadPlace,
            Case::PadCount,
            Case::NoHead,
            Case::NoEntry,
            Case::Entry,
            Case::Room,
            Case::Size,
        ],
    ),
    (
        "add",
        &[Case::Size, Case::Limit, Case::Duplicate, Case::Full],
    ),
    ("local pause", &[Case::Size, Case::NoStream, Case::Room]),
    ("local resume", &[Case::Size, Case::NoStream]),
    ("time", &[Case::Size, Case::NoStream, Case::Room]),
    ("report", &[Case::Size, Case::NoStream, Case::Room]),
    ("send", &[Case::Size, Case::NoStream, Case::Held]),
    ("remove", &[Case::Size, Case::NoStream]),
    ("write", &[Case::Limit, Case::Room]),
    (
        "step",
        &[
            Case::TooLong,
            Case::Short,
            Case::Version,
            Case::Overrun,
            Case::PadPlace,
            Case::PadCount,
            Case::NoHead,
            Case::NoEntry,
            Case::Entry,
        ],
    ),
];

/// The calls that may reply, for one SSRC.
const REPLYING: [&str; 3] = ["local pause", "time", "report"];

/// The calls for one SSRC, and the datagram call.
const ON_STREAMS: [&str; 7] = [
    "datagram",
    "local pause",
    "local resume",
    "time",
    "report",
    "send",
    "remove",
];

/// First bytes of later requests.
const LATER: [u8; 8] = [0x07, 0x29, 0x40, 0x41, 0x50, 0x51, 0x52, 0xff];

/// The frames with their lengths; 00 and 31 may be longer. A frame 20 has any.
const LENGTHS: [(u8, usize); 24] = [
    (0x00, 5),
    (0x01, 18),
    (0x02, 5),
    (0x03, 5),
    (0x04, 9),
    (0x05, 5),
    (0x06, 5),
    (0x10, 5),
    (0x11, 2),
    (0x12, 2 + RECORD),
    (0x21, 7),
    (0x22, 5),
    (0x23, 5),
    (0x24, 5),
    (0x25, 5),
    (0x26, 5),
    (0x27, 2),
    (0x28, 2 + receiver_frames::RECORD),
    (0x30, 12),
    (0x31, 9),
    (0xe0, 3),
    (0xe1, 2),
    (0xe2, 2),
    (0xe3, 1),
];

const WRAPS: [u16; 5] = [0, 1, 32_767, 32_768, 65_535];
const HOLD_OFFS: [u32; 4] = [0, 180_000, 1 << 31, u32::MAX];
const REPEATS: [u8; 5] = [0, 1, 2, 3, 255];

const REST: &[&str] = &[
    "record: unused at the start",
    "bytes: 00 at the start",
    "room: datagram Done, n = 1, R = 20",
    "room: datagram Room, n = 1, R = 19",
    "room: datagram Done, n > 1, R = 20n",
    "room: datagram Room, n > 1, R one less than 20n",
    "room: datagram Done, n = 186, R = 3,720",
    "room: datagram Done, 186 replies, R = 3,720",
    "room: datagram Room, n = 186, R = 3,719",
    "room: datagram Room, n > 1, one packet of n entries would fit",
    "room: datagram Room, n > 1, one packet of n entries would just fit",
    "room: datagram Room, R = 0",
    "room: datagram Room, no reply to give",
    "room: datagram Room, the replies alone would fit",
    "room: datagram Room, the replies alone would just fit",
    "room: send Held, R under 20",
    "size: a target used past the lent records alone is in u",
    "size: add Done, the SSRC is used past the lent records",
    "size: add Full, S = 64",
    "size: add Full under 64, an unused record past the lent ones",
    "order: datagram, Size before a fault",
    "order: datagram, Size before Room",
    "order: datagram, a fault before Room",
    "order: send, Size before Held",
    "order: add, Size before Limit",
    "order: add, Size before Duplicate",
    "order: add, Size before Full",
    "order: add, Limit before Duplicate",
    "order: add, Limit before Full",
    "order: add, Duplicate before Full",
    "order: write, Limit before Room",
    "clock: H = 2^31, not due at the PAUSE's own time",
    "clock: H over 2^31, due at the PAUSE's own time",
    "report: r > 0 in Playing",
    "report: r > 0 in Pausing",
    "record: r > 0 kept on entering Pausing",
    "record: r = 255 on entering Playing",
    "record: r = 255 on entering Paused",
    "record: r = 255 on entering Local paused",
    "twins: the second answers after the first was removed",
    "add: an unused record has the SSRC",
    "record: added where one was removed",
    "record: added below a used one",
    "record: added at the last of 64",
    "record: added as the only one lent",
    "record: as before, add Limit",
    "record: as before, add Duplicate",
    "record: as before, add Full",
    "record: as before, add Size",
    "record: as before, send Held",
    "record: as before, datagram refused after an entry",
    "record: as before, a lend that is Line",
    "bytes: as before, datagram refused after an entry",
    "bytes: as before, write Limit",
    "bytes: as before, write Room",
    "bytes: as many as before, a room that is Line",
    "bytes: as before, a fill that is Line",
    "bytes: 4,000",
    "bytes: none, R = 0",
    "record: lent at place 64",
    "frame: record at a place past the size",
    "frame: lend at a place past the size",
    "frame: room 4,000",
    "frame: size 0",
    "frame: size 1",
    "frame: size 64",
    "frame: size 65",
    "write: type 0",
    "write: type 1",
    "write: type 2",
    "write: type 3",
    "write: Limit, type 4",
    "write: Limit, type over 15",
    "write: Done, Size would be given to a call",
    "write: house SSRC as sender",
    "write: another sender",
    "step: Done, Size would be given to a call",
    "step: k = 0",
    "step: k the last",
    "step: k one past the last",
    "step: k = 2^32",
    "step: k = 2^63",
    "step: k = 2^64 - 1",
    "step: k an entry's number and 2^8 more",
    "step: k an entry's number and 2^16 more",
    "step: k an entry's number and 2^32 more",
    "step: k an entry's number and 2^63 more",
    "step: End of a datagram without FMT 9",
    "step: entry of a later packet",
    "step: entry of another sender than the first",
    "step: entry at a place over 255",
    "step: entry after one with parameters",
    "step: entry number over 127",
    "step: entry with reserved bits",
    "step: entry with 1 word of parameters",
    "step: entry with 255 words of parameters",
    "step: refused after the entry asked for",
    "line: nowait over 01",
    "line: used over 01",
    "line: state over 03",
    "line: record at place 65",
    "line: record at a place over 65",
    "line: lend at place 65",
    "line: lend at a place over 65",
    "line: size 66",
    "line: size over 66",
    "line: room 4,001",
    "line: room over 4,001",
    "line: another first byte",
    "line: frame 02 with a time",
    "line: frame 03 with a time",
    "line: lend of a record of 24 bytes",
    "line: lend of a record of 40 bytes",
    "line: lend of a record of 44 bytes",
];

/// Every name, in the order of printing.
fn names() -> Vec<String> {
    let mut names = Vec::new();
    for (call, cases) in ANSWERS {
        names.extend(cases.iter().map(|case| format!("answer: {call}, {case:?}")));
    }
    for call in ["add", "local resume", "send", "remove"] {
        names.push(format!("answer: {call}, Done"));
    }
    for call in ["datagram", "local pause", "time", "report"] {
        names.push(format!("answer: {call}, Done with a reply"));
        names.push(format!("answer: {call}, Done without a reply"));
        names.push(format!("bytes: as before after the reply, {call}"));
        names.push(format!("bytes: as before past the room, {call}"));
        names.push(format!("bytes: as before, {call} Done without a reply"));
        names.push(format!("bytes: as before, {call} Room"));
        names.push(format!("bytes: as before, {call} Size"));
        names.push(format!("record: as before, {call} Room"));
    }
    for call in ["datagram", "local pause", "time", "report"] {
        names.push(format!("bytes: an earlier packet after the reply, {call}"));
    }
    names.push("bytes: as before after several replies, datagram".into());
    names.push("bytes: as before after fewer replies than n, datagram".into());
    names.push("bytes: as before after 186 replies, datagram".into());
    names.push("bytes: as before, datagram Done with entries, without a reply".into());
    names.push("bytes: as before after the reply, write".into());
    names.push("bytes: as before past the room, write".into());
    names.push("answer: step, an entry".into());
    names.push("answer: step, End".into());
    for call in ON_STREAMS {
        names.push(format!("record: as before, {call} Size"));
        names.push(format!("record: changed by {call}"));
        names.push(format!("record: second of two, {call}"));
        names.push(format!("record: unused one before it, {call}"));
        names.push(format!("record: unused one after it, {call}"));
        names.push(format!("place: {call} at the 64th record"));
        if call != "datagram" {
            names.push(format!("record: as before, {call} NoStream"));
            names.push(format!("order: {call}, Size before NoStream"));
            names.push(format!("size: {call} NoStream, used past the lent records"));
        }
    }
    for call in ["datagram", "local pause", "local resume", "time", "report"] {
        names.push(format!("record: as before, {call} Done"));
    }
    for call in ON_STREAMS.iter().chain(&["add"]) {
        names.push(format!("size: {call} Size, S = 0"));
        names.push(format!("size: {call} Size, S = 65"));
        names.push(format!("size: {call} Done, S = 1"));
    }
    for call in REPLYING {
        names.push(format!("room: {call} Room, no reply to give"));
        names.push(format!("order: {call}, Size before Room"));
        names.push(format!("order: {call}, NoStream before Room"));
    }
    for call in REPLYING.iter().chain(&["write"]) {
        names.push(format!("room: {call} Done, R = 20"));
        names.push(format!("room: {call} Room, R = 19"));
        names.push(format!("room: {call} Room, R = 0"));
    }
    for call in ["datagram", "add", "local resume", "send", "remove", "step"] {
        names.push(format!("room: {call} Done, R = 0"));
    }
    for state in STATES {
        names.push(format!("record: removed in {state}"));
        names.push(format!("record: added over an unused one in {state}"));
        names.push(format!("record: lent used in {state}"));
        names.push(format!("record: lent unused in {state}"));
        if state != "Pausing" {
            names.push(format!("record: deadline passed over in {state}"));
        }
    }
    for number in WRAPS {
        names.push(format!("record: lent c = {number}"));
        names.push(format!("record: lent sequence number {number}"));
        names.push(format!("record: to Playing from c = {number}"));
        names.push(format!("record: sent sequence number {number}"));
    }
    for hold_off in HOLD_OFFS {
        names.push(format!("record: lent H = {hold_off}"));
        names.push(format!("record: PAUSE with H = {hold_off}"));
    }
    for repeats in REPEATS {
        names.push(format!("record: lent r = {repeats}"));
    }
    for kind in 0..16 {
        names.push(format!("step: entry of type {kind}"));
    }
    for first in LATER {
        names.push(format!("line: first byte {first:02x}"));
    }
    for (first, _) in LENGTHS {
        if first != 0xe3 {
            names.push(format!("line: frame {first:02x} too short"));
        }
        if first != 0x00 && first != 0x31 {
            names.push(format!("line: frame {first:02x} too long"));
        }
    }
    names.extend(cell_names(&[
        "r = 0",
        "r = 1",
        "r = 2",
        "r = 3",
        "r = 255",
        "another r",
    ]));
    names.extend(distance_names());
    names.extend(datagram_names("datagram: "));
    names.extend(reply_names());
    names.extend(datagram_names("step: "));
    names.extend(line_names());
    names.extend(REST.iter().map(|name| name.to_string()));
    names.extend(receiver_names::names());
    names
}

/// The counts, and the console as far as the run has come.
struct Reached {
    counts: Counts,
    console: Console,
    /// Whether the record at a place was lent, and not added since.
    lent: [bool; RECORDS],
    /// Whether the record at a place was removed, and neither lent nor added since.
    removed: [bool; RECORDS],
    /// SSRCs whose first record was removed, so that another answers for them.
    heirs: BTreeSet<u32>,
    /// What the next look at a place shows.
    in_record: Vec<BTreeSet<String>>,
    /// What the next look at the buffer shows, with the place of the byte that shows it.
    in_bytes: Vec<(usize, String)>,
    remotes: receiver::Remotes,
}

impl Counter for Reached {
    fn start(&mut self) {
        self.console = Console::default();
        self.lent = [false; RECORDS];
        self.removed = [false; RECORDS];
        self.heirs.clear();
        self.in_record = vec![["record: unused at the start".to_string()].into(); RECORDS];
        self.in_bytes = vec![(0, "bytes: 00 at the start".to_string())];
        self.remotes = receiver::Remotes::default();
    }

    fn line(&mut self, line: &[u8]) {
        let mut bytes = Vec::new();
        let digits = read_digits(line, &mut bytes);
        match digits.and_then(|()| Frame::read(&bytes)) {
            Some(frame) => self.frame(frame, &bytes),
            None => {
                if broken_digits(&mut self.counts, line, |frame| Frame::read(frame).is_some()) {
                    self.broken_frame(&bytes);
                }
            }
        }
    }

    fn counts(&mut self) -> &mut Counts {
        &mut self.counts
    }
}

/// A call with the console before it and what it answered.
struct Call<'a> {
    name: &'static str,
    frame: Frame<'a>,
    before: Console,
    answer: Result<(), Case>,
    /// The bytes of its reply.
    reply: usize,
}

impl Call<'_> {
    fn room(&self) -> usize {
        self.before.room()
    }

    fn size(&self) -> usize {
        self.before.table().size()
    }

    fn records(&self) -> &[Stream] {
        self.before.table().records()
    }

    /// What stands before the names of the receiver's calls, and what a call writes.
    fn words(&self) -> (&'static str, &'static str) {
        match self.frame {
            Frame::Receiver(_) => ("remote ", "packet"),
            _ => ("", "reply"),
        }
    }

    /// The records it was lent; none where it was refused with Size.
    fn lent(&self) -> &[Stream] {
        match self.size() {
            size @ 1..=PLACES => &self.records()[..size],
            _ => &[],
        }
    }

    fn remotes(&self) -> &[Remote] {
        self.before.receiver().records()
    }

    /// The same of the receiver's table.
    fn lent_remotes(&self) -> &[Remote] {
        &self.remotes()[..self.lent().len()]
    }

    /// The same call on a console with other room and size.
    fn instead(&self, room: usize, size: usize) -> (Console, Result<(), Case>) {
        let mut console = self.before.clone();
        let mut run = |frame| {
            let answer = console.perform(frame, &mut Vec::new());
            answer.map_err(|refusal| refusal.case)
        };
        let _ = run(Frame::Room(room));
        let _ = run(Frame::Size(size));
        let answer = run(self.frame.clone());
        (console, answer)
    }
}

impl Reached {
    fn new() -> Self {
        Reached {
            counts: Counts::new(names()),
            console: Console::default(),
            lent: [false; RECORDS],
            removed: [false; RECORDS],
            heirs: BTreeSet::new(),
            in_record: Vec::new(),
            in_bytes: Vec::new(),
            remotes: receiver::Remotes::default(),
        }
    }

    fn hit(&mut self, name: &str) {
        self.counts.hit(name);
    }

    fn hit_if(&mut self, reached: bool, name: &str) {
        self.counts.hit_if(reached, name);
    }

    /// Counts a name once the record at a place is looked at as it is now.
    fn when_seen(&mut self, place: usize, name: &str) {
        self.in_record[place].insert(name.to_string());
    }

    /// Counts a name once the buffer is looked at as it is now, up to a place at least.
    fn when_bytes_seen(&mut self, place: usize, name: &str) {
        self.in_bytes.push((place, name.to_string()));
    }

    fn frame(&mut self, frame: Frame, bytes: &[u8]) {
        let before = self.console.clone();
        let mut done = Vec::new();
        let answer = self.console.perform(frame.clone(), &mut done);
        let answer = answer.map_err(|refusal| refusal.case);
        for place in 0..RECORDS {
            if before.table().records()[place] != self.console.table().records()[place] {
                self.in_record[place].clear();
            }
            if before.receiver().records()[place] != self.console.receiver().records()[place] {
                self.remotes.changed(place);
            }
        }
        if before.buffer() != self.console.buffer() {
            self.in_bytes.clear();
        }
        let name = match frame {
            Frame::Room(room) => return self.room(room),
            Frame::Size(size) => return self.size(size),
            Frame::Fill(_) => return self.in_bytes.clear(),
            Frame::Bytes => return self.look_at_bytes(),
            Frame::Record { place } => return self.look(place),
            Frame::Lend { place, ref record } => return self.lend(place, record, bytes),
            Frame::Step { number, bytes } => return self.step(number, bytes, answer),
            Frame::Receiver(ref frame) => match receiver::call_name(frame) {
                Some(name) => name,
                None => return self.remote_no_call(frame, bytes),
            },
            Frame::Write { .. } => "write",
            Frame::Remove { .. } => "remove",
            Frame::Line(line::Frame::Datagram { .. }) => "datagram",
            Frame::Line(line::Frame::Add(_)) => "add",
            Frame::Line(line::Frame::LocalPause { .. }) => "local pause",
            Frame::Line(line::Frame::LocalResume { .. }) => "local resume",
            Frame::Line(line::Frame::Time { .. }) => "time",
            Frame::Line(line::Frame::Report { .. }) => "report",
            Frame::Line(line::Frame::Send { .. }) => "send",
        };
        let values = match name {
            "datagram" => 4,
            "send" => 2,
            _ => 0,
        };
        let call = Call {
            name,
            before,
            answer,
            reply: done.len().saturating_sub(values),
            frame,
        };
        match call.frame {
            Frame::Receiver(ref frame) => self.remote_call(&call, frame),
            _ => self.call(&call),
        }
    }

    // Frames that are no calls.

    fn room(&mut self, room: usize) {
        self.hit_if(room == BUFFER, "frame: room 4,000");
        self.in_bytes
            .retain(|(_, name)| !name.starts_with("bytes: as many"));
    }

    fn size(&mut self, size: usize) {
        if matches!(size, 0 | 1 | 64 | 65) {
            self.hit(&format!("frame: size {size}"));
        }
    }

    fn look(&mut self, place: usize) {
        self.hit_if(
            place >= self.console.table().size(),
            "frame: record at a place past the size",
        );
        for name in std::mem::take(&mut self.in_record[place]) {
            self.hit(&name);
        }
    }

    fn look_at_bytes(&mut self) {
        let room = self.console.room();
        self.hit_if(room == BUFFER, "bytes: 4,000");
        self.hit_if(room == 0, "bytes: none, R = 0");
        for (place, name) in std::mem::take(&mut self.in_bytes) {
            if place < room {
                self.hit(&name);
            } else {
                self.when_bytes_seen(place, &name);
            }
        }
    }

    fn lend(&mut self, place: usize, record: &Stream, bytes: &[u8]) {
        self.lent[place] = true;
        self.removed[place] = false;
        self.heirs.clear();
        self.in_record[place].clear();
        self.hit_if(
            place >= self.console.table().size(),
            "frame: lend at a place past the size",
        );
        let state = state_name(record.state);
        let used = if record.in_use { "used" } else { "unused" };
        self.when_seen(place, &format!("record: lent {used} in {state}"));
        if state != "Pausing" && bytes[8..12] != [0; 4] {
            self.when_seen(place, &format!("record: deadline passed over in {state}"));
        }
        if place == RECORDS - 1 {
            self.when_seen(place, "record: lent at place 64");
        }
        if WRAPS.contains(&record.pause_id) {
            self.when_seen(place, &format!("record: lent c = {}", record.pause_id));
        }
        if WRAPS.contains(&record.sequence) {
            let number = record.sequence;
            self.when_seen(place, &format!("record: lent sequence number {number}"));
        }
        if HOLD_OFFS.contains(&record.hold_off) {
            self.when_seen(place, &format!("record: lent H = {}", record.hold_off));
        }
        if REPEATS.contains(&record.repeats) {
            self.when_seen(place, &format!("record: lent r = {}", record.repeats));
        }
    }

    // Calls.

    fn call(&mut self, call: &Call) {
        let name = call.name;
        match call.answer {
            Err(case) => self.hit(&format!("answer: {name}, {case:?}")),
            Ok(()) => self.done(call),
        }
        if call.reply > 0 {
            self.reply(call);
        }
        match call.frame {
            Frame::Write { sender, entry } => self.write(call, sender, entry),
            Frame::Line(line::Frame::Add(_)) => self.add(call),
            Frame::Line(line::Frame::Datagram { time, bytes }) => self.datagram(call, time, bytes),
            Frame::Line(line::Frame::Time { ssrc, time }) => self.local(call, ssrc, time),
            Frame::Remove { ssrc }
            | Frame::Line(line::Frame::LocalPause { ssrc })
            | Frame::Line(line::Frame::LocalResume { ssrc })
            | Frame::Line(line::Frame::Report { ssrc })
            | Frame::Line(line::Frame::Send { ssrc }) => self.local(call, ssrc, 0),
            _ => {}
        }
        match call.answer {
            Err(Case::Size) => self.size_refused(call),
            Err(Case::Room) => self.room_refused(call),
            _ => {}
        }
    }

    fn done(&mut self, call: &Call) {
        let name = call.name;
        match name {
            "write" => {}
            "datagram" | "local pause" | "time" | "report" => {
                let with = if call.reply > 0 { "with" } else { "without" };
                self.hit(&format!("answer: {name}, Done {with} a reply"));
                // A packet would begin otherwise.
                if call.reply == 0 && call.before.buffer()[0] != 0x89 {
                    let name = format!("bytes: as before, {name} Done without a reply");
                    self.when_bytes_seen(0, &name);
                }
            }
            _ => self.hit(&format!("answer: {name}, Done")),
        }
        if name != "write" {
            self.hit_if(call.size() == 1, &format!("size: {name} Done, S = 1"));
        }
        if call.room() == 0 {
            self.hit(&format!("room: {name} Done, R = 0"));
        }
        if REPLYING.contains(&name) || name == "write" {
            self.hit_if(call.room() == 20, &format!("room: {name} Done, R = 20"));
        }
    }

    /// The bytes after a reply, and those past the room, where they are not 00.
    fn reply(&mut self, call: &Call) {
        let (prefix, written) = call.words();
        let buffer = self.console.buffer();
        let after = (call.reply..BUFFER).find(|&place| buffer[place] != 0);
        let past = (call.room()..BUFFER).find(|&place| buffer[place] != 0);
        let packet = buffer[call.reply..].starts_with(&[0x89, 205, 0, 4]);
        self.in_bytes.clear();
        if packet && matches!(call.frame, Frame::Line(_)) {
            let name = format!("bytes: an earlier packet after the reply, {}", call.name);
            self.when_bytes_seen(call.reply + PACKET - 1, &name);
        }
        if let Some(place) = after {
            let name = format!(
                "{prefix}bytes: as before after the {written}, {}",
                call.name
            );
            self.when_bytes_seen(place, &name);
        }
        if let Some(place) = past {
            let name = format!("{prefix}bytes: as before past the room, {}", call.name);
            self.when_bytes_seen(place, &name);
        }
    }

    /// What a refused call would have changed, had the refusal not come.
    fn not_done(&mut self, call: &Call, instead: &Console, case: Case) {
        let name = format!("record: as before, {} {case:?}", call.name);
        let records = instead.table().records().iter().zip(call.records());
        let changed = records.map(|(instead, before)| instead != before);
        let places: Vec<bool> = changed.collect();
        for place in (0..RECORDS).filter(|&place| places[place]) {
            self.when_seen(place, &name);
        }
        self.remote_not_done(call, instead, case);
        let (prefix, _) = call.words();
        let mut bytes = instead.buffer().iter().zip(call.before.buffer());
        if let Some(place) = bytes.position(|(instead, before)| instead != before) {
            let name = format!("{prefix}bytes: as before, {} {case:?}", call.name);
            self.when_bytes_seen(place, &name);
        }
    }

    fn size_refused(&mut self, call: &Call) {
        let name = call.name;
        let (prefix, _) = call.words();
        self.hit(&format!("{prefix}size: {name} Size, S = {}", call.size()));
        let (done, _) = call.instead(BUFFER, PLACES);
        self.not_done(call, &done, Case::Size);
        let (_, answer) = call.instead(call.room(), PLACES);
        match answer {
            Ok(()) => {}
            Err(Case::TooLong | Case::Short | Case::Version | Case::Overrun | Case::PadPlace) => {
                self.hit(&format!("{prefix}order: datagram, Size before a fault"))
            }
            Err(Case::PadCount | Case::NoHead | Case::NoEntry | Case::Entry) => {
                self.hit(&format!("{prefix}order: datagram, Size before a fault"))
            }
            Err(case) => self.hit(&format!("{prefix}order: {name}, Size before {case:?}")),
        }
    }

    fn room_refused(&mut self, call: &Call) {
        let name = call.name;
        let (prefix, written) = call.words();
        let (done, _) = call.instead(BUFFER, call.size());
        self.not_done(call, &done, Case::Room);
        if name == "datagram" {
            return;
        }
        let room = format!("{prefix}room: {name} Room");
        self.hit_if(call.room() == 19, &format!("{room}, R = 19"));
        self.hit_if(call.room() == 0, &format!("{room}, R = 0"));
        if name != "write" {
            self.hit_if(
                done.buffer() == call.before.buffer() && call.before.buffer()[0] != 0x89,
                &format!("{room}, no {written} to give"),
            );
        }
    }

    fn write(&mut self, call: &Call, sender: u32, entry: Entry) {
        let kind = entry.kind.number();
        match call.answer {
            Ok(()) => {
                self.hit(&format!("write: type {kind}"));
                self.hit_if(
                    call.lent().is_empty(),
                    "write: Done, Size would be given to a call",
                );
                self.hit_if(sender == 1, "write: house SSRC as sender");
                self.hit_if(sender != 1, "write: another sender");
            }
            Err(Case::Limit) => {
                self.hit_if(kind == 4, "write: Limit, type 4");
                self.hit_if(kind > 15, "write: Limit, type over 15");
                self.hit_if(call.room() < 20, "order: write, Limit before Room");
                if call.before.buffer()[0] != 0x89 {
                    self.when_bytes_seen(0, "bytes: as before, write Limit");
                }
            }
            Err(_) => {}
        }
    }

    fn add(&mut self, call: &Call) {
        let Frame::Line(line::Frame::Add(add)) = call.frame else {
            return;
        };
        self.sender_add_apart(call);
        let in_use = |record: &Stream| record.in_use && record.ssrc == add.ssrc;
        let unused = call.lent().iter().position(|record| !record.in_use);
        let duplicate = call.lent().iter().any(in_use);
        match call.answer {
            Ok(()) => {
                let Some(place) = unused else { return };
                self.added(call, place);
                self.receiver_apart(call, add.ssrc);
                self.hit_if(
                    call.records()[call.size()..].iter().any(in_use),
                    "size: add Done, the SSRC is used past the lent records",
                );
                let has_ssrc = |record: &Stream| !record.in_use && record.ssrc == add.ssrc;
                self.hit_if(
                    call.lent().iter().any(has_ssrc),
                    "add: an unused record has the SSRC",
                );
            }
            Err(Case::Limit) => {
                self.hit_if(duplicate, "order: add, Limit before Duplicate");
                self.hit_if(unused.is_none(), "order: add, Limit before Full");
                if let Some(place) = unused {
                    self.when_seen(place, "record: as before, add Limit");
                }
            }
            Err(Case::Duplicate) => {
                self.hit_if(unused.is_none(), "order: add, Duplicate before Full");
                if let Some(place) = unused {
                    self.when_seen(place, "record: as before, add Duplicate");
                }
            }
            Err(Case::Full) => {
                self.hit_if(call.size() == PLACES, "size: add Full, S = 64");
                if !call.records()[call.size()].in_use {
                    self.hit_if(
                        call.size() < PLACES,
                        "size: add Full under 64, an unused record past the lent ones",
                    );
                    self.when_seen(call.size(), "record: as before, add Full");
                }
            }
            Err(_) => {}
        }
    }

    fn added(&mut self, call: &Call, place: usize) {
        let before = &call.records()[place];
        if self.removed[place] {
            self.when_seen(place, "record: added where one was removed");
        }
        self.lent[place] = false;
        self.removed[place] = false;
        self.heirs.clear();
        if call.lent()[place..].iter().any(|record| record.in_use) {
            self.when_seen(place, "record: added below a used one");
        }
        if place == PLACES - 1 {
            self.when_seen(place, "record: added at the last of 64");
        }
        if call.size() == 1 {
            self.when_seen(place, "record: added as the only one lent");
        }
        let left = before.repeats > 0 && before.sequence > 0 && before.hold_off > 0;
        if left {
            let state = state_name(before.state);
            let name = format!("record: added over an unused one in {state}");
            self.when_seen(place, &name);
        }
    }

    /// A call for one SSRC.
    fn local(&mut self, call: &Call, ssrc: u32, time: u32) {
        let name = call.name;
        if call.answer == Err(Case::Size) {
            return;
        }
        let place = answering(call.lent(), ssrc);
        let Some(place) = place else {
            return self.no_stream(call, ssrc);
        };
        let before = call.records()[place].clone();
        self.hit_if(
            place == PLACES - 1,
            &format!("place: {name} at the 64th record"),
        );
        match call.answer {
            Ok(()) => self.answered(call, place),
            Err(Case::Held) => {
                self.when_seen(place, "record: as before, send Held");
                self.hit_if(call.room() < 20, "room: send Held, R under 20");
            }
            Err(_) => return,
        }
        if name == "remove" {
            return self.removed(call, place);
        }
        self.cell(place, name, &before, time);
        if name == "time" {
            clock(&mut self.counts, &before, time);
            self.own_time(&before, time);
        }
        if name == "report" && before.repeats > 0 {
            self.hit_if(before.state == State::Playing, "report: r > 0 in Playing");
            let pausing = matches!(before.state, State::Pausing { .. });
            self.hit_if(pausing, "report: r > 0 in Pausing");
        }
        if name == "send" && call.answer.is_ok() && WRAPS.contains(&before.sequence) {
            let number = before.sequence;
            self.when_seen(place, &format!("record: sent sequence number {number}"));
        }
        self.entered(place, &before);
    }

    fn no_stream(&mut self, call: &Call, ssrc: u32) {
        let name = call.name;
        if REPLYING.contains(&name) {
            self.hit_if(
                call.room() < 20,
                &format!("order: {name}, NoStream before Room"),
            );
        }
        let past = call.records()[call.size()..].iter();
        let used = past.filter(|record| record.in_use && record.ssrc == ssrc);
        self.hit_if(
            used.count() > 0,
            &format!("size: {name} NoStream, used past the lent records"),
        );
        self.hit_if(
            answering(call.lent_remotes(), ssrc).is_some(),
            &format!("apart: {name} NoStream, in use at the receiver's"),
        );
        for place in 0..RECORDS {
            if call.records()[place].ssrc == ssrc {
                self.when_seen(place, &format!("record: as before, {name} NoStream"));
            }
        }
    }

    /// The record that answered, and the others that have its SSRC.
    fn answered(&mut self, call: &Call, place: usize) {
        let name = call.name;
        let ssrc = call.records()[place].ssrc;
        let changed = call.records()[place] != self.console.table().records()[place];
        if changed {
            self.when_seen(place, &format!("record: changed by {name}"));
            self.receiver_apart(call, ssrc);
        } else {
            self.when_seen(place, &format!("record: as before, {name} Done"));
        }
        self.hit_if(
            self.heirs.contains(&ssrc),
            "twins: the second answers after the first was removed",
        );
        for other in 0..call.size() {
            let record = &call.records()[other];
            if other == place || record.ssrc != ssrc {
                continue;
            }
            let which = match (record.in_use, other < place) {
                (true, _) => "second of two",
                (false, true) => "unused one before it",
                (false, false) => "unused one after it",
            };
            self.when_seen(other, &format!("record: {which}, {name}"));
        }
    }

    fn removed(&mut self, call: &Call, place: usize) {
        let record = &call.records()[place];
        let state = state_name(record.state);
        self.when_seen(place, &format!("record: removed in {state}"));
        self.removed[place] = true;
        if answering(&call.lent()[place + 1..], record.ssrc).is_some() {
            self.heirs.insert(record.ssrc);
        } else {
            self.heirs.remove(&record.ssrc);
        }
    }

    /// One cell of the state table; of a record that was lent.
    fn cell(&mut self, place: usize, event: &str, before: &Stream, time: u32) {
        if self.lent[place] {
            self.hit(&cell_of(event, before, time));
        }
    }

    /// What entering a state does to c and r.
    fn entered(&mut self, place: usize, before: &Stream) {
        let after = self.console.table().records()[place].clone();
        let (from, to) = (state_name(before.state), state_name(after.state));
        if from == to {
            return;
        }
        if to == "Pausing" {
            if before.repeats > 0 {
                self.when_seen(place, "record: r > 0 kept on entering Pausing");
            }
        } else if before.repeats == 255 {
            self.when_seen(place, &format!("record: r = 255 on entering {to}"));
        }
        if to == "Playing" && WRAPS.contains(&before.pause_id) {
            let name = format!("record: to Playing from c = {}", before.pause_id);
            self.when_seen(place, &name);
        }
    }

    /// A time event at the very time of the PAUSE.
    fn own_time(&mut self, stream: &Stream, time: u32) {
        let State::Pausing { deadline } = stream.state else {
            return;
        };
        if time == deadline.wrapping_sub(stream.hold_off) {
            self.hit_if(
                stream.hold_off == 1 << 31,
                "clock: H = 2^31, not due at the PAUSE's own time",
            );
            self.hit_if(
                stream.hold_off > 1 << 31,
                "clock: H over 2^31, due at the PAUSE's own time",
            );
        }
    }

    fn datagram(&mut self, call: &Call, time: u32, bytes: &[u8]) {
        if call.answer == Err(Case::Size) {
            return;
        }
        let (read, entries) = datagram(&mut self.counts, "datagram: ", bytes);
        if read.is_err() {
            self.hit_if(
                call.room() < PACKET * entries.len(),
                "order: datagram, a fault before Room",
            );
            return self.refused_after(call, time, &entries);
        }
        let n = entries.len();
        let needed = PACKET * n;
        let done = call.answer.is_ok();
        let room = call.room();
        let answer = if done { "Done" } else { "Room" };
        match (done, needed.checked_sub(room)) {
            (true, Some(0)) | (false, Some(1)) if n > 0 => {
                let which = match n {
                    1 => format!("n = 1, R = {room}"),
                    _ if done => "n > 1, R = 20n".to_string(),
                    _ => "n > 1, R one less than 20n".to_string(),
                };
                self.hit(&format!("room: datagram {answer}, {which}"));
                if n == MOST_ENTRIES {
                    let room = if done { "3,720" } else { "3,719" };
                    self.hit(&format!("room: datagram {answer}, n = 186, R = {room}"));
                }
                self.hit_if(
                    call.reply == PACKET * MOST_ENTRIES,
                    "room: datagram Done, 186 replies, R = 3,720",
                );
            }
            _ => {}
        }
        let given = given(call, time, bytes, &entries);
        if done {
            replies(&mut self.counts, n, &given);
            self.bytes_after_replies(call, n);
            return self.entries(call, time, &entries);
        }
        self.hit_if(room == 0, "room: datagram Room, R = 0");
        if n > 1 {
            let one_packet = HEADER + HEAD + ENTRY * n;
            let fit = "room: datagram Room, n > 1, one packet of n entries would";
            self.hit_if(room >= one_packet, &format!("{fit} fit"));
            self.hit_if(room == one_packet, &format!("{fit} just fit"));
        }
        match PACKET * given.len() {
            0 => self.hit("room: datagram Room, no reply to give"),
            replies => {
                let fit = "room: datagram Room, the replies alone would";
                self.hit_if(room >= replies, &format!("{fit} fit"));
                self.hit_if(room == replies, &format!("{fit} just fit"));
            }
        }
    }

    /// The bytes after the replies to n entries, where they are not 00.
    fn bytes_after_replies(&mut self, call: &Call, n: usize) {
        if call.reply == 0 {
            // A packet would begin otherwise.
            if n > 0 && call.before.buffer()[0] != 0x89 {
                let name = "bytes: as before, datagram Done with entries, without a reply";
                self.when_bytes_seen(0, name);
            }
            return;
        }
        let buffer = self.console.buffer();
        let Some(after) = (call.reply..BUFFER).find(|&place| buffer[place] != 0) else {
            return;
        };
        let as_before = "bytes: as before after";
        if call.reply > PACKET {
            self.when_bytes_seen(after, &format!("{as_before} several replies, datagram"));
        }
        if after < PACKET * n {
            self.when_bytes_seen(
                after,
                &format!("{as_before} fewer replies than n, datagram"),
            );
        }
        if call.reply == PACKET * MOST_ENTRIES {
            self.when_bytes_seen(after, &format!("{as_before} 186 replies, datagram"));
        }
    }

    /// "Running events while reading" would show in what the entries before the fault change.
    fn refused_after(&mut self, call: &Call, time: u32, entries: &[Entry]) {
        for entry in entries {
            let Some(place) = answering(call.lent(), entry.target) else {
                continue;
            };
            let mut record = call.records()[place].clone();
            let reply = record.receive(entry.kind, entry.pause_id, time);
            if record != call.records()[place] {
                let name = "record: as before, datagram refused after an entry";
                self.when_seen(place, name);
            }
            if reply.is_some() && call.before.buffer()[0] != 0x89 {
                self.when_bytes_seen(0, "bytes: as before, datagram refused after an entry");
            }
        }
    }

    /// The entries of a datagram that was served, run in order.
    fn entries(&mut self, call: &Call, time: u32, entries: &[Entry]) {
        let mut records = call.lent().to_vec();
        for entry in entries {
            self.paused_at_the_receiver(call, entry);
            let Some(place) = answering(&records, entry.target) else {
                let past = &call.records()[call.size()..];
                self.hit_if(
                    answering(past, entry.target).is_some(),
                    "size: a target used past the lent records alone is in u",
                );
                continue;
            };
            let before = records[place].clone();
            records[place].receive(entry.kind, entry.pause_id, time);
            self.hit_if(place == PLACES - 1, "place: datagram at the 64th record");
            let event = entry_event(&before, entry);
            self.cell(place, event, &before, time);
            if self.lent[place] && matches!(entry.kind, Kind::Pause | Kind::Resume) {
                distance(&mut self.counts, &before, entry.pause_id);
            }
            self.answered(call, place);
            // What a look shows is the record after the last entry.
            if records[place] == self.console.table().records()[place] {
                self.entered(place, &before);
                let paused = event == "PAUSE current" && before.state == State::Playing;
                if paused && HOLD_OFFS.contains(&before.hold_off) {
                    let name = format!("record: PAUSE with H = {}", before.hold_off);
                    self.when_seen(place, &name);
                }
            }
        }
    }

    fn step(&mut self, number: u64, bytes: &[u8], answer: Result<(), Case>) {
        let (_, entries) = datagram(&mut self.counts, "step: ", bytes);
        let count = entries.len() as u64;
        if let Err(case) = answer {
            self.hit(&format!("answer: step, {case:?}"));
            return self.hit_if(number < count, "step: refused after the entry asked for");
        }
        self.hit_if(self.console.room() == 0, "room: step Done, R = 0");
        self.hit_if(
            matches!(self.console.table().size(), 0 | 65),
            "step: Done, Size would be given to a call",
        );
        self.hit_if(number == 1 << 32, "step: k = 2^32");
        self.hit_if(number == 1 << 63, "step: k = 2^63");
        self.hit_if(number == u64::MAX, "step: k = 2^64 - 1");
        for power in [8, 16, 32, 63] {
            // 0 would be an entry's number of any datagram that has one.
            let rest = number ^ 1 << power;
            self.hit_if(
                rest > 0 && rest < count,
                &format!("step: k an entry's number and 2^{power} more"),
            );
        }
        self.hit_if(count == 0, "step: End of a datagram without FMT 9");
        self.hit_if(count > 0 && number == count, "step: k one past the last");
        if number >= count {
            return self.hit("answer: step, End");
        }
        self.hit("answer: step, an entry");
        self.hit_if(number == 0, "step: k = 0");
        self.hit_if(number + 1 == count, "step: k the last");
        self.entry(number, bytes);
    }

    /// The entry that a step gives.
    fn entry(&mut self, number: u64, bytes: &[u8]) {
        let Some((walk, found)) = Walk::open(bytes)
            .ok()
            .and_then(|walk| walk.step(number).map(|found| (walk, found)))
        else {
            return;
        };
        let earlier: Vec<_> = (0..number).filter_map(|number| walk.step(number)).collect();
        let packets = packets_before(bytes, found.place);
        let kind = found.entry.kind.number();
        self.hit(&format!("step: entry of type {kind}"));
        self.hit_if(packets.len() > 1, "step: entry of a later packet");
        self.hit_if(
            earlier.iter().any(|other| other.sender != found.sender),
            "step: entry of another sender than the first",
        );
        self.hit_if(found.place > 255, "step: entry at a place over 255");
        self.hit_if(
            earlier.last().is_some_and(|other| other.words > 0),
            "step: entry after one with parameters",
        );
        self.hit_if(number > 127, "step: entry number over 127");
        self.hit_if(
            bytes[found.place + 4] & 0x0f != 0,
            "step: entry with reserved bits",
        );
        self.hit_if(found.words == 1, "step: entry with 1 word of parameters");
        self.hit_if(
            found.words == 255,
            "step: entry with 255 words of parameters",
        );
    }

    // Lines that are no frames.

    fn broken_frame(&mut self, bytes: &[u8]) {
        let first = bytes[0];
        if first == 0x12 && bytes.len() > 1 && usize::from(bytes[1]) < RECORDS {
            self.when_seen(bytes[1].into(), "record: as before, a lend that is Line");
        }
        if first == 0x28 && bytes.len() > 1 && usize::from(bytes[1]) < RECORDS {
            self.remote_broken_lend(bytes[1].into());
        }
        if first == 0xe0 && self.console.room() < BUFFER {
            self.when_bytes_seen(0, "bytes: as many as before, a room that is Line");
        }
        if first == 0xe2 && bytes.get(1) != Some(&self.console.buffer()[0]) {
            self.when_bytes_seen(0, "bytes: as before, a fill that is Line");
        }
        let Some((_, length)) = LENGTHS.iter().find(|(frame, _)| *frame == first) else {
            return match LATER.contains(&first) {
                true => self.hit(&format!("line: first byte {first:02x}")),
                false => self.hit("line: another first byte"),
            };
        };
        if bytes.len() < *length {
            return self.hit(&format!("line: frame {first:02x} too short"));
        }
        if bytes.len() > *length {
            self.hit(&format!("line: frame {first:02x} too long"));
            return match (first, bytes.len()) {
                (0x02 | 0x03, 9) => self.hit(&format!("line: frame {first:02x} with a time")),
                (0x12, 26 | 42 | 46) => {
                    let record = bytes.len() - 2;
                    self.hit(&format!("line: lend of a record of {record} bytes"));
                }
                _ => {}
            };
        }
        self.field_over_its_limit(bytes);
    }

    fn field_over_its_limit(&mut self, bytes: &[u8]) {
        match *bytes {
            [0x01, ..] => self.hit("line: nowait over 01"),
            [0xe0, 0x0f, 0xa1] => self.hit("line: room 4,001"),
            [0xe0, ..] => self.hit("line: room over 4,001"),
            [0xe1, 66] => self.hit("line: size 66"),
            [0xe1, ..] => self.hit("line: size over 66"),
            [0x11, 65] => self.hit("line: record at place 65"),
            [0x11, ..] => self.hit("line: record at a place over 65"),
            [0x12, 65, ..] => self.hit("line: lend at place 65"),
            [0x12, 66..=255, ..] => self.hit("line: lend at a place over 65"),
            [0x12, _, 2..=255, ..] => self.hit("line: used over 01"),
            [0x27, 65] => self.hit("remote line: record at place 65"),
            [0x27, ..] => self.hit("remote line: record at a place over 65"),
            [0x28, 65, ..] => self.hit("remote line: lend at place 65"),
            [0x28, 66..=255, ..] => self.hit("remote line: lend at a place over 65"),
            [0x28, _, 2..=255, ..] => self.hit("remote line: used over 01"),
            [0x28, ..] => self.hit("remote line: state over 03"),
            _ => self.hit("line: state over 03"),
        }
    }
}

/// The replies that entries get, or would get with room for them.
fn given(call: &Call, time: u32, bytes: &[u8], entries: &[Entry]) -> Vec<Reply> {
    let mut records = call.lent().to_vec();
    let mut given = Vec::new();
    for (entry, packet) in entries.iter().zip(packets_of_entries(bytes)) {
        let Some(place) = answering(&records, entry.target) else {
            continue;
        };
        let reply = records[place].receive(entry.kind, entry.pause_id, time);
        given.extend(reply.map(|entry| Reply {
            entry,
            place,
            packet,
        }));
    }
    given
}

/// The place of the first record in use with an SSRC.
fn answering<R: Record>(records: &[R], ssrc: u32) -> Option<usize> {
    records
        .iter()
        .position(|record| record.in_use() && record.ssrc() == ssrc)
}

fn main() -> ExitCode {
    count("console_reached", Reached::new())
}
