//! Counts what input lines reach, so that a hole in the generated lines shows.
//!
//! `reached [FILE...]` reads each file, or standard input without one, as the input of one run of
//! the line program. It prints `count name` for each thing in a fixed order, and ends with status 1
//! when a count is 0.

use std::collections::{HashMap, HashSet};
use std::process::ExitCode;

use second::count::{
    self, broken_digits, cell_names, cell_of, clock, count, datagram_names, distance,
    distance_names, entry_event, line_names, packets_before, packets_of_entries, replies,
    reply_names, Counter, Counts, Reply,
};
use second::line::{perform, read_digits, Frame, ROOM};
use second::packet::{Entry, Kind, MOST_ENTRIES};
use second::refusal::{Case, Refusal};
use second::row::PLACES;
use second::stream::{is_due, State, Stream};
use second::table::{Add, Table, MOST_MILLISECONDS};

/// What is counted besides the cells, the datagrams and the digits.
const REST: &[&str] = &[
    "refusal: NoStream, local pause",
    "refusal: NoStream, local resume",
    "refusal: NoStream, time",
    "refusal: NoStream, report",
    "refusal: NoStream, send",
    "refusal: Held",
    "refusal: Limit",
    "refusal: Limit with nowait",
    "refusal: Limit, SSRC in use too",
    "refusal: Limit, table full too",
    "refusal: Limit, doubled RTT runs over 2^32",
    "refusal: Duplicate",
    "refusal: Duplicate, table full too",
    "refusal: Full",
    "refusal: Line",
    "fault after an entry that would change its stream, same packet",
    "fault after an entry that would change its stream, earlier packet",
    "limit: datagram of 1,545 bytes",
    "limit: 64th stream added",
    "limit: RTT 60,000 passes",
    "limit: RTT 60,001",
    "limit: dither 60,000 passes",
    "limit: dither 60,001",
    "limit: H of 180,000",
    "limit: 186 entries",
    "limit: 186 replies",
    "PauseID: c from 65,535 to 0",
    "sequence number from 65,535 to 0",
    "clock: deadline runs over",
    "clock: RESUME current after the deadline",
    "clock: PAUSE current in Pausing after the deadline",
    "H = 0: PAUSE current in Playing, by nowait",
    "H = 0: PAUSE current in Playing, RTT and dither 0",
    "reports: local pause in Paused with r under 2",
    "reports: PAUSE in Paused with r under 2",
    "entries: several for one stream",
    "entries: state changed twice in one datagram",
    "entries: for a stranger",
    "entries: all for strangers",
    "entries: some for strangers",
    "entries: for SSRC 0 in use",
    "entries: for SSRC ffffffff in use",
    "entries: for the 64th stream",
    "line: Done",
    "line: unknown first byte",
    "line: frame 00 too short",
    "line: frame 01 too short",
    "line: frame 01 too long",
    "line: frame 02 too short",
    "line: frame 02 too long",
    "line: frame 03 too short",
    "line: frame 03 too long",
    "line: frame 04 too short",
    "line: frame 04 too long",
    "line: frame 05 too short",
    "line: frame 05 too long",
    "line: frame 06 too short",
    "line: frame 06 too long",
    "line: nowait over 01",
    "line: nowait over 01, RTT over 60,000 too",
];

/// Every name, in the order of printing.
fn names() -> Vec<String> {
    let mut names = cell_names(&["r = 2", "r = 1", "r = 0"]);
    names.extend(distance_names());
    names.extend(datagram_names(""));
    names.extend(reply_names());
    names.extend(line_names());
    names.extend(REST.iter().map(|name| name.to_string()));
    names
}

/// Whether an entry would change its stream.
fn would_change(stream: &Stream, entry: &Entry, time: u32) -> bool {
    let mut copy = stream.clone();
    copy.receive(entry.kind, entry.pause_id, time);
    copy != *stream
}

/// The counts, and the line program's table as far as the run has come.
struct Reached {
    counts: Counts,
    table: Table,
    /// The SSRCs added with nowait.
    nowait: HashSet<u32>,
}

impl Counter for Reached {
    fn start(&mut self) {
        self.table = Table::default();
        self.nowait.clear();
    }

    fn line(&mut self, line: &[u8]) {
        let mut bytes = Vec::new();
        let digits = read_digits(line, &mut bytes);
        match digits.and_then(|()| Frame::read(&bytes)) {
            Some(frame) => self.frame(frame),
            None => {
                self.hit("refusal: Line");
                if broken_digits(&mut self.counts, line, |frame| Frame::read(frame).is_some()) {
                    self.broken_frame(&bytes);
                }
            }
        }
    }

    fn counts(&mut self) -> &mut Counts {
        &mut self.counts
    }
}

impl Reached {
    fn new() -> Self {
        Reached {
            counts: Counts::new(names()),
            table: Table::default(),
            nowait: HashSet::new(),
        }
    }

    fn hit(&mut self, name: &str) {
        self.counts.hit(name);
    }

    fn hit_if(&mut self, reached: bool, name: &str) {
        self.counts.hit_if(reached, name);
    }

    /// Good digits that are no frame.
    fn broken_frame(&mut self, bytes: &[u8]) {
        let first = bytes[0];
        let length = match first {
            0 => 5,
            1 => 18,
            4 => 9,
            2 | 3 | 5 | 6 => 5,
            _ => return self.hit("line: unknown first byte"),
        };
        if bytes.len() < length {
            self.hit(&format!("line: frame {first:02x} too short"));
        } else if bytes.len() > length {
            self.hit(&format!("line: frame {first:02x} too long"));
        } else {
            self.hit("line: nowait over 01");
            let rtt = u32::from_be_bytes([bytes[9], bytes[10], bytes[11], bytes[12]]);
            self.hit_if(
                rtt > MOST_MILLISECONDS,
                "line: nowait over 01, RTT over 60,000 too",
            );
        }
    }

    fn frame(&mut self, frame: Frame) {
        match frame {
            Frame::Datagram { time, bytes } => self.datagram(bytes, time),
            Frame::Add(add) => self.add(add),
            Frame::LocalPause { ssrc } => self.local("local pause", ssrc, 0, frame),
            Frame::LocalResume { ssrc } => self.local("local resume", ssrc, 0, frame),
            Frame::Time { ssrc, time } => self.local("time", ssrc, time, frame),
            Frame::Report { ssrc } => self.local("report", ssrc, 0, frame),
            Frame::Send { ssrc } => self.local("send", ssrc, 0, frame),
        }
    }

    fn local(&mut self, event: &'static str, ssrc: u32, time: u32, frame: Frame) {
        let Some(before) = self.table.find(ssrc).cloned() else {
            return self.hit(&format!("refusal: NoStream, {event}"));
        };
        self.hit(&cell_of(event, &before, time));
        if event == "time" {
            clock(&mut self.counts, &before, time);
        }
        self.hit_if(
            event == "local pause" && before.state == State::Paused && before.repeats < 2,
            "reports: local pause in Paused with r under 2",
        );
        match perform(&mut self.table, ROOM, frame) {
            Ok(_) => self.hit("line: Done"),
            Err(_) => self.hit("refusal: Held"),
        }
        self.steps(&before);
    }

    /// The two counters of a stream at their wraps.
    fn steps(&mut self, before: &Stream) {
        let Some(after) = self.table.find(before.ssrc).cloned() else {
            return;
        };
        self.hit_if(
            after.pause_id < before.pause_id,
            "PauseID: c from 65,535 to 0",
        );
        self.hit_if(
            after.sequence < before.sequence,
            "sequence number from 65,535 to 0",
        );
    }

    fn add(&mut self, add: Add) {
        let in_use = self.table.find(add.ssrc).is_some();
        let full = self.table.streams().len() == PLACES;
        self.hit_if(add.rtt == MOST_MILLISECONDS + 1, "limit: RTT 60,001");
        self.hit_if(add.dither == MOST_MILLISECONDS + 1, "limit: dither 60,001");
        match self.table.add(add).map_err(|refusal| refusal.case) {
            Ok(()) => self.added(add),
            Err(Case::Limit) => {
                self.hit("refusal: Limit");
                self.hit_if(add.nowait, "refusal: Limit with nowait");
                self.hit_if(in_use, "refusal: Limit, SSRC in use too");
                self.hit_if(full, "refusal: Limit, table full too");
                self.hit_if(
                    add.rtt >= 1 << 31,
                    "refusal: Limit, doubled RTT runs over 2^32",
                );
            }
            Err(Case::Duplicate) => {
                self.hit("refusal: Duplicate");
                self.hit_if(full, "refusal: Duplicate, table full too");
            }
            Err(_) => self.hit("refusal: Full"),
        }
    }

    fn added(&mut self, add: Add) {
        self.hit("line: Done");
        let streams = self.table.streams();
        let largest = streams.last().is_some_and(|last| last.hold_off == 180_000);
        let last_place = streams.len() == PLACES;
        self.hit_if(largest, "limit: H of 180,000");
        self.hit_if(last_place, "limit: 64th stream added");
        self.hit_if(add.rtt == MOST_MILLISECONDS, "limit: RTT 60,000 passes");
        self.hit_if(
            add.dither == MOST_MILLISECONDS,
            "limit: dither 60,000 passes",
        );
        if add.nowait {
            self.nowait.insert(add.ssrc);
        }
    }

    fn datagram(&mut self, bytes: &[u8], time: u32) {
        let (read, entries) = count::datagram(&mut self.counts, "", bytes);
        match read {
            Ok(()) => {
                self.hit("line: Done");
                self.entries(&entries, &packets_of_entries(bytes), time);
            }
            Err(refusal) => {
                self.hit_if(bytes.len() == 1_545, "limit: datagram of 1,545 bytes");
                self.undone(bytes, refusal, &entries, time);
            }
        }
    }

    /// The entries of a datagram without fault, run in order, with the packets they stand in.
    fn entries(&mut self, entries: &[Entry], packets: &[usize], time: u32) {
        let mut strangers = 0;
        let mut given = Vec::new();
        let mut changes: HashMap<u32, usize> = HashMap::new();
        for (entry, &packet) in entries.iter().zip(packets) {
            let place = self
                .table
                .streams()
                .iter()
                .position(|stream| stream.ssrc == entry.target);
            let Some(place) = place else {
                strangers += 1;
                continue;
            };
            let before = self.table.streams()[place].clone();
            self.hit_if(place == PLACES - 1, "entries: for the 64th stream");
            self.received(&before, entry, time);
            if let Some(stream) = self.table.find(entry.target) {
                let reply = stream.receive(entry.kind, entry.pause_id, time);
                given.extend(reply.map(|entry| Reply {
                    entry,
                    place,
                    packet,
                }));
                let change = usize::from(stream.state != before.state);
                *changes.entry(entry.target).or_default() += change;
            }
            self.steps(&before);
        }
        replies(&mut self.counts, entries.len(), &given);
        self.hit_if(entries.len() == MOST_ENTRIES, "limit: 186 entries");
        self.hit_if(given.len() == MOST_ENTRIES, "limit: 186 replies");
        self.hit_if(strangers > 0, "entries: for a stranger");
        if strangers == entries.len() {
            self.hit_if(strangers > 0, "entries: all for strangers");
        } else {
            self.hit_if(strangers > 0, "entries: some for strangers");
        }
        self.hit_if(
            changes.len() + strangers < entries.len(),
            "entries: several for one stream",
        );
        self.hit_if(
            changes.values().any(|&count| count > 1),
            "entries: state changed twice in one datagram",
        );
    }

    /// One entry for a stream in use, seen from the record before it.
    fn received(&mut self, before: &Stream, entry: &Entry, time: u32) {
        let event = entry_event(before, entry);
        self.hit(&cell_of(event, before, time));
        self.hit_if(before.ssrc == 0, "entries: for SSRC 0 in use");
        self.hit_if(before.ssrc == u32::MAX, "entries: for SSRC ffffffff in use");
        if matches!(entry.kind, Kind::Pause | Kind::Resume) {
            distance(&mut self.counts, before, entry.pause_id);
        }
        match (event, before.state) {
            ("PAUSE current", State::Playing) => self.pause_in_playing(before, time),
            ("PAUSE current", State::Pausing { deadline }) => self.hit_if(
                is_due(deadline, time),
                "clock: PAUSE current in Pausing after the deadline",
            ),
            ("PAUSE current", State::Paused) => self.hit_if(
                before.repeats < 2,
                "reports: PAUSE in Paused with r under 2",
            ),
            ("RESUME current", State::Pausing { deadline }) => self.hit_if(
                is_due(deadline, time),
                "clock: RESUME current after the deadline",
            ),
            _ => {}
        }
    }

    fn pause_in_playing(&mut self, before: &Stream, time: u32) {
        if before.hold_off > 0 {
            let runs_over = time.checked_add(before.hold_off).is_none();
            self.hit_if(runs_over, "clock: deadline runs over");
        } else if self.nowait.contains(&before.ssrc) {
            self.hit("H = 0: PAUSE current in Playing, by nowait");
        } else {
            self.hit("H = 0: PAUSE current in Playing, RTT and dither 0");
        }
    }

    /// "Running events while reading" would show where an entry before the fault would change its stream.
    fn undone(&mut self, bytes: &[u8], refusal: Refusal, entries: &[Entry], time: u32) {
        let changes = entries.iter().any(|entry| {
            let stream = self.table.find(entry.target);
            stream.is_some_and(|stream| would_change(stream, entry, time))
        });
        let same_packet = refusal.case == Case::Entry
            && packets_before(bytes, refusal.place)
                .iter()
                .filter(|packet| packet.has_entries())
                .count()
                == 1;
        self.hit_if(
            changes && same_packet,
            "fault after an entry that would change its stream, same packet",
        );
        self.hit_if(
            changes && refusal.case != Case::Entry,
            "fault after an entry that would change its stream, earlier packet",
        );
    }
}

fn main() -> ExitCode {
    count("reached", Reached::new())
}
