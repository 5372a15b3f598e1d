//! Counts what is reached of the receiver's table; the names are in `receiver_names.rs`.

use std::collections::BTreeSet;

use second::console::{self, RECORDS};
use second::count::{datagram, packets_before, packets_of_entries};
use second::line::MOST_DIGITS;
use second::packet::{self, Entry, Kind};
use second::receiver_frames::Frame;
use second::refusal::Case;
use second::remote::{Remote, State};
use second::row::PLACES;

use crate::receiver_names::{DISTANCES, LEFT, STATES, WRITING};
use crate::{answering, Call, Reached, WRAPS};

/// An ask that was sent, and what came since.
#[derive(Clone, Copy, Debug, Default)]
struct Ask {
    pause_id: u16,
    reports: u8,
    /// Whether anything but reports came.
    disturbed: bool,
    busy: bool,
    room: bool,
    /// A received PAUSE or RESUME, or another type that does nothing.
    idle: bool,
    paused: bool,
    media: bool,
    /// What ended it.
    ended: Option<&'static str>,
}

/// The receiver's table as far as the run has come.
#[derive(Debug)]
pub struct Remotes {
    /// Whether the record at a place was removed, and neither lent nor added since.
    removed: [bool; RECORDS],
    /// SSRCs whose first record was removed, so that another answers for them.
    heirs: BTreeSet<u32>,
    /// What the next look at a place shows.
    in_record: Vec<BTreeSet<String>>,
    /// The last ask at a place that was sent; nothing after a lend, an add or a remove.
    asks: [Option<Ask>; RECORDS],
}

impl Default for Remotes {
    fn default() -> Self {
        let start = "remote record: unused at the start".to_string();
        Remotes {
            removed: [false; RECORDS],
            heirs: BTreeSet::new(),
            in_record: vec![[start].into(); RECORDS],
            asks: [None; RECORDS],
        }
    }
}

impl Remotes {
    /// Forgets what a look would have shown of a record that is another now.
    pub fn changed(&mut self, place: usize) {
        self.in_record[place].clear();
    }
}

/// The name of a call; nothing for a look and a lend.
pub fn call_name(frame: &Frame) -> Option<&'static str> {
    let name = match frame {
        Frame::Datagram { .. } => "datagram",
        Frame::Add { .. } => "add",
        Frame::AskToPause { .. } => "ask to pause",
        Frame::AskToResume { .. } => "ask to resume",
        Frame::Report { .. } => "report",
        Frame::MediaSeen { .. } => "media seen",
        Frame::Remove { .. } => "remove",
        Frame::Record { .. } | Frame::Lend { .. } => return None,
    };
    Some(name)
}

fn state_name(state: State) -> &'static str {
    STATES[usize::from(state.numbers().0)]
}

/// The name of an entry's event, without "received".
fn kind_name(kind: Kind) -> &'static str {
    match kind {
        Kind::Pause => "PAUSE",
        Kind::Resume => "RESUME",
        Kind::Paused => "PAUSED",
        Kind::Refused => "REFUSED",
        Kind::Other(_) => "type 4 to 15",
    }
}

/// The cell an event falls into, seen from the record before it.
fn cell_of(event: &str, before: &Remote, same_id: bool) -> String {
    let state = state_name(before.state);
    let left = match (before.is_asked(), before.state.numbers().1) {
        (false, _) => String::new(),
        (true, left) if event != "report" => match left {
            0..=3 => ", left under 4".to_string(),
            4 => ", left = 4".to_string(),
            _ => ", left over 4".to_string(),
        },
        (true, left) if LEFT.contains(&left) => format!(", left = {left}"),
        (true, _) => ", another left".to_string(),
    };
    let id = if same_id { ", the same ID" } else { "" };
    format!("remote cell: {event}, {state}{left}{id}")
}

impl Reached {
    /// Counts a name once the record at a place of the receiver's table is looked at as it is now.
    fn when_remote_seen(&mut self, place: usize, name: &str) {
        self.remotes.in_record[place].insert(name.to_string());
    }

    // Frames that are no calls.

    pub fn remote_no_call(&mut self, frame: &Frame, bytes: &[u8]) {
        match frame {
            Frame::Record { place } => self.remote_look(*place),
            Frame::Lend { place, record } => self.remote_lend(*place, record, bytes),
            _ => {}
        }
    }

    fn remote_look(&mut self, place: usize) {
        self.hit_if(
            place >= self.console.receiver().size(),
            "remote frame: record at a place past the size",
        );
        for name in std::mem::take(&mut self.remotes.in_record[place]) {
            self.hit(&name);
        }
    }

    fn remote_lend(&mut self, place: usize, record: &Remote, bytes: &[u8]) {
        self.remotes.removed[place] = false;
        self.remotes.heirs.clear();
        self.remotes.asks[place] = None;
        self.remotes.changed(place);
        self.hit_if(
            place >= self.console.receiver().size(),
            "remote frame: lend at a place past the size",
        );
        let state = state_name(record.state);
        let used = if record.in_use { "used" } else { "unused" };
        self.when_remote_seen(place, &format!("remote record: lent {used} in {state}"));
        let left = bytes[10];
        if !record.is_asked() && left > 0 {
            let name = format!("remote record: left passed over in {state}");
            self.when_remote_seen(place, &name);
        }
        if record.is_asked() && LEFT.contains(&left) {
            let name = format!("remote record: lent left = {left} in {state}");
            self.when_remote_seen(place, &name);
        }
        if place == RECORDS - 1 {
            self.when_remote_seen(place, "remote record: lent at place 64");
        }
        if WRAPS.contains(&record.pause_id) {
            let name = format!("remote record: lent ID {}", record.pause_id);
            self.when_remote_seen(place, &name);
        }
    }

    // Calls.

    pub fn remote_call(&mut self, call: &Call, frame: &Frame) {
        let name = call.name;
        match call.answer {
            Err(case) => self.hit(&format!("remote answer: {name}, {case:?}")),
            Ok(()) => self.remote_done(call),
        }
        if call.reply > 0 {
            self.reply(call);
        }
        match *frame {
            Frame::Datagram { bytes } => self.remote_datagram(call, bytes),
            Frame::Add { ssrc, pause_id } => self.remote_add(call, ssrc, pause_id),
            Frame::AskToPause { ssrc }
            | Frame::AskToResume { ssrc }
            | Frame::Report { ssrc }
            | Frame::MediaSeen { ssrc }
            | Frame::Remove { ssrc } => self.remote_local(call, ssrc),
            Frame::Record { .. } | Frame::Lend { .. } => {}
        }
        match call.answer {
            Err(Case::Size) => self.size_refused(call),
            Err(Case::Room) => self.room_refused(call),
            _ => {}
        }
    }

    fn remote_done(&mut self, call: &Call) {
        let name = call.name;
        let done = if !WRITING.contains(&name) {
            self.hit_if(
                call.room() == 0,
                &format!("remote room: {name} Done, R = 0"),
            );
            "Done"
        } else {
            self.hit_if(
                call.room() == 20,
                &format!("remote room: {name} Done, R = 20"),
            );
            match call.reply {
                0 => "Done without a packet",
                _ => "Done with a packet",
            }
        };
        self.hit(&format!("remote answer: {name}, {done}"));
        self.hit_if(
            call.size() == 1,
            &format!("remote size: {name} Done, S = 1"),
        );
        // A packet would begin otherwise.
        if call.reply == 0 && call.before.buffer()[0] != 0x89 {
            self.when_bytes_seen(0, &format!("remote bytes: as before, {name} {done}"));
        }
    }

    fn remote_add(&mut self, call: &Call, ssrc: u32, pause_id: u16) {
        let unused = call.lent_remotes().iter().position(|record| !record.in_use);
        let sender_full = call.lent().iter().all(|record| record.in_use);
        match call.answer {
            Ok(()) => {
                let Some(place) = unused else { return };
                self.remote_added(call, place, pause_id);
                self.hit_if(
                    answering(&call.remotes()[call.size()..], ssrc).is_some(),
                    "remote size: add Done, the SSRC is used past the lent records",
                );
                let mut lent = call.lent_remotes().iter();
                self.hit_if(
                    lent.any(|record| !record.in_use && record.ssrc == ssrc),
                    "remote add: an unused record has the SSRC",
                );
                self.hit_if(
                    sender_full,
                    "apart: remote add Done, the sender's table is full",
                );
                self.sender_apart(call, ssrc);
            }
            Err(Case::Duplicate) => {
                self.hit_if(unused.is_none(), "remote order: add, Duplicate before Full");
                if let Some(place) = unused {
                    self.when_remote_seen(place, "remote record: as before, add Duplicate");
                }
            }
            Err(Case::Full) => {
                self.hit_if(
                    !sender_full,
                    "apart: remote add Full, the sender's table is not",
                );
                self.hit_if(call.size() == PLACES, "remote size: add Full, S = 64");
                if !call.remotes()[call.size()].in_use {
                    self.hit_if(
                        call.size() < PLACES,
                        "remote size: add Full under 64, an unused record past the lent ones",
                    );
                    self.when_remote_seen(call.size(), "remote record: as before, add Full");
                }
            }
            Err(_) => {}
        }
    }

    fn remote_added(&mut self, call: &Call, place: usize, pause_id: u16) {
        if self.remotes.removed[place] {
            self.when_remote_seen(place, "remote record: added where one was removed");
        }
        self.remotes.removed[place] = false;
        self.remotes.heirs.clear();
        self.remotes.asks[place] = None;
        let mut after = call.lent_remotes()[place..].iter();
        if after.any(|record| record.in_use) {
            self.when_remote_seen(place, "remote record: added below a used one");
        }
        if place == PLACES - 1 {
            self.when_remote_seen(place, "remote record: added at the last of 64");
        }
        if call.size() == 1 {
            self.when_remote_seen(place, "remote record: added as the only one lent");
        }
        if WRAPS.contains(&pause_id) {
            let name = format!("remote record: added with ID {pause_id}");
            self.when_remote_seen(place, &name);
        }
        let before = &call.remotes()[place];
        if before.pause_id != pause_id {
            let state = state_name(before.state);
            let name = format!("remote record: added over an unused one in {state}");
            self.when_remote_seen(place, &name);
        }
    }

    /// A call for one SSRC.
    fn remote_local(&mut self, call: &Call, ssrc: u32) {
        let name = call.name;
        if call.answer == Err(Case::Size) {
            return;
        }
        let Some(place) = answering(call.lent_remotes(), ssrc) else {
            return self.remote_no_stream(call, ssrc);
        };
        let before = call.remotes()[place].clone();
        self.hit_if(
            place == PLACES - 1,
            &format!("remote place: {name} at the 64th record"),
        );
        match call.answer {
            Ok(()) => self.remote_answered(call, place),
            Err(Case::Busy) => self.busy(call),
            Err(_) => return self.report_without_room(call, place, &before),
        }
        if name == "remove" {
            return self.remote_removed(call, place);
        }
        self.when_remote_seen(place, &cell_of(name, &before, false));
        match name {
            "media seen" => self.media_seen(place, &before),
            "report" => self.report(call, place),
            _ => self.ask(call, place, &before),
        }
    }

    fn remote_no_stream(&mut self, call: &Call, ssrc: u32) {
        let name = call.name;
        if WRITING.contains(&name) {
            self.hit_if(
                call.room() < 20,
                &format!("remote order: {name}, NoStream before Room"),
            );
            if call.before.buffer()[0] != 0x89 {
                self.when_bytes_seen(0, &format!("remote bytes: as before, {name} NoStream"));
            }
        }
        self.hit_if(
            answering(&call.remotes()[call.size()..], ssrc).is_some(),
            &format!("remote size: {name} NoStream, used past the lent records"),
        );
        self.hit_if(
            answering(call.lent(), ssrc).is_some(),
            &format!("apart: remote {name} NoStream, in use at the sender's"),
        );
        for place in 0..RECORDS {
            if call.remotes()[place].ssrc == ssrc {
                let name = format!("remote record: as before, {name} NoStream");
                self.when_remote_seen(place, &name);
            }
        }
    }

    /// The record that answered, and the others that have its SSRC.
    fn remote_answered(&mut self, call: &Call, place: usize) {
        let name = call.name;
        let ssrc = call.remotes()[place].ssrc;
        if call.remotes()[place] != self.console.receiver().records()[place] {
            self.when_remote_seen(place, &format!("remote record: changed by {name}"));
            self.sender_apart(call, ssrc);
        } else {
            self.when_remote_seen(place, &format!("remote record: as before, {name} Done"));
        }
        self.hit_if(
            self.remotes.heirs.contains(&ssrc),
            "remote twins: the second answers after the first was removed",
        );
        for other in 0..call.size() {
            let record = &call.remotes()[other];
            if other == place || record.ssrc != ssrc {
                continue;
            }
            let which = match (record.in_use, other < place) {
                (true, _) => "second of two",
                (false, true) => "unused one before it",
                (false, false) => "unused one after it",
            };
            self.when_remote_seen(other, &format!("remote record: {which}, {name}"));
        }
    }

    fn remote_removed(&mut self, call: &Call, place: usize) {
        let record = &call.remotes()[place];
        let state = state_name(record.state);
        self.when_remote_seen(place, &format!("remote record: removed in {state}"));
        self.remotes.removed[place] = true;
        self.remotes.asks[place] = None;
        if answering(&call.lent_remotes()[place + 1..], record.ssrc).is_some() {
            self.remotes.heirs.insert(record.ssrc);
        } else {
            self.remotes.heirs.remove(&record.ssrc);
        }
    }

    fn busy(&mut self, call: &Call) {
        let name = call.name;
        self.hit_if(
            call.room() < 20,
            &format!("remote order: {name}, Busy before Room"),
        );
        if call.before.buffer()[0] != 0x89 {
            self.when_bytes_seen(0, &format!("remote bytes: as before, {name} Busy"));
        }
    }

    fn report_without_room(&mut self, call: &Call, place: usize, before: &Remote) {
        if call.name != "report" {
            return;
        }
        if let Some(ask) = &mut self.remotes.asks[place] {
            ask.room = true;
            ask.disturbed = true;
        }
        if before.is_asked() && before.state.numbers().1 == 0 {
            self.hit("remote room: report Room, the fifth");
            let name = "remote record: as before, report Room, the fifth";
            self.when_remote_seen(place, name);
        }
    }

    fn media_seen(&mut self, place: usize, before: &Remote) {
        if let Some(ask) = &mut self.remotes.asks[place] {
            ask.media = true;
            ask.disturbed = true;
            if before.is_asked() && before.state.numbers().0 == 3 {
                ask.ended = Some("media");
            }
        }
        let steps = !matches!(before.state, State::Receiving | State::AskedToPause { .. });
        if steps && WRAPS.contains(&before.pause_id) {
            let state = state_name(before.state);
            let name = format!("remote record: media in {state}, ID {}", before.pause_id);
            self.when_remote_seen(place, &name);
        }
    }

    /// An ask that was not refused but for Busy.
    fn ask(&mut self, call: &Call, place: usize, before: &Remote) {
        let last = self.remotes.asks[place];
        if call.answer == Err(Case::Busy) {
            if let Some(ask) = &mut self.remotes.asks[place] {
                ask.busy = true;
                ask.disturbed = true;
            }
        }
        if call.reply == 0 {
            return;
        }
        let to = call.name.trim_start_matches("ask ");
        if WRAPS.contains(&before.pause_id) {
            self.hit(&format!("remote ask: {to}, ID {}", before.pause_id));
        }
        match (to, last.and_then(|ask| ask.ended)) {
            (_, Some("the fifth report")) => {
                self.hit(&format!("remote ask: {to}, again after the fifth report"))
            }
            (_, Some("REFUSED")) => self.hit(&format!("remote ask: {to}, again after REFUSED")),
            ("to resume", Some("PAUSED")) => {
                self.hit("remote ask: to resume, after PAUSED ended the ask to pause")
            }
            ("to pause", Some("media")) => {
                self.hit("remote ask: to pause, after media ended the ask to resume")
            }
            _ => {}
        }
        self.remotes.asks[place] = Some(Ask {
            pause_id: before.pause_id,
            ..Ask::default()
        });
    }

    /// A report that was not refused, after an ask that was sent.
    fn report(&mut self, call: &Call, place: usize) {
        let before = &call.remotes()[place];
        let Some(mut ask) = self.remotes.asks[place] else {
            return;
        };
        let to = match before.state {
            State::Receiving | State::AskedToPause { .. } => "to pause",
            State::Paused | State::AskedToResume { .. } => "to resume",
        };
        ask.reports = ask.reports.saturating_add(1);
        if !before.is_asked() {
            // Dropped back by the report before.
            let sixth = ask.reports == 6 && ask.ended == Some("the fifth report");
            self.remotes.asks[place] = Some(ask);
            return self.hit_if(sixth, &format!("remote ask: {to}, the sixth report"));
        }
        let number = ask.reports;
        if call.reply > 0 {
            self.hit(&format!("remote ask: {to}, repeat {number}"));
            self.hit_if(
                before.pause_id != ask.pause_id,
                "remote ask: a repeat of RESUME with another ID than the ask's",
            );
        } else {
            let fifth = format!("remote ask: {to}, the fifth report");
            self.hit_if(!ask.disturbed, &format!("{fifth} alone"));
            self.hit_if(ask.busy, &format!("{fifth} after a Busy"));
            self.hit_if(ask.room, &format!("{fifth} after a Room"));
            self.hit_if(ask.idle, &format!("{fifth} after an idle entry"));
            if to == "to pause" {
                self.hit_if(ask.media, &format!("{fifth} after media was seen"));
            } else {
                self.hit_if(ask.paused, &format!("{fifth} after PAUSED set the ID"));
            }
            ask.ended = Some("the fifth report");
        }
        self.remotes.asks[place] = Some(ask);
    }

    // Datagrams.

    fn remote_datagram(&mut self, call: &Call, bytes: &[u8]) {
        if call.answer == Err(Case::Size) {
            return;
        }
        let (_, entries) = datagram(&mut self.counts, "remote datagram: ", bytes);
        self.hit_if(
            2 * (1 + bytes.len()) == MOST_DIGITS,
            "remote line: frame 20 of 3,100 digits",
        );
        if let Err(fault) = call.answer {
            return self.remote_refused_after(call, fault, bytes, &entries);
        }
        self.hit_if(
            call.room() == 0 && !entries.is_empty(),
            "remote room: datagram Done with entries, R = 0",
        );
        self.remote_entries(call, &entries);
        self.rows_of_entries(call, bytes, &entries);
    }

    /// What the entries before the fault would have changed.
    fn remote_refused_after(&mut self, call: &Call, fault: Case, bytes: &[u8], entries: &[Entry]) {
        let mut entries = entries.to_vec();
        if let (Case::TooLong, [first, ..]) = (fault, &packets_before(bytes, 1)[..]) {
            let _ = packet::read(&bytes[..first.end], &mut entries);
        }
        for entry in entries {
            let Some(place) = answering(call.lent_remotes(), entry.target) else {
                continue;
            };
            let mut record = call.remotes()[place].clone();
            record.receive(entry.kind, entry.pause_id);
            if record != call.remotes()[place] {
                let name = format!("remote record: as before, datagram {fault:?} after an entry");
                self.when_remote_seen(place, &name);
                if call.before.buffer()[0] != 0x89 {
                    let name = "remote bytes: as before, datagram refused after an entry";
                    self.when_bytes_seen(0, name);
                }
            }
        }
    }

    /// The entries of a datagram that was served, run in order.
    fn remote_entries(&mut self, call: &Call, entries: &[Entry]) {
        let mut records = call.lent_remotes().to_vec();
        for entry in entries {
            let Some(place) = answering(&records, entry.target) else {
                self.hit_if(
                    answering(&call.remotes()[call.size()..], entry.target).is_some(),
                    "remote size: a target used past the lent records alone is in u",
                );
                continue;
            };
            let before = records[place].clone();
            records[place].receive(entry.kind, entry.pause_id);
            self.hit_if(
                place == PLACES - 1,
                "remote place: datagram at the 64th record",
            );
            self.remote_answered(call, place);
            self.ask_meets(place, &before, entry);
            // What a look shows is the record after the last entry.
            if records[place] == self.console.receiver().records()[place] {
                self.remote_entry(place, &before, entry);
            }
            self.pause_at_the_sender(call, entry);
        }
    }

    /// One cell, of a record that stands after the entry as it will after them all.
    fn remote_entry(&mut self, place: usize, before: &Remote, entry: &Entry) {
        let kind = kind_name(entry.kind);
        let event = format!("{kind} received");
        let sets = matches!(entry.kind, Kind::Paused | Kind::Refused);
        let same_id = entry.pause_id == before.pause_id;
        if sets || !same_id {
            self.when_remote_seen(place, &cell_of(&event, before, same_id));
        }
        let distance = entry.pause_id.wrapping_sub(before.pause_id);
        let after = &self.console.receiver().records()[place];
        if sets && after.pause_id != before.pause_id && DISTANCES.contains(&distance) {
            let name = format!("remote record: {kind} sets the ID, distance {distance}");
            self.when_remote_seen(place, &name);
        }
    }

    /// An entry for a stream that was asked.
    fn ask_meets(&mut self, place: usize, before: &Remote, entry: &Entry) {
        let Some(ask) = &mut self.remotes.asks[place] else {
            return;
        };
        ask.disturbed = true;
        match (entry.kind, before.state) {
            (Kind::Paused, State::AskedToResume { .. }) => ask.paused = true,
            (Kind::Paused, State::AskedToPause { .. }) => ask.ended = Some("PAUSED"),
            (Kind::Refused, _) if before.is_asked() => ask.ended = Some("REFUSED"),
            (Kind::Paused | Kind::Refused, _) => ask.ended = None,
            _ => ask.idle = true,
        }
    }

    /// Several entries of one datagram.
    fn rows_of_entries(&mut self, call: &Call, bytes: &[u8], entries: &[Entry]) {
        let known = |entry: &Entry| answering(call.lent_remotes(), entry.target);
        let places: Vec<Option<usize>> = entries.iter().map(known).collect();
        for pair in places.windows(2) {
            self.hit_if(
                pair[0].is_none() && pair[1].is_some(),
                "remote entries: a stranger before a stream",
            );
            self.hit_if(
                pair[0].is_some() && pair[1].is_none(),
                "remote entries: a stranger after a stream",
            );
        }
        if entries.len() == 186 {
            let strangers = places.iter().filter(|place| place.is_none()).count();
            self.hit_if(strangers == 0, "remote limit: n = 186, u = 0");
            self.hit_if(strangers == 186, "remote limit: n = 186, u = 186");
        }
        let packets = packets_of_entries(bytes);
        for place in places.iter().flatten().copied().collect::<BTreeSet<_>>() {
            let numbers: Vec<usize> = (0..entries.len())
                .filter(|&number| places[number] == Some(place))
                .filter(|&number| matches!(entries[number].kind, Kind::Paused | Kind::Refused))
                .collect();
            let [first, second] = numbers[..] else {
                continue;
            };
            let before = &call.remotes()[place];
            let ids = BTreeSet::from([
                before.pause_id,
                entries[first].pause_id,
                entries[second].pause_id,
            ]);
            if ids.len() < 3 {
                continue;
            }
            let kinds = [first, second].map(|number| kind_name(entries[number].kind));
            let state = state_name(before.state);
            let name = format!("remote entries: {}, {} in {state}", kinds[0], kinds[1]);
            self.when_remote_seen(place, &name);
            if packets[first] != packets[second] {
                self.when_remote_seen(place, "remote entries: one stream in two packets");
            }
        }
    }

    // Both tables.

    /// A call that changed the receiver's record of an SSRC leaves the sender's.
    fn sender_apart(&mut self, call: &Call, ssrc: u32) {
        if let Some(place) = answering(call.records(), ssrc) {
            let name = format!("apart: remote {}, the sender's record as before", call.name);
            self.when_seen(place, &name);
        }
    }

    /// A call that changed the sender's record of an SSRC leaves the receiver's.
    pub fn receiver_apart(&mut self, call: &Call, ssrc: u32) {
        if let Some(place) = answering(call.remotes(), ssrc) {
            let name = format!("apart: {}, the receiver's record as before", call.name);
            self.when_remote_seen(place, &name);
        }
    }

    /// An entry in the receiver's datagram that would change the sender's stream.
    fn pause_at_the_sender(&mut self, call: &Call, entry: &Entry) {
        let Some(place) = answering(call.lent(), entry.target) else {
            return;
        };
        let mut record = call.records()[place].clone();
        record.receive(entry.kind, entry.pause_id, 0);
        if record != call.records()[place] {
            let name = "apart: PAUSE in a remote datagram, the sender's record as before";
            self.when_seen(place, name);
        }
    }

    /// An entry in the sender's datagram that would change the receiver's stream.
    pub fn paused_at_the_receiver(&mut self, call: &Call, entry: &Entry) {
        let Some(place) = answering(call.lent_remotes(), entry.target) else {
            return;
        };
        let mut record = call.remotes()[place].clone();
        record.receive(entry.kind, entry.pause_id);
        if record != call.remotes()[place] {
            let name = "apart: PAUSED in a datagram, the receiver's record as before";
            self.when_remote_seen(place, name);
        }
    }

    pub fn sender_add_apart(&mut self, call: &Call) {
        let full = call.lent_remotes().iter().all(|record| record.in_use);
        match call.answer {
            Ok(()) => self.hit_if(full, "apart: add Done, the receiver's table is full"),
            Err(Case::Full) => self.hit_if(!full, "apart: add Full, the receiver's table is not"),
            Err(_) => {}
        }
    }

    // Lines that are no frames.

    pub fn remote_broken_lend(&mut self, place: usize) {
        let name = "remote record: as before, a lend that is Line";
        self.when_remote_seen(place, name);
    }

    /// What a refused call would have changed.
    pub fn remote_not_done(&mut self, call: &Call, instead: &console::Console, case: Case) {
        let name = format!("remote record: as before, {} {case:?}", call.name);
        for place in 0..RECORDS {
            if instead.receiver().records()[place] != call.remotes()[place] {
                self.when_remote_seen(place, &name);
            }
        }
    }
}
