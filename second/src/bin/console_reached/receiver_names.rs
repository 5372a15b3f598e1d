//! The names of what is counted of the receiver's table. They begin with `remote`; those on both
//! tables with `apart`.

use second::count::datagram_names;
use second::refusal::Case;

use crate::{ON_STREAMS, WRAPS};

pub const STATES: [&str; 4] = ["Receiving", "Asked to pause", "Paused", "Asked to resume"];

/// The cases that a datagram's bytes can give.
const FAULTS: [Case; 9] = [
    Case::TooLong,
    Case::Short,
    Case::Version,
    Case::Overrun,
    Case::PadPlace,
    Case::PadCount,
    Case::NoHead,
    Case::NoEntry,
    Case::Entry,
];

/// The calls, each with the refusals it can give; a datagram has its faults too.
const ANSWERS: [(&str, &[Case]); 7] = [
    ("datagram", &[Case::Size]),
    ("add", &[Case::Size, Case::Duplicate, Case::Full]),
    (
        "ask to pause",
        &[Case::Size, Case::NoStream, Case::Busy, Case::Room],
    ),
    (
        "ask to resume",
        &[Case::Size, Case::NoStream, Case::Busy, Case::Room],
    ),
    ("report", &[Case::Size, Case::NoStream, Case::Room]),
    ("media seen", &[Case::Size, Case::NoStream]),
    ("remove", &[Case::Size, Case::NoStream]),
];

const ASKS: [&str; 2] = ["ask to pause", "ask to resume"];

/// The calls that may write a packet.
pub const WRITING: [&str; 3] = ["ask to pause", "ask to resume", "report"];

/// The calls for one SSRC.
const ON_ONE: [&str; 5] = [
    "ask to pause",
    "ask to resume",
    "report",
    "media seen",
    "remove",
];

/// Events that are calls, and those that are entries.
const CALLED: [&str; 4] = ["ask to pause", "ask to resume", "report", "media seen"];
const RECEIVED: [&str; 5] = [
    "PAUSED received",
    "REFUSED received",
    "PAUSE received",
    "RESUME received",
    "type 4 to 15 received",
];

/// Reports left, as a report finds them and as lent.
pub const LEFT: [u8; 6] = [0, 1, 2, 3, 4, 255];

/// Distances of an ID from the believed one, which "any value is taken" is about.
pub const DISTANCES: [u16; 4] = [1, 0x7fff, 0x8000, 0xffff];

const REST: &[&str] = &[
    "remote record: unused at the start",
    "remote record: lent at place 64",
    "remote record: as before, a lend that is Line",
    "remote record: as before, add Duplicate",
    "remote record: as before, add Full",
    "remote record: as before, add Size",
    "remote record: as before, report Room, the fifth",
    "remote record: added where one was removed",
    "remote record: added below a used one",
    "remote record: added at the last of 64",
    "remote record: added as the only one lent",
    "remote bytes: as before, datagram refused after an entry",
    "remote room: datagram Done with entries, R = 0",
    "remote room: report Room, the fifth",
    "remote size: a target used past the lent records alone is in u",
    "remote size: add Done, the SSRC is used past the lent records",
    "remote size: add Full, S = 64",
    "remote size: add Full under 64, an unused record past the lent ones",
    "remote order: datagram, Size before a fault",
    "remote order: add, Size before Duplicate",
    "remote order: add, Size before Full",
    "remote order: add, Duplicate before Full",
    "remote place: datagram at the 64th record",
    "remote twins: the second answers after the first was removed",
    "remote add: an unused record has the SSRC",
    "remote ask: a repeat of RESUME with another ID than the ask's",
    "remote ask: to pause, the fifth report after media was seen",
    "remote ask: to resume, the fifth report after PAUSED set the ID",
    "remote ask: to resume, after PAUSED ended the ask to pause",
    "remote ask: to pause, after media ended the ask to resume",
    "remote entries: a stranger before a stream",
    "remote entries: a stranger after a stream",
    "remote entries: one stream in two packets",
    "remote limit: n = 186, u = 0",
    "remote limit: n = 186, u = 186",
    "remote frame: record at a place past the size",
    "remote frame: lend at a place past the size",
    "remote line: frame 20 of 3,100 digits",
    "remote line: used over 01",
    "remote line: state over 03",
    "remote line: record at place 65",
    "remote line: record at a place over 65",
    "remote line: lend at place 65",
    "remote line: lend at a place over 65",
    "apart: PAUSED in a datagram, the receiver's record as before",
    "apart: PAUSE in a remote datagram, the sender's record as before",
    "apart: add Done, the receiver's table is full",
    "apart: add Full, the receiver's table is not",
    "apart: remote add Done, the sender's table is full",
    "apart: remote add Full, the sender's table is not",
];

/// Every name, in the order of printing.
pub fn names() -> Vec<String> {
    let mut names = Vec::new();
    for (call, cases) in ANSWERS {
        names.extend(
            cases
                .iter()
                .map(|case| format!("remote answer: {call}, {case:?}")),
        );
        names.push(format!("remote size: {call} Size, S = 0"));
        names.push(format!("remote size: {call} Size, S = 65"));
        names.push(format!("remote size: {call} Done, S = 1"));
        if WRITING.contains(&call) {
            names.extend(writing_names(call));
        } else {
            names.push(format!("remote answer: {call}, Done"));
            names.push(format!("remote bytes: as before, {call} Done"));
            names.push(format!("remote room: {call} Done, R = 0"));
        }
        names.push(format!(
            "apart: remote {call}, the sender's record as before"
        ));
    }
    for fault in FAULTS {
        names.push(format!("remote answer: datagram, {fault:?}"));
        names.push(format!(
            "remote record: as before, datagram {fault:?} after an entry"
        ));
    }
    for call in ON_ONE.iter().chain(&["datagram"]) {
        names.push(format!("remote record: changed by {call}"));
        names.push(format!("remote record: as before, {call} Size"));
        names.push(format!("remote record: second of two, {call}"));
        names.push(format!("remote record: unused one before it, {call}"));
        names.push(format!("remote record: unused one after it, {call}"));
    }
    for call in CALLED.iter().chain(&["datagram"]) {
        names.push(format!("remote record: as before, {call} Done"));
    }
    for call in ON_ONE {
        names.push(format!("remote place: {call} at the 64th record"));
        names.push(format!("remote record: as before, {call} NoStream"));
        names.push(format!("remote order: {call}, Size before NoStream"));
        names.push(format!(
            "remote size: {call} NoStream, used past the lent records"
        ));
        names.push(format!(
            "apart: remote {call} NoStream, in use at the sender's"
        ));
    }
    for call in ON_STREAMS.iter().chain(&["add"]) {
        names.push(format!("apart: {call}, the receiver's record as before"));
        if *call != "datagram" && *call != "add" {
            names.push(format!("apart: {call} NoStream, in use at the receiver's"));
        }
    }
    names.extend(cell_names());
    names.extend(state_names());
    names.extend(ask_names());
    names.extend(datagram_names("remote datagram: "));
    names.extend(REST.iter().map(|name| name.to_string()));
    names
}

/// An ask or a report.
fn writing_names(call: &str) -> Vec<String> {
    let mut names = vec![
        format!("remote answer: {call}, Done with a packet"),
        format!("remote answer: {call}, Done without a packet"),
        format!("remote bytes: as before after the packet, {call}"),
        format!("remote bytes: as before past the room, {call}"),
        format!("remote bytes: as before, {call} Done without a packet"),
        format!("remote bytes: as before, {call} NoStream"),
        format!("remote bytes: as before, {call} Room"),
        format!("remote bytes: as before, {call} Size"),
        format!("remote record: as before, {call} Room"),
        format!("remote room: {call} Done, R = 20"),
        format!("remote room: {call} Room, R = 19"),
        format!("remote room: {call} Room, R = 0"),
        format!("remote room: {call} Room, no packet to give"),
        format!("remote order: {call}, Size before Room"),
        format!("remote order: {call}, NoStream before Room"),
    ];
    if ASKS.contains(&call) {
        names.push(format!("remote order: {call}, Size before Busy"));
        names.push(format!("remote order: {call}, Busy before Room"));
        names.push(format!("remote bytes: as before, {call} Busy"));
    }
    names
}

/// Each event in each state. In the Asked ones they are parted by the reports left; PAUSED and
/// REFUSED also by whether they bring another ID, which the others always do.
fn cell_names() -> Vec<String> {
    let mut names = Vec::new();
    for state in STATES {
        let asked = state.starts_with("Asked");
        for event in CALLED.iter().chain(&RECEIVED) {
            let left: Vec<String> = match (asked, *event) {
                (false, _) => vec![String::new()],
                (true, "report") => LEFT
                    .iter()
                    .map(|left| format!(", left = {left}"))
                    .chain([", another left".to_string()])
                    .collect(),
                (true, _) => vec![
                    ", left under 4".to_string(),
                    ", left = 4".to_string(),
                    ", left over 4".to_string(),
                ],
            };
            let ids: &[&str] = match *event {
                "PAUSED received" | "REFUSED received" => &["", ", the same ID"],
                _ => &[""],
            };
            for left in &left {
                for id in ids {
                    names.push(format!("remote cell: {event}, {state}{left}{id}"));
                }
            }
        }
    }
    names
}

/// What is counted for each state, and at the wraps of the ID.
fn state_names() -> Vec<String> {
    let mut names = Vec::new();
    for state in STATES {
        names.push(format!("remote record: lent used in {state}"));
        names.push(format!("remote record: lent unused in {state}"));
        names.push(format!("remote record: removed in {state}"));
        names.push(format!(
            "remote record: added over an unused one in {state}"
        ));
        if state.starts_with("Asked") {
            let lent = |left| format!("remote record: lent left = {left} in {state}");
            names.extend(LEFT.map(lent));
        } else {
            names.push(format!("remote record: left passed over in {state}"));
        }
        for first in ["PAUSED", "REFUSED"] {
            for second in ["PAUSED", "REFUSED"] {
                names.push(format!("remote entries: {first}, {second} in {state}"));
            }
        }
    }
    for number in WRAPS {
        names.push(format!("remote record: lent ID {number}"));
        names.push(format!("remote record: added with ID {number}"));
        for state in ["Paused", "Asked to resume"] {
            names.push(format!("remote record: media in {state}, ID {number}"));
        }
    }
    for kind in ["PAUSED", "REFUSED"] {
        let set = |distance| format!("remote record: {kind} sets the ID, distance {distance}");
        names.extend(DISTANCES.map(set));
    }
    names
}

/// What is counted from an ask on.
fn ask_names() -> Vec<String> {
    let mut names = Vec::new();
    for ask in ["to pause", "to resume"] {
        names.extend((1..=4).map(|number| format!("remote ask: {ask}, repeat {number}")));
        names.extend(WRAPS.map(|number| format!("remote ask: {ask}, ID {number}")));
        for since in [
            "alone",
            "after a Busy",
            "after a Room",
            "after an idle entry",
        ] {
            names.push(format!("remote ask: {ask}, the fifth report {since}"));
        }
        names.push(format!("remote ask: {ask}, the sixth report"));
        names.push(format!("remote ask: {ask}, again after the fifth report"));
        names.push(format!("remote ask: {ask}, again after REFUSED"));
    }
    names
}
