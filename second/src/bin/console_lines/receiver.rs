//! Scenes on the receiver's table.

use second::console::{BUFFER, RECORDS};
use second::make::{entry_head, packet, Maker, SSRCS, STRANGERS};
use second::packet;
use second::remote::State;
use second::row::PLACES;
use second::stream::Stream;

use crate::{places_of, ConsoleLines, COUNTERS};

/// Reports left of lent records.
const LEFT: [u8; 10] = [0, 0, 1, 2, 3, 4, 4, 5, 254, 255];

/// Distances of a received PauseID from the believed one.
const DISTANCES: [u16; 7] = [0, 1, 2, 0x7fff, 0x8000, 0xfffe, 0xffff];

/// SSRC of packet sender and SSRC of media source.
const HEAD: [u8; 8] = [0xaa, 0xbb, 0xcc, 0xdd, 0, 0, 0, 0];

/// A datagram of the most bytes that a line can hold after the frame's first.
const LONGEST_IN_A_LINE: usize = 1_549;

/// A record to be lent, as its bytes give it.
#[derive(Clone, Copy)]
struct Remote {
    used: u8,
    ssrc: u32,
    state: u8,
    pause_id: u16,
    left: u8,
}

impl Remote {
    fn lend(&self, place: usize) -> Vec<u8> {
        let mut frame = vec![0x28, place as u8, self.used];
        frame.extend_from_slice(&self.ssrc.to_be_bytes());
        frame.push(self.state);
        frame.extend_from_slice(&self.pause_id.to_be_bytes());
        frame.push(self.left);
        frame
    }
}

fn for_ssrc(first: u8, ssrc: u32) -> Vec<u8> {
    [&[first], &ssrc.to_be_bytes()[..]].concat()
}

impl ConsoleLines {
    pub fn remote_scene(&mut self) {
        match self.below(100) {
            0..=26 => self.remote_lend_scene(),
            27..=35 => self.ask_scene(),
            36..=43 => self.remote_call_scene(),
            44..=58 => self.remote_room_scene(),
            59..=66 => self.remote_size_scene(),
            67..=73 => self.remote_twins_scene(),
            74..=78 => self.remote_remove_scene(),
            79..=89 => self.remote_datagram_scene(),
            90..=98 => self.both_tables_scene(),
            _ => self.remote_table_scene(),
        }
    }

    // Looking.

    pub fn remote_look(&mut self, place: usize) {
        self.tell(&[0x27, place as u8]);
    }

    /// Looks at the records that have an SSRC, in use or not; at any where none has it.
    fn remote_look_at(&mut self, ssrc: u32) {
        let places = places_of(self.console.receiver().records(), ssrc);
        for &place in &places {
            self.remote_look(place);
        }
        if places.is_empty() {
            let place = self.place();
            self.remote_look(place);
        }
    }

    fn remote_look_at_lowest_unused(&mut self) {
        let mut records = self.console.receiver().records().iter();
        if let Some(place) = records.position(|record| !record.in_use) {
            self.remote_look(place);
        }
    }

    /// Looks at what a frame is about.
    fn remote_look_after(&mut self, frame: &[u8]) {
        let ssrc = match frame[0] {
            0x20 => self.one_target(&frame[1..]),
            _ => u32::from_be_bytes([frame[1], frame[2], frame[3], frame[4]]),
        };
        if self.chance(70) {
            self.remote_look_at(ssrc);
        }
        if self.chance(15) {
            self.look_at_bytes();
        }
    }

    // Records.

    /// Makes something that aims at the receiver's streams.
    fn aimed<T>(&mut self, make: impl FnOnce(&mut Maker) -> T) -> T {
        let records = self.console.receiver().records().iter();
        let in_use = records.filter(|record| record.in_use);
        let streams = in_use.map(|record| Stream::new(record.ssrc, record.pause_id, 0, 0));
        let senders = std::mem::replace(&mut self.maker.streams, streams.collect());
        self.maker.for_receiver = true;
        let made = make(&mut self.maker);
        self.maker.for_receiver = false;
        self.maker.streams = senders;
        made
    }

    /// The SSRC of a stream in use or, at times, of a stranger.
    fn remote_target(&mut self, strangers: usize) -> u32 {
        self.aimed(|maker| maker.target(strangers).ssrc)
    }

    /// An SSRC for a record; it may be in use already, in either table.
    fn remote_ssrc(&mut self) -> u32 {
        let any = self.maker.random.u32();
        match self.below(12) {
            0..=2 => self.pick(&SSRCS),
            3 => self.remote_target(0),
            4 => self.maker.target(0).ssrc,
            _ => 0x5eed_0000 | any & 0x0000_ff03,
        }
    }

    fn remote(&mut self) -> Remote {
        let ssrc = self.remote_ssrc();
        let random = &mut self.maker.random;
        Remote {
            used: u8::from(random.chance(90)),
            ssrc,
            state: random.pick(&[0, 1, 2, 3]),
            pause_id: random.pick(&COUNTERS),
            left: random.pick(&LEFT),
        }
    }

    fn lend_remote(&mut self, place: usize, record: Remote) {
        self.tell(&record.lend(place));
    }

    /// A record in some state, an event on it, and the record after it.
    fn remote_lend_scene(&mut self) {
        let place = self.place();
        let record = self.remote();
        self.lend_remote(place, record);
        if self.chance(40) {
            self.remote_look(place);
        }
        let frame = self.remote_event(record.ssrc);
        self.tell(&frame);
        self.remote_look_at(record.ssrc);
    }

    // Calls.

    /// A datagram or a call for an SSRC.
    fn remote_event(&mut self, ssrc: u32) -> Vec<u8> {
        if self.chance(45) {
            return self.remote_datagram_to(ssrc);
        }
        let first = self.pick(&[0x22, 0x22, 0x23, 0x23, 0x24, 0x24, 0x24, 0x25, 0x25, 0x26]);
        for_ssrc(first, ssrc)
    }

    fn remote_add_of(&mut self, ssrc: u32) -> Vec<u8> {
        let pause_id = self.pick(&COUNTERS);
        [&for_ssrc(0x21, ssrc)[..], &pause_id.to_be_bytes()].concat()
    }

    fn remote_add(&mut self) -> Vec<u8> {
        let ssrc = self.remote_ssrc();
        self.remote_add_of(ssrc)
    }

    fn remote_call(&mut self) -> Vec<u8> {
        match self.below(10) {
            0 | 1 => self.remote_add(),
            2 => {
                let ssrc = self.remote_target(0);
                self.remote_add_of(ssrc)
            }
            3 => self.remote_datagram(),
            4 => self.remote_call_at_the_size(),
            _ => {
                let ssrc = self.remote_target(8);
                self.remote_event(ssrc)
            }
        }
    }

    fn remote_call_scene(&mut self) {
        if self.chance(20) {
            self.fill();
        }
        let frame = self.remote_call();
        // The place is seen before the call and after it.
        if frame[0] == 0x21 && self.chance(70) {
            self.remote_look_at_lowest_unused();
        }
        self.tell(&frame);
        self.remote_look_after(&frame);
    }

    /// An ask and the reports after it, with something else between them at times.
    fn ask_scene(&mut self) {
        let place = self.below(4);
        let state = self.pick(&[0, 2]);
        let record = Remote {
            used: 1,
            state,
            ..self.remote()
        };
        self.lend_remote(place, record);
        let ask = 0x22 + state / 2;
        self.tell(&for_ssrc(ask, record.ssrc));
        if self.chance(60) {
            self.remote_look_at(record.ssrc);
        }
        let between = self.pick(&[0, 0, 10, 25]);
        for _ in 0..self.pick(&[1, 3, 5, 5, 5, 6]) {
            if self.chance(between) {
                self.between_reports(record.ssrc);
            }
            self.tell(&for_ssrc(0x24, record.ssrc));
            if self.chance(40) {
                self.remote_look_at(record.ssrc);
            }
        }
        self.remote_look_at(record.ssrc);
        if self.chance(40) {
            let ask = self.ask_that_sends(record.ssrc);
            self.tell(&ask);
            self.remote_look_at(record.ssrc);
        }
    }

    /// The ask that does something in the state of a stream; any while Asked.
    fn ask_that_sends(&mut self, ssrc: u32) -> Vec<u8> {
        let any = self.pick(&[0x22, 0x23]);
        let mut records = self.console.receiver().records().iter();
        let answering = records.find(|record| record.in_use && record.ssrc == ssrc);
        let first = match answering.map(|record| record.state) {
            Some(State::Receiving) => 0x22,
            Some(State::Paused) => 0x23,
            _ => any,
        };
        for_ssrc(first, ssrc)
    }

    fn between_reports(&mut self, ssrc: u32) {
        let any = 4 + self.below(12) as u8;
        let idle = self.pick(&[0, 1, any]);
        let frame = match self.below(9) {
            0..=2 => self.remote_entries_to(ssrc, &[2]),
            3 => self.remote_entries_to(ssrc, &[3]),
            4 => for_ssrc(0x25, ssrc),
            5 => self.ask_that_sends(ssrc),
            6 => self.remote_entries_to(ssrc, &[idle]),
            7 => {
                let room = self.pick(&[0, 19]);
                self.set_room(room);
                self.tell(&for_ssrc(0x24, ssrc));
                self.remote_look_at(ssrc);
                return self.set_good_room();
            }
            _ => self.remote_datagram_to(ssrc),
        };
        self.tell(&frame);
        if self.chance(50) {
            self.remote_look_at(ssrc);
        }
    }

    // Datagrams.

    /// One to three entries for an SSRC.
    fn remote_datagram_to(&mut self, ssrc: u32) -> Vec<u8> {
        let any = 4 + self.below(12) as u8;
        let count = self.pick(&[1, 1, 1, 2, 2, 3]);
        let kinds = [2, 2, 2, 2, 3, 3, 3, 3, 0, 1, any];
        let kinds: Vec<u8> = (0..count).map(|_| self.pick(&kinds)).collect();
        self.remote_entries_to(ssrc, &kinds)
    }

    /// Entries of the given types for an SSRC, at times with a stranger or a new packet between.
    fn remote_entries_to(&mut self, ssrc: u32, kinds: &[u8]) -> Vec<u8> {
        let mut records = self.console.receiver().records().iter();
        let believed = records
            .find(|record| record.in_use && record.ssrc == ssrc)
            .map_or(0, |record| record.pause_id);
        let mut frame = vec![0x20];
        let mut body = HEAD.to_vec();
        for &kind in kinds {
            let any = self.maker.random.u16();
            let distance = match self.below(8) {
                0 => any,
                _ => self.pick(&DISTANCES),
            };
            if body.len() > HEAD.len() && self.chance(25) {
                frame.extend_from_slice(&packet(0x89, 205, &body));
                body = HEAD.to_vec();
            }
            if self.chance(10) {
                let stranger = self.pick(&STRANGERS);
                body.extend_from_slice(&entry_head(stranger, kind, 0, believed));
            }
            let pause_id = believed.wrapping_add(distance);
            body.extend_from_slice(&entry_head(ssrc, kind, 0, pause_id));
        }
        frame.extend_from_slice(&packet(0x89, 205, &body));
        frame
    }

    fn remote_datagram(&mut self) -> Vec<u8> {
        let mut datagram = match self.below(20) {
            0..=5 => self.aimed(|maker| maker.good_datagram()),
            6..=13 => self.aimed(|maker| maker.faulty_datagram()),
            14 => self.aimed(|maker| maker.full_datagram()),
            15 => self.aimed(|maker| maker.datagram_near_the_limit()),
            16 if self.chance(50) => Vec::new(),
            _ => self.aimed(|maker| maker.datagram()),
        };
        if datagram.len() > 1_500 && self.chance(30) {
            datagram.resize(LONGEST_IN_A_LINE, 0);
        }
        datagram.insert(0, 0x20);
        datagram
    }

    fn remote_datagram_scene(&mut self) {
        if self.chance(20) {
            self.fill();
        }
        let tight = self.chance(15);
        if tight {
            let room = self.pick(&[0, 0, 11, 19]);
            self.set_room(room);
        }
        let frame = self.remote_datagram();
        self.tell(&frame);
        // The first targets stand before the fault, where there is one.
        let mut entries = Vec::new();
        let _ = packet::read(&frame[1..], &mut entries);
        for entry in entries.iter().take(2) {
            self.remote_look_at(entry.target);
        }
        if tight {
            self.set_good_room();
        }
        if self.chance(20) {
            self.look_at_bytes();
        }
    }

    // Room, size and places.

    fn remote_room_scene(&mut self) {
        if self.chance(80) {
            self.fill();
        }
        if self.chance(60) {
            let place = self.below(4);
            let record = Remote {
                used: 1,
                ..self.remote()
            };
            self.lend_remote(place, record);
        }
        let ssrc = self.remote_target(8);
        let frame = match self.below(10) {
            0..=7 => for_ssrc(self.pick(&[0x22, 0x23, 0x24]), ssrc),
            _ => self.remote_call(),
        };
        let any = self.below(60);
        let room = self.pick(&[20, 20, 20, 20, 19, 19, 0, 0, 21, 18, any]);
        self.set_room(room);
        self.tell(&frame);
        if self.chance(80) {
            self.tell(&[0xe3]);
        }
        self.remote_look_after(&frame);
        // What needs no room has it.
        if room < 20 && self.chance(50) {
            let frame = match self.below(4) {
                0 => self.remote_add(),
                1 => for_ssrc(self.pick(&[0x25, 0x26]), ssrc),
                _ => self.remote_datagram_to(ssrc),
            };
            self.tell(&frame);
            self.remote_look_after(&frame);
        }
        if self.chance(50) {
            let room = (room + 1 + self.below(40)).min(BUFFER);
            self.set_room(room);
            self.tell(&[0xe3]);
        }
        self.set_good_room();
    }

    fn remote_size_scene(&mut self) {
        let any = self.below(RECORDS + 1);
        let size = self.pick(&[0, 0, 1, 1, 63, 64, 65, 65, any]);
        if self.chance(50) {
            self.fill();
        }
        self.set_size(size);
        let short = self.chance(30);
        if short {
            let room = self.pick(&[0, 19]);
            self.set_room(room);
        }
        for _ in 0..1 + self.below(4) {
            let frame = match self.below(4) {
                0 | 1 => self.remote_call_at_the_size(),
                _ => self.remote_call(),
            };
            self.tell(&frame);
            self.remote_look_after(&frame);
            if frame[0] == 0x21 {
                self.remote_look_at_lowest_unused();
            }
        }
        if self.chance(30) {
            self.tell(&[0xe3]);
        }
        if short {
            self.set_good_room();
        }
        if self.chance(90) {
            self.set_size(PLACES);
        }
    }

    /// A call for the last of the records that are lent, or for the one after it.
    fn remote_call_at_the_size(&mut self) -> Vec<u8> {
        let past = self.below(2);
        let place = self.console.receiver().size().max(1) - 1 + past;
        let ssrc = self.console.receiver().records()[place.min(RECORDS - 1)].ssrc;
        match self.below(8) {
            0 => self.remote_add_of(ssrc),
            _ => self.remote_event(ssrc),
        }
    }

    /// One SSRC in several records.
    fn remote_twins_scene(&mut self) {
        let ssrc = self.remote_ssrc();
        let mut places: Vec<usize> = (0..2 + self.below(2)).map(|_| self.below(9)).collect();
        places.sort_unstable();
        for &place in &places {
            let used = u8::from(self.chance(60));
            let record = Remote {
                ssrc,
                used,
                ..self.remote()
            };
            self.lend_remote(place, record);
        }
        for _ in 0..1 + self.below(3) {
            let frame = match self.below(5) {
                0 => for_ssrc(0x26, ssrc),
                _ => self.remote_event(ssrc),
            };
            self.tell(&frame);
            self.remote_look_at(ssrc);
        }
    }

    fn remote_remove_scene(&mut self) {
        for _ in 0..1 + self.below(3) {
            let frame = for_ssrc(0x26, self.remote_target(5));
            self.tell(&frame);
            self.remote_look_after(&frame);
        }
        for _ in 0..1 + self.below(2) {
            self.remote_look_at_lowest_unused();
            let frame = self.remote_add();
            self.tell(&frame);
            self.remote_look_after(&frame);
        }
    }

    /// Fills the table, or frees a part of it.
    fn remote_table_scene(&mut self) {
        if self.chance(50) {
            let places = self.pick(&[PLACES, PLACES, RECORDS]);
            self.fill_receiver(places);
            for ssrc in [self.pick(&STRANGERS), self.remote_target(0)] {
                let frame = self.remote_add_of(ssrc);
                self.tell(&frame);
                self.remote_look_after(&frame);
            }
            self.remote_look(PLACES);
            return self.remote_remove_scene();
        }
        for _ in 0..20 + self.below(60) {
            let place = self.below(RECORDS);
            let record = Remote {
                used: 0,
                ..self.remote()
            };
            if self.console.receiver().records()[place].in_use {
                self.lend_remote(place, record);
            }
        }
    }

    pub fn fill_receiver(&mut self, places: usize) {
        for place in 0..places {
            if self.console.receiver().records()[place].in_use {
                continue;
            }
            if self.chance(30) {
                let frame = self.remote_add();
                self.tell(&frame);
            }
            if !self.console.receiver().records()[place].in_use {
                let record = Remote {
                    used: 1,
                    ..self.remote()
                };
                self.lend_remote(place, record);
            }
        }
    }

    /// One SSRC in both tables: each call changes its own.
    fn both_tables_scene(&mut self) {
        let place = self.below(8);
        let remote = Remote {
            used: 1,
            ..self.remote()
        };
        self.lend_remote(place, remote);
        let place = self.below(8);
        self.lend_sender(place, remote.ssrc);
        for _ in 0..1 + self.below(3) {
            let frame = match self.below(12) {
                0..=3 => self.remote_event(remote.ssrc),
                4 => {
                    let kind = self.pick(&[0, 1]);
                    self.remote_entries_to(remote.ssrc, &[kind])
                }
                5 => {
                    let mut frame = self.remote_entries_to(remote.ssrc, &[2]);
                    let time = self.maker.tick().to_be_bytes();
                    frame.splice(..1, [&[0x00], &time[..]].concat());
                    frame
                }
                6 => {
                    let frame = for_ssrc(self.pick(&[0x10, 0x26]), remote.ssrc);
                    self.tell(&frame);
                    self.look_at(remote.ssrc);
                    self.remote_look_at(remote.ssrc);
                    self.add_to_either(remote.ssrc)
                }
                7 => self.add_to_either(remote.ssrc),
                8 | 9 => self.datagram_to(remote.ssrc),
                _ => self.call_for(remote.ssrc),
            };
            self.tell(&frame);
            self.look_at(remote.ssrc);
            self.remote_look_at(remote.ssrc);
        }
    }

    fn add_to_either(&mut self, ssrc: u32) -> Vec<u8> {
        if self.chance(50) {
            return self.remote_add_of(ssrc);
        }
        let (rtt, dither) = self.maker.times();
        self.maker.add_frame(ssrc, rtt, dither, 0)
    }

    // Lines that are no frames.

    pub fn remote_frame_of(&mut self, first: u8) -> Vec<u8> {
        match first {
            0x20 => self.remote_datagram(),
            0x21 => self.remote_add(),
            0x27 => vec![first, self.place() as u8],
            0x28 => {
                let place = self.place();
                self.remote().lend(place)
            }
            _ => for_ssrc(first, self.remote_target(5)),
        }
    }
}
