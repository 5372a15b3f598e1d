//! Makes input lines for the console.
//!
//! `console_lines SEED COUNT` writes COUNT lines, always the same for one seed; `console_lines SEED
//! COUNT open` leaves the line feed after the last one out.
//!
//! Lines come in scenes: what a call needs, the call, and then a look at the records and the bytes
//! that it did or did not change. Each line also runs through a console of the generator's own, so
//! that the next ones can aim at what is there then. The scenes on the receiver's table are in
//! `receiver.rs`.

mod receiver;

use std::collections::VecDeque;
use std::process::ExitCode;

use second::console::{Console, BUFFER, RECORDS};
use second::line::{self, read_digits, MOST_DIGITS};
use second::make::{
    digits, entry_head, generate, packet, Generator, Maker, DELAYS, SSRCS, STRANGERS,
};
use second::packet::{self, ENTRY, HEAD, HEADER, PACKET};
use second::row::PLACES;

/// PauseIDs and sequence numbers of lent records: at the wraps and half turns.
const COUNTERS: [u16; 7] = [0, 1, 7, 32_767, 32_768, 65_534, 65_535];

/// Hold-offs of lent records: none, the largest that an add gives, and beyond.
const HOLD_OFFS: [u32; 9] = [
    0,
    1,
    400,
    180_000,
    180_001,
    0x7fff_ffff,
    0x8000_0000,
    0x8000_0001,
    0xffff_ffff,
];

/// Repeats left of lent records.
const REPEATS: [u8; 6] = [0, 1, 2, 3, 254, 255];

/// First bytes that are frames.
const FRAMES: [u8; 25] = [
    0x00, 0x01, 0x02, 0x03, 0x04, 0x05, 0x06, 0x10, 0x11, 0x12, 0x20, 0x21, 0x22, 0x23, 0x24, 0x25,
    0x26, 0x27, 0x28, 0x30, 0x31, 0xe0, 0xe1, 0xe2, 0xe3,
];

/// Frames of later requests, and others that are none, with the lengths after the first byte.
const NO_FRAMES: [(u8, usize); 18] = [
    (0x07, 4),
    (0x0f, 4),
    (0x13, 1),
    (0x29, 4),
    (0x32, 8),
    (0x40, 0),
    (0x40, 21),
    (0x41, 3),
    (0x50, 10),
    (0x50, 14),
    (0x51, 2),
    (0x52, 11),
    (0x80, 4),
    (0xdf, 2),
    (0xe4, 0),
    (0xf0, 4),
    (0xff, 0),
    (0xff, 4),
];

/// A record to be lent, as its bytes give it.
struct Record {
    used: u8,
    ssrc: u32,
    state: u8,
    deadline: u32,
    pause_id: u16,
    sequence: u16,
    hold_off: u32,
    repeats: u8,
}

impl Record {
    fn lend(&self, place: usize) -> Vec<u8> {
        let mut frame = vec![0x12, place as u8, self.used];
        frame.extend_from_slice(&self.ssrc.to_be_bytes());
        frame.push(self.state);
        frame.extend_from_slice(&self.deadline.to_be_bytes());
        frame.extend_from_slice(&self.pause_id.to_be_bytes());
        frame.extend_from_slice(&self.sequence.to_be_bytes());
        frame.extend_from_slice(&self.hold_off.to_be_bytes());
        frame.push(self.repeats);
        frame
    }
}

struct ConsoleLines {
    maker: Maker,
    console: Console,
    /// Lines made and not yet given.
    lines: VecDeque<Vec<u8>>,
}

impl ConsoleLines {
    fn say(&mut self, line: Vec<u8>) {
        self.console.answer(&line, &mut Vec::new());
        let records = self.console.table().records().iter();
        self.maker.streams = records.filter(|record| record.in_use).cloned().collect();
        self.lines.push_back(line);
    }

    fn tell(&mut self, frame: &[u8]) {
        self.say(digits(frame));
    }

    fn below(&mut self, bound: usize) -> usize {
        self.maker.random.below(bound)
    }

    fn chance(&mut self, percent: usize) -> bool {
        self.maker.random.chance(percent)
    }

    fn pick<T: Copy>(&mut self, choices: &[T]) -> T {
        self.maker.random.pick(choices)
    }

    fn scene(&mut self) {
        if self.chance(40) {
            return self.remote_scene();
        }
        match self.below(100) {
            0..=36 => self.call_scene(),
            37..=39 => self.replies_scene(),
            40..=46 => self.lend_scene(),
            47..=59 => self.room_scene(),
            60..=65 => self.size_scene(),
            66..=69 => self.twins_scene(),
            70..=72 => self.remove_scene(),
            73..=75 => self.hold_off_scene(),
            76..=79 => self.write_scene(),
            80..=87 => self.step_scene(),
            88..=98 => self.broken_scene(),
            _ => self.table_scene(),
        }
    }

    // Looking.

    fn look(&mut self, place: usize) {
        self.tell(&[0x11, place as u8]);
    }

    /// Looks at the records that have an SSRC, in use or not; at any where none has it.
    fn look_at(&mut self, ssrc: u32) {
        let places = places_of(self.console.table().records(), ssrc);
        for &place in &places {
            self.look(place);
        }
        if places.is_empty() {
            let place = self.place();
            self.look(place);
        }
    }

    /// Looks at the record an add would take, or has just taken.
    fn look_at_lowest_unused(&mut self) {
        let mut records = self.console.table().records().iter();
        if let Some(place) = records.position(|record| !record.in_use) {
            self.look(place);
        }
    }

    /// Looks at the buffer, mostly through less room than all of it.
    fn look_at_bytes(&mut self) {
        if self.console.room() > 400 && self.chance(80) {
            let room = 20 + self.below(180);
            self.set_room(room);
        }
        self.tell(&[0xe3]);
    }

    /// Looks at what a frame is about.
    fn look_after(&mut self, frame: &[u8]) {
        let ssrc = match frame[0] {
            0x00 => self.one_target(&frame[5..]),
            _ => u32::from_be_bytes([frame[1], frame[2], frame[3], frame[4]]),
        };
        if self.chance(50) {
            self.look_at(ssrc);
        }
        if self.chance(15) {
            self.look_at_bytes();
        }
    }

    /// The target of one of a datagram's entries, whether it is refused or not.
    fn one_target(&mut self, datagram: &[u8]) -> u32 {
        let mut entries = Vec::new();
        let _ = packet::read(datagram, &mut entries);
        match entries.len() {
            0 => self.maker.target(0).ssrc,
            count => entries[self.below(count)].target,
        }
    }

    // Room, size and places.

    fn set_room(&mut self, room: usize) {
        let [high, low] = (room as u16).to_be_bytes();
        self.tell(&[0xe0, high, low]);
    }

    /// A room that most calls can do with.
    fn set_good_room(&mut self) {
        let room = match self.below(10) {
            0..=5 => 100 + self.below(200),
            6 | 7 => line::ROOM + self.below(3),
            _ => BUFFER,
        };
        self.set_room(room);
    }

    fn set_size(&mut self, size: usize) {
        self.tell(&[0xe1, size as u8]);
    }

    fn fill(&mut self) {
        let any = self.maker.random.byte();
        let byte = self.pick(&[0x00, 0xff, 0xee, 0x55, any]);
        self.tell(&[0xe2, byte]);
    }

    fn place(&mut self) -> usize {
        match self.below(10) {
            0..=4 => self.below(8),
            5..=7 => self.below(RECORDS),
            _ => self.pick(&[0, 62, 63, 64]),
        }
    }

    // Records.

    fn record(&mut self) -> Record {
        let any = self.maker.random.u32();
        let ssrc = match self.below(10) {
            0..=3 => self.pick(&SSRCS),
            4 | 5 => self.maker.target(0).ssrc,
            _ => 0x5eed_0000 | any & 0x0000_ff03,
        };
        let random = &mut self.maker.random;
        Record {
            used: u8::from(random.chance(85)),
            ssrc,
            state: random.pick(&[0, 1, 2, 3]),
            deadline: random.pick(&[0, 1, 0x7fff_ffff, 0x8000_0000, 0xffff_ffff, any]),
            pause_id: random.pick(&COUNTERS),
            sequence: random.pick(&COUNTERS),
            hold_off: random.pick(&HOLD_OFFS),
            repeats: random.pick(&REPEATS),
        }
    }

    fn lend(&mut self, place: usize, record: &Record) {
        self.tell(&record.lend(place));
    }

    /// Lends a used record with an SSRC.
    fn lend_sender(&mut self, place: usize, ssrc: u32) {
        let record = Record {
            used: 1,
            ssrc,
            ..self.record()
        };
        self.lend(place, &record);
    }

    fn lend_scene(&mut self) {
        let place = self.place();
        let record = self.record();
        self.lend(place, &record);
        if self.chance(60) {
            self.look(place);
        }
        if record.used == 1 {
            let frame = self.call_for(record.ssrc);
            self.tell(&frame);
            self.look(place);
        }
    }

    /// A local call for an SSRC.
    fn call_for(&mut self, ssrc: u32) -> Vec<u8> {
        let mut frame = vec![self.pick(&[0x02, 0x03, 0x04, 0x05, 0x05, 0x06, 0x10])];
        frame.extend_from_slice(&ssrc.to_be_bytes());
        if frame[0] == 0x04 {
            let delay = self.pick(&DELAYS);
            frame.extend_from_slice(&delay.to_be_bytes());
        }
        frame
    }

    // Calls.

    fn call(&mut self) -> Vec<u8> {
        match self.below(20) {
            0 | 1 => self.maker.new_stream(),
            2 => self.maker.refused_add(),
            3 => self.maker.local_frame(0x10),
            4 => self.maker.local_frame(0x06),
            5 => self.call_at_the_size(),
            _ => self.maker.frame(),
        }
    }

    fn call_scene(&mut self) {
        if self.chance(20) {
            self.fill();
        }
        let frame = self.call();
        // The place is seen before the call and after it.
        if frame[0] == 0x01 && self.chance(50) {
            self.look_at_lowest_unused();
        }
        self.tell(&frame);
        self.look_after(&frame);
    }

    fn room_scene(&mut self) {
        if self.chance(80) {
            self.fill();
        }
        let frame = match self.below(10) {
            0..=4 => self.datagram_for_a_room(),
            5 | 6 => self.maker.frame_of(0x04),
            7 => self.maker.frame_of(0x02),
            8 => self.maker.frame_of(0x05),
            _ => self.call(),
        };
        let room = self.tight_room(&frame);
        self.set_room(room);
        self.tell(&frame);
        if self.chance(80) {
            self.tell(&[0xe3]);
        }
        self.look_after(&frame);
        // What needs no room has it.
        if room < 20 && self.chance(50) {
            let first = self.pick(&[0x01, 0x03, 0x06, 0x06, 0x10, 0x31, 0x31]);
            let frame = self.frame_of(first);
            self.tell(&frame);
        }
        if self.chance(50) {
            let room = (room + 1 + self.below(40)).min(BUFFER);
            self.set_room(room);
            self.tell(&[0xe3]);
        } else {
            self.set_good_room();
        }
        if self.chance(60) {
            self.set_good_room();
        }
    }

    fn datagram_for_a_room(&mut self) -> Vec<u8> {
        let datagram = match self.below(12) {
            0..=6 => self.maker.good_datagram(),
            7 => self.maker.full_datagram(),
            8 => self.maker.faulty_datagram(),
            _ => {
                let ssrc = self.maker.target(5).ssrc;
                return self.datagram_to(ssrc);
            }
        };
        datagram_frame(self.maker.tick(), &datagram)
    }

    /// Room on either side of what a frame needs, and of what one packet of its entries, or the
    /// replies alone, would need.
    fn tight_room(&mut self, frame: &[u8]) -> usize {
        let (entries, replies) = self.entries_and_replies(frame);
        let needed = PACKET * entries;
        let one_packet = HEADER + HEAD + ENTRY * entries;
        let few = self.below(40);
        let less = self.below(needed);
        let between = one_packet + self.below(needed - one_packet + 1);
        self.pick(&[
            needed,
            needed,
            needed,
            needed - 1,
            needed - 1,
            needed + few,
            less,
            one_packet,
            between,
            PACKET * replies,
            0,
            19,
            20,
        ])
    }

    /// The entries of a datagram, and the replies that it would get with room for them. A call for
    /// one SSRC is taken as one of each.
    fn entries_and_replies(&self, frame: &[u8]) -> (usize, usize) {
        match line::Frame::read(frame) {
            Some(line::Frame::Datagram { time, bytes }) => {
                let served = self.console.table().clone().datagram(bytes, time, BUFFER);
                served.map_or((1, 0), |served| (served.n.max(1), served.replies.len()))
            }
            _ => (1, 1),
        }
    }

    /// Several replies to one datagram, and then one reply over the first of them.
    fn replies_scene(&mut self) {
        self.fill();
        let count = self.pick(&[2, 3, 3, 4, 7, 186]);
        let datagram = self.datagram_of_refused(count);
        let few = self.below(40);
        let room = self.pick(&[PACKET * count, PACKET * count + few, BUFFER]);
        self.set_room(room);
        let time = self.maker.tick();
        self.tell(&datagram_frame(time, &datagram));
        let more = 1 + self.below(40);
        self.set_room(PACKET * count + more);
        self.tell(&[0xe3]);
        self.one_reply();
        self.tell(&[0xe3]);
        self.set_good_room();
    }

    /// A datagram of which each entry is REFUSED where its stream is lent.
    fn datagram_of_refused(&mut self, count: usize) -> Vec<u8> {
        let mut body = vec![0xaa, 0xbb, 0xcc, 0xdd, 0, 0, 0, 0];
        for _ in 0..count {
            let ssrc = self.maker.target(0).ssrc;
            let pause_id = self.current_id(ssrc).wrapping_add(1);
            let kind = self.pick(&[0, 1]);
            body.extend_from_slice(&entry_head(ssrc, kind, 0, pause_id));
        }
        packet(0x89, 205, &body)
    }

    /// One call that gives a reply, for the first record: it answers for its SSRC, whatever others do.
    fn one_reply(&mut self) {
        let record = Record {
            used: 1,
            repeats: 2,
            ..self.record()
        };
        self.lend(0, &record);
        let ssrc = record.ssrc.to_be_bytes();
        let frame = match record.state {
            0 => [&[0x02], &ssrc[..]].concat(),
            1 => [&[0x04], &ssrc[..], &record.deadline.to_be_bytes()].concat(),
            2 => [&[0x05], &ssrc[..]].concat(),
            _ => datagram_frame(0, &one_entry(record.ssrc, 1, record.pause_id)),
        };
        self.tell(&frame);
    }

    fn size_scene(&mut self) {
        let any = self.below(RECORDS + 1);
        let size = self.pick(&[0, 0, 1, 1, 63, 64, 65, 65, any]);
        self.set_size(size);
        for _ in 0..1 + self.below(4) {
            let frame = match self.below(10) {
                0 => self.write_frame(),
                1 => self.step_frame(),
                2 => self.maker.new_stream(),
                3 => self.maker.refused_add(),
                4 | 5 => self.call_at_the_size(),
                _ => self.call(),
            };
            self.tell(&frame);
            if frame[0] <= 0x10 {
                self.look_after(&frame);
            }
            if frame[0] == 0x01 {
                self.look_at_lowest_unused();
            }
        }
        if self.chance(85) {
            self.set_size(PLACES);
        }
    }

    /// A call for the last of the records that are lent, or for the one after it.
    fn call_at_the_size(&mut self) -> Vec<u8> {
        let past = self.below(2);
        let place = self.console.table().size().max(1) - 1 + past;
        let place = place.min(RECORDS - 1);
        let ssrc = self.console.table().records()[place].ssrc;
        self.call_for(ssrc)
    }

    /// One SSRC in several records.
    fn twins_scene(&mut self) {
        let count = 2 + self.below(2);
        let ssrc = self.record().ssrc;
        let mut places: Vec<usize> = (0..count).map(|_| self.below(9)).collect();
        places.sort_unstable();
        for &place in &places {
            let used = u8::from(self.chance(60));
            let record = Record {
                ssrc,
                used,
                ..self.record()
            };
            self.lend(place, &record);
        }
        for _ in 0..1 + self.below(3) {
            let frame = match self.below(4) {
                0 => self.datagram_to(ssrc),
                1 => [&[0x10], &ssrc.to_be_bytes()[..]].concat(),
                _ => self.call_for(ssrc),
            };
            self.tell(&frame);
            self.look_at(ssrc);
        }
    }

    /// One entry to the record that answers for an SSRC.
    fn datagram_to(&mut self, ssrc: u32) -> Vec<u8> {
        let pause_id = self.current_id(ssrc);
        let distance = self.pick(&[0, 0, 1]);
        let kind = self.pick(&[0, 1]);
        let datagram = one_entry(ssrc, kind, pause_id.wrapping_add(distance));
        datagram_frame(self.maker.tick(), &datagram)
    }

    /// c of the record that answers for an SSRC.
    fn current_id(&self, ssrc: u32) -> u16 {
        let mut records = self.console.table().records().iter();
        records
            .find(|record| record.in_use && record.ssrc == ssrc)
            .map_or(0, |record| record.pause_id)
    }

    fn remove_scene(&mut self) {
        for _ in 0..1 + self.below(3) {
            let frame = self.maker.local_frame(0x10);
            self.tell(&frame);
            self.look_after(&frame);
        }
        for _ in 0..1 + self.below(2) {
            self.look_at_lowest_unused();
            let frame = self.maker.new_stream();
            self.tell(&frame);
            self.look_after(&frame);
        }
    }

    /// A PAUSE under a hold-off that no add gives, and a time by it.
    fn hold_off_scene(&mut self) {
        let place = self.below(4);
        let record = Record {
            used: 1,
            state: 0,
            ..self.record()
        };
        self.lend(place, &record);
        let any = self.maker.random.u32();
        let time = self.pick(&[0, 1, 0x8000_0000, 0xffff_ff00, any]);
        let datagram = one_entry(record.ssrc, 0, record.pause_id);
        self.tell(&datagram_frame(time, &datagram));
        self.look(place);
        let after = self.pick(&[
            0,
            record.hold_off,
            record.hold_off.wrapping_sub(1),
            record.hold_off.wrapping_add(0x7fff_ffff),
            record.hold_off.wrapping_add(0x8000_0000),
        ]);
        let mut frame = vec![0x04];
        frame.extend_from_slice(&record.ssrc.to_be_bytes());
        frame.extend_from_slice(&time.wrapping_add(after).to_be_bytes());
        self.tell(&frame);
        self.look(place);
    }

    fn write_frame(&mut self) -> Vec<u8> {
        let mut frame = vec![0x30];
        let any = self.maker.random.u32();
        for _ in 0..2 {
            let ssrc = self.pick(&[0, 1, 0xffff_ffff, 0x1122_3344, any]);
            frame.extend_from_slice(&ssrc.to_be_bytes());
        }
        frame.push(self.pick(&[0, 1, 2, 3, 0, 1, 2, 3, 4, 15, 16, 255]));
        let pause_id = self.pick(&COUNTERS);
        frame.extend_from_slice(&pause_id.to_be_bytes());
        frame
    }

    fn write_scene(&mut self) {
        if self.chance(70) {
            self.fill();
        }
        let tight = self.chance(60);
        if tight {
            let room = self.pick(&[0, 19, 19, 20, 20, 21, 40]);
            self.set_room(room);
        }
        let frame = self.write_frame();
        self.tell(&frame);
        if self.chance(70) {
            self.look_at_bytes();
        }
        if tight {
            self.set_good_room();
        }
    }

    /// The walk at one number, before or after its end.
    fn step_frame(&mut self) -> Vec<u8> {
        let mut datagram = match self.below(10) {
            0..=3 => self.maker.good_datagram(),
            4..=6 => self.maker.faulty_datagram(),
            _ => self.maker.datagram(),
        };
        // What a line can hold after the frame's first nine bytes.
        datagram.truncate(MOST_DIGITS / 2 - 9);
        let number = self.number_in(&datagram);
        step(number, &datagram)
    }

    fn number_in(&mut self, datagram: &[u8]) -> u64 {
        let mut entries = Vec::new();
        let _ = packet::read(datagram, &mut entries);
        let count = entries.len() as u64;
        let any = self.below(entries.len().max(1)) as u64;
        self.pick(&[
            0,
            0,
            any,
            any,
            count.saturating_sub(1),
            count,
            count + 1,
            1 << 8 | any,
            1 << 16 | any,
            1 << 32,
            1 << 32 | any,
            1 << 63,
            1 << 63 | any,
            u64::MAX,
        ])
    }

    fn step_scene(&mut self) {
        let frame = self.step_frame();
        self.tell(&frame);
        for _ in 0..self.below(3) {
            let number = self.number_in(&frame[9..]);
            self.tell(&step(number, &frame[9..]));
        }
    }

    /// Fills the table, or frees a part of it.
    fn table_scene(&mut self) {
        if self.chance(50) {
            let places = self.pick(&[PLACES, PLACES, RECORDS]);
            self.fill_table(places);
            let frame = self.stranger();
            self.tell(&frame);
            self.look_after(&frame);
            return self.remove_scene();
        }
        for _ in 0..20 + self.below(60) {
            let place = self.below(RECORDS);
            let record = Record {
                used: 0,
                ..self.record()
            };
            if self.console.table().records()[place].in_use {
                self.lend(place, &record);
            }
        }
    }

    /// An add of an SSRC that no stream has.
    fn stranger(&mut self) -> Vec<u8> {
        let ssrc = self.pick(&STRANGERS);
        let (rtt, dither) = self.maker.times();
        self.maker.add_frame(ssrc, rtt, dither, 0)
    }

    fn fill_table(&mut self, places: usize) {
        for place in 0..places {
            if self.console.table().records()[place].in_use {
                continue;
            }
            if self.chance(30) {
                let frame = self.maker.new_stream();
                self.tell(&frame);
            }
            if !self.console.table().records()[place].in_use {
                let record = Record {
                    used: 1,
                    ..self.record()
                };
                self.lend(place, &record);
            }
        }
    }

    // Lines that are no frames.

    fn frame_of(&mut self, first: u8) -> Vec<u8> {
        match first {
            0x00..=0x06 => self.maker.frame_of(first),
            0x10 => self.maker.local_frame(first),
            0x11 => vec![first, self.place() as u8],
            0x12 => {
                let place = self.place();
                self.record().lend(place)
            }
            0x20..=0x28 => self.remote_frame_of(first),
            0x30 => self.write_frame(),
            0x31 => self.step_frame(),
            0xe0 => {
                let [high, low] = (100 + self.below(100) as u16).to_be_bytes();
                vec![first, high, low]
            }
            0xe1 => vec![first, PLACES as u8],
            0xe2 => vec![first, self.maker.random.byte()],
            _ => vec![first],
        }
    }

    fn broken_scene(&mut self) {
        let line = self.broken_line();
        let mut start = Vec::new();
        let _ = read_digits(&line[..line.len().min(4)], &mut start);
        self.say(line);
        match start[..] {
            // What a lend would have changed.
            [0x12, place] if usize::from(place) < RECORDS => self.look(place.into()),
            [0x28, place] if usize::from(place) < RECORDS => self.remote_look(place.into()),
            [0x30 | 0xe0 | 0xe2, ..] => self.tell(&[0xe3]),
            _ => {}
        }
    }

    fn broken_line(&mut self) -> Vec<u8> {
        let first = self.pick(&FRAMES);
        let mut frame = self.frame_of(first);
        match self.below(20) {
            0 => return Vec::new(),
            1 | 2 => return self.maker.bad_digit(&frame),
            3 => return self.maker.odd_digits(&frame),
            4 if self.chance(40) => return self.maker.long_line(),
            4..=7 => frame = self.no_frame(),
            8..=13 => frame = self.field_over_its_limit(),
            14 => frame = self.length_of_another_time(),
            15 | 16 => {
                let extra = 1 + self.below(3);
                frame.extend_from_slice(&self.maker.random.bytes(extra));
            }
            _ => {
                let most = self.pick(&[5, 22]);
                frame.truncate(self.below(frame.len().min(most)));
            }
        }
        digits(&frame)
    }

    /// A first byte that is none, in front of what a later request gives it.
    fn no_frame(&mut self) -> Vec<u8> {
        let (first, length) = self.pick(&NO_FRAMES);
        let mut frame = vec![first];
        frame.extend_from_slice(&self.maker.random.bytes(length));
        frame
    }

    fn field_over_its_limit(&mut self) -> Vec<u8> {
        let over = self.maker.random.pick(&[2, 3, 4, 0x10, 0x80, 0xff]);
        let mut frame = match self.below(11) {
            0 => [&self.maker.new_stream()[..17], &[over]].concat(),
            1 => [0xe1, self.pick(&[66, 67, 128, 255])].to_vec(),
            2 => {
                let room: u16 = self.pick(&[4_001, 4_002, 4_096, 0x8000, 0xffff]);
                [&[0xe0], &room.to_be_bytes()[..]].concat()
            }
            3 => [0x11, self.pick(&[65, 66, 128, 255])].to_vec(),
            4 => [0x27, self.pick(&[65, 66, 128, 255])].to_vec(),
            5..=7 => self.frame_of(0x28),
            _ => self.frame_of(0x12),
        };
        if matches!(frame[0], 0x12 | 0x28) {
            match self.below(3) {
                0 => frame[1] = self.pick(&[65, 66, 128, 255]),
                1 => frame[2] = over,
                _ => frame[7] = over.max(4),
            }
        }
        frame
    }

    /// Frames in the length that a later request gives them.
    fn length_of_another_time(&mut self) -> Vec<u8> {
        let extra = self.pick(&[0, 5, 21, 25]);
        let mut frame = match extra {
            0 => {
                let first = self.pick(&[0x02, 0x03]);
                let mut frame = self.maker.local_frame(first);
                frame.extend_from_slice(&[0; 4]);
                frame
            }
            _ => self.frame_of(0x12),
        };
        frame.resize(frame.len() + extra, 0);
        frame
    }
}

/// The places of the first records that have an SSRC, in use or not.
fn places_of<R: second::row::Record>(records: &[R], ssrc: u32) -> Vec<usize> {
    let places = (0..records.len()).filter(|&place| records[place].ssrc() == ssrc);
    places.take(3).collect()
}

/// A datagram of one entry.
fn one_entry(ssrc: u32, kind: u8, pause_id: u16) -> Vec<u8> {
    let mut body = vec![0xaa, 0xbb, 0xcc, 0xdd, 0, 0, 0, 0];
    body.extend_from_slice(&entry_head(ssrc, kind, 0, pause_id));
    packet(0x89, 205, &body)
}

fn datagram_frame(time: u32, datagram: &[u8]) -> Vec<u8> {
    [&[0x00], &time.to_be_bytes()[..], datagram].concat()
}

fn step(number: u64, datagram: &[u8]) -> Vec<u8> {
    [&[0x31], &number.to_be_bytes()[..], datagram].concat()
}

impl Generator for ConsoleLines {
    /// Seeds start with a table that is as it was, full, full to the place that is never lent, or with
    /// a few streams; in turn for the sender's, and every four seeds for the receiver's.
    fn new(seed: u64, _: usize) -> Self {
        let mut lines = ConsoleLines {
            maker: Maker::new(seed),
            console: Console::default(),
            lines: VecDeque::new(),
        };
        match seed % 4 {
            0 => {
                lines.tell(&[0xe3]);
                lines.look(0);
                lines.look(RECORDS - 1);
            }
            1 => lines.fill_table(PLACES),
            2 => lines.fill_table(RECORDS),
            _ => lines.fill_table(5),
        }
        match seed / 4 % 4 {
            0 => {
                lines.remote_look(0);
                lines.remote_look(RECORDS - 1);
            }
            1 => lines.fill_receiver(PLACES),
            2 => lines.fill_receiver(RECORDS),
            _ => lines.fill_receiver(5),
        }
        lines
    }

    fn line(&mut self) -> Vec<u8> {
        loop {
            match self.lines.pop_front() {
                Some(line) => return line,
                None => self.scene(),
            }
        }
    }

    fn last_line(&mut self) -> Vec<u8> {
        digits(&self.maker.local_frame(6))
    }
}

fn main() -> ExitCode {
    generate::<ConsoleLines>("console_lines")
}
