//! Makes frames that aim at streams; shared by the generators of input lines.

use std::io::{self, BufWriter, Write};
use std::process::ExitCode;

use crate::line::{write_digits, MOST_DIGITS};
use crate::packet::LONGEST;
use crate::random::Random;
use crate::row::PLACES;
use crate::stream::{State, Stream};
use crate::table::MOST_MILLISECONDS;

/// SSRCs of the first streams: some share bytes, one is the house SSRC.
pub const SSRCS: [u32; 12] = [
    0x0000_0000,
    0xffff_ffff,
    0x1122_3344,
    0x1122_3345,
    0x4433_2211,
    0x1122_0000,
    0x0000_0001,
    0x0100_0000,
    0x7fff_ffff,
    0x8000_0000,
    0xffff_fffe,
    0x0000_3344,
];

/// SSRCs no stream ever has.
pub const STRANGERS: [u32; 6] = [
    0x1122_3346,
    0x2233_4411,
    0x3344_0000,
    0x0000_0002,
    0xfeff_ffff,
    0xdead_beef,
];

/// The first streams get most of the events, so that these come far in the state table.
const FAVOURITES: usize = 4;

/// So many streams are added before all else.
pub const EARLY: usize = 6;

/// Where the counters start: near their wraps and half turns, or anywhere.
pub const COUNTERS: [u16; 8] = [0, 1, 7, 32_767, 32_768, 65_533, 65_534, 65_535];

/// Distances of a received PauseID from c.
const DISTANCES: [u16; 8] = [1, 2, 0x7fff, 0x7ffe, 0x8000, 0x8001, 0xfffe, 0xffff];

/// Distances of a time from a deadline.
pub const DELAYS: [u32; 10] = [
    0,
    1,
    0xffff_ffff,
    0x7fff_fffe,
    0x7fff_ffff,
    0x8000_0000,
    0x8000_0001,
    1_000,
    0xffff_f000,
    0x4000_0000,
];

/// Datagram sizes around the limit; 1,545 bytes are the most a line can hold.
const SIZES: [usize; 7] = [1_496, 1_500, 1_500, 1_501, 1_501, 1_504, 1_545];

const RTPFB: u8 = 205;
const PADDING_FLAG: u8 = 0x20;

/// What a frame is made from.
#[derive(Debug)]
pub struct Maker {
    pub random: Random,
    /// The streams in use, as they are now.
    pub streams: Vec<Stream>,
    /// Whether datagrams are for a receiver: mostly PAUSED and REFUSED, in place of PAUSE and
    /// RESUME.
    pub for_receiver: bool,
    time: u32,
}

impl Maker {
    pub fn new(seed: u64) -> Self {
        Maker {
            random: Random::new(seed),
            streams: Vec::new(),
            for_receiver: false,
            time: 0,
        }
    }

    /// A frame of the line program, mostly one that does something.
    pub fn frame(&mut self) -> Vec<u8> {
        match self.random.below(100) {
            0..=43 => self.datagram_frame(),
            44..=56 => self.time_frame(),
            57..=62 => self.local_frame(2),
            63..=71 => self.local_frame(3),
            72..=84 => self.local_frame(5),
            85..=94 => self.local_frame(6),
            _ => self.refused_add(),
        }
    }

    /// A stream in use, mostly one of the first; nothing while the table is empty.
    pub fn stream(&mut self) -> Option<Stream> {
        let count = if self.random.chance(60) {
            self.streams.len().min(FAVOURITES)
        } else {
            self.streams.len()
        };
        if count == 0 {
            return None;
        }
        let place = self.random.below(count);
        self.streams.get(place).cloned()
    }

    /// A stream in use or, at times, a stranger.
    pub fn target(&mut self, strangers: usize) -> Stream {
        let stranger = Stream::new(self.random.pick(&STRANGERS), self.random.u16(), 0, 0);
        if self.random.chance(strangers) {
            stranger
        } else {
            self.stream().unwrap_or(stranger)
        }
    }

    /// An SSRC for a new stream; it may be in use already.
    fn new_ssrc(&mut self) -> u32 {
        if self.random.chance(30) {
            self.random.pick(&SSRCS)
        } else {
            0x5eed_0000 | (self.random.u32() & 0x0000_ff03)
        }
    }

    pub fn new_stream(&mut self) -> Vec<u8> {
        let ssrc = match self.streams.len() {
            0..EARLY => self.random.pick(&SSRCS),
            _ => self.new_ssrc(),
        };
        let (rtt, dither) = self.times();
        let nowait = u8::from(self.random.chance(30));
        self.add_frame(ssrc, rtt, dither, nowait)
    }

    /// An RTT and a dither that pass.
    pub fn times(&mut self) -> (u32, u32) {
        let most = MOST_MILLISECONDS;
        let any = self.random.u32() % most;
        self.random.pick(&[
            (0, 0),
            (0, 0),
            (1, 0),
            (0, 1),
            (100, 200),
            (most, most),
            (most, 0),
            (0, most),
            (any, 9),
        ])
    }

    /// An add that is refused: over a limit, of an SSRC in use, or to a full table.
    pub fn refused_add(&mut self) -> Vec<u8> {
        let full = self.streams.len() >= PLACES;
        let ssrc = if full && self.random.chance(40) {
            self.random.pick(&STRANGERS)
        } else {
            self.target(0).ssrc
        };
        let (mut rtt, mut dither) = self.times();
        let over = self.random.pick(&[
            MOST_MILLISECONDS + 1,
            MOST_MILLISECONDS + 1,
            0x8000_0000,
            0x8000_0064,
            0xffff_ffff,
        ]);
        // While no SSRC is in use, only a limit can refuse the add.
        let fault = match self.streams[..] {
            [] => 0,
            _ => self.random.below(5),
        };
        match fault {
            0 => rtt = over,
            1 => dither = over,
            2 => (rtt, dither) = (over, over),
            _ => {}
        }
        let nowait = u8::from(self.random.chance(30));
        self.add_frame(ssrc, rtt, dither, nowait)
    }

    pub fn add_frame(&mut self, ssrc: u32, rtt: u32, dither: u32, nowait: u8) -> Vec<u8> {
        let mut frame = vec![1];
        frame.extend_from_slice(&ssrc.to_be_bytes());
        for _ in 0..2 {
            let any = self.random.u16();
            let counter = if self.random.chance(80) {
                self.random.pick(&COUNTERS)
            } else {
                any
            };
            frame.extend_from_slice(&counter.to_be_bytes());
        }
        frame.extend_from_slice(&rtt.to_be_bytes());
        frame.extend_from_slice(&dither.to_be_bytes());
        frame.push(nowait);
        frame
    }

    pub fn local_frame(&mut self, first: u8) -> Vec<u8> {
        let mut frame = vec![first];
        frame.extend_from_slice(&self.target(5).ssrc.to_be_bytes());
        frame
    }

    pub fn time_frame(&mut self) -> Vec<u8> {
        let mut stream = self.target(5);
        // The time event does something in Pausing alone, so such a stream is looked for.
        for _ in 0..3 {
            if !matches!(stream.state, State::Pausing { .. }) {
                stream = self.target(5);
            }
        }
        let time = match stream.state {
            State::Pausing { deadline } => deadline.wrapping_add(self.random.pick(&DELAYS)),
            _ => self.tick(),
        };
        let mut frame = vec![4];
        frame.extend_from_slice(&stream.ssrc.to_be_bytes());
        frame.extend_from_slice(&time.to_be_bytes());
        frame
    }

    /// Moves the clock: on by a little, to a deadline, near the wrap, or anywhere.
    pub fn tick(&mut self) -> u32 {
        self.time = match self.random.below(10) {
            0 => self.random.u32(),
            1 => 0u32.wrapping_sub(self.random.below(200_000) as u32),
            2..=4 => match self.stream().map(|stream| stream.state) {
                Some(State::Pausing { deadline }) => {
                    deadline.wrapping_add(self.random.pick(&DELAYS))
                }
                _ => self.time,
            },
            _ => self.time.wrapping_add(self.random.below(2_000) as u32),
        };
        self.time
    }

    fn datagram_frame(&mut self) -> Vec<u8> {
        let mut frame = vec![0];
        frame.extend_from_slice(&self.tick().to_be_bytes());
        frame.extend_from_slice(&self.datagram());
        frame
    }

    pub fn datagram(&mut self) -> Vec<u8> {
        match self.random.below(100) {
            0..=53 => self.good_datagram(),
            54..=89 => self.faulty_datagram(),
            90..=93 => self.full_datagram(),
            94..=97 => self.datagram_near_the_limit(),
            _ => {
                let count = self.random.below(24);
                self.random.bytes(count)
            }
        }
    }

    pub fn good_datagram(&mut self) -> Vec<u8> {
        let mut packets = self.packets();
        if let Some(last) = packets.last_mut() {
            if self.random.chance(25) {
                let count = self.random.pick(&[4, 4, 8, 12, 16, 248, 252]);
                pad(last, count);
            }
        }
        packets.concat()
    }

    /// One to four packets, more than half of them of FMT 9.
    fn packets(&mut self) -> Vec<Vec<u8>> {
        let count = self.random.pick(&[1, 1, 2, 2, 3, 4]);
        (0..count).map(|_| self.packet()).collect()
    }

    fn packet(&mut self) -> Vec<u8> {
        if self.random.chance(60) {
            self.pause_packet()
        } else {
            self.other_packet()
        }
    }

    /// A packet to be passed over. Its content is not judged, so it is made up.
    fn other_packet(&mut self) -> Vec<u8> {
        let count = self.random.byte() & 0x1f;
        let (count, kind) = self.random.pick(&[
            (count, 200),
            (count, 201),
            (count, 202),
            (count, 203),
            (count, 204),
            (count & 7, RTPFB),
            (10 | count, RTPFB),
            (9, 206),
            (9, 201),
            (9, 77),
            (9, 204),
        ]);
        let words = self.random.pick(&[0, 1, 2, 4, 6]);
        let body = self.random.bytes(4 * words);
        packet(0x80 | count, kind, &body)
    }

    pub fn pause_packet(&mut self) -> Vec<u8> {
        let count = self.random.pick(&[1, 1, 1, 2, 3, 5]);
        let mut body = self.head();
        for _ in 0..count {
            body.extend_from_slice(&self.entry());
        }
        packet(0x89, RTPFB, &body)
    }

    /// SSRC of packet sender and SSRC of media source.
    fn head(&mut self) -> Vec<u8> {
        let mut head = self.random.bytes(8);
        if self.random.chance(80) {
            head[4..].fill(0);
        }
        head
    }

    pub fn entry(&mut self) -> Vec<u8> {
        let stream = self.target(12);
        let kind = match self.random.below(20) {
            0..=7 => self.first_kind(),
            8..=15 => 1 + self.first_kind(),
            16 => 2 - self.first_kind(),
            17 => 3 - self.first_kind(),
            _ => 4 + self.random.below(12) as u8,
        };
        let words = match self.random.below(80) {
            0 => 255,
            1..=8 => 1 + self.random.below(3),
            _ => 0,
        };
        let pause_id = self.pause_id(&stream);
        let mut entry = entry_head(stream.ssrc, kind, words as u8, pause_id);
        if self.random.chance(15) {
            entry[4] |= self.random.byte() & 0x0f;
        }
        entry.extend_from_slice(&self.random.bytes(4 * words));
        entry
    }

    /// The first of the two types that do something: PAUSE, for a receiver PAUSED.
    fn first_kind(&self) -> u8 {
        match self.for_receiver {
            false => 0,
            true => 2,
        }
    }

    /// Mostly c; one above c is what an earlier RESUME of the same datagram leads to.
    pub fn pause_id(&mut self, stream: &Stream) -> u16 {
        let distance = match self.random.below(20) {
            0..=12 => 0,
            13 => 1,
            14 => self.random.u16(),
            _ => self.random.pick(&DISTANCES),
        };
        stream.pause_id.wrapping_add(distance)
    }

    /// 186 entries, the most that fit; of several kinds.
    pub fn full_datagram(&mut self) -> Vec<u8> {
        let mode = self.random.below(4);
        let mut body = self.head();
        for _ in 0..186 {
            let strangers = self.random.pick(&[0, 10]);
            let stream = match mode {
                0 => self.target(100),
                1 => self.target(0),
                _ => self.target(strangers),
            };
            let (kind, pause_id) = match mode {
                // Each of these is refused, so there are 186 replies.
                1 => (self.random.byte() & 1, stream.pause_id.wrapping_add(1)),
                _ => (self.random.byte() & 1, self.pause_id(&stream)),
            };
            let kind = self.first_kind() + kind;
            body.extend_from_slice(&entry_head(stream.ssrc, kind, 0, pause_id));
        }
        packet(0x89, RTPFB, &body)
    }

    /// Some packets, filled up to a size around 1,500 bytes.
    pub fn datagram_near_the_limit(&mut self) -> Vec<u8> {
        let size = self.random.pick(&SIZES);
        let mut datagram = self.pause_packet();
        let room = size.saturating_sub(datagram.len() + 4);
        let mut filler = packet(0x80, 204, &vec![0; room - room % 4]);
        if size == LONGEST && self.random.chance(50) {
            filler[0] |= PADDING_FLAG;
            if let Some(count) = filler.last_mut() {
                *count = 252;
            }
        }
        datagram.extend_from_slice(&filler);
        datagram.resize(size.max(datagram.len()), 0);
        datagram
    }

    /// Good packets with one fault put in, at times two.
    pub fn faulty_datagram(&mut self) -> Vec<u8> {
        let mut packets = self.packets();
        self.spoil(&mut packets);
        if self.random.chance(30) {
            self.spoil(&mut packets);
        }
        packets.concat()
    }

    fn spoil(&mut self, packets: &mut Vec<Vec<u8>>) {
        match self.random.below(10) {
            0 => self.spoil_end(packets),
            1 => self.spoil_version(packets),
            2 => self.spoil_length(packets),
            3 => self.spoil_padding_place(packets),
            4 | 5 => self.spoil_padding_count(packets),
            6 => self.cover_by_padding(packets),
            _ => self.put_in_bad_entries(packets),
        }
    }

    /// Short: one to three bytes where a packet starts, or no packet at all.
    fn spoil_end(&mut self, packets: &mut Vec<Vec<u8>>) {
        if self.random.chance(20) {
            packets.clear();
        }
        let count = self.random.below(4);
        let mut end = self.random.bytes(count);
        if let Some(first) = end.first_mut() {
            *first = 0x80 | *first & 0x1f;
        }
        packets.push(end);
    }

    fn spoil_version(&mut self, packets: &mut [Vec<u8>]) {
        let place = self.random.below(packets.len());
        let version = self.random.pick(&[0, 1, 3]);
        if let Some(first) = packets[place].first_mut() {
            *first = version << 6 | *first & 0x3f;
        }
        if self.random.chance(20) {
            self.spoil_length(packets);
        }
    }

    /// Overrun: a length that is too large, or bytes cut off the end.
    fn spoil_length(&mut self, packets: &mut [Vec<u8>]) {
        let cut = 1 + self.random.below(7);
        let mode = self.random.below(4);
        let flag = self.random.pick(&[0, 0, PADDING_FLAG]);
        let Some(last) = packets.last_mut().filter(|last| last.len() >= 4) else {
            return;
        };
        last[0] |= flag;
        match mode {
            0 => last[2..4].fill(0xff),
            1 => last[3] = last[3].wrapping_add(1),
            _ => last.truncate(last.len().saturating_sub(cut).max(4)),
        }
    }

    /// PadPlace: the flag on a packet that others follow.
    fn spoil_padding_place(&mut self, packets: &mut Vec<Vec<u8>>) {
        let place = self.random.below(packets.len());
        if place + 1 == packets.len() {
            let follower = if self.random.chance(30) {
                vec![0x80, 201, 0]
            } else {
                self.packet()
            };
            packets.push(follower);
        }
        if packets[place].len() < 4 {
            return;
        }
        if self.random.chance(50) {
            pad(&mut packets[place], 4)
        } else {
            packets[place][0] |= PADDING_FLAG
        }
    }

    /// PadCount: the flag on the last packet, with a count that is 0, not divisible by 4 or too
    /// large, or on a bare header.
    fn spoil_padding_count(&mut self, packets: &mut Vec<Vec<u8>>) {
        if self.random.chance(20) {
            let (count, kind) = self.random.pick(&[(9, RTPFB), (0, 201), (4, 204)]);
            packets.push(packet(0xa0 | count, kind, &[]));
            return;
        }
        let Some(last) = packets.last_mut().filter(|last| last.len() > 4) else {
            return;
        };
        let after_header = last.len() - 4;
        let word_over = (after_header + 4).min(252) as u8;
        let any = self.random.byte();
        let count = self.random.pick(&[
            0, 0, 0, 1, 2, 3, 5, 254, 255, 252, 248, word_over, word_over, any,
        ]);
        last[0] |= PADDING_FLAG;
        last[after_header + 3] = count;
    }

    /// Padding that takes entries, or more, away: NoHead, NoEntry, Entry, or fewer entries.
    fn cover_by_padding(&mut self, packets: &mut Vec<Vec<u8>>) {
        packets.push(self.pause_packet());
        let Some(last) = packets.last_mut() else {
            return;
        };
        let after_header = last.len() - 4;
        let most = after_header.min(252) / 4;
        let count = 4 * (1 + self.random.below(most));
        last[0] |= PADDING_FLAG;
        last[after_header + 3] = count as u8;
    }

    /// NoHead, NoEntry or Entry by the length alone, anywhere among the packets.
    fn put_in_bad_entries(&mut self, packets: &mut Vec<Vec<u8>>) {
        let mut body = self.head();
        match self.random.below(6) {
            0 => body.truncate(self.random.pick(&[0, 4])),
            1 => {}
            _ => {
                for _ in 0..self.random.below(3) {
                    body.extend_from_slice(&self.entry());
                }
                body.extend_from_slice(&self.cut_entry());
            }
        }
        let place = self.random.below(packets.len() + 1);
        packets.insert(place, packet(0x89, RTPFB, &body));
    }

    /// An entry that lacks its 8 bytes or its parameters.
    fn cut_entry(&mut self) -> Vec<u8> {
        let stream = self.target(10);
        let kind = self.random.byte() & 0x0f;
        let words = self.random.pick(&[1, 1, 2, 3, 9, 255]);
        let mut entry = entry_head(stream.ssrc, kind, words, stream.pause_id);
        match self.random.below(3) {
            0 => entry.truncate(4),
            1 => entry.resize(8 + 4 * (usize::from(words) - 1), 0),
            _ => {}
        }
        entry
    }

    /// A good frame with the given first byte.
    pub fn frame_of(&mut self, first: u8) -> Vec<u8> {
        match first {
            0 => self.datagram_frame(),
            1 => self.new_stream(),
            4 => self.time_frame(),
            _ => self.local_frame(first),
        }
    }

    pub fn bad_digit(&mut self, frame: &[u8]) -> Vec<u8> {
        let mut line = digits(frame);
        let place = self.random.below(line.len());
        match self.random.below(6) {
            0 => line.push(b'\r'),
            1 => line.insert(place, b' '),
            2 => line.push(b' '),
            3 => {
                let letter = line.iter().position(u8::is_ascii_lowercase);
                line[letter.unwrap_or(place)].make_ascii_uppercase();
            }
            _ => line[place] = self.random.pick(b"gGxz/:@`-+.\t\0\r\x7f\x80\xb0\xff"),
        }
        line
    }

    pub fn odd_digits(&mut self, frame: &[u8]) -> Vec<u8> {
        let mut line = digits(frame);
        if self.random.chance(50) {
            line.push(b'0')
        } else {
            {
                line.pop();
            }
        }
        line
    }

    /// Lines around 3,100 digits, of some thousands and, seldom, beyond any buffer.
    pub fn long_line(&mut self) -> Vec<u8> {
        let length = match self.random.below(20) {
            0 => 66_000 + self.random.below(140_000),
            1..=3 => 10_000 + self.random.below(20_000),
            4 | 5 => 3_103 + self.random.below(3_200),
            6..=9 => MOST_DIGITS,
            10..=12 => MOST_DIGITS - 1,
            13..=15 => MOST_DIGITS + 1,
            _ => MOST_DIGITS + 2,
        };
        let mut line = digits(&self.datagram_frame());
        line.resize(length, b'0');
        line
    }
}

/// A packet with its header; the body is a row of 32-bit words.
pub fn packet(first: u8, kind: u8, body: &[u8]) -> Vec<u8> {
    let mut packet = vec![first, kind, 0, 0];
    packet.extend_from_slice(body);
    set_length(&mut packet);
    packet
}

fn set_length(packet: &mut [u8]) {
    let words_less_one = (packet.len() / 4 - 1) as u16;
    packet[2..4].copy_from_slice(&words_less_one.to_be_bytes());
}

/// Appends padding as it should be.
fn pad(packet: &mut Vec<u8>, count: u8) {
    packet[0] |= PADDING_FLAG;
    packet.resize(packet.len() + usize::from(count) - 1, 0);
    packet.push(count);
    set_length(packet);
}

pub fn entry_head(target: u32, kind: u8, words: u8, pause_id: u16) -> Vec<u8> {
    let mut entry = target.to_be_bytes().to_vec();
    entry.extend_from_slice(&[kind << 4, words]);
    entry.extend_from_slice(&pause_id.to_be_bytes());
    entry
}

pub fn digits(frame: &[u8]) -> Vec<u8> {
    let mut line = Vec::new();
    write_digits(frame, &mut line);
    line
}

/// A generator of input lines.
pub trait Generator {
    /// For `count` lines of a seed.
    fn new(seed: u64, count: usize) -> Self;

    fn line(&mut self) -> Vec<u8>;

    /// A last line that is a frame.
    fn last_line(&mut self) -> Vec<u8>;
}

/// `name SEED COUNT [open]` writes COUNT lines; with `open` the line feed after the last one is
/// left out.
pub fn generate<G: Generator>(name: &str) -> ExitCode {
    let arguments: Vec<String> = std::env::args().skip(1).collect();
    let arguments: Vec<&str> = arguments.iter().map(String::as_str).collect();
    let (seed, count, open) = match arguments[..] {
        [seed, count] => (seed.parse(), count.parse(), false),
        [seed, count, "open"] => (seed.parse(), count.parse(), true),
        _ => return usage(name),
    };
    let (Ok(seed), Ok(count)) = (seed, count) else {
        return usage(name);
    };
    match write_lines(&mut G::new(seed, count), count, open) {
        Ok(()) => ExitCode::SUCCESS,
        Err(error) => {
            eprintln!("{name}: {error}");
            ExitCode::FAILURE
        }
    }
}

fn write_lines(generator: &mut impl Generator, count: usize, open: bool) -> io::Result<()> {
    let mut output = BufWriter::new(io::stdout().lock());
    for number in 1..=count {
        if open && number == count {
            output.write_all(&generator.last_line())?;
        } else {
            output.write_all(&generator.line())?;
            output.write_all(b"\n")?;
        }
    }
    output.flush()
}

fn usage(name: &str) -> ExitCode {
    eprintln!("usage: {name} SEED COUNT [open]");
    ExitCode::from(2)
}
