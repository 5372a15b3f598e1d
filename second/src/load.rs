//! Loads for the measures of speed, always the same for one name: frames for the line program, and
//! steps for the receiver's datagram call in memory.

use crate::line::{write_digits, Program};
use crate::random::Random;
use crate::receiver::Receiver;
use crate::remote::{Remote, State, REPEATS};

/// Milliseconds from one datagram to the next: 10,000 in an hour.
const STEP: u32 = 360;

/// What the frames after the adds are.
#[derive(Clone, Copy, Debug, PartialEq, Eq)]
enum Frames {
    /// Datagrams of so many entries, each for one of the streams.
    Datagrams { entries: usize },
    /// Datagrams of so many entries, each for an SSRC that no stream has.
    Strangers { entries: usize },
    /// Sends, reports, times, local pauses and local resumes.
    LocalCalls,
}

#[derive(Clone, Copy, Debug, PartialEq, Eq)]
pub struct Load {
    pub name: &'static str,
    /// In words, for the table of ratios.
    pub words: &'static str,
    streams: usize,
    /// SSRCs are drawn among the multiples of it.
    step: u32,
    frames: Frames,
    count: u32,
}

/// The busy hour is the first; the others part what it mixes.
pub const LOADS: [Load; 8] = [
    Load {
        name: "busy",
        words: "64 streams, 186 entries a datagram",
        streams: 64,
        step: 1,
        frames: Frames::Datagrams { entries: 186 },
        count: 10_000,
    },
    Load {
        name: "eight",
        words: "8 streams, 186 entries a datagram",
        streams: 8,
        step: 1,
        frames: Frames::Datagrams { entries: 186 },
        count: 10_000,
    },
    Load {
        name: "one",
        words: "1 stream, 186 entries a datagram",
        streams: 1,
        step: 1,
        frames: Frames::Datagrams { entries: 186 },
        count: 10_000,
    },
    Load {
        name: "single",
        words: "64 streams, 1 entry a datagram",
        streams: 64,
        step: 1,
        frames: Frames::Datagrams { entries: 1 },
        count: 500_000,
    },
    Load {
        name: "small",
        words: "64 streams, local calls only",
        streams: 64,
        step: 1,
        frames: Frames::LocalCalls,
        count: 1_000_000,
    },
    Load {
        name: "alike",
        words: "64 streams with one low byte, 186 entries a datagram",
        streams: 64,
        step: 256,
        frames: Frames::Datagrams { entries: 186 },
        count: 10_000,
    },
    // The first program has an index of SSRCs by their remainder: here it is of no use.
    Load {
        name: "crowded",
        words: "64 streams with one remainder modulo 251, 186 entries a datagram",
        streams: 64,
        step: 251,
        frames: Frames::Datagrams { entries: 186 },
        count: 10_000,
    },
    Load {
        name: "strangers",
        words: "64 streams, 186 entries a datagram for none of them",
        streams: 64,
        step: 1,
        frames: Frames::Strangers { entries: 186 },
        count: 10_000,
    },
];

impl Load {
    pub fn named(name: &str) -> Option<Load> {
        LOADS.into_iter().find(|load| load.name == name)
    }

    /// Hands out frame after frame. Each is run at once, so that the next one can be made for the
    /// PauseIDs that follow.
    pub fn each<E>(&self, mut take: impl FnMut(&[u8]) -> Result<(), E>) -> Result<(), E> {
        let mut random = Random::new(1);
        let mut program = Program::default();
        let mut line = Vec::new();
        let mut run = |frame: &[u8], program: &mut Program| {
            line.clear();
            write_digits(frame, &mut line);
            program.answer(&line, &mut Vec::new());
        };
        for number in 0..self.streams {
            let frame = self.add(number, &mut random);
            run(&frame, &mut program);
            take(&frame)?;
        }
        for number in 0..self.count {
            let time = number.wrapping_mul(STEP);
            let frame = self.frame(time, &program, &mut random);
            run(&frame, &mut program);
            take(&frame)?;
        }
        Ok(())
    }

    /// Every other stream is added with nowait.
    fn add(&self, number: usize, random: &mut Random) -> Vec<u8> {
        let mut frame = vec![1];
        frame.extend_from_slice(&(random.u32() / self.step * self.step).to_be_bytes());
        frame.extend_from_slice(&random.u16().to_be_bytes());
        frame.extend_from_slice(&random.u16().to_be_bytes());
        frame.extend_from_slice(&100u32.to_be_bytes());
        frame.extend_from_slice(&200u32.to_be_bytes());
        frame.push((number % 2) as u8);
        frame
    }

    fn frame(&self, time: u32, program: &Program, random: &mut Random) -> Vec<u8> {
        match self.frames {
            Frames::Datagrams { entries } => {
                let entry = || stream_entry(program, random);
                datagram(time, entries, entry)
            }
            Frames::Strangers { entries } => datagram(time, entries, || stranger_entry(random)),
            Frames::LocalCalls => local_call(time, program, random),
        }
    }
}

fn datagram(time: u32, entries: usize, entry: impl FnMut() -> [u8; 8]) -> Vec<u8> {
    let mut frame = vec![0];
    frame.extend_from_slice(&time.to_be_bytes());
    frame.append(&mut packet(entries, entry));
    frame
}

/// One packet of so many entries.
fn packet(entries: usize, mut entry: impl FnMut() -> [u8; 8]) -> Vec<u8> {
    let words_less_one = (12 + 8 * entries as u16) / 4 - 1;
    let mut packet = vec![0x89, 205];
    packet.extend_from_slice(&words_less_one.to_be_bytes());
    packet.extend_from_slice(&[0xaa, 0xbb, 0xcc, 0xdd, 0, 0, 0, 0]);
    for _ in 0..entries {
        packet.extend_from_slice(&entry());
    }
    packet
}

/// Most entries are current, some past or future, so that streams change their state and replies
/// are made all the time.
fn stream_entry(program: &Program, random: &mut Random) -> [u8; 8] {
    let streams = program.table().streams();
    let stream = &streams[random.below(streams.len())];
    let distance: u16 = random.pick(&[0, 0, 0, 0, 1, 0xffff]);
    let pause_id = stream.pause_id.wrapping_add(distance);
    entry(stream.ssrc, random.pick(&[0x00, 0x10]), pause_id)
}

/// The 64 SSRCs drawn for the streams are not met again among so few.
fn stranger_entry(random: &mut Random) -> [u8; 8] {
    entry(random.u32(), random.pick(&[0x00, 0x10]), random.u16())
}

fn entry(target: u32, kind: u8, pause_id: u16) -> [u8; 8] {
    let [t0, t1, t2, t3] = target.to_be_bytes();
    let [p0, p1] = pause_id.to_be_bytes();
    [t0, t1, t2, t3, kind, 0, p0, p1]
}

/// Half of them sends, as in a relay.
fn local_call(time: u32, program: &Program, random: &mut Random) -> Vec<u8> {
    let streams = program.table().streams();
    let ssrc = streams[random.below(streams.len())].ssrc;
    let first = random.pick(&[6, 6, 6, 6, 5, 4, 3, 2]);
    let mut frame = vec![first];
    frame.extend_from_slice(&ssrc.to_be_bytes());
    if first == 4 {
        frame.extend_from_slice(&time.to_be_bytes());
    }
    frame
}

/// A load of the receiver's datagram call in memory.
#[derive(Clone, Copy, Debug, PartialEq, Eq)]
pub struct RemoteLoad {
    pub name: &'static str,
    /// In words, for the table of ratios.
    pub words: &'static str,
    streams: usize,
    /// Entries of a datagram.
    entries: usize,
    /// Whether they are for SSRCs that no stream has.
    strangers: bool,
    /// So many datagrams.
    pub count: usize,
    /// Records lent anew before each datagram.
    lent: usize,
}

/// Between two datagrams some records are lent anew, in any state. Without that every stream would
/// soon be in Paused, and stay there.
#[derive(Clone, Debug, PartialEq, Eq)]
pub enum RemoteStep {
    Lend {
        place: usize,
        state: State,
        /// The same as numbers, so that they need not be found while the time runs.
        numbers: (u8, u8),
    },
    Datagram(Vec<u8>),
}

pub const REMOTE_LOADS: [RemoteLoad; 4] = [
    RemoteLoad {
        name: "busy",
        words: "64 remote streams, 186 entries a datagram",
        streams: 64,
        entries: 186,
        strangers: false,
        count: 10_000,
        lent: 64,
    },
    RemoteLoad {
        name: "single",
        words: "64 remote streams, 1 entry a datagram",
        streams: 64,
        entries: 1,
        strangers: false,
        count: 500_000,
        lent: 1,
    },
    RemoteLoad {
        name: "strangers",
        words: "64 remote streams, 186 entries a datagram for none of them",
        streams: 64,
        entries: 186,
        strangers: true,
        count: 10_000,
        lent: 0,
    },
    RemoteLoad {
        name: "one",
        words: "1 remote stream, 186 entries a datagram",
        streams: 1,
        entries: 186,
        strangers: false,
        count: 10_000,
        lent: 1,
    },
];

impl RemoteLoad {
    pub fn named(name: &str) -> Option<RemoteLoad> {
        REMOTE_LOADS.into_iter().find(|load| load.name == name)
    }

    /// The table at the start, with streams in all four states, and what then happens to it.
    pub fn steps(&self) -> (Receiver, Vec<RemoteStep>) {
        let mut random = Random::new(1);
        let mut receiver = Receiver::default();
        let mut ssrcs = Vec::new();
        for place in 0..self.streams {
            let ssrc = random.u32();
            let remote = Remote {
                state: remote_state(place, place / 4),
                ..Remote::new(ssrc, random.u16())
            };
            receiver.put(place, remote);
            ssrcs.push(ssrc);
        }
        let mut steps = Vec::new();
        for _ in 0..self.count {
            for _ in 0..self.lent {
                let place = random.below(self.streams);
                let state = remote_state(random.below(4), random.below(5));
                steps.push(RemoteStep::Lend {
                    place,
                    state,
                    numbers: state.numbers(),
                });
            }
            steps.push(RemoteStep::Datagram(packet(self.entries, || {
                self.entry(&ssrcs, &mut random)
            })));
        }
        (receiver, steps)
    }

    /// Of any of the four types, with any ID.
    fn entry(&self, ssrcs: &[u32], random: &mut Random) -> [u8; 8] {
        let target = match self.strangers {
            true => random.u32(),
            false => random.pick(ssrcs),
        };
        entry(target, random.pick(&[0x00, 0x10, 0x20, 0x30]), random.u16())
    }
}

/// Each of the four states in turn, in the Asked ones with 0 to 4 reports left.
fn remote_state(number: usize, reports: usize) -> State {
    let left = reports as u8 % (REPEATS + 1);
    match number % 4 {
        0 => State::Receiving,
        1 => State::AskedToPause { left },
        2 => State::Paused,
        _ => State::AskedToResume { left },
    }
}

#[cfg(test)]
mod tests {
    use super::*;
    use crate::packet;
    use crate::receiver::Counted;

    /// A load with so many datagrams only.
    fn remote_load(name: &str, count: usize) -> RemoteLoad {
        let load = RemoteLoad::named(name).expect("a load of that name");
        RemoteLoad { count, ..load }
    }

    fn lend(receiver: &mut Receiver, place: usize, state: State) {
        receiver.lent().expect("64 records")[place].state = state;
    }

    #[test]
    fn remote_datagrams_are_done() {
        let expected = [
            ("busy", 64, Counted { n: 186, u: 0 }),
            ("single", 64, Counted { n: 1, u: 0 }),
            ("strangers", 64, Counted { n: 186, u: 186 }),
            ("one", 1, Counted { n: 186, u: 0 }),
        ];
        for (name, streams, counted) in expected {
            let (mut receiver, steps) = remote_load(name, 200).steps();
            assert_eq!(receiver.streams().len(), streams, "{name}");
            for step in steps {
                match step {
                    RemoteStep::Lend { place, state, .. } => lend(&mut receiver, place, state),
                    RemoteStep::Datagram(bytes) => {
                        assert_eq!(receiver.datagram(&bytes), Ok(counted), "{name}");
                    }
                }
            }
        }
    }

    /// Each type meets each state again and again, not only at the start.
    #[test]
    fn remote_entries_meet_each_state() {
        for (name, count) in [("busy", 100), ("single", 20_000)] {
            let (mut receiver, steps) = remote_load(name, count).steps();
            let mut met = [[0; 4]; 4];
            for step in steps {
                let bytes = match step {
                    RemoteStep::Lend { place, state, .. } => {
                        lend(&mut receiver, place, state);
                        continue;
                    }
                    RemoteStep::Datagram(bytes) => bytes,
                };
                let mut entries = Vec::new();
                packet::read(&bytes, &mut entries).expect("a good datagram");
                for entry in entries {
                    let remote = receiver.find(entry.target).expect("a stream");
                    let (state, _) = remote.state.numbers();
                    met[usize::from(entry.kind.number())][usize::from(state)] += 1;
                    remote.receive(entry.kind, entry.pause_id);
                }
            }
            let least = met.iter().flatten().min();
            assert!(least > Some(&200), "{name}: {met:?}");
        }
    }
}
