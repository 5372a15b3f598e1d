//! "One stream": its record and the events of the state table.

use crate::packet::{Entry, Kind};
use crate::row::Record;

/// PAUSED is "repeated in the next two regular reports".
const REPEATS: u8 = 2;

/// The four columns of the state table. "Only Pausing holds a deadline."
#[derive(Clone, Copy, Debug, Default, PartialEq, Eq)]
pub enum State {
    #[default]
    Playing,
    Pausing {
        deadline: u32,
    },
    Paused,
    LocalPaused,
}

impl State {
    /// The state as its column's number, and the deadline or 0.
    pub fn numbers(self) -> (u8, u32) {
        match self {
            State::Playing => (0, 0),
            State::Pausing { deadline } => (1, deadline),
            State::Paused => (2, 0),
            State::LocalPaused => (3, 0),
        }
    }
}

/// What a received PauseID is when it is judged by its distance from c.
#[derive(Clone, Copy, Debug, PartialEq, Eq)]
pub enum Age {
    Past,
    Current,
    Future,
}

/// The record of a stream. A record that is not in use can hold anything.
#[derive(Clone, Debug, Default, PartialEq, Eq)]
pub struct Stream {
    pub in_use: bool,
    pub ssrc: u32,
    pub state: State,
    /// The current PauseID, c.
    pub pause_id: u16,
    /// The next RTP sequence number.
    pub sequence: u16,
    /// The hold-off, H, in milliseconds.
    pub hold_off: u32,
    /// The repeats left, r.
    pub repeats: u8,
}

impl Record for Stream {
    fn in_use(&self) -> bool {
        self.in_use
    }

    fn ssrc(&self) -> u32 {
        self.ssrc
    }

    fn clear_in_use(&mut self) {
        self.in_use = false;
    }
}

/// "It is due at time t when t less the deadline, modulo 2^32, is below 2^31."
pub fn is_due(deadline: u32, time: u32) -> bool {
    time.wrapping_sub(deadline) < 1 << 31
}

impl Stream {
    /// "A new stream starts in Playing with the PauseID and sequence number given, without the
    /// step, and r = 0."
    pub fn new(ssrc: u32, pause_id: u16, sequence: u16, hold_off: u32) -> Self {
        Stream {
            in_use: true,
            ssrc,
            state: State::Playing,
            pause_id,
            sequence,
            hold_off,
            repeats: 0,
        }
    }

    /// "p less c, brought into -32,768 to 32,767. Below 0 is past, 0 is current, above 0 is
    /// future."
    pub fn judge(&self, pause_id: u16) -> Age {
        match pause_id.wrapping_sub(self.pause_id) as i16 {
            ..=-1 => Age::Past,
            0 => Age::Current,
            1.. => Age::Future,
        }
    }

    /// One received entry: the first four rows of the table. "A received PAUSED or REFUSED does
    /// nothing here", and the types 4 to 15 are passed over.
    pub fn receive(&mut self, kind: Kind, pause_id: u16, time: u32) -> Option<Entry> {
        match kind {
            Kind::Pause | Kind::Resume => match self.judge(pause_id) {
                Age::Past => None,
                Age::Future => self.refused(),
                Age::Current if kind == Kind::Pause => self.pause(time),
                Age::Current => self.resume(),
            },
            Kind::Paused | Kind::Refused | Kind::Other(_) => None,
        }
    }

    /// The row "PAUSE, current".
    fn pause(&mut self, time: u32) -> Option<Entry> {
        match self.state {
            State::Playing if self.hold_off == 0 => {
                self.enter(State::Paused);
                self.paused()
            }
            State::Playing => {
                // "The time of the PAUSE plus H, modulo 2^32."
                let deadline = time.wrapping_add(self.hold_off);
                self.enter(State::Pausing { deadline });
                None
            }
            State::Pausing { .. } => None,
            State::Paused | State::LocalPaused => self.paused(),
        }
    }

    /// The row "RESUME, current". It counts in Pausing "even after the deadline".
    fn resume(&mut self) -> Option<Entry> {
        match self.state {
            State::Playing => None,
            State::Pausing { .. } | State::Paused => {
                self.enter(State::Playing);
                None
            }
            State::LocalPaused => self.refused(),
        }
    }

    /// The row "time, due"; a time that is not due changes nothing.
    pub fn time(&mut self, time: u32) -> Option<Entry> {
        match self.state {
            State::Pausing { deadline } if is_due(deadline, time) => {
                self.enter(State::Paused);
                self.paused()
            }
            _ => None,
        }
    }

    /// The row "local pause".
    pub fn local_pause(&mut self) -> Option<Entry> {
        match self.state {
            State::Playing | State::Pausing { .. } | State::Paused => {
                self.enter(State::LocalPaused);
                self.paused()
            }
            State::LocalPaused => None,
        }
    }

    /// The row "local resume".
    pub fn local_resume(&mut self) {
        if self.state == State::LocalPaused {
            self.enter(State::Playing);
        }
    }

    /// The row "report".
    pub fn report(&mut self) -> Option<Entry> {
        match self.state {
            State::Paused | State::LocalPaused if self.repeats > 0 => {
                self.repeats -= 1;
                self.paused()
            }
            _ => None,
        }
    }

    /// The row "send": "the next sequence number", or nothing when the stream is Held.
    pub fn send(&mut self) -> Option<u16> {
        match self.state {
            State::Playing | State::Pausing { .. } => {
                let number = self.sequence;
                self.sequence = number.wrapping_add(1);
                Some(number)
            }
            State::Paused | State::LocalPaused => None,
        }
    }

    /// "Entering Playing adds 1 to c and sets r to 0. Entering Paused or Local paused sets r to
    /// 2." Called only where the state changes: a PAUSE answered in Paused does not enter it.
    fn enter(&mut self, state: State) {
        self.state = state;
        match state {
            State::Playing => {
                self.pause_id = self.pause_id.wrapping_add(1);
                self.repeats = 0;
            }
            State::Pausing { .. } => {}
            State::Paused | State::LocalPaused => self.repeats = REPEATS,
        }
    }

    fn paused(&self) -> Option<Entry> {
        Some(self.reply(Kind::Paused))
    }

    fn refused(&self) -> Option<Entry> {
        Some(self.reply(Kind::Refused))
    }

    /// "PAUSED and REFUSED replies carry the stream's SSRC as target, and c."
    fn reply(&self, kind: Kind) -> Entry {
        Entry {
            target: self.ssrc,
            kind,
            pause_id: self.pause_id,
        }
    }
}

#[cfg(test)]
mod tests {
    use super::*;

    const SSRC: u32 = 0x1122_3344;

    fn stream(pause_id: u16, hold_off: u32) -> Stream {
        Stream::new(SSRC, pause_id, 100, hold_off)
    }

    /// A stream without hold-off that a PAUSE has taken to Paused.
    fn paused(pause_id: u16) -> Stream {
        let mut stream = stream(pause_id, 0);
        let reply = stream.receive(Kind::Pause, pause_id, 0);
        assert_eq!(reply, entry(Kind::Paused, pause_id));
        stream
    }

    fn entry(kind: Kind, pause_id: u16) -> Option<Entry> {
        Some(Entry {
            target: SSRC,
            kind,
            pause_id,
        })
    }

    #[test]
    fn pause_id_at_the_half_turn_and_at_the_wrap() {
        assert_eq!(stream(0, 0).judge(32_767), Age::Future);
        assert_eq!(stream(0, 0).judge(32_768), Age::Past);
        assert_eq!(stream(65_535, 0).judge(0), Age::Future);
        assert_eq!(stream(0, 0).judge(65_535), Age::Past);
        assert_eq!(stream(65_535, 0).judge(65_535), Age::Current);
    }

    #[test]
    fn deadline_over_the_wrap() {
        let mut pausing = stream(7, 400);
        assert_eq!(pausing.receive(Kind::Pause, 7, 4_294_967_040), None);
        assert_eq!(pausing.state, State::Pausing { deadline: 144 });
        for (time, due) in [
            (143, false),
            (144, true),
            (2_147_483_791, true),
            (2_147_483_792, false),
        ] {
            let mut stream = pausing.clone();
            let reply = stream.time(time);
            assert_eq!(reply.is_some(), due);
            assert_eq!(stream.state == State::Paused, due);
        }
    }

    #[test]
    fn resume_in_paused_and_again() {
        let mut stream = paused(7);
        assert_eq!(stream.receive(Kind::Resume, 7, 0), None);
        assert_eq!((stream.state, stream.pause_id), (State::Playing, 8));
        let before = stream.clone();
        assert_eq!(stream.receive(Kind::Resume, 7, 0), None);
        assert_eq!(stream, before);
    }

    #[test]
    fn pause_id_runs_over() {
        let mut stream = paused(65_535);
        stream.receive(Kind::Resume, 65_535, 0);
        assert_eq!((stream.state, stream.pause_id), (State::Playing, 0));
    }

    #[test]
    fn resume_does_not_open_local_paused() {
        let mut stream = stream(7, 400);
        assert_eq!(stream.local_pause(), entry(Kind::Paused, 7));
        let before = stream.clone();
        assert_eq!(stream.receive(Kind::Resume, 7, 0), entry(Kind::Refused, 7));
        assert_eq!(stream, before);
    }

    #[test]
    fn no_hold_off_pauses_at_once() {
        let stream = paused(7);
        assert_eq!((stream.state, stream.repeats), (State::Paused, 2));
    }

    #[test]
    fn two_reports_repeat_paused() {
        let mut stream = paused(7);
        assert_eq!(stream.report(), entry(Kind::Paused, 7));
        assert_eq!(stream.report(), entry(Kind::Paused, 7));
        assert_eq!(stream.report(), None);
    }

    #[test]
    fn pause_answered_in_paused_does_not_enter_it_again() {
        let mut stream = paused(7);
        stream.report();
        assert_eq!(stream.receive(Kind::Pause, 7, 0), entry(Kind::Paused, 7));
        assert_eq!(stream.repeats, 1);
        assert_eq!(stream.local_pause(), entry(Kind::Paused, 7));
        assert_eq!(stream.repeats, 2);
    }

    #[test]
    fn late_resume_counts_and_second_pause_keeps_the_deadline() {
        let mut stream = stream(7, 400);
        stream.receive(Kind::Pause, 7, 0);
        stream.receive(Kind::Pause, 7, 300);
        assert_eq!(stream.state, State::Pausing { deadline: 400 });
        assert_eq!(stream.receive(Kind::Resume, 7, 500), None);
        assert_eq!((stream.state, stream.pause_id), (State::Playing, 8));
    }

    #[test]
    fn first_number_after_a_pause_is_one_above_the_last() {
        let mut stream = stream(7, 0);
        stream.sequence = 65_535;
        assert_eq!(stream.send(), Some(65_535));
        stream.local_pause();
        assert_eq!(stream.send(), None);
        stream.local_resume();
        assert_eq!(stream.send(), Some(0));
    }

    #[test]
    fn future_is_refused_and_past_is_silent_in_every_state() {
        let states = [
            State::Playing,
            State::Pausing { deadline: 9 },
            State::Paused,
            State::LocalPaused,
        ];
        for state in states {
            for kind in [Kind::Pause, Kind::Resume] {
                let mut stream = stream(7, 400);
                stream.state = state;
                let before = stream.clone();
                assert_eq!(stream.receive(kind, 6, 0), None);
                assert_eq!(stream.receive(kind, 8, 0), entry(Kind::Refused, 7));
                assert_eq!(stream, before);
            }
        }
    }

    #[test]
    fn local_resume_leaves_a_remote_pause() {
        let mut stream = paused(7);
        let before = stream.clone();
        stream.local_resume();
        assert_eq!(stream, before);
    }
}
