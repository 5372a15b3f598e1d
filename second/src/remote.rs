//! One remote stream: its record and the events of the receiver's side.
//!
//! The rules quoted are those of document 02, "One".

use crate::packet::{Entry, Kind};
use crate::row::Record;

/// "Four reports repeat it."
pub const REPEATS: u8 = 4;

/// "Receiving, Asked to pause, Paused, Asked to resume." Only the two Asked hold the reports that
/// are left to repeat the ask.
#[derive(Clone, Copy, Debug, Default, PartialEq, Eq)]
pub enum State {
    #[default]
    Receiving,
    AskedToPause {
        left: u8,
    },
    Paused,
    AskedToResume {
        left: u8,
    },
}

impl State {
    /// The state's number, and the reports left or 0.
    pub fn numbers(self) -> (u8, u8) {
        match self {
            State::Receiving => (0, 0),
            State::AskedToPause { left } => (1, left),
            State::Paused => (2, 0),
            State::AskedToResume { left } => (3, left),
        }
    }
}

/// The record of a remote stream. A record that is not in use can hold anything.
#[derive(Clone, Debug, Default, PartialEq, Eq)]
pub struct Remote {
    pub in_use: bool,
    pub ssrc: u32,
    pub state: State,
    /// The "believed PauseID".
    pub pause_id: u16,
}

impl Record for Remote {
    fn in_use(&self) -> bool {
        self.in_use
    }

    fn ssrc(&self) -> u32 {
        self.ssrc
    }

    fn clear_in_use(&mut self) {
        self.in_use = false;
    }
}

impl Remote {
    /// "A stream is added in Receiving with an ID."
    pub fn new(ssrc: u32, pause_id: u16) -> Self {
        Remote {
            in_use: true,
            ssrc,
            state: State::Receiving,
            pause_id,
        }
    }

    /// In either Asked state an ask is Busy.
    pub fn is_asked(&self) -> bool {
        match self.state {
            State::Receiving | State::Paused => false,
            State::AskedToPause { .. } | State::AskedToResume { .. } => true,
        }
    }

    /// "An ask sends PAUSE (in Receiving) ... with that ID"; in Paused it "does nothing". While
    /// Asked the table refuses it.
    pub fn ask_to_pause(&mut self) -> Option<Entry> {
        match self.state {
            State::Receiving => {
                self.state = State::AskedToPause { left: REPEATS };
                self.ask(Kind::Pause)
            }
            State::Paused | State::AskedToPause { .. } | State::AskedToResume { .. } => None,
        }
    }

    /// "... or RESUME (in Paused; the other ask does nothing)."
    pub fn ask_to_resume(&mut self) -> Option<Entry> {
        match self.state {
            State::Paused => {
                self.state = State::AskedToResume { left: REPEATS };
                self.ask(Kind::Resume)
            }
            State::Receiving | State::AskedToPause { .. } | State::AskedToResume { .. } => None,
        }
    }

    /// "Four reports repeat it, with the ID believed at that report, the fifth drops back to the
    /// state asked from and sends nothing."
    pub fn report(&mut self) -> Option<Entry> {
        match &mut self.state {
            State::Receiving | State::Paused => None,
            State::AskedToPause { left: 0 } | State::AskedToResume { left: 0 } => {
                self.drop_back();
                None
            }
            State::AskedToPause { left } => {
                *left -= 1;
                self.ask(Kind::Pause)
            }
            State::AskedToResume { left } => {
                *left -= 1;
                self.ask(Kind::Resume)
            }
        }
    }

    /// One received entry. "Here PAUSE and RESUME do nothing", and the types 4 to 15 are passed
    /// over.
    pub fn receive(&mut self, kind: Kind, pause_id: u16) {
        match kind {
            Kind::Paused => self.paused(pause_id),
            Kind::Refused => self.refused(pause_id),
            Kind::Pause | Kind::Resume | Kind::Other(_) => {}
        }
    }

    /// "PAUSED sets the ID and gives Paused from any state but Asked to resume, where it only sets
    /// the ID."
    fn paused(&mut self, pause_id: u16) {
        self.pause_id = pause_id;
        match self.state {
            State::Receiving | State::AskedToPause { .. } | State::Paused => {
                self.state = State::Paused
            }
            State::AskedToResume { .. } => {}
        }
    }

    /// "REFUSED sets the ID and drops back; in Receiving and Paused it does nothing."
    fn refused(&mut self, pause_id: u16) {
        if self.is_asked() {
            self.pause_id = pause_id;
            self.drop_back();
        }
    }

    /// "Media seen in Paused or Asked to resume gives Receiving and adds 1 to the ID; elsewhere it
    /// does nothing." The ID is a PauseID, which runs over from 65,535 to 0.
    pub fn media_seen(&mut self) {
        match self.state {
            State::Paused | State::AskedToResume { .. } => {
                self.state = State::Receiving;
                self.pause_id = self.pause_id.wrapping_add(1);
            }
            State::Receiving | State::AskedToPause { .. } => {}
        }
    }

    /// Back "to the state asked from".
    fn drop_back(&mut self) {
        self.state = match self.state {
            State::Receiving | State::AskedToPause { .. } => State::Receiving,
            State::Paused | State::AskedToResume { .. } => State::Paused,
        };
    }

    /// An ask, or its repeat, "with that ID".
    fn ask(&self, kind: Kind) -> Option<Entry> {
        Some(Entry {
            target: self.ssrc,
            kind,
            pause_id: self.pause_id,
        })
    }
}

#[cfg(test)]
mod tests {
    use super::*;

    const SSRC: u32 = 0x1122_3344;

    fn remote(state: State, pause_id: u16) -> Remote {
        Remote {
            state,
            ..Remote::new(SSRC, pause_id)
        }
    }

    fn entry(kind: Kind, pause_id: u16) -> Option<Entry> {
        Some(Entry {
            target: SSRC,
            kind,
            pause_id,
        })
    }

    const ASKED_TO_PAUSE: State = State::AskedToPause { left: 3 };
    const ASKED_TO_RESUME: State = State::AskedToResume { left: 3 };

    /// Runs an event in each state and holds state and ID after it against the given ones.
    fn each(event: impl Fn(&mut Remote), after: [(State, u16); 4]) {
        let states = [
            State::Receiving,
            ASKED_TO_PAUSE,
            State::Paused,
            ASKED_TO_RESUME,
        ];
        for (state, (expected, pause_id)) in states.into_iter().zip(after) {
            let mut remote = remote(state, 65_535);
            event(&mut remote);
            assert_eq!(remote, self::remote(expected, pause_id), "{state:?}");
        }
    }

    #[test]
    fn paused_and_refused_in_each_state() {
        each(
            |remote| remote.receive(Kind::Paused, 9),
            [
                (State::Paused, 9),
                (State::Paused, 9),
                (State::Paused, 9),
                (ASKED_TO_RESUME, 9),
            ],
        );
        each(
            |remote| remote.receive(Kind::Refused, 9),
            [
                (State::Receiving, 65_535),
                (State::Receiving, 9),
                (State::Paused, 65_535),
                (State::Paused, 9),
            ],
        );
    }

    #[test]
    fn other_types_do_nothing() {
        for kind in [Kind::Pause, Kind::Resume, Kind::Other(4), Kind::Other(15)] {
            each(
                |remote| remote.receive(kind, 9),
                [
                    (State::Receiving, 65_535),
                    (ASKED_TO_PAUSE, 65_535),
                    (State::Paused, 65_535),
                    (ASKED_TO_RESUME, 65_535),
                ],
            );
        }
    }

    #[test]
    fn media_ends_a_pause_and_steps_the_id() {
        each(
            Remote::media_seen,
            [
                (State::Receiving, 65_535),
                (ASKED_TO_PAUSE, 65_535),
                (State::Receiving, 0),
                (State::Receiving, 0),
            ],
        );
    }

    #[test]
    fn an_ask_four_repeats_and_the_drop_back() {
        let mut remote = Remote::new(SSRC, 7);
        assert_eq!(remote.ask_to_resume(), None);
        assert_eq!(remote, Remote::new(SSRC, 7));
        assert_eq!(remote.ask_to_pause(), entry(Kind::Pause, 7));
        for left in [3, 2, 1, 0] {
            assert_eq!(remote.report(), entry(Kind::Pause, 7));
            assert_eq!(remote.state, State::AskedToPause { left });
        }
        assert_eq!(remote.report(), None);
        assert_eq!(remote, Remote::new(SSRC, 7));
        assert_eq!(remote.report(), None);
    }

    #[test]
    fn a_repeat_has_the_id_believed_at_its_report() {
        let mut remote = remote(State::Paused, 7);
        assert_eq!(remote.ask_to_pause(), None);
        assert_eq!(remote.ask_to_resume(), entry(Kind::Resume, 7));
        assert_eq!(remote.report(), entry(Kind::Resume, 7));
        remote.receive(Kind::Paused, 9);
        for left in [2, 1, 0] {
            assert_eq!(remote.report(), entry(Kind::Resume, 9));
            assert_eq!(remote.state, State::AskedToResume { left });
        }
        assert_eq!(remote.report(), None);
        assert_eq!(remote, self::remote(State::Paused, 9));
    }

    #[test]
    fn lent_repeats_are_followed_as_they_stand() {
        let mut remote = remote(State::AskedToPause { left: 255 }, 7);
        for _ in 0..255 {
            assert_eq!(remote.report(), entry(Kind::Pause, 7));
        }
        assert_eq!(remote.report(), None);
        assert_eq!(remote.state, State::Receiving);
    }
}
