//! "What can come back".

/// The refusals, by the document's numbers.
///
/// The line program never prints Room, Size and Busy: its reply buffer "is large enough that Room
/// never occurs", its table has 64 records, and it has no frame for an ask.
#[derive(Clone, Copy, Debug, PartialEq, Eq)]
pub enum Case {
    TooLong = 1,
    Short = 2,
    Version = 3,
    Overrun = 4,
    PadPlace = 5,
    PadCount = 6,
    NoHead = 7,
    NoEntry = 8,
    Entry = 9,
    Room = 10,
    Size = 11,
    NoStream = 12,
    Held = 13,
    Limit = 14,
    Duplicate = 15,
    Full = 16,
    Line = 17,
    /// Document 02, "One".
    Busy = 18,
}

impl Case {
    /// "The number is only for printing."
    pub fn number(self) -> u8 {
        self as u8
    }
}

/// A refusal "gives a place, counted from 0: in cases 2 to 8 the first byte of the packet, for
/// Entry that of the entry, otherwise 0".
#[derive(Clone, Copy, Debug, PartialEq, Eq)]
pub struct Refusal {
    pub case: Case,
    pub place: usize,
}

/// A case that has no place of its own stands at 0.
impl From<Case> for Refusal {
    fn from(case: Case) -> Self {
        Refusal { case, place: 0 }
    }
}
