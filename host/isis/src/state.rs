//! What the library tells of a card without showing a field: what the next create is
//! given, and the state of a record.

/// What the next create is given.
#[derive(Clone, Copy, Debug, PartialEq, Eq)]
pub struct Next {
    /// Its MFN; those below it were given out before.
    pub mfn: u32,
    /// The end, where its record begins in the MST.
    pub end: usize,
}

/// Whether a change of a record is pending, and of which kind.
#[derive(Clone, Copy, Debug, PartialEq, Eq)]
pub enum Mark {
    /// Nothing is pending.
    Settled,
    /// A change of a settled record is pending; its settled version is kept.
    Changed,
    /// The record was never settled.
    New,
}

impl Mark {
    /// The mark behind a number of the library.
    pub(crate) fn numbered(number: u32) -> Mark {
        match number {
            0 => Mark::Settled,
            1 => Mark::Changed,
            2 => Mark::New,
            _ => panic!("the archive told the mark {number}, which is none known here"),
        }
    }

    /// The mark in words.
    pub fn words(self) -> &'static str {
        match self {
            Mark::Settled => "settled",
            Mark::Changed => "changed, pending",
            Mark::New => "new, pending",
        }
    }
}

/// The state of a record that is well formed.
#[derive(Clone, Copy, Debug, PartialEq, Eq)]
pub struct State {
    /// Whether a change is pending.
    pub mark: Mark,
    /// Whether the record is deleted, pending or settled.
    pub deleted: bool,
}
