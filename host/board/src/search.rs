//! The calls on an index, and what the model's reader says of them.

use model::Call;
use model::index::Files;
use model::index::fault::Why;
use model::index::read::{Request, check_by, lookup_by};

/// A call on an index.
#[derive(Clone, Debug, PartialEq, Eq)]
pub enum Search {
    /// A term is looked up.
    Lookup(Vec<u8>),
    /// Both trees are checked.
    Check,
}

/// Block and word, or why not; a check that passes gives two zeros.
pub type Found = Result<(i32, i32), Why>;

impl Search {
    /// What the calls are called.
    pub const NAMES: [&str; 2] = ["lookup", "index check"];

    /// The number by which the runner knows the call: behind those on a card.
    pub fn kind(&self) -> usize {
        Call::NAMES.len() + usize::from(*self == Search::Check)
    }

    /// The term; the check has none.
    pub fn term(&self) -> &[u8] {
        match self {
            Search::Lookup(term) => term,
            Search::Check => &[],
        }
    }

    /// What the model's reader finds.
    pub fn on(&self, index: &Files) -> Found {
        match self {
            Search::Lookup(term) => lookup_by(&Request, index, term),
            Search::Check => Ok(check_by(&Request, index).map(|()| (0, 0))?),
        }
    }
}
