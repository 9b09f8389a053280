//! Request C-17's count, taken from the history: the accepted calls since the last format, a
//! create for one more, a delete for one less, and a revert that brought a deleted record back
//! for one more. Only calls and what they answered are looked at, no byte and no ledger.

use crate::call::{Call, Outcome};
use std::collections::BTreeSet;

/// The calls so far, from a format on, as far as the count needs them.
#[derive(Clone, Debug, PartialEq, Eq, Default)]
pub struct History {
    count: i64,
    /// The MFNs whose last accepted create, delete or revert was a delete.
    deleted: BTreeSet<u32>,
}

impl History {
    /// The count of accepted calls since the last format.
    pub fn count(&self) -> i64 {
        self.count
    }

    /// One call more, and what came of it.
    pub fn add(&mut self, call: &Call, outcome: &Outcome) {
        if outcome.number != 0 {
            return;
        }
        match call {
            Call::Format => *self = History::default(),
            Call::Create(_) => self.count += 1,
            Call::Delete(mfn) => {
                self.count -= 1;
                self.deleted.insert(*mfn);
            }
            Call::Revert(mfn) => self.count += i64::from(self.deleted.remove(mfn)),
            _ => {}
        }
    }
}
