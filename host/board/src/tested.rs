//! The test of a single record, and what the model says of it.

use crate::posted::Posted;
use crate::search::Search;
use differential::records::compare::Case;
use model::Call;

/// What the call is called.
pub const NAMES: [&str; 1] = ["record test"];

/// The number by which the runner knows the call: behind those on postings.
pub const KIND: usize = Call::NAMES.len() + Search::NAMES.len() + Posted::NAMES.len();

/// A record and what it is held to, as a list has it.
#[derive(Clone, Copy, Debug)]
#[allow(missing_docs)]
pub struct Tested<'a> {
    pub record: &'a [u8],
    pub mfn: u32,
    pub deleted: u32,
}

impl Tested<'_> {
    /// Those of a case.
    pub fn of(case: &Case) -> Tested<'_> {
        Tested {
            record: &case.record,
            mfn: case.mfn,
            deleted: case.deleted,
        }
    }
}
