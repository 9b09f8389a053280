//! The record test, the archive against the model: the record stands between guard pages, now and
//! then shut against writing, and the output is lent full of rubbish.
//!
//! A [`case`](compare::Case) is a record and what it is held to; [`cases`] makes them at random,
//! right, broken by meaning, or of any bytes.

pub mod cases;
pub mod compare;
mod parts;

pub use parts::Parts;

use crate::guarded::Side;
use crate::lent::{Input, Output};
use isis::raw;

/// What a test gave: its answer, and the number of an entry.
pub type Given = (u32, u32);

/// Something that tests records.
pub trait Tester {
    /// Tests a record that must have an MFN and be deleted, or not where that is 0. The record
    /// and the output stand against this side's guard pages.
    fn test(&mut self, record: &[u8], mfn: u32, deleted: u32, side: Side) -> Given;
}

/// The archive of the proved library, with areas for what it is lent.
#[derive(Debug)]
pub struct Archive {
    record: Input<u8>,
    entry: Output<u32>,
    tests: usize,
}

impl Archive {
    /// The archive.
    #[allow(clippy::new_without_default)]
    pub fn new() -> Archive {
        Archive {
            record: Input::new(),
            entry: Output::new(),
            tests: 0,
        }
    }
}

impl Tester for Archive {
    /// One in sixteen finds the record shut, which takes longer than the test.
    fn test(&mut self, record: &[u8], mfn: u32, deleted: u32, side: Side) -> Given {
        self.tests += 1;
        let (at, len) = self
            .record
            .lend(record, side, self.tests.is_multiple_of(16));
        let entry = self.entry.lend(1, side);
        // SAFETY: the pointer goes with the length of the buffer that it begins, or is NULL for
        // none; the output is the only element of its area.
        let number = unsafe { raw::isis_record_test(at, len, mfn, deleted, entry) };
        assert!(self.record.kept(record), "a lent record was written to");
        (number, self.entry.one(side))
    }
}
