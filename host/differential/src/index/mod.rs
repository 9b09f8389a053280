//! The two calls on a search index, the archive against the model: five files that stand
//! between guard pages, shut against writing, a term in a sixth area, and two outputs full
//! of rubbish.
//!
//! A [`case`](compare::Case) is an index and terms to look up in it; [`cases`] makes them at
//! random, of which some are damaged ([`damage`] by meaning, [`poke`] by bytes).

pub mod cases;
pub mod compare;
pub mod damage;
pub mod poke;
pub mod terms;

use crate::guarded::Side;
use crate::lent::{Input, Output};
use isis::raw;
use model::index::Files;

/// What a lookup gave.
#[derive(Clone, Copy, Debug, PartialEq, Eq)]
#[allow(missing_docs)]
pub struct Given {
    pub number: u32,
    pub block: i32,
    pub word: i32,
}

/// Something that answers calls on the index that it was lent last.
pub trait Reader {
    /// Lends an index, each file against the guard page of its side.
    fn lend(&mut self, files: &Files, sides: [Side; 5]);

    /// Looks a term up; the term and the outputs stand against this side's guard pages.
    fn lookup(&mut self, term: &[u8], side: Side) -> Given;

    /// Checks the index.
    fn check(&mut self) -> u32;
}

/// The archive of the proved library, with areas for what it is lent.
#[derive(Debug)]
pub struct Archive {
    files: [Input<u8>; 5],
    term: Input<u8>,
    block: Output<i32>,
    word: Output<i32>,
    lookups: usize,
}

impl Archive {
    /// The archive, lent an index of five empty files.
    #[allow(clippy::new_without_default)]
    pub fn new() -> Archive {
        Archive {
            files: [(); 5].map(|()| Input::new()),
            term: Input::new(),
            block: Output::new(),
            word: Output::new(),
            lookups: 0,
        }
    }

    fn lent(&mut self) -> [(*const u8, usize); 5] {
        self.files.each_mut().map(Input::lent)
    }
}

impl Reader for Archive {
    fn lend(&mut self, files: &Files, sides: [Side; 5]) {
        for (area, (bytes, side)) in self.files.iter_mut().zip(files.all().iter().zip(sides)) {
            area.lend(bytes, side, true);
        }
    }

    /// One in sixteen lookups finds the term shut too, which takes longer than the lookup.
    fn lookup(&mut self, term: &[u8], side: Side) -> Given {
        self.lookups += 1;
        let shut = self.lookups.is_multiple_of(16);
        let wanted = self.term.lend(term, side, shut);
        let [cnt, n01, l01, n02, l02] = self.lent();
        let (block, word) = (self.block.lend(1, side), self.word.lend(1, side));
        // SAFETY: each pointer goes with the length of the buffer that it begins, or is
        // NULL for none; the outputs are elements of their own areas.
        let number = unsafe {
            raw::isis_lookup(
                cnt.0, cnt.1, n01.0, n01.1, l01.0, l01.1, n02.0, n02.1, l02.0, l02.1, wanted.0,
                wanted.1, block, word,
            )
        };
        assert!(self.term.kept(term), "a lent term was written to");
        Given {
            number,
            block: self.block.one(side),
            word: self.word.one(side),
        }
    }

    fn check(&mut self) -> u32 {
        let [cnt, n01, l01, n02, l02] = self.lent();
        // SAFETY: as in `lookup`.
        unsafe {
            raw::isis_check_index(
                cnt.0, cnt.1, n01.0, n01.1, l01.0, l01.1, n02.0, n02.1, l02.0, l02.1,
            )
        }
    }
}
