//! The lists of postings behind a search index, from request C-14 and the manual's chapter
//! on the IFP file: blocks of 512 bytes, each a number and 127 words; lists of segments, of
//! which each has a header of five words and postings of two.
//!
//! [`build`] makes files from lists of postings, plain ones and such that no indexing program
//! would write; between the lists and the bytes stand segments by meaning, which can be
//! damaged. [`read`] reads any file, from the request's words alone, and knows nothing of how
//! it was built. [`posting`] has a single posting.

pub mod build;
pub mod fault;
pub mod posting;
pub mod read;

pub use build::{Ifp, plain, shuffled};
pub use posting::Posting;
pub use read::{common, joined, postings};

/// Bytes of a block.
pub const BLOCK: usize = 512;
/// Words that follow the number of a block.
pub const WORDS: i32 = 127;
/// Words of a header.
pub const HEADER: i32 = 5;
/// The last word at which a header stands whole, with a posting behind it.
pub const LAST_HEADER: i32 = 120;

/// A place in the file: a block, counted from 1, and a word of it, counted from 0. As it
/// stands in a file or is asked for it may be any two numbers.
#[derive(Clone, Copy, Debug, PartialEq, Eq, PartialOrd, Ord, Hash, Default)]
#[allow(missing_docs)]
pub struct Place {
    pub block: i32,
    pub word: i32,
}

/// A place.
pub fn place(block: i32, word: i32) -> Place {
    Place { block, word }
}
