//! The search index of a catalogue: two B*trees of terms in five files, which are only
//! read.

use crate::refusal::Answer;
use crate::{answer, raw};

/// The five files of an index, each whole in memory, with any bytes in them.
///
/// ```
/// # let none: &[u8] = &[];
/// let index = isis::Index { cnt: none, n01: none, l01: none, n02: none, l02: none };
/// assert_eq!(index.lookup("KITE "), Err(isis::Refusal::BadTerm));
/// assert_eq!(index.lookup("KITE"), Err(isis::Refusal::BadIndex));
/// assert_eq!(index.check(), Err(isis::Refusal::BadIndex));
/// ```
#[derive(Clone, Copy, Debug)]
pub struct Index<'a> {
    /// CNT: the control fields of both trees.
    pub cnt: &'a [u8],
    /// N01: the nodes of the first tree, for terms of up to 10 bytes.
    pub n01: &'a [u8],
    /// L01: the leaves of the first tree.
    pub l01: &'a [u8],
    /// N02: the nodes of the second tree, for longer terms.
    pub n02: &'a [u8],
    /// L02: the leaves of the second tree.
    pub l02: &'a [u8],
}

/// Where a list of postings begins in the postings file (IFP), as a leaf has it.
#[derive(Clone, Copy, Debug, PartialEq, Eq)]
pub struct IfpPlace {
    /// The block.
    pub block: i32,
    /// The word in the block.
    pub word: i32,
}

impl Index<'_> {
    /// Looks a term up: where the list of its postings begins.
    pub fn lookup(self, term: impl AsRef<[u8]>) -> Answer<IfpPlace> {
        let term = term.as_ref();
        let (mut block, mut word) = (0, 0);
        // SAFETY: every pointer goes with the length of the slice that it is from, the
        // outputs are two variables of this function.
        let number = unsafe {
            raw::isis_lookup(
                self.cnt.as_ptr(),
                self.cnt.len(),
                self.n01.as_ptr(),
                self.n01.len(),
                self.l01.as_ptr(),
                self.l01.len(),
                self.n02.as_ptr(),
                self.n02.len(),
                self.l02.as_ptr(),
                self.l02.len(),
                term.as_ptr(),
                term.len(),
                &mut block,
                &mut word,
            )
        };
        answer(number).map(|()| IfpPlace { block, word })
    }

    /// Checks both trees: accepted exactly if the index is sound.
    pub fn check(self) -> Answer<()> {
        // SAFETY: every pointer goes with the length of the slice that it is from.
        answer(unsafe {
            raw::isis_check_index(
                self.cnt.as_ptr(),
                self.cnt.len(),
                self.n01.as_ptr(),
                self.n01.len(),
                self.l01.as_ptr(),
                self.l01.len(),
                self.n02.as_ptr(),
                self.n02.len(),
                self.l02.as_ptr(),
                self.l02.len(),
            )
        })
    }
}
