//! A postings file by hand: words put at their blocks and offsets as the manual's chapter
//! has them, postings byte by byte. Nothing of the builder is used.
#![allow(dead_code)]

use model::postings::fault::{Broken, Why};
use model::postings::place;
use model::postings::read::{Merge, Request, list_by, merged_by};

/// The numbers of a header: next block and word, total, count, capacity.
pub type Five = [i32; 5];

/// A file.
#[derive(Clone)]
pub struct Hand(pub Vec<u8>);

impl Hand {
    /// So many blocks, each with its number and 0x77 in all words.
    pub fn new(blocks: usize) -> Hand {
        let mut hand = Hand(vec![0x77; blocks * 512]);
        for block in 0..blocks {
            hand.0[block * 512..][..4].copy_from_slice(&(block as u32 + 1).to_le_bytes());
        }
        hand
    }

    /// Puts bytes at a word of a block.
    pub fn put(&mut self, block: usize, word: usize, bytes: &[u8]) -> &mut Hand {
        self.0[(block - 1) * 512 + 4 + 4 * word..][..bytes.len()].copy_from_slice(bytes);
        self
    }

    /// Puts a header.
    pub fn header(&mut self, block: usize, word: usize, numbers: Five) -> &mut Hand {
        let bytes = numbers.map(i32::to_le_bytes);
        self.put(block, word, bytes.as_flattened())
    }

    /// Puts postings of an MFN each one behind the other, from a word on; PTAG is 24, POCC
    /// and PCNT are 1.
    pub fn mfns(&mut self, block: usize, word: usize, mfns: &[u8]) -> &mut Hand {
        for (at, &mfn) in mfns.iter().enumerate() {
            self.put(block, word + 2 * at, &[0, 0, mfn, 0, 24, 1, 0, 1]);
        }
        self
    }

    /// The MFNs of the list at a place, one for each posting, or the rule that is broken.
    pub fn list(&self, block: i32, word: i32) -> Result<Vec<u64>, Broken> {
        let list = list_by(&Request, &self.0, place(block, word))?;
        Ok(list.into_iter().map(|posting| posting >> 40).collect())
    }

    /// The common or the joined MFNs of two lists.
    pub fn merged(
        &self,
        merge: Merge,
        from: [(i32, i32); 2],
        room: usize,
    ) -> Result<Vec<u32>, Why> {
        let from = from.map(|(block, word)| place(block, word));
        merged_by(&Request, merge, &self.0, from, room)
    }
}
