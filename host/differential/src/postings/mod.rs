//! The six calls on postings, the archive against the model: the postings file stands between
//! guard pages, shut against writing, and so do a posting's bytes; lists and counts are lent
//! full of rubbish, with guard pages on either side.
//!
//! A [`case`](compare::Case) is a file and places to read lists from; [`cases`] makes them at
//! random, of which some are damaged ([`damage`] by meaning).

pub mod cases;
pub mod compare;
pub mod damage;

use crate::guarded::Side;
use crate::lent::{Input, Number, Output};
use isis::raw;
use model::Refusal;
use model::ask::RUBBISH;
use model::postings::Place;
use model::postings::fault::Why;
use model::postings::read::Merge;

/// What a call on lists gave: its number, the count, and the list that was lent, whole.
#[derive(Clone, Debug, PartialEq, Eq)]
#[allow(missing_docs)]
pub struct Given<T> {
    pub number: u32,
    pub count: usize,
    pub list: Vec<T>,
}

/// What a call must give that is lent a list of so much room: what is not written is as it
/// was.
pub fn given_for<T: Element>(answer: Result<&[T], u32>, room: usize) -> Given<T> {
    let mut list = vec![T::RUBBISH; room];
    let items = answer.unwrap_or_default();
    list[..items.len()].copy_from_slice(items);
    Given {
        number: answer.err().unwrap_or(0),
        count: items.len(),
        list,
    }
}

/// The same for what the model answers.
pub fn given_by<T: Element>(answer: &Result<Vec<T>, Why>, room: usize) -> Given<T> {
    let number = |why: &Why| Refusal::from(*why).number();
    given_for(answer.as_deref().map_err(number), room)
}

/// What a lent list holds.
pub trait Element: Number + PartialEq + std::fmt::Debug {
    /// One that was not written.
    const RUBBISH: Self;
}

impl Element for u8 {
    const RUBBISH: u8 = RUBBISH;
}

impl Element for u32 {
    const RUBBISH: u32 = u32::from_ne_bytes([RUBBISH; 4]);
}

impl Element for u64 {
    const RUBBISH: u64 = u64::from_ne_bytes([RUBBISH; 8]);
}

/// Something that answers calls on the postings file that it was lent last.
pub trait Reader {
    /// Lends a file against the guard page of a side.
    fn lend(&mut self, file: &[u8], side: Side);

    /// Reads a list; the outputs stand against this side's guard pages.
    fn postings(&mut self, from: Place, room: usize, side: Side) -> Given<u64>;

    /// Gives the common or the joined MFNs of two lists.
    fn merged(&mut self, merge: Merge, from: [Place; 2], room: usize, side: Side) -> Given<u32>;

    /// Reads a posting from some bytes: the answer and the four numbers.
    fn read(&mut self, bytes: &[u8], side: Side) -> (u32, [u32; 4]);

    /// Writes a posting into so many bytes; gives the answer and all of them.
    fn write(&mut self, numbers: [u32; 4], room: usize, side: Side) -> (u32, Vec<u8>);

    /// Compares two postings.
    fn compare(&mut self, a: u64, b: u64) -> u32;
}

/// The archive of the proved library, with areas for what it is lent.
#[derive(Debug)]
pub struct Archive {
    file: Input<u8>,
    bytes: Input<u8>,
    postings: Output<u64>,
    mfns: Output<u32>,
    count: Output<usize>,
    written: Output<u8>,
    numbers: [Output<u32>; 4],
}

impl Archive {
    /// The archive, lent an empty file.
    #[allow(clippy::new_without_default)]
    pub fn new() -> Archive {
        Archive {
            file: Input::new(),
            bytes: Input::new(),
            postings: Output::new(),
            mfns: Output::new(),
            count: Output::new(),
            written: Output::new(),
            numbers: [(); 4].map(|()| Output::new()),
        }
    }
}

impl Reader for Archive {
    fn lend(&mut self, file: &[u8], side: Side) {
        self.file.lend(file, side, true);
    }

    fn postings(&mut self, from: Place, room: usize, side: Side) -> Given<u64> {
        let (file, len) = self.file.lent();
        let (out, count) = (self.postings.lend(room, side), self.count.lend(1, side));
        // SAFETY: each pointer goes with the length of the buffer that it begins, or is NULL
        // for none; the outputs are elements of their own areas.
        let number =
            unsafe { raw::isis_postings(file, len, from.block, from.word, out, room, count) };
        Given {
            number,
            count: self.count.one(side),
            list: self.postings.taken(room, side),
        }
    }

    fn merged(&mut self, merge: Merge, from: [Place; 2], room: usize, side: Side) -> Given<u32> {
        let call = match merge {
            Merge::Common => raw::isis_common,
            Merge::Joined => raw::isis_joined,
        };
        let ((file, len), [a, b]) = (self.file.lent(), from);
        let (mfns, count) = (self.mfns.lend(room, side), self.count.lend(1, side));
        // SAFETY: as in `postings`.
        let number = unsafe {
            call(
                file, len, a.block, a.word, b.block, b.word, mfns, room, count,
            )
        };
        Given {
            number,
            count: self.count.one(side),
            list: self.mfns.taken(room, side),
        }
    }

    fn read(&mut self, bytes: &[u8], side: Side) -> (u32, [u32; 4]) {
        let (at, len) = self.bytes.lend(bytes, side, true);
        let [mfn, tag, occurrence, sequence] = self.numbers.each_mut().map(|n| n.lend(1, side));
        // SAFETY: as in `postings`.
        let number = unsafe { raw::isis_posting_read(at, len, mfn, tag, occurrence, sequence) };
        (number, self.numbers.each_mut().map(|n| n.one(side)))
    }

    fn write(&mut self, numbers: [u32; 4], room: usize, side: Side) -> (u32, Vec<u8>) {
        let ([mfn, tag, occurrence, sequence], out) = (numbers, self.written.lend(room, side));
        // SAFETY: as in `postings`.
        let number = unsafe { raw::isis_posting_write(mfn, tag, occurrence, sequence, out, room) };
        (number, self.written.taken(room, side))
    }

    fn compare(&mut self, a: u64, b: u64) -> u32 {
        // SAFETY: it is lent nothing.
        unsafe { raw::isis_posting_compare(a, b) }
    }
}
