//! The postings file (IFP) of a search index: for each term a list of postings, in one
//! segment or more. It is only read.

use crate::refusal::Answer;
use crate::{IfpPlace, answer, raw};
use std::cmp::Ordering;
use std::fmt;

/// Bytes of a posting in a file.
const BYTES: usize = 8;

/// Where a term occurs: record, field identifier, occurrence of the field, and the term's
/// number in it. Postings are ordered as the library compares them, by these four in this
/// order.
///
/// ```
/// let posting = isis::Posting::new(1, 24, 1, 2)?;
/// assert_eq!(posting.to_bytes(), [0, 0, 1, 0, 24, 1, 0, 2]);
/// assert!(posting < isis::Posting::new(1, 24, 2, 1)?);
/// assert_eq!(isis::Posting::new(1 << 24, 24, 1, 2), Err(isis::Refusal::BadPostings));
/// # Ok::<(), isis::Refusal>(())
/// ```
#[derive(Clone, Copy, PartialEq, Eq, Hash)]
pub struct Posting(u64);

impl Posting {
    /// A posting of four numbers: [`BadPostings`](crate::Refusal::BadPostings) if one is too wide for
    /// its 24, 16, 8 or 16 bits.
    pub fn new(mfn: u32, tag: u32, occurrence: u32, sequence: u32) -> Answer<Posting> {
        let mut bytes = [0; BYTES];
        // SAFETY: the output is a variable of this function.
        let number = unsafe {
            raw::isis_posting_write(
                mfn,
                tag,
                occurrence,
                sequence,
                bytes.as_mut_ptr(),
                bytes.len(),
            )
        };
        answer(number).map(|()| Posting(u64::from_be_bytes(bytes)))
    }

    /// Reads the first eight bytes: [`BadPostings`](crate::Refusal::BadPostings) if there are fewer.
    pub fn read(bytes: &[u8]) -> Answer<Posting> {
        read(bytes).and_then(|[mfn, tag, occurrence, sequence]| {
            Posting::new(mfn, tag, occurrence, sequence)
        })
    }

    /// The eight bytes, as they stand in a file: most significant first.
    pub fn to_bytes(self) -> [u8; BYTES] {
        self.0.to_be_bytes()
    }

    /// The posting as a number, as the library hands it out.
    pub fn bits(self) -> u64 {
        self.0
    }

    fn numbers(self) -> [u32; 4] {
        read(&self.to_bytes()).expect("there are eight bytes")
    }

    /// PMFN: the record.
    pub fn mfn(self) -> u32 {
        self.numbers()[0]
    }

    /// PTAG: the field identifier, which the indexing program assigns.
    pub fn tag(self) -> u16 {
        self.numbers()[1] as u16
    }

    /// POCC: the occurrence of the field.
    pub fn occurrence(self) -> u8 {
        self.numbers()[2] as u8
    }

    /// PCNT: the number of the term in the field.
    pub fn sequence(self) -> u16 {
        self.numbers()[3] as u16
    }
}

/// The four numbers of the first eight bytes.
fn read(bytes: &[u8]) -> Answer<[u32; 4]> {
    let [mut mfn, mut tag, mut occurrence, mut sequence] = [0; 4];
    // SAFETY: the bytes are borrowed for their whole length, the outputs are four variables
    // of this function.
    let number = unsafe {
        raw::isis_posting_read(
            bytes.as_ptr(),
            bytes.len(),
            &mut mfn,
            &mut tag,
            &mut occurrence,
            &mut sequence,
        )
    };
    answer(number).map(|()| [mfn, tag, occurrence, sequence])
}

impl From<u64> for Posting {
    /// The posting of a number that the library handed out; every number is one.
    fn from(bits: u64) -> Posting {
        Posting(bits)
    }
}

impl fmt::Debug for Posting {
    fn fmt(&self, f: &mut fmt::Formatter<'_>) -> fmt::Result {
        let [mfn, tag, occurrence, sequence] = self.numbers();
        write!(f, "Posting({mfn}/{tag}/{occurrence}/{sequence})")
    }
}

impl Ord for Posting {
    fn cmp(&self, other: &Posting) -> Ordering {
        // SAFETY: it is lent nothing.
        match unsafe { raw::isis_posting_compare(self.0, other.0) } {
            0 => Ordering::Less,
            1 => Ordering::Equal,
            _ => Ordering::Greater,
        }
    }
}

impl PartialOrd for Posting {
    fn partial_cmp(&self, other: &Posting) -> Option<Ordering> {
        Some(self.cmp(other))
    }
}

/// The postings of a list, in stored order, which is ascending.
#[derive(Clone, Debug)]
pub struct Postings(std::vec::IntoIter<u64>);

impl Iterator for Postings {
    type Item = Posting;

    fn next(&mut self) -> Option<Posting> {
        self.0.next().map(Posting)
    }

    fn size_hint(&self) -> (usize, Option<usize>) {
        self.0.size_hint()
    }
}

impl DoubleEndedIterator for Postings {
    fn next_back(&mut self) -> Option<Posting> {
        self.0.next_back().map(Posting)
    }
}

impl ExactSizeIterator for Postings {}

/// A postings file, whole in memory, with any bytes in it. A lookup in an
/// [`Index`](crate::Index) gives the places where its lists begin.
///
/// ```
/// # let bytes: &[u8] = &[];
/// let ifp = isis::Ifp::over(bytes);
/// let nowhere = isis::IfpPlace { block: 1, word: 0 };
/// assert_eq!(ifp.postings(nowhere).err(), Some(isis::Refusal::BadPostings));
/// assert_eq!(ifp.common(nowhere, nowhere), Err(isis::Refusal::BadPostings));
/// ```
#[derive(Clone, Copy, Debug)]
pub struct Ifp<'a>(&'a [u8]);

impl<'a> Ifp<'a> {
    /// A postings file over any bytes.
    pub fn over(bytes: &'a [u8]) -> Ifp<'a> {
        Ifp(bytes)
    }

    /// All postings of the list that begins at a place.
    pub fn postings(self, from: IfpPlace) -> Answer<Postings> {
        let mut list = vec![0; self.at_most(from)];
        let count = self.postings_into(from, &mut list)?;
        list.truncate(count);
        Ok(Postings(list.into_iter()))
    }

    /// The MFNs that two lists have in common, ascending, each once.
    pub fn common(self, a: IfpPlace, b: IfpPlace) -> Answer<Vec<u32>> {
        let room = self.at_most(a).min(self.at_most(b));
        self.listed(raw::isis_common, a, b, room)
    }

    /// The MFNs that are in one of two lists or in both, ascending, each once. A list beside
    /// itself gives its own.
    pub fn joined(self, a: IfpPlace, b: IfpPlace) -> Answer<Vec<u32>> {
        let room = self.at_most(a) + self.at_most(b);
        self.listed(raw::isis_joined, a, b, room)
    }

    /// [`postings`](Ifp::postings) into a list, as numbers of [`Posting::bits`]; gives how many
    /// there are. [`NoRoomInList`](crate::Refusal::NoRoomInList), with nothing written, if there are
    /// more than it has elements.
    pub fn postings_into(self, from: IfpPlace, list: &mut [u64]) -> Answer<usize> {
        let mut count = 0;
        // SAFETY: every pointer goes with the length of the slice that it is from, the list is
        // an exclusive borrow, the count a variable of this function.
        let number = unsafe {
            raw::isis_postings(
                self.0.as_ptr(),
                self.0.len(),
                from.block,
                from.word,
                list.as_mut_ptr(),
                list.len(),
                &mut count,
            )
        };
        answer(number).map(|()| count)
    }

    /// [`common`](Ifp::common) into a list; gives how many there are, or
    /// [`NoRoomInList`](crate::Refusal::NoRoomInList) as in [`postings_into`](Ifp::postings_into).
    pub fn common_into(self, a: IfpPlace, b: IfpPlace, mfns: &mut [u32]) -> Answer<usize> {
        self.merge(raw::isis_common, a, b, mfns)
    }

    /// [`joined`](Ifp::joined) into a list; gives how many there are, or
    /// [`NoRoomInList`](crate::Refusal::NoRoomInList) as in [`postings_into`](Ifp::postings_into).
    pub fn joined_into(self, a: IfpPlace, b: IfpPlace, mfns: &mut [u32]) -> Answer<usize> {
        self.merge(raw::isis_joined, a, b, mfns)
    }

    fn listed(self, merge: raw::Merge, a: IfpPlace, b: IfpPlace, room: usize) -> Answer<Vec<u32>> {
        let mut mfns = vec![0; room];
        let count = self.merge(merge, a, b, &mut mfns)?;
        mfns.truncate(count);
        Ok(mfns)
    }

    fn merge(self, merge: raw::Merge, a: IfpPlace, b: IfpPlace, mfns: &mut [u32]) -> Answer<usize> {
        let mut count = 0;
        // SAFETY: as in `postings_into`.
        let number = unsafe {
            merge(
                self.0.as_ptr(),
                self.0.len(),
                a.block,
                a.word,
                b.block,
                b.word,
                mfns.as_mut_ptr(),
                mfns.len(),
                &mut count,
            )
        };
        answer(number).map(|()| count)
    }

    /// Room for a list that is right: as many postings as its header's third number says. A
    /// list that is not right is refused whatever its room, so a wrong number does no harm; it
    /// is held to the words of the file, of which each begins one posting at most.
    fn at_most(self, from: IfpPlace) -> usize {
        let total = || {
            let block = usize::try_from(from.block).ok()?.checked_sub(1)?;
            let word = usize::try_from(from.word).ok()?;
            let at = block.checked_mul(512)?.checked_add(4 * word + 12)?;
            let bytes = self.0.get(at..)?.first_chunk()?;
            usize::try_from(i32::from_le_bytes(*bytes)).ok()
        };
        total().unwrap_or(0).min(self.0.len() / 4)
    }
}
