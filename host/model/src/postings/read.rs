//! The reader of lists: request C-14, word for word. It goes from one segment to the next,
//! remembers which it met, keeps all postings, and then asks its sentences of what it has.
//!
//! Each sentence is a function of [`Rules`], so that a reader with one of them wrong can be
//! made, and the tests be tried with it.

use super::fault::{Broken, Why};
use super::posting::BYTES;
use super::{BLOCK, HEADER, LAST_HEADER, Place, Posting, WORDS, place};
use crate::answer::Refusal;
use crate::bytes::i32_at;
use std::collections::BTreeSet;

/// The postings of the list that begins at a place, in stored order, into `out`; gives their
/// number.
pub fn postings(file: &[u8], from: Place, out: &mut [u64]) -> Result<usize, Refusal> {
    given(postings_by(&Request, file, from, out.len()), out)
}

/// The MFNs that are in both lists, ascending, each once, into `mfns`; gives their number.
pub fn common(file: &[u8], from: [Place; 2], mfns: &mut [u32]) -> Result<usize, Refusal> {
    given(
        merged_by(&Request, Merge::Common, file, from, mfns.len()),
        mfns,
    )
}

/// The MFNs that are in either list.
pub fn joined(file: &[u8], from: [Place; 2], mfns: &mut [u32]) -> Result<usize, Refusal> {
    given(
        merged_by(&Request, Merge::Joined, file, from, mfns.len()),
        mfns,
    )
}

/// Writes what a call has to give.
fn given<T: Copy>(list: Result<Vec<T>, Why>, out: &mut [T]) -> Result<usize, Refusal> {
    let list = list?;
    out[..list.len()].copy_from_slice(&list);
    Ok(list.len())
}

/// What becomes of the MFNs of two lists.
#[derive(Clone, Copy, Debug, PartialEq, Eq, PartialOrd, Ord)]
pub enum Merge {
    /// Those in both are given.
    Common,
    /// Those in either are given.
    Joined,
}

/// The five numbers of a header, as they stand.
#[derive(Clone, Copy, Debug)]
#[allow(missing_docs)]
pub struct Header {
    pub next: Place,
    pub total: i32,
    pub count: i32,
    pub capacity: i32,
}

/// The postings of each segment of a list.
pub type Segments = [Vec<u64>];

/// The rules as the request has them.
#[derive(Clone, Copy, Debug)]
pub struct Request;
impl Rules for Request {}

/// The sentences of the request.
pub trait Rules {
    /// "64 bits, most significant first: PMFN 24, PTAG 16, POCC 8, PCNT 16."
    fn posting(&self, bytes: [u8; BYTES]) -> Posting {
        Posting::of_bytes(bytes)
    }

    /// "The header and the first posting are never split": whether a header may stand here.
    fn header_may_stand(&self, at: Place) -> bool {
        at.block >= 1 && (0..=LAST_HEADER).contains(&at.word)
    }

    /// "A posting is never split": where one stands that follows what ends before this word.
    fn stands(&self, at: Place) -> Place {
        match at.word + 2 > WORDS {
            true => place(at.block + 1, 0),
            false => at,
        }
    }

    /// "Counts below 0 or past the capacity."
    fn counts_right(&self, header: Header) -> Result<(), Broken> {
        if header.count < 0 {
            Err(Broken::NegativeCount)
        } else if header.capacity < 0 {
            Err(Broken::NegativeCapacity)
        } else if header.count > header.capacity {
            Err(Broken::PastCapacity)
        } else {
            Ok(())
        }
    }

    /// The total is a count too.
    fn total_is_a_count(&self, total: i32) -> bool {
        total >= 0
    }

    /// "A next place of 0/0 ends the list."
    fn ends(&self, next: Place) -> bool {
        next == place(0, 0)
    }

    /// "A segment twice in a list": what is said of it; `Ok` would end the list there.
    fn met_again(&self) -> Result<(), Broken> {
        Err(Broken::SegmentTwice)
    }

    /// "Postings not strictly ascending", over the whole list.
    fn ascend(&self, segments: &Segments) -> bool {
        let all: Vec<u64> = segments.concat();
        all.windows(2).all(|two| two[0] < two[1])
    }

    /// "A first segment's total other than the segments' sum."
    fn total_right(&self, total: i32, segments: &Segments) -> bool {
        let sum: usize = segments.iter().map(Vec::len).sum();
        i64::from(total) == sum as i64
    }

    /// "The common MFNs, ascending, each once."
    fn common(&self, a: &[u32], b: &[u32]) -> Vec<u32> {
        let [a, b] = [a, b].map(|mfns| mfns.iter().copied().collect::<BTreeSet<u32>>());
        a.intersection(&b).copied().collect()
    }

    /// "The joined MFNs, ascending, each once."
    fn joined(&self, a: &[u32], b: &[u32]) -> Vec<u32> {
        let all: BTreeSet<u32> = a.iter().chain(b).copied().collect();
        all.into_iter().collect()
    }

    /// "Output too small": whether so many items need more room.
    fn too_small(&self, items: usize, room: usize) -> bool {
        items > room
    }

    /// "17, after 23": what is answered before a list is read, if anything is.
    fn before_reading(&self, _file: &[u8], _from: Place, _room: usize) -> Result<(), Why> {
        Ok(())
    }
}

/// The bytes of so many words, if the first is one of a block and all are in the file.
fn words(file: &[u8], at: Place, count: usize) -> Option<&[u8]> {
    if at.block < 1 || !(0..WORDS).contains(&at.word) {
        return None;
    }
    let begin = (at.block as usize - 1) * BLOCK + 4 + 4 * at.word as usize;
    file.get(begin..begin + 4 * count)
}

/// A segment's header.
fn header(rules: &dyn Rules, file: &[u8], at: Place) -> Result<Header, Broken> {
    let may = rules.header_may_stand(at);
    let five = words(file, at, HEADER as usize).filter(|_| may);
    let five = five.ok_or(Broken::HeaderOutside)?;
    let [block, word, total, count, capacity] = [0, 4, 8, 12, 16].map(|at| i32_at(five, at));
    Ok(Header {
        next: place(block, word),
        total,
        count,
        capacity,
    })
}

/// So many postings behind a header, as numbers of the machine.
fn counted(rules: &dyn Rules, file: &[u8], at: Place, count: i32) -> Result<Vec<u64>, Broken> {
    let mut behind = place(at.block, at.word + HEADER);
    let mut list = Vec::new();
    for _ in 0..count {
        let stands = rules.stands(behind);
        let bytes = words(file, stands, 2).ok_or(Broken::PostingOutside)?;
        let bytes = bytes.try_into().expect("two words");
        list.push(rules.posting(bytes).bits());
        behind = place(stands.block, stands.word + 2);
    }
    Ok(list)
}

/// The segments of a list, each with its postings, and the first one's total.
fn walked(rules: &dyn Rules, file: &[u8], from: Place) -> Result<(i32, Vec<Vec<u64>>), Broken> {
    let total = header(rules, file, from)?.total;
    if !rules.total_is_a_count(total) {
        return Err(Broken::NegativeTotal);
    }
    let (mut met, mut segments) = (BTreeSet::new(), Vec::new());
    let mut at = from;
    loop {
        let header = header(rules, file, at)?;
        if !met.insert(at) {
            rules.met_again()?;
            return Ok((total, segments));
        }
        rules.counts_right(header)?;
        segments.push(counted(rules, file, at, header.count)?);
        at = header.next;
        if rules.ends(at) {
            return Ok((total, segments));
        }
    }
}

/// A list by these rules, or the rule that is broken.
pub fn list_by(rules: &dyn Rules, file: &[u8], from: Place) -> Result<Vec<u64>, Broken> {
    let (total, segments) = walked(rules, file, from)?;
    if !rules.ascend(&segments) {
        Err(Broken::NotAscending)
    } else if !rules.total_right(total, &segments) {
        Err(Broken::Total)
    } else {
        Ok(segments.concat())
    }
}

/// The postings of a list by these rules, for an output of so much room.
pub fn postings_by(
    rules: &dyn Rules,
    file: &[u8],
    from: Place,
    room: usize,
) -> Result<Vec<u64>, Why> {
    rules.before_reading(file, from, room)?;
    let list = list_by(rules, file, from)?;
    held(rules, list, room)
}

/// The MFNs of two lists by these rules, for an output of so much room.
pub fn merged_by(
    rules: &dyn Rules,
    merge: Merge,
    file: &[u8],
    from: [Place; 2],
    room: usize,
) -> Result<Vec<u32>, Why> {
    let mfns = |from| -> Result<Vec<u32>, Why> {
        rules.before_reading(file, from, room)?;
        let list = list_by(rules, file, from)?;
        let mfns = list.into_iter().map(|bits| Posting::of_bits(bits).mfn);
        Ok(mfns.collect())
    };
    let (a, b) = (mfns(from[0])?, mfns(from[1])?);
    let list = match merge {
        Merge::Common => rules.common(&a, &b),
        Merge::Joined => rules.joined(&a, &b),
    };
    held(rules, list, room)
}

/// The items, if there is room for them.
fn held<T>(rules: &dyn Rules, items: Vec<T>, room: usize) -> Result<Vec<T>, Why> {
    match rules.too_small(items.len(), room) {
        true => Err(Why::NoRoom),
        false => Ok(items),
    }
}
