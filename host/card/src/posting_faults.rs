//! What keeps a list of postings from being right: the first rule that is broken, in words.
//! The library has answered before that it is not right; here the bytes are read a second
//! time to say why.
//!
//! The walk stops where it comes to a segment again or postings do not ascend, so it reads
//! none of either twice and takes no longer than the file.

use crate::index::{IndexFile, place_words};
use crate::layout::{BLOCK, long};
use isis::{IfpPlace, Posting};
use std::collections::HashSet;

/// What is wrong, in words.
type Fault = String;

/// Words of a block, and of a header; the last word at which one stands.
const WORDS: i32 = 127;
const HEADER: i32 = 5;
const LAST_HEADER: i32 = 120;

/// A segment of a list: where it stands, and the five numbers of its header.
#[derive(Clone, Copy)]
struct Segment<'a> {
    file: &'a IndexFile,
    at: IfpPlace,
    next: IfpPlace,
    total: i32,
    count: i32,
    capacity: i32,
}

/// What is wrong with the list that begins at a place.
pub fn of_list(file: &IndexFile, from: IfpPlace) -> Option<Fault> {
    walk(file, from).err()
}

fn walk(file: &IndexFile, from: IfpPlace) -> Result<(), Fault> {
    let begin = |why| format!("the index has it begin at {}: {why}", place_words(from));
    let first = Segment::read(file, from).map_err(begin)?;
    if first.total < 0 {
        return Err(first.says(&format!("its total is {}", first.total)));
    }
    let (mut segment, mut sum, mut last) = (first, 0, None);
    let mut met = HashSet::from([(from.block, from.word)]);
    loop {
        segment.counts()?;
        last = segment.ascends(last)?;
        sum += i64::from(segment.count);
        let next = segment.next;
        if (next.block, next.word) == (0, 0) {
            break;
        }
        let leads =
            |why: &str| segment.says(&format!("it leads on to {}: {why}", place_words(next)));
        let behind = Segment::read(file, next).map_err(|why| leads(&why))?;
        if !met.insert((next.block, next.word)) {
            return Err(leads("this segment came before"));
        }
        segment = behind;
    }
    match i64::from(first.total) == sum {
        true => Ok(()),
        false => Err(first.says(&format!(
            "its total is {}, but the counts of the list sum to {sum}",
            first.total
        ))),
    }
}

/// The bytes of so many words, if the first is one of a block and all are in the file.
fn bytes_at(file: &IndexFile, at: IfpPlace, count: usize) -> Result<&[u8], Fault> {
    if at.block < 1 {
        return Err("blocks count from 1".into());
    }
    let begin = (at.block as usize - 1) * BLOCK + 4 + 4 * at.word as usize;
    let end = begin + 4 * count;
    file.bytes.get(begin..end).ok_or_else(|| {
        let (path, len) = (file.path.display(), file.bytes.len());
        format!(
            "it would take bytes {begin} to {}, and {path} has {len}",
            end - 1
        )
    })
}

impl<'a> Segment<'a> {
    /// The segment at a place, or why none can stand there.
    fn read(file: &'a IndexFile, at: IfpPlace) -> Result<Segment<'a>, Fault> {
        if !(0..=LAST_HEADER).contains(&at.word) {
            return Err(format!("a header stands at words 0 to {LAST_HEADER}"));
        }
        let header = bytes_at(file, at, HEADER as usize)?;
        let [block, word, total, count, capacity] = [0, 4, 8, 12, 16].map(|at| long(header, at));
        Ok(Segment {
            file,
            at,
            next: IfpPlace { block, word },
            total,
            count,
            capacity,
        })
    }

    /// A fault of it.
    fn says(&self, what: &str) -> Fault {
        let path = self.file.path.display();
        format!("{path}, segment at {}: {what}", place_words(self.at))
    }

    /// Whether its count and capacity can be.
    fn counts(&self) -> Result<(), Fault> {
        let (count, capacity) = (self.count, self.capacity);
        if count < 0 {
            Err(self.says(&format!("its count is {count}")))
        } else if count > capacity {
            let what = format!("its count is {count}, but its capacity is {capacity}");
            Err(self.says(&what))
        } else {
            Ok(())
        }
    }

    /// Whether its postings are there and ascend from the last one before; gives its own last.
    fn ascends(&self, mut last: Option<Posting>) -> Result<Option<Posting>, Fault> {
        let IfpPlace {
            mut block,
            mut word,
        } = self.at;
        word += HEADER;
        for number in 1..=self.count {
            if word + 2 > WORDS {
                (block, word) = (block + 1, 0);
            }
            let bytes = bytes_at(self.file, IfpPlace { block, word }, 2)
                .map_err(|why| self.says(&format!("posting {number} is not there: {why}")))?;
            let posting = Posting::from(u64::from_be_bytes(bytes.try_into().expect("eight")));
            if let Some(before) = last.filter(|before| *before >= posting) {
                let (this, before) = (numbers(posting), numbers(before));
                let what = format!("posting {number}, {this}, is not above {before} before it");
                return Err(self.says(&what));
            }
            last = Some(posting);
            word += 2;
        }
        Ok(last)
    }
}

/// The four numbers of a posting.
fn numbers(posting: Posting) -> String {
    let (mfn, field) = (posting.mfn(), posting.tag());
    format!(
        "{mfn}/{field}/{}/{}",
        posting.occurrence(),
        posting.sequence()
    )
}

#[cfg(test)]
mod tests {
    use super::*;
    use crate::trials::{Dice, damage_postings, postings, seed};
    use isis::{Ifp, Refusal};

    /// Something is found exactly if the library refuses the list.
    #[test]
    fn what_is_found_is_what_the_library_refuses() {
        let mut dice = Dice(seed());
        let (mut right, mut wrong) = (0, 0);
        for _ in 0..20_000 {
            let (mut file, places) = postings(&mut dice);
            damage_postings(&mut dice, &mut file);
            for from in places {
                let answer = Ifp::over(&file.bytes).postings(from).map(drop);
                let found = of_list(&file, from);
                match answer {
                    Ok(()) => right += 1,
                    Err(Refusal::BadPostings) => wrong += 1,
                    Err(other) => panic!("{other}"),
                }
                assert_eq!(answer.is_err(), found.is_some(), "{from:?}: {found:?}");
            }
        }
        assert!(
            right > 5_000 && wrong > 5_000,
            "{right} right, {wrong} wrong"
        );
    }
}
