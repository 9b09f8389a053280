//! What is wrong with a record, in words: its leader, an entry of its directory, its back pointer.
//! That the leader is broken, or which entry is the first that is, is told by the library; the
//! numbers that stand there and those that were expected are read from the bytes.

use crate::layout::{Astray, ITEM, LAST_TAG, LEADER, LONGEST, Place, Store, long, place, short};
use isis::{Broken, Mark, record_test};
use std::ops::Range;

/// What a flaw is about.
#[derive(Clone, Copy, Debug, PartialEq, Eq)]
pub enum About {
    /// The record's length, so that no step leads on from there.
    Length,
    /// The length too: the record runs past the end.
    End,
    /// Something else.
    Other,
}

/// What is wrong with a record.
#[derive(Debug)]
pub struct Flaw {
    /// What it is about.
    pub about: About,
    /// What is wrong.
    pub words: String,
}

/// A flaw of a record's length.
pub fn of_length(words: String) -> Flaw {
    let about = About::Length;
    Flaw { about, words }
}

/// Another flaw.
fn other(words: String) -> Flaw {
    let about = About::Other;
    Flaw { about, words }
}

/// A record as it stands at an address that has 18 bytes before the end.
#[derive(Clone, Copy)]
pub struct Record<'a> {
    mst: &'a [u8],
    /// Its address.
    pub at: usize,
}

impl<'a> Store<'a> {
    /// The record at an address.
    pub fn record(&self, at: usize) -> Record<'a> {
        Record { mst: self.mst, at }
    }

    /// What is wrong with the record of an MFN at its place; `Ok` gives the place of the
    /// settled version, under a pending change.
    pub fn flaw(&self, mfn: usize, place: Place) -> Result<Option<Place>, Flaw> {
        self.tested(mfn as u32, place.at, place.deleted)?;
        let record = self.record(place.at);
        record.back(place.mark, self.end).map_err(other)
    }

    /// The same of a record to which no entry leads, held to its own MFN and STATUS.
    pub fn flaw_alone(&self, at: usize) -> Result<(), Flaw> {
        let record = self.record(at);
        self.tested(record.mfn() as u32, at, record.status() == 1)
    }

    /// What the library's record test finds, in words.
    fn tested(&self, mfn: u32, at: usize, deleted: bool) -> Result<(), Flaw> {
        let record = self.record(at);
        record_test(&self.mst[at..self.end], mfn, deleted).map_err(|broken| match broken {
            Broken::Leader => record.leader(mfn, deleted, self.end),
            Broken::Entry(number) => record.entry(number as usize),
        })
    }
}

impl Record<'_> {
    /// Its MFN field.
    pub fn mfn(&self) -> i32 {
        long(self.mst, self.at)
    }

    /// MFRL, its length.
    pub fn length(&self) -> usize {
        short(self.mst, self.at + 4)
    }

    /// BASE, where its data begin.
    pub fn base(&self) -> usize {
        short(self.mst, self.at + 12)
    }

    fn status(&self) -> usize {
        short(self.mst, self.at + 16)
    }

    /// The block and offset of its back pointer.
    fn pointer(&self) -> (i64, usize) {
        let block = long(self.mst, self.at + 6);
        (block.into(), short(self.mst, self.at + 10))
    }

    /// Where its back pointer leads, if a record may stand there.
    pub fn back_at(&self, end: usize) -> Option<usize> {
        let (block, offset) = self.pointer();
        place(block, offset, end).ok()
    }

    /// Its bytes, if its length is one that records have.
    pub fn bytes(&self) -> Result<Range<usize>, Flaw> {
        let length = self.length();
        match (LEADER..=LONGEST).contains(&length) && length.is_multiple_of(2) {
            true => Ok(self.at..self.at + length),
            false => Err(of_length(format!(
                "leader: MFRL is {length}, an even number from 18 to 32766 was expected"
            ))),
        }
    }

    /// What is wrong with its leader, if it is broken: where all else is right, it is STATUS.
    fn leader(&self, mfn: u32, deleted: bool, end: usize) -> Flaw {
        let found = self.mfn();
        if found as u32 != mfn {
            return other(format!("leader: MFN is {found}, {mfn} was expected"));
        }
        if let Err(flaw) = self.lengths(end) {
            return flaw;
        }
        let (status, wanted) = (self.status(), u8::from(deleted));
        other(format!("leader: STATUS is {status}, {wanted} was expected"))
    }

    /// What is wrong with the lengths in its leader.
    fn lengths(&self, end: usize) -> Result<(), Flaw> {
        if self.bytes()?.end > end {
            return Err(self.past(end));
        }
        let (length, base) = (self.length(), self.base());
        let fields = short(self.mst, self.at + 14);
        let wanted = LEADER + ITEM * fields;
        if base != wanted {
            return Err(other(format!(
                "leader: BASE is {base}, {wanted} was expected, 18 + 6 times its NVF of {fields}"
            )));
        }
        match base > length {
            true => Err(of_length(format!(
                "leader: BASE is {base}, at most its MFRL of {length} was expected"
            ))),
            false => Ok(()),
        }
    }

    /// What is wrong with an entry of its directory that is broken, and before which none is: where
    /// its tag and its POS are right, it is the sum of the lengths.
    fn entry(&self, number: usize) -> Flaw {
        let items = self.mst[self.at + LEADER..].chunks_exact(ITEM).take(number);
        let sum: usize = items.map(|item| short(item, 4)).sum();
        let at = self.at + LEADER + ITEM * (number - 1);
        let [tag, pos, len] = [0, 2, 4].map(|byte| short(self.mst, at + byte));
        let (before, room) = (sum - len, self.length() - self.base());
        let (about, words) = if !(1..=LAST_TAG).contains(&tag) {
            let words = format!("TAG is {tag}, 1 to {LAST_TAG} was expected");
            (About::Other, words)
        } else if pos != before {
            let words = format!("POS is {pos}, {before} was expected");
            (About::Other, words)
        } else {
            let sums = format!("with its LEN of {len} the lengths sum to {sum}");
            let words = format!("{sums}, at most {room} was expected");
            (About::Length, words)
        };
        let words = format!("directory entry {number}: {words}");
        Flaw { about, words }
    }

    /// That it runs past the end.
    pub fn past(&self, end: usize) -> Flaw {
        let (length, about) = (self.length(), About::End);
        let words = format!("leader: with its MFRL of {length} it runs past the end, {end}");
        Flaw { about, words }
    }

    /// What is wrong with its back pointer under a mark, or where it leads.
    fn back(&self, mark: Mark, end: usize) -> Result<Option<Place>, String> {
        let (block, offset) = self.pointer();
        if mark != Mark::Changed {
            return match (block, offset) {
                (0, 0) => Ok(None),
                _ => Err(format!(
                    "its back pointer is {block}/{offset}, but it must be 0/0"
                )),
            };
        }
        let why = match place(block, offset, end) {
            Ok(at) if at == self.at => "this is the record itself",
            Ok(at) => {
                let (deleted, mark) = (false, Mark::Settled);
                return Ok(Some(Place { at, deleted, mark }));
            }
            Err(Astray::PastEnd) => "this is past the end",
            Err(Astray::Never(why)) => why,
        };
        Err(format!(
            "its back pointer names no settled version: block {block}, offset {offset}: {why}"
        ))
    }
}

#[cfg(test)]
mod tests {
    use super::*;
    use crate::layout::Entry;
    use crate::trials::{Dice, damaged};
    use isis::CardRef;
    use model::record_test::record_test;

    /// What the words of a record say: that it passes, that its leader is broken, or which entry of
    /// its directory is.
    fn said(tested: Result<(), Flaw>) -> (u32, u32) {
        let Err(Flaw { words, .. }) = tested else {
            return (0, 0);
        };
        if words.starts_with("leader: ") {
            return (8, 0);
        }
        let numbered = words.strip_prefix("directory entry ");
        let (number, _) = numbered.and_then(|rest| rest.split_once(": ")).unwrap();
        (8, number.parse().unwrap())
    }

    /// The words name the leader, or the entry, that the model finds broken.
    #[test]
    fn words_name_what_the_model_finds_broken() {
        let mut dice = Dice(16);
        let (mut passed, mut leaders, mut entries) = (0, 0, 0);
        for _ in 0..30_000 {
            let (mst, xrf) = damaged(&mut dice);
            let Ok(store) = Store::open(CardRef::over(&mst, &xrf)) else {
                continue;
            };
            for mfn in 1..store.next {
                let Entry::At(Place { at, deleted, .. }) = store.entry(mfn) else {
                    continue;
                };
                let wanted = record_test(&mst[at..store.end], mfn as u32, deleted.into());
                let given = said(store.tested(mfn as u32, at, deleted));
                assert_eq!(given, wanted, "MFN {mfn} at {at}");
                match wanted {
                    (0, _) => passed += 1,
                    (_, 0) => leaders += 1,
                    _ => entries += 1,
                }
            }
        }
        assert!(
            passed > 10_000 && leaders > 1_000 && entries > 500,
            "{passed}, {leaders}, {entries}"
        );
    }
}
