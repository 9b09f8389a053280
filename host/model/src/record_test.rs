//! The record test, from the words of document 01 ("Records") and request C-16: a record, given
//! from its first byte to the store's end, passes; or its leader fails; or some entry of its
//! directory breaks a rule, and then the first such entry is told, counted from 1.
//!
//! The back pointer is no part of it. Each sentence is a function of [`Rules`], so that a test
//! with one of them wrong can be made, and the comparing tests be tried with it.

use crate::answer::Refusal;
use crate::bytes::u16_at;
use crate::fault::{DirectoryFault, RecordFault};
use crate::layout::{ITEM, LAST_TAG, LEADER};
use crate::record::{Leader, length_right};
use std::iter;

/// An entry of a directory.
#[derive(Clone, Copy, Debug, PartialEq, Eq)]
#[allow(missing_docs)]
pub struct Item {
    pub tag: u16,
    pub pos: u16,
    pub len: u16,
}

/// What a record holds that passed: its leader, and the sum of its field lengths.
pub type Passed = (Leader, usize);

/// The test of a record that must have an MFN and be deleted, or not where that is 0: the
/// answer's number, and the number of the entry that is told with it.
pub fn record_test(record: &[u8], mfn: u32, deleted: u32) -> (u32, u32) {
    told(test_by(&Paper, record, mfn, deleted))
}

/// What is told of a test: 8 with the entry that broke, or with 0 where the leader did.
pub fn told(result: Result<Passed, RecordFault>) -> (u32, u32) {
    match result {
        Ok(_) => (0, 0),
        Err(fault) => (Refusal::Record.number(), fault.entry() as u32),
    }
}

/// The rules as the papers have them.
#[derive(Clone, Copy, Debug)]
pub struct Paper;
impl Rules for Paper {}

/// The sentences of the papers.
pub trait Rules {
    /// "The MFN field is m", compared as 32 bits.
    fn mfn(&self, field: u32, mfn: u32) -> bool {
        field == mfn
    }

    /// "MFRL is in range."
    fn mfrl(&self, mfrl: u16) -> bool {
        length_right(mfrl)
    }

    /// "The record stops at or before the end."
    fn before_end(&self, mfrl: u16, len: usize) -> bool {
        usize::from(mfrl) <= len
    }

    /// "BASE = 18 + 6 × NVF."
    fn base(&self, base: u16, nvf: u16) -> bool {
        usize::from(base) == LEADER + ITEM * usize::from(nvf)
    }

    /// "At most MFRL."
    fn base_within(&self, base: u16, mfrl: u16) -> bool {
        base <= mfrl
    }

    /// "STATUS is 1 exactly if the entry is deleted, otherwise 0."
    fn status(&self, status: u16, deleted: u32) -> bool {
        status == u16::from(deleted != 0)
    }

    /// "Tags in range."
    fn tag(&self, tag: u16) -> bool {
        (1..=LAST_TAG).contains(&tag)
    }

    /// "The first POS is 0, each next POS is the one before plus its LEN."
    fn pos(&self, pos: u16, before: Option<Item>) -> bool {
        usize::from(pos) == pos_behind(before)
    }

    /// "The lengths sum to at most MFRL - BASE", of the lengths so far: those up to an entry.
    fn sum(&self, sum: usize, leader: &Leader) -> bool {
        sum <= room(leader)
    }
}

/// MFRL - BASE: how many bytes the data may take.
fn room(leader: &Leader) -> usize {
    usize::from(leader.length.saturating_sub(leader.base))
}

/// The POS of an entry behind another one, or of the first.
fn pos_behind(before: Option<Item>) -> usize {
    before.map_or(0, |item| usize::from(item.pos) + usize::from(item.len))
}

/// The test by some rules.
pub fn test_by(
    rules: &dyn Rules,
    record: &[u8],
    mfn: u32,
    deleted: u32,
) -> Result<Passed, RecordFault> {
    let leader = leader_by(rules, record, mfn, deleted)?;
    let items = items(record, &leader);
    match first_broken(rules, &items, &leader) {
        Some(fault) => Err(RecordFault::Directory(fault)),
        None => Ok((leader, items.iter().map(|item| usize::from(item.len)).sum())),
    }
}

/// The leader of a record, if it is right.
fn leader_by(
    rules: &dyn Rules,
    record: &[u8],
    mfn: u32,
    deleted: u32,
) -> Result<Leader, RecordFault> {
    let found = record.len();
    if found < LEADER {
        return Err(RecordFault::Short { found });
    }
    let leader = Leader::read(record, 0);
    let (mfrl, base, nvf) = (leader.length, leader.base, leader.fields);
    let fault = if !rules.mfn(leader.mfn as u32, mfn) {
        RecordFault::Mfn { found: leader.mfn }
    } else if !rules.mfrl(mfrl) {
        RecordFault::Mfrl { found: mfrl }
    } else if !rules.before_end(mfrl, found) {
        RecordFault::PastEnd { mfrl, left: found }
    } else if !rules.base(base, nvf) {
        RecordFault::Base { found: base, nvf }
    } else if !rules.base_within(base, mfrl) {
        RecordFault::BasePastMfrl { base, mfrl }
    } else if !rules.status(leader.status, deleted) {
        let wanted = u16::from(deleted != 0);
        RecordFault::Status {
            found: leader.status,
            wanted,
        }
    } else {
        return Ok(leader);
    };
    Err(fault)
}

/// The entries of a directory, as many as NVF says.
fn items(record: &[u8], leader: &Leader) -> Vec<Item> {
    let behind = record[LEADER..].chunks_exact(ITEM);
    let item = |bytes: &[u8]| Item {
        tag: u16_at(bytes, 0),
        pos: u16_at(bytes, 2),
        len: u16_at(bytes, 4),
    };
    behind.take(leader.fields.into()).map(item).collect()
}

/// The first entry that breaks a rule, and how: each entry is asked by itself, with the one
/// before it and the sum of the lengths up to it.
fn first_broken(rules: &dyn Rules, items: &[Item], leader: &Leader) -> Option<DirectoryFault> {
    let before = iter::once(None).chain(items.iter().copied().map(Some));
    let sums = items.iter().scan(0, |sum, item| {
        *sum += usize::from(item.len);
        Some(*sum)
    });
    let mut entries = (1..).zip(items).zip(before.zip(sums));
    entries.find_map(|((number, item), (before, sum))| {
        broken(rules, number, *item, before, sum, leader)
    })
}

/// What is wrong with an entry.
fn broken(
    rules: &dyn Rules,
    number: usize,
    item: Item,
    before: Option<Item>,
    sum: usize,
    leader: &Leader,
) -> Option<DirectoryFault> {
    if !rules.tag(item.tag) {
        Some(DirectoryFault::Tag {
            item: number,
            found: item.tag,
        })
    } else if !rules.pos(item.pos, before) {
        Some(DirectoryFault::Pos {
            item: number,
            found: item.pos,
            wanted: pos_behind(before),
        })
    } else if !rules.sum(sum, leader) {
        Some(DirectoryFault::Sum {
            item: number,
            sum,
            room: room(leader),
        })
    } else {
        None
    }
}
