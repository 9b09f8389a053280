//! A tree of a search index, by the constants of the layout: its part of CNT, its nodes and
//! its leaves, and what a lookup asks of each that it meets. The command reads them only to
//! say what is wrong; whether something is wrong is the library's to answer.

use crate::index::{IndexFile, IndexFiles};
use crate::layout::{long, short};
use crate::printable::printable;
use std::ops::RangeInclusive;

/// Bytes of CNT, and of a tree's part of it.
const CNT: usize = 52;
const PART: usize = CNT / 2;

/// Where the orders and the root's number stand in a part of CNT.
const ORDN: usize = 2;
const ORDF: usize = 4;
const POSRX: usize = 12;

/// The orders that a tree may have.
const ORDERS: RangeInclusive<usize> = 1..=16;

/// The most nodes on one way down.
const DEEPEST: usize = 16;

/// Bytes of a key in each tree, which are those of its longest term.
pub const KEYS: [usize; 2] = [10, 30];

/// What is wrong, in words.
pub type Fault = String;

/// One of the two trees.
#[derive(Clone, Copy)]
pub struct Tree<'a> {
    cnt: &'a IndexFile,
    nodes: Records<'a>,
    /// Its leaves.
    pub leaves: Records<'a>,
}

/// The records of a file: each has a head and then entries, a key and what it leads to.
#[derive(Clone, Copy)]
pub struct Records<'a> {
    file: &'a IndexFile,
    /// The tree's type, 1 or 2.
    kind: usize,
    are_leaves: bool,
    /// Entries of a record.
    entries: usize,
    /// Bytes of the head, of a key, and of what follows a key.
    head: usize,
    key: usize,
    to: usize,
}

/// A node or a leaf.
#[derive(Clone, Copy)]
pub struct Record<'a> {
    records: Records<'a>,
    /// Its number, which counts from 1.
    pub number: usize,
    bytes: &'a [u8],
}

/// An active entry of a record; they count from 1.
#[derive(Clone, Copy)]
pub struct Entry<'a> {
    record: Record<'a>,
    number: usize,
}

/// How a record is reached.
#[derive(Clone, Copy)]
pub struct Way<'a> {
    /// The entry that points there; the root has none.
    pub from: Option<Entry<'a>>,
    /// Nodes on the way so far.
    nodes: usize,
}

impl<'a> Tree<'a> {
    /// A tree of an index by its type, 1 or 2, if its part of CNT is right.
    pub fn open(files: &'a IndexFiles, kind: usize) -> Result<Tree<'a>, Fault> {
        let (cnt, path) = (&files.cnt.bytes, files.cnt.path.display());
        if cnt.len() != CNT {
            return Err(format!("{path} has {} bytes, not {CNT}", cnt.len()));
        }
        let part = PART * (kind - 1);
        let found = short(cnt, part);
        if found != kind {
            let words = format!("{path}, byte {part}: IDTYPE is {found}, not {kind}");
            return Err(words);
        }
        let order = |name, at| match short(cnt, at) {
            order if ORDERS.contains(&order) => Ok(order),
            found => Err(format!(
                "{path}, byte {at}: {name} is {found}, not in 1 to 16"
            )),
        };
        let (nodes, leaves) = (order("ORDN", part + ORDN)?, order("ORDF", part + ORDF)?);
        Ok(Tree {
            cnt: &files.cnt,
            nodes: Records::of(&files.nodes[kind - 1], kind, false, nodes),
            leaves: Records::of(&files.leaves[kind - 1], kind, true, leaves),
        })
    }

    /// The record that a way leads to, if it is as a lookup wants it.
    pub fn follow(&self, way: Way<'a>) -> Result<Record<'a>, Fault> {
        let number = self.pointer(way);
        let to_leaf = number < 0 && way.from.is_some();
        if !to_leaf && way.nodes == DEEPEST {
            let words = self.words(way);
            return Err(format!("{words}, a seventeenth node on one way down"));
        }
        let (records, wanted) = match to_leaf {
            true => (self.leaves, -i64::from(number)),
            false => (self.nodes, i64::from(number)),
        };
        match records.get(wanted) {
            Some(record) => record.right().map(|()| record),
            None => Err(format!("{}, but {}", self.words(way), records.there())),
        }
    }

    /// The number that a way goes by: an entry's PUNT or POSRX.
    fn pointer(&self, way: Way) -> i32 {
        match way.from {
            Some(entry) => entry.pointer(),
            None => long(&self.cnt.bytes, self.root_at()),
        }
    }

    /// That number in words.
    fn words(&self, way: Way) -> String {
        let number = self.pointer(way);
        match way.from {
            Some(entry) => format!("{}: its PUNT is {number}", entry.name()),
            None => {
                let (path, at) = (self.cnt.path.display(), self.root_at());
                format!("{path}, byte {at}: POSRX is {number}")
            }
        }
    }

    /// The byte of CNT at which POSRX stands.
    fn root_at(&self) -> usize {
        PART * (self.nodes.kind - 1) + POSRX
    }
}

impl<'a> Records<'a> {
    fn of(file: &'a IndexFile, kind: usize, are_leaves: bool, order: usize) -> Records<'a> {
        let (head, to) = if are_leaves { (12, 8) } else { (8, 4) };
        Records {
            file,
            kind,
            are_leaves,
            entries: 2 * order,
            head,
            key: KEYS[kind - 1],
            to,
        }
    }

    /// Bytes of a record.
    fn len(&self) -> usize {
        self.head + self.entries * (self.key + self.to)
    }

    /// How many there are, all whole.
    pub fn count(&self) -> usize {
        self.file.bytes.len() / self.len()
    }

    /// The record of a number, if it is there.
    fn get(&self, number: i64) -> Option<Record<'a>> {
        let number = usize::try_from(number).ok()?;
        let there = (1..=self.count()).contains(&number);
        there.then(|| Record {
            records: *self,
            number,
            bytes: &self.file.bytes[(number - 1) * self.len()..number * self.len()],
        })
    }

    /// How many are there, in words.
    fn there(&self) -> String {
        let (path, count) = (self.file.path.display(), self.count());
        let called = match (self.are_leaves, count) {
            (false, 1) => "node",
            (false, _) => "nodes",
            (true, 1) => "leaf",
            (true, _) => "leaves",
        };
        match self.file.bytes.len() % self.len() {
            0 => format!("{path} has {count} {called}"),
            more => format!("{path} has {count} {called} and {more} bytes of another"),
        }
    }
}

impl<'a> Record<'a> {
    /// Whether it is a leaf.
    pub fn is_leaf(&self) -> bool {
        self.records.are_leaves
    }

    /// OCK: how many of its entries are active.
    pub fn active(&self) -> usize {
        short(self.bytes, 4)
    }

    /// PS of a leaf.
    pub fn successor(&self) -> i32 {
        long(self.bytes, 8)
    }

    /// Its active entries.
    pub fn entries(self) -> impl DoubleEndedIterator<Item = Entry<'a>> {
        (1..=self.active()).map(move |number| self.entry(number))
    }

    /// The first of them.
    pub fn first(self) -> Entry<'a> {
        self.entry(1)
    }

    /// The last of them.
    pub fn last(self) -> Entry<'a> {
        self.entry(self.active())
    }

    fn entry(self, number: usize) -> Entry<'a> {
        let record = self;
        Entry { record, number }
    }

    /// Its name in a sentence.
    pub fn name(&self) -> String {
        let Records {
            file, are_leaves, ..
        } = self.records;
        let (path, number) = (file.path.display(), self.number);
        let called = if are_leaves { "leaf" } else { "node" };
        let at = (number - 1) * self.records.len();
        format!("{path}, {called} {number} at byte {at}")
    }

    /// What a lookup asks of a record that it meets.
    fn right(self) -> Result<(), Fault> {
        let Records { kind, entries, .. } = self.records;
        let (pos, active, it) = (long(self.bytes, 0), self.active(), short(self.bytes, 6));
        let wrong = |words: String| Err(format!("{}: {words}", self.name()));
        if i64::from(pos) != self.number as i64 {
            return wrong(format!("its POS is {pos}, not {}", self.number));
        }
        if !(1..=entries).contains(&active) {
            return wrong(format!("its OCK is {active}, not in 1 to {entries}"));
        }
        if it != kind {
            return wrong(format!("its IT is {it}, not {kind}"));
        }
        let nowhere = |entry: &Entry| !self.is_leaf() && entry.pointer() == 0;
        match self.entries().find(nowhere) {
            Some(entry) => Err(format!("{}: its PUNT is 0", entry.name())),
            None => Ok(()),
        }
    }
}

impl<'a> Entry<'a> {
    fn bytes(&self) -> &'a [u8] {
        let Records { head, key, to, .. } = self.record.records;
        &self.record.bytes[head + (self.number - 1) * (key + to)..][..key + to]
    }

    /// Its key.
    pub fn key(&self) -> &'a [u8] {
        &self.bytes()[..self.record.records.key]
    }

    /// Its key in a sentence, without the spaces that pad it.
    pub fn shown(&self) -> String {
        let last = self.key().iter().rposition(|&byte| byte != b' ');
        let end = last.map_or(0, |last| last + 1);
        format!("'{}'", printable(&self.key()[..end]))
    }

    /// PUNT of an entry of a node.
    fn pointer(&self) -> i32 {
        long(self.bytes(), self.record.records.key)
    }

    /// Its name in a sentence.
    pub fn name(&self) -> String {
        format!("{}, entry {}", self.record.name(), self.number)
    }
}

impl<'a> Way<'a> {
    /// The way to the root.
    pub const TO_ROOT: Way<'static> = Way {
        from: None,
        nodes: 0,
    };

    /// The way on, by an entry of the node that this one leads to.
    pub fn on(self, entry: Entry<'a>) -> Way<'a> {
        Way {
            from: Some(entry),
            nodes: self.nodes + 1,
        }
    }
}
