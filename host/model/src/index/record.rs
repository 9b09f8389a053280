//! What an index has at fixed places: the parts of CNT, the nodes and the leaves. Each is
//! read only if no rule of 21 is broken in it.

use super::fault::Broken;
use super::{Files, LAST_ORDER, PART, WIDTHS};
use crate::bytes::{i32_at, u16_at};

/// One tree, as CNT describes it, over its two files.
#[derive(Clone, Copy, Debug)]
pub struct Tree<'a> {
    /// IDTYPE and IT: 1 or 2.
    own: u16,
    /// Bytes of a key.
    width: usize,
    /// The most keys of a node and of a leaf.
    most: [usize; 2],
    /// POSRX, the number of the root.
    pub root: i64,
    nodes: &'a [u8],
    leaves: &'a [u8],
}

/// The active entries of a node.
#[derive(Clone, Debug)]
#[allow(missing_docs)]
pub struct Node<'a> {
    pub keys: Vec<&'a [u8]>,
    pub pointers: Vec<Pointer>,
}

/// The active entries of a leaf, its number and its successor.
#[derive(Clone, Debug)]
#[allow(missing_docs)]
pub struct Leaf<'a> {
    pub number: i64,
    pub successor: i64,
    pub keys: Vec<&'a [u8]>,
    pub places: Vec<(i32, i32)>,
}

/// Where a pointer goes: the number of a node or of a leaf. The lowest PUNT names leaf
/// 2^31, which four bytes cannot say.
#[derive(Clone, Copy, Debug, PartialEq, Eq)]
#[allow(missing_docs)]
pub enum Pointer {
    Node(i64),
    Leaf(i64),
}

impl<'a> Tree<'a> {
    /// Reads a tree's part of CNT; `which` is 0 or 1.
    pub fn of(files: &'a Files, which: usize) -> Result<Tree<'a>, Broken> {
        if files.cnt.len() != 2 * PART {
            return Err(Broken::CntLength);
        }
        let part = &files.cnt[which * PART..][..PART];
        let own = which as u16 + 1;
        if u16_at(part, 0) != own {
            return Err(Broken::Idtype);
        }
        let orders = [u16_at(part, 2), u16_at(part, 4)];
        if orders.iter().any(|order| !(1..=LAST_ORDER).contains(order)) {
            return Err(Broken::Order);
        }
        let files = [(&files.n01, &files.l01), (&files.n02, &files.l02)];
        let (nodes, leaves) = files[which];
        Ok(Tree {
            own,
            width: WIDTHS[which],
            most: orders.map(|order| 2 * usize::from(order)),
            root: i64::from(i32_at(part, 12)),
            nodes,
            leaves,
        })
    }

    /// Reads a node.
    pub fn node(&self, number: i64) -> Result<Node<'a>, Broken> {
        let size = self.width + 4;
        let record = whole_record(self.nodes, number, 8 + self.most[0] * size)?;
        let count = self.head(record, number, self.most[0])?;
        let active = || record[8..].chunks(size).take(count);
        let punts = active().map(|entry| i32_at(entry, self.width));
        Ok(Node {
            keys: active().map(|entry| &entry[..self.width]).collect(),
            pointers: punts.map(pointer).collect::<Result<_, _>>()?,
        })
    }

    /// Reads a leaf.
    pub fn leaf(&self, number: i64) -> Result<Leaf<'a>, Broken> {
        let size = self.width + 8;
        let record = whole_record(self.leaves, number, 12 + self.most[1] * size)?;
        let count = self.head(record, number, self.most[1])?;
        let active = || record[12..].chunks(size).take(count);
        let places = active().map(|entry| {
            let info = &entry[self.width..];
            (i32_at(info, 0), i32_at(info, 4))
        });
        Ok(Leaf {
            number,
            successor: i64::from(i32_at(record, 8)),
            keys: active().map(|entry| &entry[..self.width]).collect(),
            places: places.collect(),
        })
    }

    /// POS, OCK and IT of a record; gives the number of active keys.
    fn head(&self, record: &[u8], number: i64, most: usize) -> Result<usize, Broken> {
        let (pos, ock, it) = (i32_at(record, 0), u16_at(record, 4), u16_at(record, 6));
        if i64::from(pos) != number {
            Err(Broken::Position)
        } else if !(1..=most).contains(&usize::from(ock)) {
            Err(Broken::KeyCount)
        } else if it != self.own {
            Err(Broken::Type)
        } else {
            Ok(usize::from(ock))
        }
    }

    /// A term's key in this tree's width.
    pub fn width(&self) -> usize {
        self.width
    }
}

/// The bytes of a record: its number is at least 1, and all of them are in the file.
fn whole_record(file: &[u8], number: i64, len: usize) -> Result<&[u8], Broken> {
    let records = file.chunks_exact(len).len() as i64;
    if !(1..=records).contains(&number) {
        return Err(Broken::NotThere);
    }
    Ok(&file[(number as usize - 1) * len..][..len])
}

fn pointer(punt: i32) -> Result<Pointer, Broken> {
    match i64::from(punt) {
        0 => Err(Broken::ZeroPointer),
        node if node > 0 => Ok(Pointer::Node(node)),
        leaf => Ok(Pointer::Leaf(-leaf)),
    }
}
