//! The lookup of a term and the check of a whole index. Each tree's code is compiled for
//! the width of its keys, so that a key is compared in a few wide steps, and the check
//! goes over each record once: what a pointer says of its target is asked where the
//! target is met. That the keys of a node ascend would then follow from the leaves; it is
//! asked all the same, as the library does.

use super::{i32_at, u16_at};
use std::slice::ChunksExact;

/// The most nodes on one way down.
const NODES: usize = 16;

/// A key of so many bytes.
type Key<const WIDTH: usize> = [u8; WIDTH];

/// A file of nodes or leaves: its bytes, how many of them a record takes, and the most keys.
#[derive(Clone, Copy)]
struct Records<'a> {
    bytes: &'a [u8],
    size: usize,
    most: usize,
}

/// A tree whose keys have so many bytes.
#[derive(Clone, Copy)]
struct Tree<'a, const WIDTH: usize> {
    kind: u16,
    nodes: Records<'a>,
    leaves: Records<'a>,
    root: i32,
}

/// Bytes before the entries of a node and of a leaf, and behind the key of each.
const NODE: (usize, usize) = (8, 4);
const LEAF: (usize, usize) = (12, 8);

impl<'a, const WIDTH: usize> Tree<'a, WIDTH> {
    /// The tree that CNT describes in its part for it.
    #[inline(always)]
    fn read(cnt: &[u8], kind: u16, nodes: &'a [u8], leaves: &'a [u8]) -> Option<Self> {
        if cnt.len() != 52 {
            return None;
        }
        let part = &cnt[26 * (usize::from(kind) - 1)..][..26];
        let (ordn, ordf) = (u16_at(part, 2), u16_at(part, 4));
        let right = 1..=16;
        if u16_at(part, 0) != kind || !right.contains(&ordn) || !right.contains(&ordf) {
            return None;
        }
        let records = |bytes, order, (head, tail): (usize, usize)| {
            let most = 2 * usize::from(order);
            let size = head + most * (WIDTH + tail);
            Records { bytes, size, most }
        };
        Some(Tree {
            kind,
            nodes: records(nodes, ordn, NODE),
            leaves: records(leaves, ordf, LEAF),
            root: i32_at(part, 12),
        })
    }

    /// Record `n` up to its last active entry, if it keeps the rules of every record.
    #[inline(always)]
    fn record(&self, file: Records<'a>, n: i32, (head, tail): (usize, usize)) -> Option<&'a [u8]> {
        let at = (usize::try_from(n).ok()?.checked_sub(1)?).checked_mul(file.size)?;
        let record = file.bytes.get(at..)?.get(..file.size)?;
        let count = usize::from(u16_at(record, 4));
        let right = i32_at(record, 0) == n
            && (1..=file.most).contains(&count)
            && u16_at(record, 6) == self.kind;
        record
            .get(..head + count * (WIDTH + tail))
            .filter(|_| right)
    }

    /// The active entries of node `n`.
    #[inline(always)]
    fn node(&self, n: i32) -> Option<ChunksExact<'a, u8>> {
        let record = self.record(self.nodes, n, NODE)?;
        Some(record[NODE.0..].chunks_exact(WIDTH + NODE.1))
    }

    /// The active entries of leaf `n`, and its successor.
    #[inline(always)]
    fn leaf(&self, n: i32) -> Option<(ChunksExact<'a, u8>, i32)> {
        let record = self.record(self.leaves, n, LEAF)?;
        let entries = record[LEAF.0..].chunks_exact(WIDTH + LEAF.1);
        Some((entries, i32_at(record, 8)))
    }

    /// Block and word of a term, or the refusal.
    #[inline(always)]
    fn find(&self, term: &Key<WIDTH>) -> Result<(i32, i32), u32> {
        let mut n = self.root;
        for _ in 0..NODES {
            let entries = self.node(n).ok_or(21u32)?;
            if entries.clone().any(|entry| i32_at(entry, WIDTH) == 0) {
                return Err(21);
            }
            let entry = entries.rev().find(|entry| !below(term, key(entry)));
            let punt = i32_at(entry.ok_or(22u32)?, WIDTH);
            if punt < 0 {
                return self.find_in_leaf(punt.wrapping_neg(), term);
            }
            n = punt;
        }
        Err(21)
    }

    #[inline(always)]
    fn find_in_leaf(&self, n: i32, term: &Key<WIDTH>) -> Result<(i32, i32), u32> {
        let (mut entries, _) = self.leaf(n).ok_or(21u32)?;
        let entry = entries.find(|entry| key(entry) == term).ok_or(22u32)?;
        Ok((i32_at(entry, WIDTH), i32_at(entry, WIDTH + 4)))
    }
}

/// Whether a key comes before another: eight bytes at a time, the last eight of which may
/// overlap what is known to be equal.
#[inline(always)]
fn below<const WIDTH: usize>(a: &Key<WIDTH>, b: &Key<WIDTH>) -> bool {
    let eight = |key: &Key<WIDTH>, at: usize| {
        u64::from_be_bytes(*key[at..].first_chunk().expect("eight bytes"))
    };
    for at in (0..WIDTH).step_by(8).map(|at| at.min(WIDTH - 8)) {
        let (a, b) = (eight(a, at), eight(b, at));
        if a != b {
            return a < b;
        }
    }
    false
}

/// The key that an entry begins with.
#[inline(always)]
fn key<const WIDTH: usize>(entry: &[u8]) -> &Key<WIDTH> {
    entry.first_chunk().expect("a key")
}

/// The answer, the block and the word.
type Found = (u32, i32, i32);

#[inline(always)]
fn find<const WIDTH: usize>(
    cnt: &[u8],
    nodes: &[u8],
    leaves: &[u8],
    kind: u16,
    term: &[u8],
) -> Result<(i32, i32), u32> {
    let tree = Tree::<WIDTH>::read(cnt, kind, nodes, leaves).ok_or(21u32)?;
    let mut key = [b' '; WIDTH];
    key[..term.len()].copy_from_slice(term);
    tree.find(&key)
}

/// Looks a term up.
#[inline(always)]
pub fn lookup(cnt: &[u8], n01: &[u8], l01: &[u8], n02: &[u8], l02: &[u8], term: &[u8]) -> Found {
    let found = match term {
        [.., b' '] | [] => Err(20),
        _ if term.len() <= 10 => find::<10>(cnt, n01, l01, 1, term),
        _ if term.len() <= 30 => find::<30>(cnt, n02, l02, 2, term),
        _ => Err(20),
    };
    found.map_or_else(|refusal| (refusal, 0, 0), |(block, word)| (0, block, word))
}

/// A walk over a tree: the last key that was met in a leaf, and the leaf that must be next.
struct Walk<'a, const WIDTH: usize> {
    tree: Tree<'a, WIDTH>,
    last: Option<(&'a Key<WIDTH>, i32)>,
}

impl<'a, const WIDTH: usize> Walk<'a, WIDTH> {
    /// Over node `n`, which is to begin with a key, and all that is met from it.
    fn over_node(&mut self, left: usize, n: i32, first: Option<&Key<WIDTH>>) -> Option<()> {
        let left = left.checked_sub(1)?;
        let mut last = None;
        for entry in self.tree.node(n)? {
            let (key, punt) = (key(entry), i32_at(entry, WIDTH));
            let right = match last {
                None => first.is_none_or(|first| first == key),
                Some(last) => below(last, key),
            };
            if !right {
                return None;
            }
            last = Some(key);
            match punt {
                1.. => self.over_node(left, punt, Some(key))?,
                // 0 is no leaf that is there.
                _ => self.over_leaf(punt.wrapping_neg(), key)?,
            }
        }
        Some(())
    }

    /// Over leaf `n`, which is to begin with a key.
    #[inline(always)]
    fn over_leaf(&mut self, n: i32, first: &Key<WIDTH>) -> Option<()> {
        let (mut entries, successor) = self.tree.leaf(n)?;
        let mut last = key(entries.next()?);
        if last != first
            || self
                .last
                .is_some_and(|(key, next)| next != n || !below(key, last))
        {
            return None;
        }
        for entry in entries {
            if !below(last, key(entry)) {
                return None;
            }
            last = key(entry);
        }
        self.last = Some((last, successor));
        Some(())
    }
}

#[inline(always)]
fn sound<const WIDTH: usize>(cnt: &[u8], nodes: &[u8], leaves: &[u8], kind: u16) -> bool {
    let Some(tree) = Tree::<WIDTH>::read(cnt, kind, nodes, leaves) else {
        return false;
    };
    let (root, last) = (tree.root, None);
    let mut walk = Walk { tree, last };
    walk.over_node(NODES, root, None).is_some() && walk.last.is_some_and(|(_, next)| next == 0)
}

/// The answer number of the check.
#[inline(always)]
pub fn check_index(cnt: &[u8], n01: &[u8], l01: &[u8], n02: &[u8], l02: &[u8]) -> u32 {
    let sound = sound::<10>(cnt, n01, l01, 1) && sound::<30>(cnt, n02, l02, 2);
    if sound { 0 } else { 21 }
}
