//! Indexes that pass the check, from lists of terms: as an indexing program leaves them,
//! and in any shape that the rules permit.

pub use super::tree::Files;

use super::shape::{Child, Shape};
use super::tree::{Leaf, Node, Pointer, Posting, Tree, leaf_len, node_len};
use super::{DEEPEST, LAST_ORDER, LONGEST, WIDTHS};
use crate::random::Random;

/// A term, not padded, and where its postings begin.
#[derive(Clone, Debug, PartialEq, Eq)]
pub struct Entry {
    /// 1 to 30 bytes, of which the last is no space.
    pub term: Vec<u8>,
    /// INFO\[1\].
    pub block: i32,
    /// INFO\[2\].
    pub word: i32,
}

/// The orders of a tree's nodes and leaves.
pub type Orders = (u16, u16);

impl Entry {
    /// Whether the term is one.
    pub fn right(&self) -> bool {
        (1..=LONGEST).contains(&self.term.len()) && !self.term.ends_with(b" ")
    }

    /// 0 for the first tree, 1 for the second.
    pub fn tree(&self) -> usize {
        usize::from(self.term.len() > WIDTHS[0])
    }
}

/// The index of these terms: records full, in key order in the files, leaves and then
/// nodes, lowest level first, so that the root is the last node. Of equal terms the first
/// counts. A tree without terms has empty files and no root, so it does not pass the check.
/// Panics at a term that is not one, and at more than 16 levels.
pub fn plain(entries: &[Entry], ordn: u16, ordf: u16) -> Files {
    Files::of(&plain_trees(entries, ordn, ordf), &mut |_| ())
}

/// The two trees of [`plain`].
pub fn plain_trees(entries: &[Entry], ordn: u16, ordf: u16) -> [Tree; 2] {
    divided(entries, |which, terms| {
        plain_tree(which, terms, (ordn, ordf))
    })
}

/// An index of these terms in any shape: records filled as chance has it, in any order in
/// the files and with unused numbers between them, ways of up to 16 nodes and sometimes of
/// unequal length, garbage in all that is not read. As in [`plain`] a tree without terms
/// has no root.
pub fn shuffled(entries: &[Entry], orders: [Orders; 2], random: &mut Random) -> Files {
    let trees = shuffled_trees(entries, orders, random);
    Files::of(&trees, &mut |bytes| random.fill(bytes))
}

/// The two trees of [`shuffled`].
pub fn shuffled_trees(entries: &[Entry], orders: [Orders; 2], random: &mut Random) -> [Tree; 2] {
    divided(entries, |which, terms| {
        shuffled_tree(which, terms, orders[which], random)
    })
}

/// Makes each tree from its own terms, in order.
fn divided(entries: &[Entry], mut tree: impl FnMut(usize, Vec<&Entry>) -> Tree) -> [Tree; 2] {
    assert!(entries.iter().all(Entry::right), "a term is not one");
    [0, 1].map(|which| {
        let mut own: Vec<&Entry> = entries.iter().filter(|e| e.tree() == which).collect();
        own.sort_by_cached_key(|entry| padded(&entry.term));
        own.dedup_by(|later, first| later.term == first.term);
        tree(which, own)
    })
}

/// A term as it is compared: spaces follow it, which come before most other bytes.
fn padded(term: &[u8]) -> [u8; LONGEST] {
    let mut key = [b' '; LONGEST];
    key[..term.len()].copy_from_slice(term);
    key
}

fn plain_tree(which: usize, terms: Vec<&Entry>, orders: Orders) -> Tree {
    let leaves: Vec<&[&Entry]> = terms.chunks(2 * usize::from(orders.1)).collect();
    let shape = Shape::full(leaves.len(), 2 * usize::from(orders.0));
    let numbers = [counted(shape.branches.len()), counted(leaves.len())];
    let levels = shape.levels();
    assert!(levels <= DEEPEST, "too many terms for these orders");
    let tree = Placed {
        which,
        orders,
        leaves,
        shape,
        numbers,
    }
    .tree();
    Tree {
        liv: levels as u16,
        nmaxpos: tree.nodes.len() as i32 + 1,
        fmaxpos: tree.leaves.len() as i32 + 1,
        abnormal: u16::from(tree.nodes.len() > 1),
        ..tree
    }
}

fn shuffled_tree(which: usize, terms: Vec<&Entry>, orders: Orders, random: &mut Random) -> Tree {
    let leaves = groups(&terms, 2 * usize::from(orders.1), random);
    let shape = Shape::any(leaves.len(), 2 * usize::from(orders.0), random);
    let numbers = [
        scattered(shape.branches.len(), random),
        scattered(leaves.len(), random),
    ];
    let tree = Placed {
        which,
        orders,
        leaves,
        shape,
        numbers,
    }
    .tree();
    let width = WIDTHS[which];
    let behind = [node_len(width, orders.0), leaf_len(width, orders.1)];
    let mut any = || random.next();
    Tree {
        n: any() as u16,
        k: any() as u16,
        liv: any() as u16,
        nmaxpos: any() as i32,
        fmaxpos: any() as i32,
        abnormal: any() as u16,
        behind: behind.map(|len| any() as usize % len),
        ..tree
    }
}

/// Takes a list apart into groups of 1 to `most`.
fn groups<'a, T>(list: &'a [T], most: usize, random: &mut Random) -> Vec<&'a [T]> {
    let mut rest = list;
    let mut groups = Vec::new();
    while !rest.is_empty() {
        let group;
        (group, rest) = rest.split_at(random.between(1, most.min(rest.len())));
        groups.push(group);
    }
    groups
}

/// The numbers 1, 2 and so on.
fn counted(records: usize) -> Vec<i32> {
    (1..=records as i32).collect()
}

/// So many different numbers in any order, with some left out.
fn scattered(records: usize, random: &mut Random) -> Vec<i32> {
    let unused = random.below(records / 4 + 3);
    let mut numbers = counted(records + unused);
    for at in (1..numbers.len()).rev() {
        numbers.swap(at, random.below(at + 1));
    }
    numbers.truncate(records);
    numbers
}

/// A tree's leaves and shape, and the number that each record is to have in its file.
struct Placed<'a> {
    which: usize,
    orders: Orders,
    leaves: Vec<&'a [&'a Entry]>,
    shape: Shape,
    numbers: [Vec<i32>; 2],
}

impl Placed<'_> {
    fn tree(&self) -> Tree {
        let (ordn, ordf) = self.orders;
        let orders_right = [ordn, ordf]
            .iter()
            .all(|order| (1..=LAST_ORDER).contains(order));
        assert!(orders_right, "orders are 1 to {LAST_ORDER}");
        let root = self.shape.root();
        let nodes = (0..self.shape.branches.len()).map(|at| self.node(at));
        let leaves = (0..self.leaves.len()).map(|at| self.leaf(at));
        Tree {
            posrx: root.map_or(0, |root| self.numbers[0][root]),
            nodes: by_number(nodes.map(|node| (node.pos, node))),
            leaves: by_number(leaves.map(|leaf| (leaf.pos, leaf))),
            ..Tree::empty(self.own(), ordn, ordf)
        }
    }

    /// IDTYPE and IT.
    fn own(&self) -> u16 {
        self.which as u16 + 1
    }

    fn node(&self, at: usize) -> Node {
        let children = self.shape.branches[at].children.iter();
        let entries = children.map(|&child| self.pointer(child)).collect();
        Node::of(self.numbers[0][at], self.own(), entries)
    }

    fn pointer(&self, child: Child) -> Pointer {
        let (first_leaf, punt) = match child {
            Child::Node(at) => (self.shape.branches[at].first_leaf, self.numbers[0][at]),
            Child::Leaf(at) => (at, -self.numbers[1][at]),
        };
        let key = self.leaves[first_leaf][0].term.clone();
        Pointer { key, punt }
    }

    fn leaf(&self, at: usize) -> Leaf {
        let postings = self.leaves[at].iter().map(|entry| Posting {
            key: entry.term.clone(),
            block: entry.block,
            word: entry.word,
        });
        let next = self.numbers[1].get(at + 1).copied().unwrap_or(0);
        Leaf::of(self.numbers[1][at], self.own(), next, postings.collect())
    }
}

/// Puts each record at its number.
fn by_number<T>(records: impl Iterator<Item = (i32, T)>) -> Vec<Option<T>> {
    let mut list = Vec::new();
    for (number, record) in records {
        let at = number as usize - 1;
        if list.len() <= at {
            list.resize_with(at + 1, || None);
        }
        list[at] = Some(record);
    }
    list
}
