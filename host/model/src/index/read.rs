//! The reader of an index: request C-11, read word for word. A lookup goes one level down
//! after another; the check walks all that is met from the root, and then asks each of
//! its sentences of what it met.
//!
//! Each sentence is a function of [`Rules`], so that a reader with one of them wrong can be
//! made, and the tests be tried with it.

use super::fault::{Broken, Why};
use super::record::{Leaf, Node, Pointer, Tree};
use super::{DEEPEST, Files, LONGEST, WIDTHS};
use crate::answer::Refusal;
use std::collections::{BTreeMap, BTreeSet};

/// Looks a term up: the block and word of the first equal key.
pub fn lookup(files: &Files, term: &[u8]) -> Result<(i32, i32), Refusal> {
    lookup_by(&Request, files, term).map_err(Refusal::from)
}

/// Checks both trees of an index.
pub fn check(files: &Files) -> Result<(), Refusal> {
    check_by(&Request, files).map_err(|rule| Why::Broken(rule).into())
}

/// What a tree holds: keys, padded, and where their postings begin.
pub type Held = BTreeMap<Vec<u8>, (i32, i32)>;

/// All that the leaves hold which are met from the root of each tree.
pub fn held(files: &Files) -> Result<[Held; 2], Broken> {
    let of = |which| {
        let met = walked(&Request, &Tree::of(files, which)?)?;
        let leaves = met.leaves.into_iter();
        let entries = leaves.flat_map(|leaf| leaf.keys.into_iter().zip(leaf.places));
        Ok(entries.map(|(key, place)| (key.to_vec(), place)).collect())
    };
    Ok([of(0)?, of(1)?])
}

/// The rules as the request has them.
#[derive(Clone, Copy, Debug)]
pub struct Request;
impl Rules for Request {}

/// What the walk from a root meets: nodes, each after all below it, and leaves in order.
#[derive(Debug, Default)]
#[allow(missing_docs)]
pub struct Met<'a> {
    pub nodes: Vec<Node<'a>>,
    pub leaves: Vec<Leaf<'a>>,
}

/// The sentences of the request.
pub trait Rules {
    /// "Terms have 1 to 30 bytes and no trailing space."
    fn is_term(&self, term: &[u8]) -> bool {
        (1..=LONGEST).contains(&term.len()) && term.last() != Some(&b' ')
    }

    /// "Up to 10 use the first tree, longer ones the second": 0 or 1.
    fn tree_of(&self, term: &[u8]) -> usize {
        usize::from(term.len() > WIDTHS[0])
    }

    /// "Padded with spaces."
    fn padded(&self, term: &[u8], width: usize) -> Vec<u8> {
        let mut key = term.to_vec();
        key.resize(width, b' ');
        key
    }

    /// "Compared as unsigned bytes": whether a key is not above the term's.
    fn not_above(&self, key: &[u8], term: &[u8]) -> bool {
        key <= term
    }

    /// "At a node take the last active key not above the term."
    fn taken(&self, keys: &[&[u8]], term: &[u8]) -> Option<usize> {
        keys.iter().rposition(|key| self.not_above(key, term))
    }

    /// "The first equal key."
    fn equal(&self, keys: &[&[u8]], term: &[u8]) -> Option<usize> {
        keys.iter().position(|key| *key == term)
    }

    /// "More than 16 nodes on one way down": so many are permitted.
    fn deepest(&self) -> usize {
        DEEPEST
    }

    /// "Keys ascend strictly in nodes."
    fn nodes_ascend(&self, met: &Met) -> bool {
        met.nodes.iter().all(|node| ascend(&node.keys))
    }

    /// "And along the leaves."
    fn leaves_ascend(&self, met: &Met) -> bool {
        let keys = met.leaves.iter().flat_map(|leaf| &leaf.keys);
        ascend(&keys.copied().collect::<Vec<_>>())
    }

    /// "Each pointer's key is its target's first."
    fn pointers_right(&self, tree: &Tree, met: &Met) -> bool {
        let nodes = met.nodes.iter();
        let mut entries = nodes.flat_map(|node| node.keys.iter().zip(&node.pointers));
        entries.all(|(key, pointer)| first_key(tree, *pointer) == Ok(*key))
    }

    /// "In successor order."
    fn in_successor_order(&self, met: &Met) -> bool {
        let mut pairs = met.leaves.windows(2);
        pairs.all(|two| two[0].successor == two[1].number)
    }

    /// "The last one's successor 0."
    fn ends_with_0(&self, met: &Met) -> bool {
        met.leaves.last().is_none_or(|last| last.successor == 0)
    }
}

fn ascend(keys: &[&[u8]]) -> bool {
    keys.windows(2).all(|two| two[0] < two[1])
}

fn first_key<'a>(tree: &Tree<'a>, pointer: Pointer) -> Result<&'a [u8], Broken> {
    match pointer {
        Pointer::Node(number) => tree.node(number).map(|node| node.keys[0]),
        Pointer::Leaf(number) => tree.leaf(number).map(|leaf| leaf.keys[0]),
    }
}

/// A lookup by these rules, with the reason of a refusal.
pub fn lookup_by(rules: &dyn Rules, files: &Files, term: &[u8]) -> Result<(i32, i32), Why> {
    if !rules.is_term(term) {
        return Err(Why::BadTerm);
    }
    let tree = Tree::of(files, rules.tree_of(term))?;
    let key = rules.padded(term, tree.width());
    let mut number = tree.root;
    for _ in 0..rules.deepest() {
        let node = tree.node(number)?;
        let taken = rules.taken(&node.keys, &key).ok_or(Why::Below)?;
        match node.pointers[taken] {
            Pointer::Node(below) => number = below,
            Pointer::Leaf(below) => {
                let leaf = tree.leaf(below)?;
                let equal = rules.equal(&leaf.keys, &key).ok_or(Why::Absent)?;
                return Ok(leaf.places[equal]);
            }
        }
    }
    Err(Broken::TooDeep.into())
}

/// The check by these rules, with the rule that is broken.
pub fn check_by(rules: &dyn Rules, files: &Files) -> Result<(), Broken> {
    for which in [0, 1] {
        let tree = Tree::of(files, which)?;
        let met = walked(rules, &tree)?;
        let sentences = [
            (rules.nodes_ascend(&met), Broken::NodeKeys),
            (rules.leaves_ascend(&met), Broken::LeafKeys),
            (rules.pointers_right(&tree, &met), Broken::PointerKey),
            (rules.in_successor_order(&met), Broken::Successor),
            (rules.ends_with_0(&met), Broken::LastSuccessor),
        ];
        if let Some((_, broken)) = sentences.into_iter().find(|(holds, _)| !holds) {
            return Err(broken);
        }
    }
    Ok(())
}

/// All that is met from a tree's root. The walk stops at a leaf that it met before, as well
/// as where a rule of 21 is broken: each way down ends at a leaf, so it meets at most 16
/// nodes for each leaf of the file, where 16 nodes of 32 pointers to one child have 32^16
/// ways.
fn walked<'a>(rules: &dyn Rules, tree: &Tree<'a>) -> Result<Met<'a>, Broken> {
    let mut walk = Walk {
        rules,
        tree,
        met: Met::default(),
        before: BTreeSet::new(),
    };
    walk.down(tree.root, 0)?;
    Ok(walk.met)
}

/// The walk, and the numbers of the leaves that it met.
struct Walk<'r, 'a> {
    rules: &'r dyn Rules,
    tree: &'r Tree<'a>,
    met: Met<'a>,
    before: BTreeSet<i64>,
}

impl Walk<'_, '_> {
    /// Walks all that is below a node which has so many nodes above it.
    fn down(&mut self, number: i64, above: usize) -> Result<(), Broken> {
        if above == self.rules.deepest() {
            return Err(Broken::TooDeep);
        }
        let node = self.tree.node(number)?;
        for pointer in &node.pointers {
            match *pointer {
                Pointer::Node(below) => self.down(below, above + 1)?,
                Pointer::Leaf(below) => self.leaf(below)?,
            }
        }
        self.met.nodes.push(node);
        Ok(())
    }

    fn leaf(&mut self, number: i64) -> Result<(), Broken> {
        let leaf = self.tree.leaf(number)?;
        if !self.before.insert(number) {
            return Err(Broken::LeafTwice);
        }
        self.met.leaves.push(leaf);
        Ok(())
    }
}
