//! The search index: every answer of a lookup and of the index check, 20, 22 both ways, and
//! 21 by each of its rules.
//!
//! Both orders are 1. The first tree has a root, node 3, over nodes 1 and 2 and the leaves 1
//! (ALPHA, BETA), 2 (KITE, KITES) and 3 (WIND); the second has one node and one leaf.

use crate::subject as store;
use model::answer::number;
use model::index::build::{Entry, plain_trees};
use model::index::tree::{Files, Leaf, Node, Pointer, Tree};
use std::fmt::Write;

const TERMS: [&str; 7] = [
    "ALPHA",
    "BETA",
    "KITE",
    "KITES",
    "WIND",
    "A SCOTTISH KITE",
    "THIRTY BYTES OF A TERM OF KITE",
];

/// The two trees, the files that they give, and the lines so far.
struct Index {
    trees: [Tree; 2],
    files: Files,
    lines: String,
}

impl Index {
    fn new() -> Index {
        let entries: Vec<Entry> = (1..)
            .zip(TERMS)
            .map(|(block, term)| Entry {
                term: term.as_bytes().to_vec(),
                block,
                word: -block,
            })
            .collect();
        let trees = plain_trees(&entries, 1, 1);
        Index {
            files: Files::of(&trees, &mut |_| ()),
            trees,
            lines: String::new(),
        }
    }

    /// The index as it was, with something changed in its first tree.
    fn with(&mut self, change: impl FnOnce(&mut Tree)) -> &mut Index {
        let mut trees = self.trees.clone();
        change(&mut trees[0]);
        self.files = Files::of(&trees, &mut |_| ());
        self
    }

    fn with_node(&mut self, number: usize, change: impl FnOnce(&mut Node)) -> &mut Index {
        self.with(|tree| change(tree.nodes[number - 1].as_mut().unwrap()))
    }

    fn with_leaf(&mut self, number: usize, change: impl FnOnce(&mut Leaf)) -> &mut Index {
        self.with(|tree| change(tree.leaves[number - 1].as_mut().unwrap()))
    }

    fn lookup(&mut self, what: &str, term: &[u8]) -> &mut Index {
        let result = store::lookup(&self.files, term);
        let (answer, (block, word)) = (number(&result), result.unwrap_or_default());
        let lines = &mut self.lines;
        writeln!(lines, "{what}: lookup {answer} block {block}, word {word}").unwrap();
        self
    }

    fn check(&mut self, what: &str) -> &mut Index {
        let answer = number(&store::check_index(&self.files));
        writeln!(self.lines, "{what}: index check {answer}").unwrap();
        self
    }

    /// A lookup whose way leads by nodes 3 and 1 and leaf 2, and the check.
    fn both(&mut self, what: &str) {
        self.lookup(&format!("{what}, KITES"), b"KITES").check(what);
    }
}

/// All lines of the section.
pub fn lines() -> String {
    let mut index = Index::new();
    terms(&mut index);
    absent(&mut index);
    control(&mut index);
    records(&mut index);
    pointers(&mut index);
    files(&mut index);
    depth(&mut index);
    sentences(&mut index);
    order(&mut index);
    index.lines
}

/// 0 and 20.
fn terms(index: &mut Index) {
    for term in TERMS {
        index.lookup(term, term.as_bytes());
    }
    index.check("index of seven terms");
    index.lookup("a term of no bytes", b"");
    index.lookup("a term of 31 bytes", &[b'K'; 31]);
    index.lookup("KITE and a space", b"KITE ");
    index.lookup("a space", b" ");
}

/// 22: not in the leaf, or below every key of a node.
fn absent(index: &mut Index) {
    for term in [
        "KIT",
        "KITESS",
        "KITING",
        "kite",
        "ZZ",
        "KKKKKKKKKK",
        "KKKKKKKKKKK",
    ] {
        index.lookup(&format!("absent, {term}"), term.as_bytes());
    }
    index.lookup("below all keys, AAAA", b"AAAA");
    index.lookup("below all keys, a space and KITE", b" KITE");
    index.lookup("below all long keys", b"A SCOTTISH KIT");
    index.with_node(3, |root| root.entries[1].key = b"KITED".to_vec());
    index.lookup("below all keys of node 2, KITES", b"KITES");
}

/// 21: CNT.
fn control(index: &mut Index) {
    for len in [51, 53, 0] {
        index.with(|_| ()).files.cnt.resize(len, 0);
        index.both(&format!("CNT of {len} bytes"));
    }
    index.with(|tree| tree.idtype = 2).both("IDTYPE 2");
    for order in [0, 17] {
        let what = format!("ORDN {order}");
        index.with(|tree| tree.ordn = order).both(&what);
        let what = format!("ORDF {order}");
        index.with(|tree| tree.ordf = order).both(&what);
    }
    index.with(|tree| tree.ordn = 16).both("ORDN 16");
    index.with(|tree| tree.ordf = 16).both("ORDF 16");
    for root in [0, -1, 4, i32::MAX, i32::MIN] {
        let what = format!("POSRX {root}");
        index.with(|tree| tree.posrx = root).both(&what);
    }
    index.with(|tree| tree.posrx = 1).both("POSRX 1");
}

/// 21: the head of a node and of a leaf.
fn records(index: &mut Index) {
    for pos in [0, 2, -1] {
        index.with_node(1, |node| node.pos = pos);
        index.both(&format!("node 1, POS {pos}"));
    }
    for pos in [0, 1, -2] {
        index.with_leaf(2, |leaf| leaf.pos = pos);
        index.both(&format!("leaf 2, POS {pos}"));
    }
    for ock in [0, 1, 3] {
        index.with_node(1, |node| node.ock = ock);
        index.both(&format!("node 1, OCK {ock}"));
        index.with_leaf(2, |leaf| leaf.ock = ock);
        index.both(&format!("leaf 2, OCK {ock}"));
    }
    for it in [0, 2] {
        index.with_node(1, |node| node.it = it);
        index.both(&format!("node 1, IT {it}"));
        index.with_leaf(2, |leaf| leaf.it = it);
        index.both(&format!("leaf 2, IT {it}"));
    }
}

/// 21: PUNT of node 1, of which the second leads to leaf 2.
fn pointers(index: &mut Index) {
    for punt in [0, 4, -4, i32::MAX, i32::MIN, 1, 3] {
        index.with_node(1, |node| node.entries[1].punt = punt);
        index.both(&format!("PUNT {punt}"));
    }
    index.with_node(1, |node| node.entries[0].punt = 0);
    index.both("PUNT 0 beside the way");
    index.with_node(2, |node| node.entries.push(nowhere()));
    index.both("PUNT 0 in an inactive entry");
}

fn nowhere() -> Pointer {
    let key = b"ZZ".to_vec();
    Pointer { key, punt: 0 }
}

/// 21: records that are not there. A node has 36 bytes and a leaf 48.
fn files(index: &mut Index) {
    for (nodes, leaves) in [
        (107, 144),
        (108, 143),
        (108, 95),
        (108, 145),
        (0, 144),
        (108, 0),
    ] {
        index.with(|_| ());
        index.files.n01.resize(nodes, 0);
        index.files.l01.resize(leaves, 0);
        index.both(&format!("N01 of {nodes} bytes, L01 of {leaves}"));
    }
}

/// 21: nodes of one pointer above the root.
fn depth(index: &mut Index) {
    for nodes in [16, 17] {
        index.with(|tree| {
            while tree.nodes.len() < nodes + 1 {
                let pos = tree.nodes.len() as i32 + 1;
                let key = b"ALPHA".to_vec();
                let punt = tree.posrx;
                let pointer = vec![Pointer { key, punt }];
                tree.nodes.push(Some(Node::of(pos, 1, pointer)));
                tree.posrx = pos;
            }
        });
        index.both(&format!("{nodes} nodes on a way down"));
    }
}

/// 21 of the check alone.
fn sentences(index: &mut Index) {
    index.with_node(1, |node| node.entries.reverse());
    index.both("node 1 falling");
    index.with_leaf(2, |leaf| leaf.entries.reverse());
    index.both("leaf 2 falling");
    index.with_leaf(2, |leaf| leaf.entries[0].key = b"KITES".to_vec());
    index.both("KITES twice in leaf 2");
    index.with_leaf(1, |leaf| leaf.entries[1].key = b"KITE".to_vec());
    index.both("KITE in leaf 1 and leaf 2");
    index.with_leaf(2, |leaf| leaf.entries[1].key = b"ZZ".to_vec());
    index.both("leaf 2 passing leaf 3");
    index.with_node(3, |root| root.entries[0].key = b"".to_vec());
    index.both("first key all spaces");
    index.with_node(1, |node| node.entries[1].key = b"KIT".to_vec());
    index.both("pointer KIT to KITE");
    index.with_node(2, |node| node.entries[0].punt = -2);
    index.both("leaf 2 from two nodes");
    index.with_node(3, |root| root.entries[1].punt = 1);
    index.both("node 1 twice");
    for (number, ps) in [(1, 3), (1, 0), (2, 2), (3, 1), (3, -1)] {
        index.with_leaf(number, |leaf| leaf.ps = ps);
        index.both(&format!("leaf {number}, PS {ps}"));
    }
    index.with(|tree| tree.nodes[2].as_mut().unwrap().entries[1].punt = -3);
    index.both("leaf 3 beside node 1");
}

/// 20 before 21, 21 before 22, and the other tree not asked by a lookup.
fn order(index: &mut Index) {
    index.with(|_| ()).files.cnt.clear();
    index.lookup("20 before 21", b"KITE ");
    index.with_node(3, |root| root.ock = 3);
    index.lookup("21 before 22, a node", b"AAAA");
    index.with_leaf(2, |leaf| leaf.it = 2);
    index.lookup("21 before 22, a leaf", b"KITING");
    index.with(|_| ()).files.cnt[26..].fill(0);
    index.both("second part of CNT all 0");
    index.with(|_| ()).files.cnt[..26].fill(0);
    index.both("first part of CNT all 0");
    index.lookup("first part of CNT all 0, long term", TERMS[5].as_bytes());
}
