//! An index by hand: records laid out byte by byte as the manual's chapter has them, and
//! the numbers in them reachable by their place. Nothing of the builder is used.
#![allow(dead_code)]

use model::index::Files;
use model::index::fault::{Broken, Why};
use model::index::read::{Request, check_by, lookup_by};

/// Where a part of CNT has its numbers.
pub const IDTYPE: usize = 0;
pub const ORDN: usize = 2;
pub const ORDF: usize = 4;
pub const POSRX: usize = 12;
/// Where a node or leaf has its numbers; a leaf's entries follow PS, a node's IT.
pub const POS: usize = 0;
pub const OCK: usize = 4;
pub const IT: usize = 6;
pub const PS: usize = 8;

/// A tree's part of CNT; what is not read is 0x7777.
pub fn part(own: u16, ordn: u16, ordf: u16, root: i32) -> Vec<u8> {
    let mut part = vec![0x77; 26];
    part[..2].copy_from_slice(&own.to_le_bytes());
    part[2..4].copy_from_slice(&ordn.to_le_bytes());
    part[4..6].copy_from_slice(&ordf.to_le_bytes());
    part[12..16].copy_from_slice(&root.to_le_bytes());
    part
}

fn head(own: u16, pos: i32, keys: usize) -> Vec<u8> {
    let mut head = pos.to_le_bytes().to_vec();
    head.extend((keys as u16).to_le_bytes());
    head.extend(own.to_le_bytes());
    head
}

/// A key, padded to the width of its tree.
pub fn key(own: u16, term: &[u8]) -> Vec<u8> {
    let mut key = vec![b' '; [10, 30][own as usize - 1]];
    key[..term.len()].copy_from_slice(term);
    key
}

/// A node of order 1 or more; inactive entries are all 0.
pub fn node(own: u16, order: usize, pos: i32, entries: &[(&[u8], i32)]) -> Vec<u8> {
    let mut node = head(own, pos, entries.len());
    for (term, punt) in entries {
        node.extend(key(own, term));
        node.extend(punt.to_le_bytes());
    }
    node.resize(8 + 2 * order * (key(own, b"").len() + 4), 0);
    node
}

/// A leaf of order 1 or more with its successor; inactive entries are all 0.
pub fn leaf(own: u16, order: usize, pos: i32, ps: i32, entries: &[(&[u8], i32, i32)]) -> Vec<u8> {
    let mut leaf = head(own, pos, entries.len());
    leaf.extend(ps.to_le_bytes());
    for (term, block, word) in entries {
        leaf.extend(key(own, term));
        leaf.extend(block.to_le_bytes());
        leaf.extend(word.to_le_bytes());
    }
    leaf.resize(12 + 2 * order * (key(own, b"").len() + 8), 0);
    leaf
}

/// Orders 1 and 1: in the first tree ALPHA and BETA on leaf 1, KITE on leaf 2; in the second
/// HIGHLAND KITES. Records of 36, 48, 76 and 88 bytes.
pub fn small() -> Files {
    Files {
        cnt: [part(1, 1, 1, 1), part(2, 1, 1, 1)].concat(),
        n01: node(1, 1, 1, &[(b"ALPHA", -1), (b"KITE", -2)]),
        l01: [
            leaf(1, 1, 1, 2, &[(b"ALPHA", 1, 2), (b"BETA", 3, 4)]),
            leaf(1, 1, 2, 0, &[(b"KITE", 5, 6)]),
        ]
        .concat(),
        n02: node(2, 1, 1, &[(b"HIGHLAND KITES", -1)]),
        l02: leaf(2, 1, 1, 0, &[(b"HIGHLAND KITES", 7, 8)]),
    }
}

/// The small index with another first tree.
pub fn with_first(orders: (u16, u16), root: i32, nodes: &[Vec<u8>], leaves: &[Vec<u8>]) -> Files {
    Files {
        cnt: [part(1, orders.0, orders.1, root), part(2, 1, 1, 1)].concat(),
        n01: nodes.concat(),
        l01: leaves.concat(),
        ..small()
    }
}

/// A chain of so many nodes in the first tree, the last of which points to leaf 1, KITE.
pub fn chain(nodes: i32) -> Files {
    let one = |at| {
        let punt = if at == nodes { -1 } else { at + 1 };
        node(1, 1, at, &[(b"KITE", punt)])
    };
    let all: Vec<Vec<u8>> = (1..=nodes).map(one).collect();
    with_first((1, 1), 1, &all, &[leaf(1, 1, 1, 0, &[(b"KITE", 5, 6)])])
}

/// Changes bytes.
pub fn put16(file: &mut [u8], at: usize, value: u16) {
    file[at..at + 2].copy_from_slice(&value.to_le_bytes());
}

/// Changes bytes.
pub fn put32(file: &mut [u8], at: usize, value: i32) {
    file[at..at + 4].copy_from_slice(&value.to_le_bytes());
}

/// A lookup, with the reason of a refusal.
pub fn look(files: &Files, term: &[u8]) -> Result<(i32, i32), Why> {
    let found = lookup_by(&Request, files, term);
    let plain = model::index::lookup(files, term);
    assert_eq!(plain, found.map_err(model::Refusal::from));
    found
}

/// The check, with the rule that is broken.
pub fn checked(files: &Files) -> Result<(), Broken> {
    let passed = check_by(&Request, files);
    let plain = model::index::check(files);
    assert_eq!(plain, passed.map_err(|_| model::Refusal::Index));
    passed
}

/// Both a lookup that comes by and the check find a rule broken.
pub fn both_find(files: &Files, term: &[u8], rule: Broken) {
    assert_eq!(look(files, term), Err(Why::Broken(rule)));
    assert_eq!(checked(files), Err(rule));
}
