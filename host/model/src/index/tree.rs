//! The two trees of an index by meaning, with every number as it will stand in the files,
//! so that any of them can be made wrong; and the five files that they give.
//!
//! The manual's layout, all integers of 2 or 4 bytes:
//!
//! | record | fields |
//! |---|---|
//! | CNT, for each tree | IDTYPE, ORDN, ORDF, N, K, LIV 2 each, POSRX, NMAXPOS, FMAXPOS 4 each, ABNORMAL 2 |
//! | node | POS 4, OCK 2, IT 2, then 2 × ORDN times KEY 10 or 30, PUNT 4 |
//! | leaf | POS 4, OCK 2, IT 2, PS 4, then 2 × ORDF times KEY 10 or 30, INFO 4 and 4 |

use super::WIDTHS;

/// The five files of an index.
#[derive(Clone, Debug, PartialEq, Eq, Default)]
pub struct Files {
    /// The control fields of both trees.
    pub cnt: Vec<u8>,
    /// The nodes of the first tree.
    pub n01: Vec<u8>,
    /// The leaves of the first tree.
    pub l01: Vec<u8>,
    /// The nodes of the second tree.
    pub n02: Vec<u8>,
    /// The leaves of the second tree.
    pub l02: Vec<u8>,
}

/// A node's active entry: a key, not padded, and a node (positive) or a leaf (negative).
#[derive(Clone, Debug, PartialEq, Eq)]
#[allow(missing_docs)]
pub struct Pointer {
    pub key: Vec<u8>,
    pub punt: i32,
}

/// A leaf's active entry: a term, not padded, and where its postings begin.
#[derive(Clone, Debug, PartialEq, Eq)]
#[allow(missing_docs)]
pub struct Posting {
    pub key: Vec<u8>,
    pub block: i32,
    pub word: i32,
}

/// A node. OCK may say another number than there are entries.
#[derive(Clone, Debug, PartialEq, Eq)]
#[allow(missing_docs)]
pub struct Node {
    pub pos: i32,
    pub ock: u16,
    pub it: u16,
    pub entries: Vec<Pointer>,
}

/// A leaf, with its successor PS.
#[derive(Clone, Debug, PartialEq, Eq)]
#[allow(missing_docs)]
pub struct Leaf {
    pub pos: i32,
    pub ock: u16,
    pub it: u16,
    pub ps: i32,
    pub entries: Vec<Posting>,
}

/// One tree: what CNT says of it, and the records of its two files in the order of their
/// numbers, from 1. `None` is a number that the tree does not use.
#[derive(Clone, Debug, PartialEq, Eq)]
#[allow(missing_docs)]
pub struct Tree {
    pub idtype: u16,
    pub ordn: u16,
    pub ordf: u16,
    pub n: u16,
    pub k: u16,
    pub liv: u16,
    pub posrx: i32,
    pub nmaxpos: i32,
    pub fmaxpos: i32,
    pub abnormal: u16,
    pub nodes: Vec<Option<Node>>,
    pub leaves: Vec<Option<Leaf>>,
    /// How many bytes stand behind the last whole node and the last whole leaf.
    pub behind: [usize; 2],
}

/// Bytes of a node of the tree of this width.
pub fn node_len(width: usize, ordn: u16) -> usize {
    8 + 2 * usize::from(ordn) * (width + 4)
}

/// Bytes of a leaf of the tree of this width.
pub fn leaf_len(width: usize, ordf: u16) -> usize {
    12 + 2 * usize::from(ordf) * (width + 8)
}

/// What fills the bytes that nothing says: inactive entries, unused numbers, what stands
/// behind the last record.
pub type Filler<'a> = &'a mut dyn FnMut(&mut [u8]);

impl Files {
    /// The files of two trees.
    pub fn of(trees: &[Tree; 2], fill: Filler) -> Files {
        let [first, second] = trees;
        Files {
            cnt: [first.part(), second.part()].concat(),
            n01: first.node_file(WIDTHS[0], fill),
            l01: first.leaf_file(WIDTHS[0], fill),
            n02: second.node_file(WIDTHS[1], fill),
            l02: second.leaf_file(WIDTHS[1], fill),
        }
    }

    /// The five, in the order in which a call is lent them.
    pub fn all(&self) -> [&[u8]; 5] {
        [&self.cnt, &self.n01, &self.l01, &self.n02, &self.l02]
    }

    /// The five, to be changed.
    pub fn all_mut(&mut self) -> [&mut Vec<u8>; 5] {
        [
            &mut self.cnt,
            &mut self.n01,
            &mut self.l01,
            &mut self.n02,
            &mut self.l02,
        ]
    }
}

impl Tree {
    /// A tree of these orders with nothing in it: 1 is the first, 2 the second.
    pub fn empty(idtype: u16, ordn: u16, ordf: u16) -> Tree {
        Tree {
            idtype,
            ordn,
            ordf,
            n: 15,
            k: 5,
            liv: 0,
            posrx: 0,
            nmaxpos: 1,
            fmaxpos: 1,
            abnormal: 0,
            nodes: Vec::new(),
            leaves: Vec::new(),
            behind: [0; 2],
        }
    }

    fn part(&self) -> Vec<u8> {
        let shorts = [self.idtype, self.ordn, self.ordf, self.n, self.k, self.liv];
        let longs = [self.posrx, self.nmaxpos, self.fmaxpos];
        let mut part: Vec<u8> = shorts.into_iter().flat_map(u16::to_le_bytes).collect();
        part.extend(longs.into_iter().flat_map(i32::to_le_bytes));
        part.extend(self.abnormal.to_le_bytes());
        part
    }

    fn node_file(&self, width: usize, fill: Filler) -> Vec<u8> {
        let len = node_len(width, self.ordn);
        let mut file = unsaid(self.nodes.len() * len + self.behind[0], fill);
        for (record, node) in file.chunks_exact_mut(len).zip(&self.nodes) {
            if let Some(node) = node {
                node.write(record, width);
            }
        }
        file
    }

    fn leaf_file(&self, width: usize, fill: Filler) -> Vec<u8> {
        let len = leaf_len(width, self.ordf);
        let mut file = unsaid(self.leaves.len() * len + self.behind[1], fill);
        for (record, leaf) in file.chunks_exact_mut(len).zip(&self.leaves) {
            if let Some(leaf) = leaf {
                leaf.write(record, width);
            }
        }
        file
    }
}

fn unsaid(len: usize, fill: Filler) -> Vec<u8> {
    let mut bytes = vec![0; len];
    fill(&mut bytes);
    bytes
}

impl Node {
    /// A node of these entries.
    pub fn of(pos: i32, it: u16, entries: Vec<Pointer>) -> Node {
        let ock = entries.len() as u16;
        Node {
            pos,
            ock,
            it,
            entries,
        }
    }

    fn write(&self, record: &mut [u8], width: usize) {
        let entries = head(record, self.pos, self.ock, self.it);
        for (entry, pointer) in entries.chunks_exact_mut(width + 4).zip(&self.entries) {
            let (key, punt) = entry.split_at_mut(width);
            pad(key, &pointer.key);
            punt.copy_from_slice(&pointer.punt.to_le_bytes());
        }
    }
}

impl Leaf {
    /// A leaf of these entries.
    pub fn of(pos: i32, it: u16, ps: i32, entries: Vec<Posting>) -> Leaf {
        let ock = entries.len() as u16;
        Leaf {
            pos,
            ock,
            it,
            ps,
            entries,
        }
    }

    fn write(&self, record: &mut [u8], width: usize) {
        let (ps, entries) = head(record, self.pos, self.ock, self.it).split_at_mut(4);
        ps.copy_from_slice(&self.ps.to_le_bytes());
        for (entry, posting) in entries.chunks_exact_mut(width + 8).zip(&self.entries) {
            let (key, info) = entry.split_at_mut(width);
            pad(key, &posting.key);
            info[..4].copy_from_slice(&posting.block.to_le_bytes());
            info[4..].copy_from_slice(&posting.word.to_le_bytes());
        }
    }
}

/// Writes POS, OCK and IT; gives what follows.
fn head(record: &mut [u8], pos: i32, ock: u16, it: u16) -> &mut [u8] {
    let (head, rest) = record.split_at_mut(8);
    head[..4].copy_from_slice(&pos.to_le_bytes());
    head[4..6].copy_from_slice(&ock.to_le_bytes());
    head[6..].copy_from_slice(&it.to_le_bytes());
    rest
}

fn pad(key: &mut [u8], term: &[u8]) {
    key.fill(b' ');
    key[..term.len()].copy_from_slice(term);
}
