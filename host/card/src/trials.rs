//! Cards, indexes and postings for tests: made at random, by calls of the library and by the
//! model's builders, and then damaged.

use crate::index::{IndexFile, IndexFiles};
use isis::{Card, IfpPlace};
use model::index::{Entry, shuffled};
use model::postings;
use model::random::Random;
use std::collections::BTreeSet;

/// The seed of a test: `ISIS_SEED`, or 1. It is printed.
pub fn seed() -> u64 {
    let given = std::env::var("ISIS_SEED").ok();
    let seed = given.map_or(1, |text| text.parse().expect("a whole number"));
    println!("ISIS_SEED={seed}");
    seed
}

/// Numbers that look random and are the same in every run.
pub struct Dice(pub u64);

impl Dice {
    /// A number below another.
    pub fn below(&mut self, limit: usize) -> usize {
        let next = self.0.wrapping_mul(0x5851_F42D_4C95_7F2D);
        self.0 = next.wrapping_add(0x1405_7B7E_F767_814F);
        (self.0 >> 33) as usize % limit
    }
}

/// An MST and an XRF after some calls, damaged.
pub fn damaged(dice: &mut Dice) -> (Vec<u8>, Vec<u8>) {
    let (mut mst, mut xrf) = card(dice);
    damage(dice, &mut mst, &mut xrf);
    (mst, xrf)
}

/// An MST and an XRF after some calls.
fn card(dice: &mut Dice) -> (Vec<u8>, Vec<u8>) {
    let (mut mst, mut xrf) = (vec![0; 512 * (1 + dice.below(6))], vec![0; 512]);
    let mut card = Card::over(&mut mst, &mut xrf);
    card.format().unwrap();
    for _ in 0..dice.below(40) {
        let mfn = 1 + dice.below(12) as u32;
        let fields: Vec<_> = (0..dice.below(4))
            .map(|_| (1 + dice.below(90) as u16, vec![b'x'; dice.below(20)]))
            .collect();
        // A call that is refused changes nothing.
        let _ = match dice.below(6) {
            0 | 1 => card.create(fields).map(|_| ()),
            2 => card.update(mfn, fields),
            3 => card.delete(mfn),
            4 => card.settle(mfn),
            _ => card.revert(mfn),
        };
    }
    (mst, xrf)
}

/// Changes a few bytes anywhere, most of them where much depends on them.
fn damage(dice: &mut Dice, mst: &mut [u8], xrf: &mut [u8]) {
    for _ in 0..dice.below(4) {
        let bytes = if dice.below(3) == 0 {
            &mut *xrf
        } else {
            &mut *mst
        };
        let near = [20, 128, bytes.len()][dice.below(3)];
        let at = dice.below(near.min(bytes.len()));
        bytes[at] = match dice.below(3) {
            0 => dice.below(256) as u8,
            1 => bytes[at].wrapping_add(2),
            _ => bytes[at] ^ 1 << dice.below(8),
        };
    }
}

/// An index of any shape, and its terms.
pub fn index(dice: &mut Dice) -> (IndexFiles, Vec<Vec<u8>>) {
    let mut terms = BTreeSet::new();
    for longest in [10, 30] {
        for _ in 0..1 + dice.below(12) {
            let least = if longest == 10 { 1 } else { 11 };
            let len = least + dice.below(longest - least + 1);
            terms.insert((0..len).map(|_| b'A' + dice.below(3) as u8).collect());
        }
    }
    let terms: Vec<Vec<u8>> = terms.into_iter().collect();
    let entries = terms.iter().map(|term| Entry {
        term: term.clone(),
        block: dice.below(100) as i32,
        word: dice.below(127) as i32,
    });
    let entries: Vec<Entry> = entries.collect();
    let order = |dice: &mut Dice| 1 + dice.below(3) as u16;
    let orders = [(); 2].map(|()| (order(dice), order(dice)));
    let files = shuffled(&entries, orders, &mut Random::new(dice.0));
    let file = |name: &str, bytes| IndexFile {
        path: name.into(),
        bytes,
    };
    let files = IndexFiles {
        cnt: file("a.CNT", files.cnt),
        nodes: [file("a.N01", files.n01), file("a.N02", files.n02)],
        leaves: [file("a.L01", files.l01), file("a.L02", files.l02)],
    };
    (files, terms)
}

/// Changes a few bytes anywhere, or cuts a file, most of all where much depends on it.
pub fn damage_index(dice: &mut Dice, files: &mut IndexFiles) {
    for _ in 0..dice.below(3) {
        let IndexFiles { cnt, nodes, leaves } = files;
        let bytes = match dice.below(9) {
            0 => &mut cnt.bytes,
            1..5 => &mut nodes[dice.below(2)].bytes,
            _ => &mut leaves[dice.below(2)].bytes,
        };
        let at = dice.below(bytes.len());
        match dice.below(20) {
            0 => bytes.truncate(at.max(1)),
            1..5 => bytes[at] = dice.below(256) as u8,
            5..12 => bytes[at] = bytes[at].wrapping_add(1),
            12..19 => bytes[at] = bytes[at].wrapping_sub(1),
            _ => bytes[at] ^= 1 << dice.below(8),
        }
    }
}

/// A postings file of any shape, and where its lists begin.
pub fn postings(dice: &mut Dice) -> (IndexFile, Vec<IfpPlace>) {
    let list = |dice: &mut Dice| -> Vec<u64> {
        let list: BTreeSet<u64> = (0..dice.below(30))
            .map(|_| ((dice.below(9) as u64) << 40) + dice.below(9) as u64)
            .collect();
        list.into_iter().collect()
    };
    let lists: Vec<Vec<u64>> = (0..1 + dice.below(3)).map(|_| list(dice)).collect();
    let ifp = postings::shuffled(&lists, &mut Random::new(dice.0));
    let places = ifp.starts().into_iter().map(|at| IfpPlace {
        block: at.block,
        word: at.word,
    });
    let file = IndexFile {
        path: "a.IFP".into(),
        bytes: ifp.bytes(&mut |_| ()),
    };
    (file, places.collect())
}

/// Changes a few bytes of it anywhere, or cuts it.
pub fn damage_postings(dice: &mut Dice, file: &mut IndexFile) {
    let bytes = &mut file.bytes;
    for _ in 0..dice.below(6) {
        let at = dice.below(bytes.len().max(1));
        match dice.below(12) {
            0 => bytes.truncate(at),
            _ if at >= bytes.len() => {}
            1..4 => bytes[at] = dice.below(256) as u8,
            4..8 => bytes[at] = bytes[at].wrapping_add(1),
            _ => bytes[at] = bytes[at].wrapping_sub(1),
        }
    }
}
