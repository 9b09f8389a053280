//! Families of random cases: indexes as they are built, damaged by meaning or by bytes,
//! records that point anywhere, and rubbish.

use super::compare::Case;
use super::{damage, poke, terms};
use model::index::build::{Orders, plain, plain_trees, shuffled, shuffled_trees};
use model::index::tree::{Leaf, Node, Pointer, Posting, Tree};
use model::index::{Entry, Files};
use model::random::Random;

/// Orders of both trees: any, or small ones, which make deep trees of few terms.
fn orders(random: &mut Random) -> [Orders; 2] {
    let most = random.pick(&[1, 2, 4, 16]);
    let mut order = || random.between(1, most) as u16;
    [(order(), order()), (order(), order())]
}

/// An index as an indexing program leaves it, or in any shape.
pub fn built(random: &mut Random) -> Case {
    let entries = terms::list(random, 150);
    let orders = orders(random);
    let (what, files) = match random.below(3) {
        0 => ("plain", plain(&entries, orders[0].0, orders[0].1)),
        _ => ("shuffled", shuffled(&entries, orders, random)),
    };
    Case {
        what: format!("{what} at {orders:?}"),
        files,
        terms: terms::wanted(&entries, 12, random),
        built: Some(entries),
    }
}

/// An index with one or two things wrong, by meaning.
pub fn damaged(random: &mut Random) -> Case {
    let entries = terms::list(random, 40);
    let orders = orders(random);
    let mut trees = match random.below(3) {
        0 => plain_trees(&entries, orders[0].0, orders[0].1),
        _ => shuffled_trees(&entries, orders, random),
    };
    let mut names = Vec::new();
    for _ in 0..random.pick(&[1, 1, 2]) {
        let (name, spoil) = random.pick(&damage::ALL);
        let which = random.below(2);
        let tree = &mut trees[which];
        // What an earlier damage left may have nothing to damage any more.
        if tree.nodes.iter().all(Option::is_none) || tree.leaves.iter().all(Option::is_none) {
            continue;
        }
        names.push(format!("{name} in tree {}", which + 1));
        spoil(tree, random);
    }
    Case {
        what: format!("{} at {orders:?}", names.join(", ")),
        files: Files::of(&trees, &mut |bytes| random.fill(bytes)),
        built: None,
        terms: terms::wanted(&entries, 8, random),
    }
}

/// An index with bytes changed, files cut or swapped.
pub fn poked(random: &mut Random) -> Case {
    let entries = terms::list(random, 30);
    let mut files = shuffled(&entries, orders(random), random);
    let mut names = Vec::new();
    for _ in 0..random.between(1, 2) {
        names.push(poke::poke(&mut files, random));
    }
    Case {
        what: names.join(", "),
        files,
        built: None,
        terms: terms::wanted(&entries, 8, random),
    }
}

/// Records whose heads are right and whose pointers, keys and successors are chance: nodes
/// that share children, stand in circles or in long chains, keys in any order.
pub fn chance(random: &mut Random) -> Case {
    let letters = random.between(1, 4);
    let trees = [0, 1].map(|which| chance_tree(which, letters, random));
    let held = trees.iter().flat_map(|tree| tree.leaves.iter().flatten());
    let keys = held.flat_map(|leaf| leaf.entries.iter().map(|posting| posting.key.clone()));
    let entries: Vec<Entry> = keys
        .map(|term| Entry {
            term,
            block: 0,
            word: 0,
        })
        .collect();
    Case {
        what: "records by chance".to_string(),
        files: Files::of(&trees, &mut |bytes| random.fill(bytes)),
        built: None,
        terms: terms::wanted(&entries, 12, random),
    }
}

fn chance_tree(which: usize, letters: usize, random: &mut Random) -> Tree {
    let (ordn, ordf) = (random.between(1, 3) as u16, random.between(1, 3) as u16);
    let (nodes, leaves) = (random.between(1, 24) as i32, random.between(1, 6) as i32);
    let own = which as u16 + 1;
    let mut tree = Tree::empty(own, ordn, ordf);
    tree.posrx = random.between(1, nodes as usize) as i32;
    for pos in 1..=nodes {
        let pointers = entries(2 * ordn, random, |random| Pointer {
            key: chance_key(which, letters, random),
            punt: chance_pointer(pos, nodes, leaves, random),
        });
        tree.nodes.push(Some(Node::of(pos, own, pointers)));
    }
    for pos in 1..=leaves {
        let ps = random.below(leaves as usize + 1) as i32;
        let postings = entries(2 * ordf, random, |random| Posting {
            key: chance_key(which, letters, random),
            block: random.next() as i32,
            word: random.next() as i32,
        });
        tree.leaves.push(Some(Leaf::of(pos, own, ps, postings)));
    }
    tree
}

/// 1 to `most` entries, in order of their making.
fn entries<T>(most: u16, random: &mut Random, make: impl Fn(&mut Random) -> T) -> Vec<T> {
    let count = random.between(1, usize::from(most));
    (0..count).map(|_| make(random)).collect()
}

fn chance_key(which: usize, letters: usize, random: &mut Random) -> Vec<u8> {
    let len = [random.between(1, 2), random.between(11, 12)][which];
    (0..len)
        .map(|_| b'J' + random.below(letters) as u8)
        .collect()
}

/// Mostly the next node, so that ways grow long.
fn chance_pointer(pos: i32, nodes: i32, leaves: i32, random: &mut Random) -> i32 {
    match random.below(8) {
        0 => random.between(1, nodes as usize) as i32,
        1 => -(random.between(1, leaves as usize) as i32),
        _ if pos < nodes => pos + 1,
        _ => -1,
    }
}

/// Random bytes, also none, behind a CNT that is right in most cases.
pub fn rubbish(random: &mut Random) -> Case {
    let mut files = Files::default();
    for file in files.all_mut() {
        *file = vec![0; random.pick(&[0, 1, 35, 36, 100, 600])];
        random.fill(file);
    }
    if !random.one_in(8) {
        let orders = orders(random);
        files.cnt = Files::of(
            &[0, 1].map(|which| Tree {
                posrx: random.between(1, 3) as i32,
                ..Tree::empty(which as u16 + 1, orders[which].0, orders[which].1)
            }),
            &mut |_| (),
        )
        .cnt;
    }
    Case {
        what: "rubbish".to_string(),
        files,
        built: None,
        terms: [terms::others(random), terms::others(random)].concat(),
    }
}
