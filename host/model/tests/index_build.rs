//! Built indexes pass the check and hold what they were built from and nothing else; a
//! plain one is laid out as said, and the others take every shape that they may.

use model::Refusal;
use model::index::build::{Entry, Files, plain, plain_trees, shuffled, shuffled_trees};
use model::index::tree::{Tree, leaf_len, node_len};
use model::index::{check, lookup};
use model::random::Random;
use std::collections::BTreeMap;

fn entry(term: &[u8], block: i32) -> Entry {
    let term = term.to_vec();
    Entry {
        term,
        block,
        word: -block,
    }
}

/// Terms of any bytes or of few letters, of which neither tree stays empty.
fn terms(random: &mut Random, most: usize) -> Vec<Entry> {
    let mut list = vec![entry(b"KITE", 1), entry(b"HIGHLAND KITES", 2)];
    let letters = random.pick(&[2, 3, 26, 256]);
    for block in 3..=random.between(3, most + 3) as i32 {
        let mut term: Vec<u8> = (0..random.between(1, 30))
            .map(|_| b'A'.wrapping_add(random.below(letters) as u8))
            .collect();
        if term.ends_with(b" ") {
            term.push(b'.');
            term = term.split_off(term.len().saturating_sub(30));
        }
        list.push(entry(&term, block));
    }
    list
}

/// The index passes, every term is found where the list has it first, and no other one is.
fn holds(files: &Files, list: &[Entry]) {
    assert_eq!(check(files), Ok(()));
    let mut held = BTreeMap::new();
    for entry in list {
        let place = (entry.block, entry.word);
        held.entry(&entry.term[..]).or_insert(place);
    }
    for entry in list {
        let term = &entry.term[..];
        assert_eq!(lookup(files, term), Ok(held[term]));
        for near in [&term[1..], &term[..term.len() - 1], &[term, b"A"].concat()] {
            if near.is_empty() || near.len() > 30 || near.ends_with(b" ") {
                assert_eq!(lookup(files, near), Err(Refusal::Term));
            } else {
                let wanted = held.get(near).copied().ok_or(Refusal::NoTerm);
                assert_eq!(lookup(files, near), wanted);
            }
        }
    }
}

fn order(random: &mut Random) -> u16 {
    random.between(1, 16) as u16
}

#[test]
fn a_built_index_holds_its_terms_and_no_other() {
    for seed in 1..=150 {
        let mut random = Random::new(seed);
        let list = terms(&mut random, 200);
        let orders = [(); 2].map(|()| (order(&mut random), order(&mut random)));
        holds(&plain(&list, orders[0].0, orders[0].1), &list);
        holds(&shuffled(&list, orders, &mut random), &list);
    }
}

/// 23 terms at orders 1 and 2: leaves of 4, nodes of 2, on three levels.
#[test]
fn a_plain_index_is_full_and_in_order() {
    let list: Vec<Entry> = (1..=23)
        .map(|n| entry(format!("T{n:02}").as_bytes(), n))
        .collect();
    let [first, second] = plain_trees(&list, 1, 2);
    let keys = |n: i32| {
        first.nodes[n as usize - 1]
            .as_ref()
            .unwrap()
            .entries
            .clone()
    };
    let pointers = |n| keys(n).iter().map(|p| p.punt).collect::<Vec<i32>>();
    let nodes: Vec<Vec<i32>> = (1..=first.nodes.len() as i32).map(pointers).collect();
    let lowest = [vec![-1, -2], vec![-3, -4], vec![-5, -6]];
    let upper = [vec![1, 2], vec![3], vec![4, 5]];
    assert_eq!(nodes, [lowest, upper].concat());
    assert_eq!((first.posrx, first.liv, first.abnormal), (6, 3, 1));
    assert_eq!((first.nmaxpos, first.fmaxpos), (7, 7));
    let leaves: Vec<_> = first.leaves.iter().flatten().collect();
    let shape: Vec<(i32, u16, i32)> = leaves.iter().map(|l| (l.pos, l.ock, l.ps)).collect();
    let wanted = [
        (1, 4, 2),
        (2, 4, 3),
        (3, 4, 4),
        (4, 4, 5),
        (5, 4, 6),
        (6, 3, 0),
    ];
    assert_eq!(shape, wanted);
    assert_eq!(
        (second.posrx, second.nodes.len(), second.leaves.len()),
        (0, 0, 0)
    );
}

/// How many nodes stand on each way down from a node.
fn ways(tree: &Tree, number: i32) -> Vec<usize> {
    let node = tree.nodes[number as usize - 1].as_ref().unwrap();
    let below = |punt: i32| match punt {
        leaf if leaf < 0 => vec![1],
        node => ways(tree, node).iter().map(|way| way + 1).collect(),
    };
    node.entries.iter().flat_map(|p| below(p.punt)).collect()
}

#[test]
fn shuffled_indexes_take_every_shape() {
    let (mut deepest, mut unequal, mut single, mut unused, mut behind) = (0, 0, 0, 0, 0);
    for seed in 1..=200 {
        let mut random = Random::new(seed);
        let list = terms(&mut random, 60);
        let orders = [(order(&mut random), order(&mut random)); 2];
        for tree in shuffled_trees(&list, orders, &mut random) {
            let ways = ways(&tree, tree.posrx);
            let longest = *ways.iter().max().unwrap();
            assert!(longest <= 16);
            deepest += usize::from(longest == 16);
            unequal += usize::from(ways.iter().any(|way| *way != longest));
            single += tree.nodes.iter().flatten().filter(|n| n.ock == 1).count();
            unused += tree.leaves.iter().filter(|leaf| leaf.is_none()).count();
            behind += usize::from(tree.behind[0] > 0);
        }
    }
    for count in [deepest, unequal, single, unused, behind] {
        assert!(
            count >= 20,
            "{:?}",
            (deepest, unequal, single, unused, behind)
        );
    }
}

#[test]
fn records_are_as_long_as_their_orders_say() {
    assert_eq!((node_len(10, 5), leaf_len(10, 5)), (148, 192));
    assert_eq!((node_len(30, 5), leaf_len(30, 5)), (348, 392));
}
