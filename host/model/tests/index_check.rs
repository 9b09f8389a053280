//! The check of a whole index, on indexes laid out by hand: each of its sentences broken
//! alone, and shapes that pass.

#[path = "common/index.rs"]
mod index;

use index::*;
use model::index::fault::Broken::*;
use model::index::fault::Why;

/// Order 2 and 1: three leaves of two keys, A and B to E and F, below two nodes and a root.
fn three_leaves() -> (Vec<Vec<u8>>, Vec<Vec<u8>>) {
    let nodes = vec![
        node(1, 2, 1, &[(b"A", 2), (b"E", 3)]),
        node(1, 2, 2, &[(b"A", -1), (b"C", -2)]),
        node(1, 2, 3, &[(b"E", -3)]),
    ];
    let leaves = vec![
        leaf(1, 1, 1, 2, &[(b"A", 1, 1), (b"B", 1, 2)]),
        leaf(1, 1, 2, 3, &[(b"C", 2, 1), (b"D", 2, 2)]),
        leaf(1, 1, 3, 0, &[(b"E", 3, 1), (b"F", 3, 2)]),
    ];
    (nodes, leaves)
}

/// The three leaves with something changed.
fn changed(change: impl FnOnce(&mut [Vec<u8>], &mut [Vec<u8>])) -> model::index::Files {
    let (mut nodes, mut leaves) = three_leaves();
    change(&mut nodes, &mut leaves);
    with_first((2, 1), 1, &nodes, &leaves)
}

/// Where entry `n`, from 0, of a node or of a leaf of the first tree has its key.
fn node_key(n: usize) -> usize {
    8 + 14 * n
}
fn leaf_key(n: usize) -> usize {
    12 + 18 * n
}

#[test]
fn both_trees_are_asked() {
    assert_eq!(checked(&changed(|_, _| ())), Ok(()));
    assert_eq!(checked(&small()), Ok(()));
    let mut files = small();
    put32(&mut files.l02, PS, 1);
    assert_eq!(checked(&files), Err(LastSuccessor));
    let mut files = small();
    put16(&mut files.cnt, 26 + ORDF, 17);
    assert_eq!(checked(&files), Err(Order));
    let mut files = small();
    (files.n01, files.l01, files.n02, files.l02) = (files.n02, files.l02, files.n01, files.l01);
    assert!(checked(&files).is_err(), "swapped trees");
}

#[test]
fn a_tree_without_a_term_does_not_pass() {
    let none = with_first((1, 1), 0, &[], &[]);
    assert_eq!(checked(&none), Err(NotThere));
    assert_eq!(look(&none, b"KITE"), Err(Why::Broken(NotThere)));
    assert_eq!(look(&none, b"HIGHLAND KITES"), Ok((7, 8)));
    assert_eq!(checked(&Default::default()), Err(CntLength));
}

/// A rule of 21 that is broken in any record met, also behind a pointer that no lookup of
/// the others takes.
#[test]
fn every_record_met_is_asked() {
    for at in [POS, OCK, IT] {
        for record in 0..3 {
            let of_nodes = changed(|nodes, _| put16(&mut nodes[record], at, 99));
            let of_leaves = changed(|_, leaves| put16(&mut leaves[record], at, 99));
            let rule = match at {
                POS => Position,
                OCK => KeyCount,
                _ => Type,
            };
            assert_eq!(checked(&of_nodes), Err(rule));
            assert_eq!(checked(&of_leaves), Err(rule));
        }
    }
    let unused = changed(|nodes, _| put32(&mut nodes[0], node_key(0) + 10, -1));
    assert!(checked(&unused).is_err());
}

#[test]
fn keys_ascend_strictly_in_nodes() {
    // The root's keys are equal, with the second node's first key made the same.
    let equal = changed(|nodes, leaves| {
        nodes[0][node_key(1)] = b'A';
        nodes[2][node_key(0)] = b'A';
        leaves[2][leaf_key(0)] = b'A';
    });
    assert_eq!(checked(&equal), Err(NodeKeys));
    let falling = changed(|nodes, leaves| {
        nodes[1][node_key(1)] = b'0';
        leaves[1][leaf_key(0)] = b'0';
    });
    assert_eq!(checked(&falling), Err(NodeKeys));
}

#[test]
fn keys_ascend_strictly_along_the_leaves() {
    for wrong in [b'C', b'B'] {
        let within = changed(|_, leaves| leaves[1][leaf_key(1)] = wrong);
        assert_eq!(checked(&within), Err(LeafKeys));
    }
    for wrong in [b'C', b'D', b'Z'] {
        let between = changed(|_, leaves| leaves[0][leaf_key(1)] = wrong);
        assert_eq!(checked(&between), Err(LeafKeys), "leaf 1 runs into leaf 2");
    }
    for wrong in [b'E', b'X'] {
        let between = changed(|_, leaves| leaves[1][leaf_key(1)] = wrong);
        assert_eq!(checked(&between), Err(LeafKeys), "across two nodes");
    }
    let last = changed(|_, leaves| leaves[2][leaf_key(1)] = 0xFF);
    assert_eq!(checked(&last), Ok(()), "unsigned");
}

#[test]
fn each_pointers_key_is_its_targets_first() {
    let root = changed(|nodes, _| nodes[0][node_key(1)] = b'D');
    assert_eq!(checked(&root), Err(PointerKey), "of a node");
    let first = changed(|nodes, _| nodes[0][node_key(0)] = b' ');
    assert_eq!(checked(&first), Err(PointerKey), "the first of all");
    let lower = changed(|nodes, _| nodes[1][node_key(1)] = b'D');
    assert_eq!(checked(&lower), Err(PointerKey), "of a leaf");
    let padding = changed(|nodes, _| nodes[1][node_key(1) + 9] = 0);
    assert_eq!(checked(&padding), Err(PointerKey), "its last byte");
    assert_eq!(look(&first, b"A"), Ok((1, 1)), "a lookup does not ask");
}

#[test]
fn no_leaf_is_met_twice() {
    let twice = changed(|nodes, _| put32(&mut nodes[1], node_key(1) + 10, -1));
    assert_eq!(checked(&twice), Err(LeafTwice), "in one node");
    let shared = changed(|nodes, _| put32(&mut nodes[2], node_key(0) + 10, -2));
    assert_eq!(checked(&shared), Err(LeafTwice), "from two nodes");
    let node_twice = changed(|nodes, _| put32(&mut nodes[0], node_key(1) + 10, 2));
    assert_eq!(checked(&node_twice), Err(LeafTwice), "a node met twice");
}

#[test]
fn leaves_are_met_in_successor_order() {
    for wrong in [0, 1, 3, -2, 0x0102, 65_538] {
        let files = changed(|_, leaves| put32(&mut leaves[0], PS, wrong));
        assert_eq!(checked(&files), Err(Successor));
    }
    for wrong in [1, 3, 4, -1, i32::MIN] {
        let files = changed(|_, leaves| put32(&mut leaves[2], PS, wrong));
        assert_eq!(checked(&files), Err(LastSuccessor));
    }
}

/// A leaf's successor may not skip a leaf that the walk meets, nor may a pointer.
#[test]
fn a_leaf_left_out() {
    let of_chain = changed(|_, leaves| put32(&mut leaves[0], PS, 3));
    assert_eq!(checked(&of_chain), Err(Successor));
    let of_walk = changed(|nodes, _| put16(&mut nodes[1], OCK, 1));
    assert_eq!(checked(&of_walk), Err(Successor));
    assert_eq!(look(&of_walk, b"C"), Err(Why::Absent));
    let of_both = changed(|nodes, leaves| {
        put16(&mut nodes[1], OCK, 1);
        put32(&mut leaves[0], PS, 3);
    });
    assert_eq!(checked(&of_both), Ok(()));
}

/// LIV is not read: a leaf may hang beside a node.
#[test]
fn ways_of_unequal_length_pass() {
    let files = changed(|nodes, _| put32(&mut nodes[0], node_key(1) + 10, -3));
    assert_eq!(checked(&files), Ok(()));
    assert_eq!(look(&files, b"F"), Ok((3, 2)));
    assert_eq!(look(&files, b"D"), Ok((2, 2)));
}

#[test]
fn what_is_not_read_may_be_anything() {
    for fill in [0, 0x20, 0xFF] {
        let mut files = small();
        for tree in [0, 26] {
            files.cnt[tree + 6..tree + 12].fill(fill);
            files.cnt[tree + 16..tree + 26].fill(fill);
        }
        files.l01[48 + 12 + 18..].fill(fill);
        files.n02[8 + 34..].fill(fill);
        files.l02[12 + 38..].fill(fill);
        assert_eq!(checked(&files), Ok(()));
        assert_eq!(look(&files, b"KITE"), Ok((5, 6)));
    }
}

/// 16 nodes of 32 pointers to one child have 32^16 ways: the test must end.
#[test]
fn a_hostile_chain_is_answered() {
    let keys: Vec<Vec<u8>> = (0..32).map(|n| vec![b'A' + n]).collect();
    let hostile = |at: i32| {
        let punt = if at == 16 { -1 } else { at + 1 };
        let entries: Vec<(&[u8], i32)> = keys.iter().map(|key| (&key[..], punt)).collect();
        node(1, 16, at, &entries)
    };
    let nodes: Vec<Vec<u8>> = (1..=16).map(hostile).collect();
    let one = [leaf(1, 1, 1, 0, &[(b"A", 1, 1)])];
    let files = with_first((16, 1), 1, &nodes, &one);
    assert_eq!(checked(&files), Err(LeafTwice));
    let missing = with_first((16, 1), 1, &nodes, &[]);
    assert_eq!(checked(&missing), Err(NotThere));
}
