//! Each rule of 21 that a lookup and the check share, on indexes laid out by hand, and the
//! edges of each.

#[path = "common/index.rs"]
mod index;

use index::*;
use model::index::Files;
use model::index::fault::Broken::*;
use model::index::fault::Why::{Absent, Below, Broken};

#[test]
fn cnt_has_52_bytes() {
    for len in [0, 26, 51, 53, 104] {
        let mut files = small();
        files.cnt.resize(len, 0);
        both_find(&files, b"KITE", CntLength);
    }
}

#[test]
fn the_tree_type_is_its_own() {
    for wrong in [0, 2, 257, 65_535] {
        let mut files = small();
        put16(&mut files.cnt, IDTYPE, wrong);
        both_find(&files, b"KITE", Idtype);
        let mut files = small();
        put16(&mut files.n01, IT, wrong);
        both_find(&files, b"KITE", Type);
        let mut files = small();
        put16(&mut files.l01, 48 + IT, wrong);
        both_find(&files, b"KITE", Type);
    }
    let mut files = small();
    put16(&mut files.cnt, 26 + IDTYPE, 1);
    both_find(&files, b"HIGHLAND KITES", Idtype);
}

/// The same tree at every order, its files laid out for it.
#[test]
fn orders_are_1_to_16() {
    for order in 0..=18 {
        let size = usize::from(order);
        let nodes = [node(1, size, 1, &[(b"KITE", -1)])];
        let leaves = [leaf(1, size, 1, 0, &[(b"KITE", 5, 6)])];
        let files = with_first((order, order), 1, &nodes, &leaves);
        if (1..=16).contains(&order) {
            assert_eq!(look(&files, b"KITE"), Ok((5, 6)));
            assert_eq!(checked(&files), Ok(()));
        } else {
            both_find(&files, b"KITE", Order);
        }
    }
    for (place, wrong) in [(ORDN, 0), (ORDN, 17), (ORDF, 0), (ORDF, 17), (ORDF, 0xFFFF)] {
        let mut files = small();
        put16(&mut files.cnt, place, wrong);
        both_find(&files, b"KITE", Order);
    }
}

/// Orders 2 and 1: a node of three pointers over leaves of two keys, A and B to E and F, in
/// which the node and leaf 2 have these counts.
fn counted(of_node: u16, of_leaf: u16) -> Files {
    let mut root = node(1, 2, 1, &[(b"A", -1), (b"C", -2), (b"E", -3)]);
    put16(&mut root, OCK, of_node);
    let mut leaves = [
        leaf(1, 1, 1, 2, &[(b"A", 1, 1), (b"B", 1, 2)]),
        leaf(1, 1, 2, 3, &[(b"C", 2, 1), (b"D", 2, 2)]),
        leaf(1, 1, 3, 0, &[(b"E", 3, 1), (b"F", 3, 2)]),
    ];
    put16(&mut leaves[1], OCK, of_leaf);
    with_first((2, 1), 1, &[root], &leaves)
}

#[test]
fn key_counts_are_1_to_twice_the_order() {
    assert_eq!(checked(&counted(3, 2)), Ok(()));
    assert_eq!(look(&counted(3, 2), b"D"), Ok((2, 2)));
    assert_eq!(
        look(&counted(3, 1), b"D"),
        Err(Absent),
        "the second key is inactive"
    );
    assert_eq!(checked(&counted(3, 1)), Ok(()));
    assert_eq!(
        look(&counted(1, 2), b"D"),
        Err(Absent),
        "the second pointer is inactive"
    );
    for count in [0, 5, 0x0102, 0xFFFF] {
        both_find(&counted(count, 2), b"D", KeyCount);
        assert_eq!(look(&counted(count, 2), b"0"), Err(Broken(KeyCount)));
    }
    for count in [0, 3, 0x0101] {
        both_find(&counted(3, count), b"D", KeyCount);
        assert_eq!(
            look(&counted(3, count), b"A"),
            Ok((1, 1)),
            "leaf 2 is not met"
        );
    }
    assert_eq!(look(&counted(4, 2), b"D"), Err(Broken(ZeroPointer)));
}

#[test]
fn a_number_is_the_records_position() {
    for wrong in [0, 2, -1, 257, 65_537, i32::MIN] {
        let mut files = small();
        put32(&mut files.n01, POS, wrong);
        both_find(&files, b"KITE", Position);
        let mut files = small();
        put32(&mut files.l01, POS, wrong);
        both_find(&files, b"BETA", Position);
        assert_eq!(look(&files, b"KITE"), Ok((5, 6)), "leaf 1 is not met");
    }
}

/// A pointer of a node met counts even where it is not taken; an inactive one does not.
#[test]
fn pointer_0_among_the_active_entries() {
    for at in [8 + 10, 8 + 24] {
        let mut files = small();
        put32(&mut files.n01, at, 0);
        for term in [&b"ALPHA"[..], b"BETA", b"KITE", b"A"] {
            both_find(&files, term, ZeroPointer);
        }
    }
    let mut files = small();
    assert_eq!(files.n02[8 + 34 + 30..], [0; 4]);
    put32(&mut files.n02, 8 + 34 + 30, 77);
    assert_eq!(checked(&files), Ok(()));
}

#[test]
fn records_that_are_not_there() {
    for root in [0, -1, 2, i32::MAX, i32::MIN] {
        let mut files = small();
        put32(&mut files.cnt, POSRX, root);
        both_find(&files, b"KITE", NotThere);
    }
    for punt in [2, -3, i32::MAX, i32::MIN, i32::MIN + 1, 1 << 24, -(1 << 24)] {
        let mut files = small();
        put32(&mut files.n01, 8 + 24, punt);
        both_find(&files, b"KITE", NotThere);
        assert_eq!(look(&files, b"BETA"), Ok((3, 4)), "it is not met");
    }
}

#[test]
fn a_record_is_there_if_all_its_bytes_are() {
    for behind in 0..36 {
        let mut files = small();
        files.n01.extend(vec![0xEE; behind]);
        files.l01.extend(vec![0xEE; behind]);
        assert_eq!(look(&files, b"KITE"), Ok((5, 6)));
        assert_eq!(checked(&files), Ok(()));
    }
    for cut in [1, 2, 28, 36] {
        let mut files = small();
        files.n01.truncate(36 - cut);
        both_find(&files, b"KITE", NotThere);
    }
    for cut in [1, 18, 47, 48] {
        let mut files = small();
        files.l01.truncate(96 - cut);
        both_find(&files, b"KITE", NotThere);
        assert_eq!(look(&files, b"ALPHA"), Ok((1, 2)));
    }
}

#[test]
fn sixteen_nodes_on_one_way_down_and_no_more() {
    for nodes in [1, 2, 15, 16] {
        assert_eq!(look(&chain(nodes), b"KITE"), Ok((5, 6)));
        assert_eq!(checked(&chain(nodes)), Ok(()));
    }
    for nodes in [17, 18, 40] {
        both_find(&chain(nodes), b"KITE", TooDeep);
    }
    let mut files = chain(17);
    files.n01.truncate(16 * 36);
    both_find(&files, b"KITE", TooDeep);
    assert_eq!(
        look(&files, b"KIT"),
        Err(Below),
        "the second node is not met"
    );
    let mut circle = chain(2);
    put32(&mut circle.n01, 36 + 8 + 10, 1);
    both_find(&circle, b"KITE", TooDeep);
}
