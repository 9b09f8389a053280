//! `card check-index` and `card lookup` name the file, the record and the rule that is broken:
//! an index is damaged at every rule, in each tree. And no index makes them slow.

mod folder;

use folder::Folder;
use folder::index::{files, leaf, node, trees};
use model::index::tree::{Leaf, Node, Pointer, Posting, Tree};

/// A damage to the trees.
type Damage = fn(&mut [Tree; 2]);

/// A folder with the index `a` after some damage.
fn damaged(name: &str, damage: Damage) -> Folder {
    let folder = Folder::new(name);
    let mut trees = trees();
    damage(&mut trees);
    folder.put_index("a", &files(&trees));
    folder
}

/// Both commands must say these words of answer 21, the lookup for one of some terms; what
/// is looked up in the other tree is found.
fn both_say(folder: &Folder, term: &str, other: &str, words: &str) {
    let said = format!("card: refused, answer 21: the index is not right: {words}\n");
    folder.refused("check-index a", 21, &said);
    folder.refused(&format!("lookup a {term}"), 21, &said);
    folder.done(&format!("lookup a {other}"));
}

/// The check must say these words, and terms are found all the same.
fn check_says(folder: &Folder, terms: &str, words: &str) {
    let said = format!("card: refused, answer 21: the index is not right: {words}\n");
    folder.refused("check-index a", 21, &said);
    folder.done(&format!("lookup a {terms}"));
}

/// A term of each tree.
const SHORT: &str = "KITE";
const LONG: &str = "HOSSEINI,_KHALED";

/// Damage in the first tree: what is done, a term whose way meets it, and what is said. A
/// node has 36 bytes and a leaf has 48.
const FIRST: [(Damage, &str, &str); 22] = [
    (
        |trees| trees[0].idtype = 2,
        SHORT,
        "a.CNT, byte 0: IDTYPE is 2, not 1",
    ),
    (
        |trees| trees[0].ordn = 0,
        SHORT,
        "a.CNT, byte 2: ORDN is 0, not in 1 to 16",
    ),
    (
        |trees| trees[0].ordn = 17,
        SHORT,
        "a.CNT, byte 2: ORDN is 17, not in 1 to 16",
    ),
    (
        |trees| trees[0].ordf = 0,
        SHORT,
        "a.CNT, byte 4: ORDF is 0, not in 1 to 16",
    ),
    (
        |trees| trees[0].ordf = 65_535,
        SHORT,
        "a.CNT, byte 4: ORDF is 65535, not in 1 to 16",
    ),
    (
        |trees| trees[0].posrx = 0,
        SHORT,
        "a.CNT, byte 12: POSRX is 0, but a.N01 has 3 nodes",
    ),
    (
        |trees| trees[0].posrx = 4,
        SHORT,
        "a.CNT, byte 12: POSRX is 4, but a.N01 has 3 nodes",
    ),
    (
        |trees| trees[0].posrx = -1,
        SHORT,
        "a.CNT, byte 12: POSRX is -1, but a.N01 has 3 nodes",
    ),
    (
        |trees| node(&mut trees[0], 3).pos = 2,
        SHORT,
        "a.N01, node 3 at byte 72: its POS is 2, not 3",
    ),
    (
        |trees| node(&mut trees[0], 1).ock = 0,
        SHORT,
        "a.N01, node 1 at byte 0: its OCK is 0, not in 1 to 2",
    ),
    (
        |trees| node(&mut trees[0], 1).ock = 3,
        SHORT,
        "a.N01, node 1 at byte 0: its OCK is 3, not in 1 to 2",
    ),
    (
        |trees| node(&mut trees[0], 2).it = 2,
        "SEA",
        "a.N01, node 2 at byte 36: its IT is 2, not 1",
    ),
    (
        |trees| node(&mut trees[0], 2).entries[0].punt = 0,
        "WIND",
        "a.N01, node 2 at byte 36, entry 1: its PUNT is 0",
    ),
    (
        |trees| node(&mut trees[0], 2).entries[1].punt = -5,
        "WIND",
        "a.N01, node 2 at byte 36, entry 2: its PUNT is -5, but a.L01 has 4 leaves",
    ),
    (
        |trees| node(&mut trees[0], 2).entries[1].punt = i32::MIN,
        "WIND",
        "a.N01, node 2 at byte 36, entry 2: its PUNT is -2147483648, but a.L01 has 4 leaves",
    ),
    (
        |trees| node(&mut trees[0], 3).entries[1].punt = i32::MAX,
        "WIND",
        "a.N01, node 3 at byte 72, entry 2: its PUNT is 2147483647, but a.N01 has 3 nodes",
    ),
    (
        |trees| {
            trees[0].leaves.pop();
            trees[0].behind[1] = 47;
        },
        "WIND",
        "a.N01, node 2 at byte 36, entry 2: its PUNT is -4, but a.L01 has 3 leaves \
         and 47 bytes of another",
    ),
    (
        |trees| leaf(&mut trees[0], 2).pos = -2,
        SHORT,
        "a.L01, leaf 2 at byte 48: its POS is -2, not 2",
    ),
    (
        |trees| leaf(&mut trees[0], 2).ock = 0,
        SHORT,
        "a.L01, leaf 2 at byte 48: its OCK is 0, not in 1 to 2",
    ),
    (
        |trees| leaf(&mut trees[0], 2).ock = 65_535,
        SHORT,
        "a.L01, leaf 2 at byte 48: its OCK is 65535, not in 1 to 2",
    ),
    (
        |trees| leaf(&mut trees[0], 2).it = 0,
        SHORT,
        "a.L01, leaf 2 at byte 48: its IT is 0, not 1",
    ),
    (
        // The root is below itself.
        |trees| node(&mut trees[0], 3).entries[1].punt = 3,
        "WIND",
        "a.N01, node 3 at byte 72, entry 2: its PUNT is 3, a seventeenth node on one way down",
    ),
];

#[test]
fn every_rule_of_a_lookup_in_the_first_tree() {
    for (at, (damage, term, words)) in FIRST.into_iter().enumerate() {
        let folder = damaged(&format!("index-first-{at}"), damage);
        match words.contains("seventeenth") {
            // The check finds before that the two keys of the root differ.
            true => folder.refused(&format!("lookup a {term}"), 21, words),
            false => both_say(&folder, term, LONG, words),
        }
    }
}

/// Damage in the second tree, whose node has 76 bytes, and each leaf 88.
const SECOND: [(Damage, &str); 7] = [
    (
        |trees| trees[1].idtype = 1,
        "a.CNT, byte 26: IDTYPE is 1, not 2",
    ),
    (
        |trees| trees[1].ordn = 40,
        "a.CNT, byte 28: ORDN is 40, not in 1 to 16",
    ),
    (
        |trees| trees[1].ordf = 0,
        "a.CNT, byte 30: ORDF is 0, not in 1 to 16",
    ),
    (
        |trees| trees[1].posrx = 2,
        "a.CNT, byte 38: POSRX is 2, but a.N02 has 1 node",
    ),
    (
        |trees| node(&mut trees[1], 1).it = 1,
        "a.N02, node 1 at byte 0: its IT is 1, not 2",
    ),
    (
        |trees| node(&mut trees[1], 1).entries[0].punt = 7,
        "a.N02, node 1 at byte 0, entry 1: its PUNT is 7, but a.N02 has 1 node",
    ),
    (
        |trees| leaf(&mut trees[1], 1).it = 1,
        "a.L02, leaf 1 at byte 0: its IT is 1, not 2",
    ),
];

#[test]
fn every_rule_of_a_lookup_in_the_second_tree() {
    for (at, (damage, words)) in SECOND.into_iter().enumerate() {
        let folder = damaged(&format!("index-second-{at}"), damage);
        both_say(&folder, LONG, SHORT, words);
    }
}

#[test]
fn a_cnt_of_another_length() {
    let folder = Folder::with_index("index-cnt");
    let right = folder.read("a.CNT");
    for bytes in [
        &right[..51],
        &[&right[..], &[0]].concat(),
        &right[..26],
        &[],
    ] {
        folder.write("a.CNT", bytes);
        let words = format!("a.CNT has {} bytes, not 52\n", bytes.len());
        for command in ["check-index a", "lookup a KITE", "lookup a WIND,_SAND"] {
            folder.refused(command, 21, &words);
        }
    }
}

#[test]
fn a_tree_without_a_root() {
    let folder = Folder::with_index("index-empty");
    folder.write("a.N02", &[]);
    let words = "a.CNT, byte 38: POSRX is 1, but a.N02 has 0 nodes";
    both_say(&folder, LONG, SHORT, words);
    folder.write("a.N02", &[0; 75]);
    both_say(
        &folder,
        LONG,
        SHORT,
        &format!("{words} and 75 bytes of another"),
    );
}

/// What only the check asks. Terms that the damage does not touch are found all the same.
const CHECKED: [(Damage, &str, &str); 12] = [
    (
        |trees| node(&mut trees[0], 3).entries[1].key = b"AFRICA".to_vec(),
        "WIND SEA",
        "a.N01, node 3 at byte 72, entry 2: its key 'AFRICA' is not above the one before, 'AFRICA'",
    ),
    (
        |trees| node(&mut trees[0], 3).entries[1].key = b"A\tB".to_vec(),
        "WIND SEA",
        "a.N01, node 3 at byte 72, entry 2: its key 'A\\x09B' is not above the one before, 'AFRICA'",
    ),
    (
        |trees| node(&mut trees[0], 1).entries[1].key = b"KH".to_vec(),
        "AFRICA KITE",
        "a.N01, node 1 at byte 0, entry 2: its key is 'KH', but a.L01, leaf 2 at byte 48 \
         begins with 'KHALED'",
    ),
    (
        |trees| node(&mut trees[0], 3).entries[1].key = b"RUNNERS".to_vec(),
        "SEA WIND",
        "a.N01, node 3 at byte 72, entry 2: its key is 'RUNNERS', but a.N01, node 2 at byte 36 \
         begins with 'RUNNER'",
    ),
    (
        |trees| leaf(&mut trees[0], 2).entries[1].key = b"KHALED".to_vec(),
        "AFRICA WIND",
        "a.L01, leaf 2 at byte 48, entry 2: its key 'KHALED' is not above the one before, 'KHALED'",
    ),
    (
        |trees| leaf(&mut trees[0], 1).entries[1].key = b"KHALED".to_vec(),
        "AFRICA KITE",
        "a.L01, leaf 2 at byte 48, entry 1: its key 'KHALED' is not above 'KHALED', \
         the last of leaf 1",
    ),
    (
        |trees| node(&mut trees[0], 2).entries[1].punt = -2,
        "KITE SEA",
        "a.N01, node 2 at byte 36, entry 2: it leads to leaf 2 a second time",
    ),
    (
        |trees| leaf(&mut trees[0], 2).ps = 4,
        "KITE SEA WIND",
        "a.L01, leaf 2 at byte 48: its PS is 4, but leaf 3 comes next",
    ),
    (
        |trees| leaf(&mut trees[0], 1).ps = -2,
        "KITE SEA WIND",
        "a.L01, leaf 1 at byte 0: its PS is -2, but leaf 2 comes next",
    ),
    (
        |trees| leaf(&mut trees[0], 4).ps = 1,
        "KITE SEA WIND",
        "a.L01, leaf 4 at byte 144: its PS is 1, not 0, but no leaf comes next",
    ),
    (
        |trees| leaf(&mut trees[1], 2).ps = -1,
        "WIND,_SAND_AND_STARS",
        "a.L02, leaf 2 at byte 88: its PS is -1, not 0, but no leaf comes next",
    ),
    (
        |trees| trees[0].nodes[1] = None,
        "KITE AFRICA",
        "a.N01, node 2 at byte 36: its POS is 0, not 2",
    ),
];

#[test]
fn every_rule_that_only_the_check_asks() {
    for (at, (damage, terms, words)) in CHECKED.into_iter().enumerate() {
        let folder = damaged(&format!("index-check-{at}"), damage);
        check_says(&folder, terms, words);
    }
}

/// A chain of so many nodes of the first tree above its only leaf; each has as many entries
/// as it can, and all of them lead to the next.
fn chain(nodes: usize, keys: fn(u8) -> Vec<u8>) -> [Tree; 2] {
    let [first, second] = trees();
    let node = |number: usize| {
        let next = number as i32 + 1;
        let punt = if number == nodes { -1 } else { next };
        let entries = (0..32).map(|n| Pointer { key: keys(n), punt }).collect();
        Some(Node {
            pos: number as i32,
            ock: 32,
            it: 1,
            entries,
        })
    };
    let leaf = Leaf {
        pos: 1,
        ock: 1,
        it: 1,
        ps: 0,
        entries: vec![Posting {
            key: keys(0),
            block: 7,
            word: 9,
        }],
    };
    let first = Tree {
        ordn: 16,
        posrx: 1,
        nodes: (1..=nodes).map(node).collect(),
        leaves: vec![Some(leaf)],
        ..first
    };
    [first, second]
}

/// 16 nodes of 32 pointers to one child have 32^16 ways; the check stops at the first broken
/// rule, and so do its words.
#[test]
fn many_ways_take_no_time() {
    let folder = Folder::new("index-ways");
    folder.put_index("a", &files(&chain(16, |_| b"A".to_vec())));
    let words = "a.N01, node 1 at byte 0, entry 2: its key 'A' is not above the one before, 'A'";
    check_says(&folder, "A", words);
    folder.put_index("a", &files(&chain(16, |n| vec![b'A' + n])));
    let words = "a.N01, node 16 at byte 6840, entry 2: it leads to leaf 1 a second time";
    folder.refused("check-index a", 21, words);
    folder.put_index("a", &files(&chain(17, |n| vec![b'A' + n])));
    let words = "a.N01, node 16 at byte 6840, entry 1: its PUNT is 17, a seventeenth node on one \
                 way down\n";
    folder.refused("check-index a", 21, words);
    folder.refused("lookup a A", 21, words);
}

/// A way of 16 nodes is permitted.
#[test]
fn sixteen_nodes_on_one_way_are_sound() {
    let folder = Folder::new("index-deep");
    let mut trees = chain(16, |n| vec![b'A' + n]);
    for node in trees[0].nodes.iter_mut().flatten() {
        node.ock = 1;
    }
    folder.put_index("a", &files(&trees));
    assert_eq!(folder.done("lookup a A"), "A: block 7, word 9\n");
    let sound = "sound\n  terms of 1 to 10 bytes   1\n  terms of 11 to 30 bytes  3\n";
    assert_eq!(folder.done("check-index a"), sound);
}
