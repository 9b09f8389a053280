//! The two calls on a search index through the archive, against the model: built, damaged
//! and random indexes, every bit and every length of a small one, and chains that have more
//! ways than a check could walk.

use differential::families::{calls, said};
use differential::guarded::{Side, report_hits};
use differential::index::compare::{Case, Family, Tally, drive};
use differential::index::terms::around;
use differential::index::{Archive, Reader, cases};
use model::index::build::{plain, plain_trees};
use model::index::fault::{Broken, Why};
use model::index::tree::{Leaf, Node, Pointer, Posting, Tree};
use model::index::{Entry, Files};
use model::random::Random;

/// Each of these came at least so often, unless the seeds are somebody's own.
fn came(tally: &Tally, lookups: &[Option<Why>], checks: &[Option<Broken>], times: usize) {
    if std::env::var_os("ISIS_SEED").is_some() {
        return;
    }
    for why in lookups {
        let count = tally.lookups.get(why).copied().unwrap_or(0);
        assert!(count >= times, "lookup gave {why:?} {count} times");
    }
    for rule in checks {
        let count = tally.checks.get(rule).copied().unwrap_or(0);
        assert!(count >= times, "check gave {rule:?} {count} times");
    }
}

fn run(name: &str, family: Family, wanted: usize) -> Tally {
    drive(name, family, calls(wanted))
}

const ANSWERED: [Option<Why>; 4] = [
    None,
    Some(Why::BadTerm),
    Some(Why::Below),
    Some(Why::Absent),
];

#[test]
fn built_indexes() {
    let tally = run("built indexes", cases::built, 2_000);
    came(&tally, &ANSWERED, &[None], calls(2_000));
    assert_eq!(tally.checks.len(), 1, "all pass");
    assert!(tally.lookups.keys().all(|why| ANSWERED.contains(why)));
}

#[test]
fn indexes_damaged_by_meaning() {
    let tally = run("indexes damaged by meaning", cases::damaged, 8_000);
    let both = Broken::OF_BOTH
        .into_iter()
        .filter(|rule| *rule != Broken::CntLength);
    let lookups: Vec<_> = both.clone().map(|rule| Some(Why::Broken(rule))).collect();
    let checks: Vec<_> = both.chain(Broken::OF_CHECK).map(Some).collect();
    came(&tally, &ANSWERED, &[None], calls(1_000));
    came(&tally, &lookups, &checks, calls(40));
}

#[test]
fn indexes_damaged_by_bytes() {
    let tally = run("indexes damaged by bytes", cases::poked, 5_000);
    let both = [
        Broken::CntLength,
        Broken::Idtype,
        Broken::Order,
        Broken::NotThere,
    ];
    let lookups = both.map(|rule| Some(Why::Broken(rule)));
    came(&tally, &ANSWERED, &[None], calls(500));
    came(&tally, &lookups, &both.map(Some), calls(100));
}

#[test]
fn records_by_chance() {
    let tally = run("records by chance", cases::chance, 3_000);
    let deep = Some(Why::Broken(Broken::TooDeep));
    came(&tally, &ANSWERED, &[Some(Broken::TooDeep)], calls(300));
    came(&tally, &[deep], &[Some(Broken::LeafTwice)], calls(300));
}

#[test]
fn rubbish() {
    run("rubbish", cases::rubbish, 3_000);
}

fn entry(term: &str, block: i32) -> Entry {
    let term = term.as_bytes().to_vec();
    let word = -block;
    Entry { term, block, word }
}

/// Orders 1 and 1: in the first tree three nodes over three leaves, in the second one of
/// each.
fn small() -> (Files, Vec<Entry>) {
    let terms = [
        "ALPHA",
        "BETA",
        "KITE",
        "KITES",
        "WIND",
        "HIGHLAND KITES",
        "LOWLAND KITES",
    ];
    let entries: Vec<Entry> = (1..).zip(terms).map(|(n, term)| entry(term, n)).collect();
    (plain(&entries, 1, 1), entries)
}

/// Holds the small index, changed, to the model: the check, and lookups of all its terms.
struct Small {
    archive: Archive,
    random: Random,
    tally: Tally,
    terms: Vec<Vec<u8>>,
}

impl Small {
    fn new(near: bool) -> Small {
        report_hits();
        let (_, entries) = small();
        let terms = entries.iter().map(|entry| match near {
            true => around(&entry.term),
            false => vec![entry.term.clone()],
        });
        Small {
            archive: Archive::new(),
            random: Random::new(1),
            tally: Tally::default(),
            terms: terms.flatten().chain([b"A".to_vec()]).collect(),
        }
    }

    fn hold(&mut self, what: String, files: Files) {
        let terms = self.terms.clone();
        let case = Case {
            what,
            files,
            built: None,
            terms,
        };
        let held = case.compare(&mut self.archive, &mut self.random, &mut self.tally);
        held.unwrap_or_else(|words| panic!("{words}"));
    }

    fn done(&self, name: &str) {
        said(&format!("{name}: {} calls, all equal", self.tally.calls()));
        println!("{}", self.tally);
    }
}

#[test]
fn every_bit_of_a_small_index() {
    let (files, _) = small();
    let mut held = Small::new(false);
    for at in 0..5 {
        for bit in 0..8 * files.all()[at].len() {
            let mut flipped = files.clone();
            flipped.all_mut()[at][bit / 8] ^= 1 << (bit % 8);
            held.hold(format!("file {at}, bit {bit}"), flipped);
        }
    }
    held.done("every bit of a small index");
    let checks: Vec<_> = [Broken::LeafKeys, Broken::PointerKey, Broken::Successor]
        .map(Some)
        .into();
    came(&held.tally, &ANSWERED[2..], &checks, 20);
}

/// Every length of each file from nothing to a byte more than it has, so that a record ends
/// before, at and behind every byte.
#[test]
fn every_length_of_a_small_index() {
    let (files, _) = small();
    let mut held = Small::new(true);
    for at in 0..5 {
        for len in 0..=files.all()[at].len() + 1 {
            let mut cut = files.clone();
            cut.all_mut()[at].resize(len, 0);
            held.hold(format!("file {at} of {len} bytes"), cut);
        }
    }
    held.done("every length of a small index");
    came(
        &held.tally,
        &[None],
        &[Some(Broken::CntLength), Some(Broken::NotThere)],
        50,
    );
}

/// Answers on a changed small index that are known without the model.
#[test]
fn answers_known_by_hand() {
    let mut archive = Archive::new();
    let mut answers = |files: &Files, term: &[u8]| {
        archive.lend(files, [Side::Back; 5]);
        let given = archive.lookup(term, Side::Front);
        (archive.check(), (given.number, given.block, given.word))
    };
    let (files, _) = small();
    assert_eq!(answers(&files, b"KITES"), (0, (0, 4, -4)));
    assert_eq!(answers(&files, b"LOWLAND KITES"), (0, (0, 7, -7)));
    assert_eq!(answers(&files, b"KITE "), (0, (20, 0, 0)));
    assert_eq!(answers(&files, b""), (0, (20, 0, 0)));
    assert_eq!(answers(&files, b"A"), (0, (22, 0, 0)));
    assert_eq!(answers(&files, b"KITING"), (0, (22, 0, 0)));
    for len in [0, 51, 53] {
        let mut files = files.clone();
        files.cnt.resize(len, 0);
        assert_eq!(answers(&files, b"KITES"), (21, (21, 0, 0)));
        assert_eq!(answers(&files, b"KITES "), (21, (20, 0, 0)));
    }
}

/// Five empty files and an empty term at the front guard page are all lent as NULL.
#[test]
fn nothing_is_lent_as_null() {
    let mut archive = Archive::new();
    for side in [Side::Front, Side::Back] {
        archive.lend(&Files::default(), [side; 5]);
        assert_eq!(archive.check(), 21);
        for (term, number) in [(&b""[..], 20), (b"KITE", 21), (b"HIGHLAND KITES", 21)] {
            let given = archive.lookup(term, side);
            assert_eq!((given.number, given.block, given.word), (number, 0, 0));
        }
    }
}

/// The small index with another first tree.
fn with_first(first: Tree) -> Files {
    let (_, entries) = small();
    let [_, second] = plain_trees(&entries, 1, 1);
    Files::of(&[first, second], &mut |_| ())
}

fn node(pos: i32, entries: Vec<Pointer>) -> Option<Node> {
    Some(Node::of(pos, 1, entries))
}

fn leaf(pos: i32, ps: i32, key: Vec<u8>) -> Option<Leaf> {
    let (block, word) = (pos, 0);
    Some(Leaf::of(pos, 1, ps, vec![Posting { key, block, word }]))
}

/// A key that ascends with the number.
fn key(number: i32) -> Vec<u8> {
    format!("K{number:05}").into_bytes()
}

fn answered(what: &str, files: Files, check: Result<(), Broken>) {
    let mut held = Small::new(false);
    held.terms.extend([0, 1, 15, 31, 32, 400].map(key));
    held.hold(what.to_string(), files);
    assert_eq!(
        held.tally.checks.keys().next(),
        Some(&check.err()),
        "{what}"
    );
}

/// Nodes of 32 pointers that all go to one child, 16 deep: 32^16 ways.
#[test]
fn a_chain_of_one_child() {
    let chain = |leaves: Vec<Option<Leaf>>| Tree {
        posrx: 1,
        nodes: (1..=16)
            .map(|pos| {
                let punt = if pos == 16 { -1 } else { pos + 1 };
                let pointers = (0..32).map(|n| Pointer { key: key(n), punt });
                node(pos, pointers.collect())
            })
            .collect(),
        leaves,
        ..Tree::empty(1, 16, 1)
    };
    let one = chain(vec![leaf(1, 0, key(0))]);
    answered("one child", with_first(one.clone()), Err(Broken::LeafTwice));
    answered(
        "no leaf",
        with_first(chain(Vec::new())),
        Err(Broken::NotThere),
    );
    let mut circle = one;
    for pointer in &mut circle.nodes[15].as_mut().unwrap().entries {
        pointer.punt = 1;
    }
    answered("a circle", with_first(circle), Err(Broken::TooDeep));
}

/// On each of 16 levels a node for every first key: the node of key k has the pointers k to
/// k + 31, each to the node of its own key one level below, so that every node keeps all
/// rules of its own and every child is shared by 32 nodes. `levels` of them are such, and
/// below them stands a way of single pointers for each key.
fn sharing(levels: i32) -> Tree {
    let keys = 31 * levels + 1;
    let number = |level: i32, k: i32| (level - 1) * keys + k + 1;
    let of = |level: i32, k: i32| {
        let width = if level <= levels { 32 } else { 1 };
        let pointers = (k..(k + width).min(keys)).map(|k| Pointer {
            key: key(k),
            punt: if level == 16 {
                -(k + 1)
            } else {
                number(level + 1, k)
            },
        });
        node(number(level, k), pointers.collect())
    };
    let all = (1..=16).flat_map(|level| (0..keys).map(move |k| (level, k)));
    Tree {
        posrx: 1,
        nodes: all.map(|(level, k)| of(level, k)).collect(),
        leaves: (0..keys)
            .map(|k| leaf(k + 1, if k + 1 == keys { 0 } else { k + 2 }, key(k)))
            .collect(),
        ..Tree::empty(1, 16, 1)
    }
}

#[test]
fn children_that_are_shared_where_every_node_is_right() {
    answered("one level", with_first(sharing(1)), Ok(()));
    for levels in [2, 3, 8, 16] {
        let what = format!("{levels} levels share");
        answered(&what, with_first(sharing(levels)), Err(Broken::LeafTwice));
    }
}

/// A tree that is right but for its last leaf: all of it has to be walked, and once.
#[test]
fn a_fault_at_the_very_end() {
    let entries: Vec<Entry> = (0..20_000).map(|n| entry(&format!("K{n:05}"), n)).collect();
    let [first, _] = plain_trees(&entries, 5, 5);
    let last = first.leaves.len() - 1;
    for (wrong, check) in [(0, Ok(())), (1, Err(Broken::LastSuccessor))] {
        let mut tree = first.clone();
        tree.leaves[last].as_mut().unwrap().ps = wrong;
        answered("20,000 terms", with_first(tree), check);
    }
}
