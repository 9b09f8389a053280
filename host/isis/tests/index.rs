//! The wrapper hands the five files of an index and a term through, and the answer back.
//! The index is written here by hand: each tree has one node, the root, and one leaf.

use isis::{Answer, IfpPlace, Index, Refusal};

/// The bytes of five files: CNT, N01, L01, N02, L02.
type Files = [Vec<u8>; 5];

/// A term with the block and word of its postings.
type Posted<'a> = (&'a [u8], i32, i32);

/// A tree's part of CNT, its node and its leaf. The orders are 1 and 2, so that the node has
/// two entries and the leaf has four.
fn tree(kind: u8, width: usize, terms: &[Posted]) -> [Vec<u8>; 3] {
    let key = |term: &[u8]| [term, &vec![b' '; width - term.len()]].concat();
    let padded = |bytes: Vec<u8>, len: usize| [&bytes[..], &vec![0; len - bytes.len()]].concat();
    // IDTYPE, ORDN, ORDF, then N, K and LIV; POSRX.
    let control = [kind, 0, 1, 0, 2, 0, 15, 0, 5, 0, 0, 0, 1, 0, 0, 0];
    // POS, OCK, IT.
    let begin = |ock: usize| vec![1, 0, 0, 0, ock as u8, 0, kind, 0];
    let pointer = (-1i32).to_le_bytes();
    let node = [&begin(1)[..], &key(terms[0].0), &pointer].concat();
    let mut leaf = [&begin(terms.len())[..], &[0; 4]].concat();
    for (term, block, word) in terms {
        leaf.extend([&key(term)[..], &block.to_le_bytes(), &word.to_le_bytes()].concat());
    }
    [
        padded(control.into(), 26),
        padded(node, 8 + 2 * (width + 4)),
        padded(leaf, 12 + 4 * (width + 8)),
    ]
}

/// An index of a few terms; ten and eleven bytes are the longest of the first tree and the
/// shortest of the second.
fn files() -> Files {
    let short: [Posted; 3] = [
        (b"HEMINGWAYS", 7, 12),
        (b"KITE", i32::MIN, -1),
        (b"\xFF", 1, 0),
    ];
    let long: [Posted; 2] = [
        (b"AFGHANISTAN", -3, i32::MAX),
        (b"THIRTY BYTES ARE THE LONGEST.!", 2, 5),
    ];
    let [cnt, n01, l01] = tree(1, 10, &short);
    let [more, n02, l02] = tree(2, 30, &long);
    [[cnt, more].concat(), n01, l01, n02, l02]
}

fn index([cnt, n01, l01, n02, l02]: &Files) -> Index<'_> {
    Index {
        cnt,
        n01,
        l01,
        n02,
        l02,
    }
}

fn at(block: i32, word: i32) -> Answer<IfpPlace> {
    Ok(IfpPlace { block, word })
}

#[test]
fn a_term_that_is_there_gives_its_block_and_word() {
    let files = files();
    let index = index(&files);
    assert_eq!(index.check(), Ok(()));
    assert_eq!(index.lookup("HEMINGWAYS"), at(7, 12));
    assert_eq!(index.lookup("KITE"), at(i32::MIN, -1));
    assert_eq!(index.lookup(b"\xFF"), at(1, 0));
    assert_eq!(index.lookup(vec![0xFF]), at(1, 0));
    assert_eq!(index.lookup("AFGHANISTAN"), at(-3, i32::MAX));
    let longest = "THIRTY BYTES ARE THE LONGEST.!";
    assert_eq!(longest.len(), 30);
    assert_eq!(index.lookup(longest), at(2, 5));
}

#[test]
fn a_term_that_is_not_there_is_refused() {
    let files = files();
    for absent in [
        "A",
        "KIT",
        "KITES",
        "kite",
        "HEMINGWAY",
        "AFGHANISTANS",
        "ZZZZZZZZZZZ",
    ] {
        assert_eq!(
            index(&files).lookup(absent),
            Err(Refusal::NoTerm),
            "{absent}"
        );
    }
}

/// Also where the index is not right: the lowest refusal is given.
#[test]
fn what_is_no_term_is_refused() {
    let none = Files::default();
    for files in [files(), none] {
        for bad in [
            "",
            " ",
            "KITE ",
            &"X".repeat(31),
            &" ".repeat(30),
            &"X".repeat(1_000),
        ] {
            assert_eq!(index(&files).lookup(bad), Err(Refusal::BadTerm), "{bad:?}");
        }
    }
}

/// Each file is handed over in its own place: without it the lookups of its tree are
/// refused, and those of the other tree are not.
#[test]
fn terms_of_10_and_11_bytes_go_to_their_own_trees() {
    for (lost, of_short, of_long) in [
        (0, true, true),
        (1, true, false),
        (2, true, false),
        (3, false, true),
        (4, false, true),
    ] {
        let mut files = files();
        files[lost].pop();
        let index = index(&files);
        let wanted = |refused, place| {
            if refused {
                Err(Refusal::BadIndex)
            } else {
                place
            }
        };
        assert_eq!(
            index.lookup("HEMINGWAYS"),
            wanted(of_short, at(7, 12)),
            "{lost}"
        );
        let long = index.lookup("AFGHANISTAN");
        assert_eq!(long, wanted(of_long, at(-3, i32::MAX)), "{lost}");
        assert_eq!(index.check(), Err(Refusal::BadIndex), "{lost}");
    }
}

/// A fault off the way of a lookup is the check's to find.
#[test]
fn the_check_asks_more_than_a_lookup() {
    let mut files = files();
    // The successor of the leaf of the first tree.
    files[2][8] = 9;
    let index = index(&files);
    assert_eq!(index.lookup("KITE"), at(i32::MIN, -1));
    assert_eq!(index.check(), Err(Refusal::BadIndex));
}
