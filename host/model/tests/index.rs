//! Lookups, on indexes laid out by hand: the layout, terms, the way down and the key that is
//! found.

#[path = "common/index.rs"]
mod index;

use index::*;
use model::index::Files;
use model::index::fault::Broken::{Idtype, NodeKeys};
use model::index::fault::Why::{self, *};

/// Bytes from their hexadecimal digits.
fn hex(text: &str) -> Vec<u8> {
    let digits: Vec<u32> = text.chars().filter_map(|c| c.to_digit(16)).collect();
    let pairs = digits.chunks(2);
    pairs.map(|two| (two[0] * 16 + two[1]) as u8).collect()
}

/// An active entry with its key and numbers, and one that is all 0.
fn two_entries(key: &str, width: usize, numbers: &str) -> String {
    let spaces = "20".repeat(width - key.len() / 2);
    let inactive = "00".repeat(width + numbers.len() / 2);
    format!("{key}{spaces}{numbers}{inactive}")
}

/// The layout, every byte of it: orders 1 and 1, one term in each tree.
#[test]
fn the_bytes_of_the_smallest_index() {
    let (kite, kites) = ("4B495445", "486967684C616E64204B69746573");
    let files = Files {
        // IDTYPE, ORDN, ORDF, N, K, LIV, POSRX, NMAXPOS, FMAXPOS, ABNORMAL.
        cnt: hex(concat!(
            "0100 0100 0100 0F00 0500 0100 01000000 02000000 02000000 0000",
            "0200 0100 0100 0F00 0500 0100 01000000 02000000 02000000 0000"
        )),
        // POS, OCK, IT; KEY, PUNT.
        n01: hex(&format!(
            "01000000 0100 0100 {}",
            two_entries(kite, 10, "FFFFFFFF")
        )),
        n02: hex(&format!(
            "01000000 0100 0200 {}",
            two_entries(kites, 30, "FFFFFFFF")
        )),
        // POS, OCK, IT, PS; KEY, INFO[1], INFO[2].
        l01: hex(&format!(
            "01000000 0100 0100 00000000 {}",
            two_entries(kite, 10, "02010000FEFFFFFF")
        )),
        l02: hex(&format!(
            "01000000 0100 0200 00000000 {}",
            two_entries(kites, 30, "0700000008000000")
        )),
    };
    let lengths = files.all().map(<[u8]>::len);
    assert_eq!(lengths, [52, 36, 48, 76, 88]);
    assert_eq!(look(&files, b"KITE"), Ok((258, -2)));
    assert_eq!(look(&files, b"HighLand Kites"), Ok((7, 8)));
    assert_eq!(checked(&files), Ok(()));
}

#[test]
fn the_terms_of_the_small_index() {
    let files = small();
    assert_eq!(look(&files, b"ALPHA"), Ok((1, 2)));
    assert_eq!(look(&files, b"BETA"), Ok((3, 4)));
    assert_eq!(look(&files, b"KITE"), Ok((5, 6)));
    assert_eq!(look(&files, b"HIGHLAND KITES"), Ok((7, 8)));
    for absent in [
        &b"ALPH"[..],
        b"ALPHAS",
        b"BET",
        b"KIT",
        b"KITES",
        b"Z",
        b"kite",
    ] {
        let below = absent == b"ALPH";
        assert_eq!(
            look(&files, absent),
            Err(if below { Below } else { Absent })
        );
    }
    assert_eq!(look(&files, b"HIGHLAND KITE"), Err(Below));
    assert_eq!(look(&files, b"HIGHLAND KITES!"), Err(Absent));
}

#[test]
fn bad_terms_are_20_before_anything_is_read() {
    let bad = [
        &b""[..],
        b" ",
        b"KITE ",
        b"          ",
        &[b'x'; 31],
        &[b'x'; 300],
    ];
    for files in [small(), Files::default()] {
        for term in bad {
            assert_eq!(look(&files, term), Err(BadTerm), "{term:?}");
        }
    }
    let thirty_and_a_space = [&[b'x'; 30][..], b" "].concat();
    assert_eq!(look(&small(), &thirty_and_a_space), Err(BadTerm));
}

/// Terms at the edges of their lengths, with spaces before and within, and with bytes that
/// come before and after all letters.
#[test]
fn terms_of_every_length_and_byte() {
    let terms: [&[u8]; 8] = [
        b"\x00",
        b" X",
        b"A\x1F",
        b"A",
        b"A  B",
        b"ABCDEFGHIJ",
        b"\x80",
        b"\xFF\xFF\xFF\xFF\xFF\xFF\xFF\xFF\xFF\xFF",
    ];
    let entries: Vec<(&[u8], i32, i32)> = (1..).zip(terms).map(|(n, t)| (t, n, -n)).collect();
    let long: [&[u8]; 3] = [b" BCDEFGHIJK", b"ABCDEFGHIJK", &[0xFF; 30]];
    let long: Vec<(&[u8], i32, i32)> = (1..).zip(long).map(|(n, t)| (t, n, -n)).collect();
    let files = Files {
        cnt: [part(1, 1, 4, 1), part(2, 1, 2, 1)].concat(),
        n01: node(1, 1, 1, &[(terms[0], -1)]),
        l01: leaf(1, 4, 1, 0, &entries),
        n02: node(2, 1, 1, &[(long[0].0, -1)]),
        l02: leaf(2, 2, 1, 0, &long),
    };
    assert_eq!(checked(&files), Ok(()));
    for (term, block, word) in entries.iter().chain(&long) {
        assert_eq!(look(&files, term), Ok((*block, *word)), "{term:?}");
    }
    for absent in [&b"X"[..], b"A B", b"\x7F", b"ABCDEFGHIJL", b"BCDEFGHIJK"] {
        assert_eq!(look(&files, absent), Err(Absent), "{absent:?}");
    }
}

#[test]
fn ten_bytes_are_looked_up_in_the_first_tree_and_eleven_in_the_second() {
    let mut files = small();
    files.cnt[..26].fill(0);
    assert_eq!(look(&files, b"ABCDEFGHIJ"), Err(Broken(Idtype)));
    assert_eq!(look(&files, b"HIGHLAND KITES"), Ok((7, 8)));
    assert_eq!(look(&files, b"ABCDEFGHIJK"), Err(Below));
    let mut files = small();
    files.cnt[26..].fill(0);
    assert_eq!(look(&files, b"ABCDEFGHIJ"), Err(Below));
    assert_eq!(look(&files, b"KITE"), Ok((5, 6)));
    assert_eq!(look(&files, b"ABCDEFGHIJK"), Err(Broken(Idtype)));
}

/// "Last" and "first" go by position: an unchecked node may be unsorted, and a leaf may
/// have a key twice.
#[test]
fn the_last_key_not_above_and_the_first_equal_one() {
    let pointers: [(&[u8], i32); 4] = [(b"M", -1), (b"C", -2), (b"X", -3), (b"A", -4)];
    let of = |n: i32| {
        leaf(
            1,
            2,
            n,
            0,
            &[(b"N", n, 1), (b"Y", n, 2), (b"Y", n, 3), (b"A", n, 4)],
        )
    };
    let files = with_first(
        (2, 2),
        1,
        &[node(1, 2, 1, &pointers)],
        &[of(1), of(2), of(3), of(4)],
    );
    assert_eq!(look(&files, b"N"), Ok((4, 1)), "A is the last not above N");
    assert_eq!(look(&files, b"Y"), Ok((4, 2)));
    assert_eq!(
        look(&files, b"A"),
        Ok((4, 4)),
        "a leaf's order is not asked"
    );
    assert_eq!(look(&files, b"9"), Err(Below));
    assert_eq!(checked(&files), Err(NodeKeys));
}

#[test]
fn keys_compare_as_unsigned_bytes() {
    let pointers: [(&[u8], i32); 3] = [(b"\x20A", -1), (b"\x7F", -2), (b"\x80", -3)];
    let leaves = [
        leaf(1, 2, 1, 2, &[(b"\x20A", 1, 1)]),
        leaf(1, 2, 2, 3, &[(b"\x7F", 2, 1)]),
        leaf(
            1,
            2,
            3,
            0,
            &[(b"\x80", 3, 1), (b"\xFE", 3, 2), (b"\xFF", 3, 3)],
        ),
    ];
    let files = with_first((2, 2), 1, &[node(1, 2, 1, &pointers)], &leaves);
    assert_eq!(checked(&files), Ok(()));
    for (term, found) in [
        (&b"\x20A"[..], Ok((1, 1))),
        (b"\x7F", Ok((2, 1))),
        (b"\x80", Ok((3, 1))),
        (b"\xFE", Ok((3, 2))),
        (b"\xFF", Ok((3, 3))),
        (b"\x81", Err(Absent)),
        (b"\x1F", Err(Why::Below)),
    ] {
        assert_eq!(look(&files, term), found, "{term:?}");
    }
}

/// In a record met every rule of 21 is asked before 22 is given for it.
#[test]
fn a_record_is_right_before_a_term_is_absent() {
    for (at, value) in [(POS, 9), (OCK, 0), (IT, 3), (OCK, 3)] {
        let mut files = small();
        put16(&mut files.n01, at, value);
        assert!(matches!(look(&files, b"A"), Err(Broken(_))), "below all");
        let mut files = small();
        put16(&mut files.l01, at, value);
        assert!(matches!(look(&files, b"ALPHAS"), Err(Broken(_))), "absent");
    }
    let mut files = small();
    put32(&mut files.l01, PS, -77);
    assert_eq!(
        look(&files, b"BETA"),
        Ok((3, 4)),
        "a lookup asks no successor"
    );
}
