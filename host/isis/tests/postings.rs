//! The wrapper hands a postings file and places in it through, and lists back: as an iterator,
//! as MFNs, or into a list that is lent. The file is written here by hand.

use isis::{IfpPlace, Posting, Refusal};
use std::collections::HashSet;

/// PMFN, PTAG, POCC and PCNT.
type Four = (u32, u16, u8, u16);

/// Words 0 to 126 of a block begin behind its number.
fn put(file: &mut [u8], at: IfpPlace, bytes: &[u8]) {
    let begin = (at.block as usize - 1) * 512 + 4 + 4 * at.word as usize;
    file[begin..begin + bytes.len()].copy_from_slice(bytes);
}

const fn place(block: i32, word: i32) -> IfpPlace {
    IfpPlace { block, word }
}

/// Where the lists begin.
const KITE: IfpPlace = place(1, 2);
const WIND: IfpPlace = place(1, 60);
const LAST: IfpPlace = place(1, 120);
const NONE: IfpPlace = place(1, 80);

/// KITE is in records 1, 2 and 4, by two segments, of which the second stands at word 40 and
/// has room to spare. WIND is in 2, twice, and 3. LAST is in 5 and 6, of which the second
/// posting stands in block 2. NONE is in no record.
fn file() -> Vec<u8> {
    let mut file = vec![0x77; 1_024];
    for (at, numbers) in [
        (KITE, [1, 40, 3, 2, 2]),
        (place(1, 40), [0, 0, 0, 1, 5]),
        (WIND, [0, 0, 3, 3, 3]),
        (LAST, [0, 0, 2, 2, 2]),
        (NONE, [0, 0, 0, 0, 0]),
    ] {
        header(&mut file, at, numbers);
    }
    for (at, bytes) in [
        (place(1, 7), [0, 0, 1, 0, 24, 1, 0, 2]),
        (place(1, 9), [0, 0, 2, 0, 24, 1, 0, 1]),
        (place(1, 45), [0, 0, 4, 0, 70, 2, 1, 44]),
        (place(1, 65), [0, 0, 2, 0, 24, 1, 0, 3]),
        (place(1, 67), [0, 0, 2, 0, 70, 1, 0, 1]),
        (place(1, 69), [0, 0, 3, 0, 24, 1, 0, 1]),
        (place(1, 125), [0, 0, 5, 0, 24, 1, 0, 1]),
        (place(2, 0), [0, 0, 6, 0, 24, 1, 0, 1]),
    ] {
        put(&mut file, at, &bytes);
    }
    file
}

/// Puts a header: the next place, the total, the count and the capacity.
fn header(file: &mut [u8], at: IfpPlace, numbers: [i32; 5]) {
    put(file, at, numbers.map(i32::to_le_bytes).as_flattened());
}

fn four(posting: Posting) -> Four {
    let (mfn, tag) = (posting.mfn(), posting.tag());
    (mfn, tag, posting.occurrence(), posting.sequence())
}

#[test]
fn the_postings_of_a_list_come_in_stored_order() {
    let file = file();
    let ifp = isis::Ifp::over(&file);
    let list = |from| ifp.postings(from).unwrap().map(four).collect::<Vec<Four>>();
    let kite = [(1, 24, 1, 2), (2, 24, 1, 1), (4, 70, 2, 300)];
    assert_eq!(list(KITE), kite);
    assert_eq!(list(WIND), [(2, 24, 1, 3), (2, 70, 1, 1), (3, 24, 1, 1)]);
    assert_eq!(list(LAST), [(5, 24, 1, 1), (6, 24, 1, 1)]);
    assert_eq!(list(NONE), []);
}

/// The iterator knows how many are left, and goes both ways.
#[test]
fn postings_are_counted_and_turned() {
    let file = file();
    let mut postings = isis::Ifp::over(&file).postings(KITE).unwrap();
    let mfns = |postings: isis::Postings| postings.map(Posting::mfn).collect::<Vec<u32>>();
    assert_eq!((postings.len(), postings.size_hint()), (3, (3, Some(3))));
    assert_eq!(mfns(postings.clone()), [1, 2, 4]);
    assert_eq!(postings.next().map(Posting::mfn), Some(1));
    assert_eq!(postings.next_back().map(Posting::mfn), Some(4));
    assert_eq!(postings.len(), 1);
    assert_eq!(mfns(postings.clone()), [2]);
    assert_eq!(postings.by_ref().count(), 1);
    assert_eq!((postings.next(), postings.next_back()), (None, None));
    assert_eq!(postings.len(), 0);
}

#[test]
fn common_and_joined_mfns_ascend_and_come_once() {
    let file = file();
    let ifp = isis::Ifp::over(&file);
    for (a, b) in [(KITE, WIND), (WIND, KITE)] {
        assert_eq!(ifp.common(a, b), Ok(vec![2]));
        assert_eq!(ifp.joined(a, b), Ok(vec![1, 2, 3, 4]));
    }
    assert_eq!(ifp.common(WIND, LAST), Ok(vec![]));
    assert_eq!(ifp.joined(LAST, WIND), Ok(vec![2, 3, 5, 6]));
    assert_eq!(ifp.common(WIND, WIND), Ok(vec![2, 3]));
    assert_eq!(ifp.joined(WIND, WIND), Ok(vec![2, 3]));
    assert_eq!(ifp.common(NONE, KITE), Ok(vec![]));
    assert_eq!(ifp.joined(NONE, KITE), Ok(vec![1, 2, 4]));
    assert_eq!(ifp.joined(NONE, NONE), Ok(vec![]));
}

/// A list that is lent gets what there is and keeps the rest; where it has one element too
/// few it is not touched.
#[test]
fn lists_that_are_lent() {
    let file = file();
    let ifp = isis::Ifp::over(&file);
    let wanted = [0x0100_1801_0002, 0x0200_1801_0001, 0x0400_4602_012C];
    let mut list = [9; 5];
    assert_eq!(ifp.postings_into(KITE, &mut list), Ok(3));
    assert_eq!(list, *[&wanted[..], &[9, 9]].concat());
    let mut list = [9; 3];
    assert_eq!(ifp.postings_into(KITE, &mut list), Ok(3));
    assert_eq!(list, wanted);
    let mut list = [9; 2];
    let short = ifp.postings_into(KITE, &mut list);
    assert_eq!((short, list), (Err(Refusal::NoRoomInList), [9; 2]));

    let mut mfns = [9; 6];
    assert_eq!(ifp.common_into(KITE, WIND, &mut mfns), Ok(1));
    assert_eq!(mfns, [2, 9, 9, 9, 9, 9]);
    assert_eq!(ifp.joined_into(KITE, WIND, &mut mfns), Ok(4));
    assert_eq!(mfns, [1, 2, 3, 4, 9, 9]);
    assert_eq!(ifp.joined_into(LAST, NONE, &mut mfns[..2]), Ok(2));
    assert_eq!(mfns, [5, 6, 3, 4, 9, 9]);
    for short in [
        ifp.common_into(KITE, WIND, &mut mfns[..0]),
        ifp.joined_into(KITE, WIND, &mut mfns[..3]),
    ] {
        assert_eq!(short, Err(Refusal::NoRoomInList));
    }
    assert_eq!(mfns, [5, 6, 3, 4, 9, 9]);
    assert_eq!(ifp.postings_into(NONE, &mut []), Ok(0));
    assert_eq!(ifp.common_into(WIND, LAST, &mut []), Ok(0));
}

/// Every call refuses the list of KITE, beside the list of WIND too, and before it asks for
/// room; the other lists are given.
fn refuses_kite(file: &[u8], what: &str) {
    let ifp = isis::Ifp::over(file);
    let (bad, mut list, mut mfns) = (Refusal::BadPostings, [9; 8], [9; 8]);
    assert_eq!(ifp.postings(KITE).err(), Some(bad), "{what}");
    for room in [0, 8] {
        let answer = ifp.postings_into(KITE, &mut list[..room]);
        assert_eq!(answer, Err(bad), "{what}");
    }
    for (a, b) in [(KITE, WIND), (WIND, KITE), (KITE, KITE)] {
        assert_eq!(ifp.common(a, b), Err(bad), "{what}");
        assert_eq!(ifp.joined(a, b), Err(bad), "{what}");
        for room in [0, 8] {
            let lent = &mut mfns[..room];
            assert_eq!(ifp.common_into(a, b, lent), Err(bad), "{what}");
            assert_eq!(ifp.joined_into(a, b, lent), Err(bad), "{what}");
        }
    }
    assert_eq!((list, mfns), ([9; 8], [9; 8]), "{what}");
    assert_eq!(ifp.joined(WIND, LAST), Ok(vec![2, 3, 5, 6]), "{what}");
}

/// A number of each kind in the first header, and a posting that is not above the one before.
/// A total of 2,147,483,647 does not ask for so much memory.
#[test]
fn a_list_that_is_not_right_is_refused() {
    for numbers in [
        [1, 40, 4, 2, 2],
        [1, 40, -1, 2, 2],
        [1, 40, i32::MAX, 2, 2],
        [1, 40, 3, -1, 2],
        [1, 40, 3, 3, 2],
        [1, 40, 3, 2, -1],
        [1, 40, 3, i32::MAX, i32::MAX],
        [0, 0, 3, 2, 2],
        [0, 40, 3, 2, 2],
        [1, 2, 3, 2, 2],
        [1, 121, 3, 2, 2],
        [3, 0, 3, 2, 2],
    ] {
        let mut file = file();
        header(&mut file, KITE, numbers);
        refuses_kite(&file, &format!("{numbers:?}"));
    }
    for bytes in [[0, 0, 1, 0, 24, 1, 0, 2], [0, 0, 1, 0, 24, 1, 0, 1]] {
        let mut file = file();
        put(&mut file, place(1, 9), &bytes);
        refuses_kite(&file, &format!("{bytes:?}"));
    }
}

/// Places that no list can begin at; a file that ends before one does.
#[test]
fn places_outside_the_file_are_refused() {
    let file = file();
    let bad = Some(Refusal::BadPostings);
    for (block, word) in [
        (0, 0),
        (0, 2),
        (-1, 2),
        (1, -1),
        (1, 121),
        (1, 127),
        (3, 0),
        (i32::MAX, i32::MAX),
        (i32::MIN, i32::MIN),
    ] {
        let from = place(block, word);
        for bytes in [&file[..], &[]] {
            let ifp = isis::Ifp::over(bytes);
            assert_eq!(ifp.postings(from).err(), bad, "{from:?}");
            assert_eq!(ifp.common(from, KITE).err(), bad, "{from:?}");
            assert_eq!(ifp.joined(KITE, from).err(), bad, "{from:?}");
        }
    }
    let mfns = |len: usize| isis::Ifp::over(&file[..len]).joined(LAST, LAST);
    assert_eq!(mfns(524), Ok(vec![5, 6]));
    assert_eq!(mfns(523), Err(Refusal::BadPostings));
    assert_eq!(mfns(0), Err(Refusal::BadPostings));
}

/// Four numbers are eight bytes, most significant first, and a number of 64 bits.
#[test]
fn a_posting_is_read_and_written() {
    let posting = Posting::new(0x01_0203, 0x0405, 6, 0x0708).unwrap();
    assert_eq!(posting.to_bytes(), [1, 2, 3, 4, 5, 6, 7, 8]);
    assert_eq!(posting.bits(), 0x0102_0304_0506_0708);
    assert_eq!(Posting::from(0x0102_0304_0506_0708), posting);
    assert_eq!(four(posting), (66_051, 1_029, 6, 1_800));
    assert_eq!(format!("{posting:?}"), "Posting(66051/1029/6/1800)");
    let bytes = [1, 2, 3, 4, 5, 6, 7, 8, 9];
    assert_eq!(Posting::read(&bytes), Ok(posting));
    for len in 0..8 {
        let read = Posting::read(&bytes[..len]);
        assert_eq!(read, Err(Refusal::BadPostings), "{len}");
    }
    let widest = Posting::new(16_777_215, 65_535, 255, 65_535).unwrap();
    assert_eq!(widest.to_bytes(), [0xFF; 8]);
    assert_eq!(four(widest), (16_777_215, 65_535, 255, 65_535));
    for number in 0..4 {
        let mut numbers = [16_777_215, 65_535, 255, 65_535];
        numbers[number] += 1;
        let [mfn, tag, occurrence, sequence] = numbers;
        let wide = Posting::new(mfn, tag, occurrence, sequence);
        assert_eq!(wide, Err(Refusal::BadPostings), "{numbers:?}");
    }
}

/// Postings sort by record, field, occurrence and number, each as a number without a sign.
#[test]
fn postings_are_ordered() {
    let ascending = [
        [0; 8],
        [0, 0, 0, 0, 0, 0, 0xFF, 0xFF],
        [0, 0, 0, 0, 0, 1, 0, 0],
        [0, 0, 0, 0, 0, 0xFF, 0, 9],
        [0, 0, 0, 0, 1, 0, 0, 0],
        [0, 0, 0, 0xFF, 0xFF, 2, 0, 2],
        [0, 0, 1, 0, 0, 0, 0, 0],
        [0, 0, 1, 0, 24, 1, 0, 1],
        [0, 0, 1, 0, 24, 1, 0, 2],
        [0xFF; 8],
    ]
    .map(|bytes| Posting::read(&bytes).unwrap());
    for (a, one) in ascending.iter().enumerate() {
        for (b, other) in ascending.iter().enumerate() {
            assert_eq!(one.cmp(other), a.cmp(&b), "{one:?} {other:?}");
            assert_eq!(one.partial_cmp(other), Some(a.cmp(&b)));
            assert_eq!(one == other, a == b);
        }
    }
    let mut turned: Vec<Posting> = ascending.into_iter().rev().collect();
    turned.sort();
    assert_eq!(turned, ascending);
    assert_eq!(HashSet::from(ascending).len(), 10);
}
