//! Lists of postings on files by hand: where words, headers and postings stand, which rule
//! each wrong number breaks, and what two lists have in common and joined.

#[path = "common/postings.rs"]
mod hand;

use hand::{Five, Hand};
use model::Refusal;
use model::postings::fault::{Broken, Why};
use model::postings::read::{Merge, postings};
use model::postings::{common as both, joined as either, place};

/// The bytes of a whole list: block 1, a header at word 2, two postings at words 7 and 9.
#[test]
fn a_list_byte_by_byte() {
    let mut file = vec![0x77; 48];
    file[..4].copy_from_slice(&[1, 0, 0, 0]);
    file[12..32].copy_from_slice(&[0, 0, 0, 0, 0, 0, 0, 0, 2, 0, 0, 0, 2, 0, 0, 0, 3, 0, 0, 0]);
    file[32..40].copy_from_slice(&[0, 0, 1, 0, 24, 1, 0, 2]);
    file[40..48].copy_from_slice(&[0, 1, 0, 0, 70, 2, 1, 0]);
    let mut out = [9; 3];
    assert_eq!(postings(&file, place(1, 2), &mut out), Ok(2));
    assert_eq!(out, [0x0000_0100_1801_0002, 0x0001_0000_4602_0100, 9]);
    let mut one = [9];
    assert_eq!(
        postings(&file, place(1, 2), &mut one),
        Err(Refusal::NoRoomInList)
    );
    assert_eq!(one, [9]);
    file.pop();
    assert_eq!(
        postings(&file, place(1, 2), &mut out),
        Err(Refusal::Postings)
    );
}

/// From word 1 on the postings stand at even words, so that word 126 is left out; from word 0
/// on they fill the block. The next block's first posting is at its word 0 either way.
#[test]
fn a_posting_is_never_split() {
    for (word, first) in [(0, 5), (1, 6)] {
        let mut hand = Hand::new(2);
        let here: Vec<u8> = (0..61 - word as u8).collect();
        hand.header(
            1,
            word,
            [0, 0, here.len() as i32 + 2, here.len() as i32 + 2, 100],
        );
        hand.mfns(1, first, &here).mfns(2, 0, &[100, 101]);
        let mut wanted: Vec<u64> = here.iter().map(|&mfn| mfn.into()).collect();
        wanted.extend([100, 101]);
        assert_eq!(hand.list(1, word as i32), Ok(wanted));
    }
}

/// Word 120 is the last for a header; its posting has words 125 and 126.
#[test]
fn headers_stand_at_words_0_to_120() {
    for word in 0..=126 {
        let mut hand = Hand::new(2);
        hand.header(1, word.min(122), [0, 0, 1, 1, 1]);
        if word <= 120 {
            hand.mfns(1, word + 5, &[7]);
        }
        let wanted = if word <= 120 {
            Ok(vec![7])
        } else {
            Err(Broken::HeaderOutside)
        };
        assert_eq!(hand.list(1, word as i32), wanted, "{word}");
    }
    let mut hand = Hand::new(1);
    hand.header(1, 0, [0, 0, 0, 0, 0]);
    for (block, word) in [
        (0, 0),
        (-1, 0),
        (1, -1),
        (2, 0),
        (1, 127),
        (i32::MAX, 0),
        (i32::MIN, i32::MIN),
    ] {
        assert_eq!(
            hand.list(block, word),
            Err(Broken::HeaderOutside),
            "{block}/{word}"
        );
    }
    assert_eq!(hand.list(1, 0), Ok(vec![]));
}

/// Three segments out of order: block 3, then block 1, then block 2 at word 120, whose second
/// posting is in block 3. Totals behind the first are not read.
fn three() -> Hand {
    let mut hand = Hand::new(3);
    hand.header(3, 40, [1, 11, 6, 2, 9]).mfns(3, 45, &[1, 2]);
    hand.header(1, 11, [2, 120, -5, 2, 2]).mfns(1, 16, &[3, 4]);
    hand.header(2, 120, [0, 0, 99, 2, 2])
        .mfns(2, 125, &[5])
        .mfns(3, 0, &[6]);
    hand
}

#[test]
fn segments_are_linked_out_of_order() {
    assert_eq!(three().list(3, 40), Ok(vec![1, 2, 3, 4, 5, 6]));
    assert_eq!(three().list(1, 11), Err(Broken::NegativeTotal));
    assert_eq!(three().list(2, 120), Err(Broken::Total));
}

/// One number of the first header, or of the second, is made another.
#[test]
fn each_rule_by_a_number_of_a_header() {
    use Broken::*;
    let first: [(Five, Broken); 13] = [
        ([0, 11, 6, 2, 9], HeaderOutside),
        ([0, -1, 6, 2, 9], HeaderOutside),
        ([1, -1, 6, 2, 9], HeaderOutside),
        ([1, 121, 6, 2, 9], HeaderOutside),
        ([4, 11, 6, 2, 9], HeaderOutside),
        ([-1, 11, 6, 2, 9], HeaderOutside),
        ([3, 40, 6, 2, 9], SegmentTwice),
        ([1, 11, -1, 2, 9], NegativeTotal),
        ([1, 11, 5, 2, 9], Total),
        ([1, 11, 7, 2, 9], Total),
        ([1, 11, 6, -1, 9], NegativeCount),
        ([1, 11, 6, 0, -1], NegativeCapacity),
        ([1, 11, 6, 2, 1], PastCapacity),
    ];
    for (numbers, broken) in first {
        let mut hand = three();
        hand.header(3, 40, numbers);
        assert_eq!(hand.list(3, 40), Err(broken), "{numbers:?}");
    }
    for (numbers, broken) in [
        ([3, 40, 0, 2, 2], SegmentTwice),
        ([1, 11, 0, 2, 2], SegmentTwice),
        ([0, 0, 0, 2, 2], Total),
        ([2, 120, 0, 1, 2], Total),
        ([2, 120, 0, 3, 2], PastCapacity),
        ([2, 120, 0, i32::MIN, 2], NegativeCount),
    ] {
        let mut hand = three();
        hand.header(1, 11, numbers);
        assert_eq!(hand.list(3, 40), Err(broken), "{numbers:?}");
    }
    let mut hand = three();
    hand.header(3, 40, [1, 11, 4, 0, 0]);
    assert_eq!(hand.list(3, 40), Ok(vec![3, 4, 5, 6]));
}

/// Equal and falling, inside a segment and from one to the next.
#[test]
fn postings_ascend_over_the_whole_list() {
    for (block, word, mfn) in [
        (3, 47, 1),
        (3, 47, 0),
        (1, 16, 2),
        (1, 16, 1),
        (3, 0, 5),
        (2, 125, 4),
    ] {
        let mut hand = three();
        hand.mfns(block, word, &[mfn]);
        assert_eq!(
            hand.list(3, 40),
            Err(Broken::NotAscending),
            "{block}/{word} {mfn}"
        );
    }
    // PCNT alone decides.
    for (sequence, wanted) in [
        (0, Err(Broken::NotAscending)),
        (1, Err(Broken::NotAscending)),
        (2, Ok(())),
    ] {
        let mut hand = three();
        hand.put(1, 16, &[0, 0, 2, 0, 24, 1, 0, sequence]);
        assert_eq!(hand.list(3, 40).map(drop), wanted, "{sequence}");
    }
}

/// Only what is counted must be there; a capacity may run past the file.
#[test]
fn what_is_counted_is_in_the_file() {
    let end = 2 * 512 + 4 + 4 * 49;
    let mut hand = three();
    hand.header(3, 40, [1, 11, 6, 2, i32::MAX]);
    hand.0.truncate(end);
    assert_eq!(hand.list(3, 40), Ok(vec![1, 2, 3, 4, 5, 6]));
    hand.header(3, 40, [1, 11, 6, 3, 3]);
    assert_eq!(hand.list(3, 40), Err(Broken::PostingOutside));
    hand.header(3, 40, [1, 11, 6, i32::MAX, i32::MAX]);
    assert_eq!(hand.list(3, 40), Err(Broken::PostingOutside));
    let mut hand = three();
    for len in (0..end).rev() {
        hand.0.truncate(len);
        let header = 2 * 512 + 4 + 4 * 45;
        let wanted = if len < header {
            Broken::HeaderOutside
        } else {
            Broken::PostingOutside
        };
        assert_eq!(hand.list(3, 40), Err(wanted), "{len}");
    }
}

/// A tail that runs into a ring, and rings of segments without postings.
#[test]
fn rings() {
    let mut hand = Hand::new(1);
    hand.header(1, 0, [1, 5, 0, 0, 0]);
    hand.header(1, 5, [1, 10, 0, 0, 0]);
    hand.header(1, 10, [1, 5, 0, 0, 0]);
    for word in [0, 5, 10] {
        assert_eq!(hand.list(1, word), Err(Broken::SegmentTwice));
    }
    hand.header(1, 10, [0, 0, 0, 0, 0]);
    for word in [0, 5, 10] {
        assert_eq!(hand.list(1, word), Ok(vec![]));
    }
}

/// Two lists with MFNs more than once in each: 1 1 2 4 and 2 3 3 4 4.
fn two() -> Hand {
    let mut hand = Hand::new(1);
    hand.header(1, 0, [0, 0, 4, 4, 4]);
    hand.header(1, 20, [0, 0, 5, 5, 5]);
    for (word, mfn, tag) in [
        (5, 1, 24),
        (7, 1, 70),
        (9, 2, 24),
        (11, 4, 24),
        (25, 2, 24),
        (27, 3, 24),
        (29, 3, 25),
        (31, 4, 1),
        (33, 4, 2),
    ] {
        hand.put(1, word, &[0, 0, mfn, 0, tag, 1, 0, 1]);
    }
    hand
}

#[test]
fn common_and_joined_mfns_come_once() {
    let hand = two();
    for from in [[(1, 0), (1, 20)], [(1, 20), (1, 0)]] {
        assert_eq!(hand.merged(Merge::Common, from, 2), Ok(vec![2, 4]));
        assert_eq!(hand.merged(Merge::Joined, from, 4), Ok(vec![1, 2, 3, 4]));
        assert_eq!(hand.merged(Merge::Common, from, 1), Err(Why::NoRoom));
        assert_eq!(hand.merged(Merge::Joined, from, 3), Err(Why::NoRoom));
    }
    for merge in [Merge::Common, Merge::Joined] {
        assert_eq!(hand.merged(merge, [(1, 0); 2], 3), Ok(vec![1, 2, 4]));
    }
    let (mut mfns, places) = ([9; 3], [place(1, 0), place(1, 20)]);
    assert_eq!(both(&hand.0, places, &mut mfns), Ok(2));
    assert_eq!(mfns, [2, 4, 9]);
    assert_eq!(
        either(&hand.0, places, &mut mfns),
        Err(Refusal::NoRoomInList)
    );
    assert_eq!(mfns, [2, 4, 9]);
}

/// Both lists are read whole before 17 is given.
#[test]
fn a_broken_rule_of_either_list_comes_before_no_room() {
    for (word, numbers) in [(0, [0, 0, 3, 4, 4]), (20, [0, 0, 6, 5, 5])] {
        let mut hand = two();
        hand.header(1, word, numbers);
        for merge in [Merge::Common, Merge::Joined] {
            for room in [0, 9] {
                let merged = hand.merged(merge, [(1, 0), (1, 20)], room);
                assert_eq!(merged, Err(Broken::Total.into()));
            }
        }
        let mut out = [];
        let from = place(1, word as i32);
        assert_eq!(postings(&hand.0, from, &mut out), Err(Refusal::Postings));
    }
}
