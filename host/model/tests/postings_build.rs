//! Built postings files, byte by byte beside such as are written by hand; and any file that is
//! built gives back its lists, whatever shape it has.

#[path = "common/postings.rs"]
mod hand;

use hand::Hand;
use model::postings::build::{Segment, in_turn};
use model::postings::{Ifp, Place, place, plain, postings, shuffled};
use model::random::Random;

/// A posting of an MFN as [`Hand::mfns`] puts it.
fn posting(mfn: u8) -> u64 {
    u64::from_be_bytes([0, 0, mfn, 0, 24, 1, 0, 1])
}

fn list(mfns: impl IntoIterator<Item = u8>) -> Vec<u64> {
    mfns.into_iter().map(posting).collect()
}

/// The bytes of a file, with 0x77 where nothing is said.
fn bytes(ifp: &Ifp) -> Vec<u8> {
    ifp.bytes(&mut |bytes| bytes.fill(0x77))
}

/// Every list is read back from where it begins.
fn holds(ifp: &Ifp, file: &[u8], lists: &[Vec<u64>]) {
    assert_eq!(ifp.starts().len(), lists.len());
    for (from, list) in ifp.starts().into_iter().zip(lists) {
        let mut out = vec![0; list.len()];
        assert_eq!(postings(file, from, &mut out), Ok(list.len()));
        assert_eq!(out, *list);
    }
}

/// A full load: the pointer to the next free place in words 0 and 1 of block 1, then a header
/// 0 0 TOTAL TOTAL TOTAL and its postings for each list.
#[test]
fn a_full_load_byte_by_byte() {
    let ifp = plain(&[list([1, 2]), list([]), list([3])]);
    let mut hand = Hand::new(1);
    hand.put(1, 0, &[1, 0, 0, 0, 23, 0, 0, 0]);
    hand.header(1, 2, [0, 0, 2, 2, 2]).mfns(1, 7, &[1, 2]);
    hand.header(1, 11, [0, 0, 0, 0, 0]);
    hand.header(1, 16, [0, 0, 1, 1, 1]).mfns(1, 21, &[3]);
    assert!(bytes(&ifp) == hand.0);
    let mut empty = Hand::new(1);
    empty.put(1, 0, &[1, 0, 0, 0, 2, 0, 0, 0]);
    assert!(bytes(&plain(&[])) == empty.0);
}

/// The postings of each list of a full load, where the lists begin, and the next free place.
type Load<'a> = (&'a [u8], &'a [(i32, i32)], (i32, i32));

/// The first list has words 2 to 6 for its header, and room for 60 postings from word 7 on.
#[test]
fn neither_a_header_nor_a_posting_is_split() {
    let loads: [Load; 7] = [
        // 60 fill block 1, and the 61st begins block 2.
        (&[60, 1], &[(1, 2), (2, 0)], (2, 7)),
        (&[61, 1], &[(1, 2), (2, 2)], (2, 9)),
        // A header at word 119 leaves word 126 over; none stands at 121.
        (&[56, 1], &[(1, 2), (1, 119)], (1, 126)),
        (&[57, 1], &[(1, 2), (2, 0)], (2, 7)),
        // One at word 120 ends the block with its posting.
        (&[27, 27, 2], &[(1, 2), (1, 61), (1, 120)], (2, 2)),
        // From word 66 on 30 postings end at word 125, and word 126 is left out.
        (&[27, 31, 1], &[(1, 2), (1, 61), (2, 2)], (2, 9)),
        (&[27, 94, 1], &[(1, 2), (1, 61), (3, 2)], (3, 9)),
    ];
    for (counts, starts, free) in loads {
        let lists: Vec<Vec<u64>> = counts.iter().map(|&count| list(0..count)).collect();
        let ifp = plain(&lists);
        let wanted: Vec<Place> = starts.iter().map(|&(b, w)| place(b, w)).collect();
        assert_eq!(ifp.starts(), wanted, "{counts:?}");
        assert_eq!(ifp.free, Some(place(free.0, free.1)), "{counts:?}");
        holds(&ifp, &bytes(&ifp), &lists);
    }
    let mut hand = Hand::new(2);
    let second: Vec<u8> = (0..31).collect();
    hand.put(1, 0, &[2, 0, 0, 0, 2, 0, 0, 0]);
    hand.header(1, 2, [0, 0, 27, 27, 27])
        .mfns(1, 7, &second[..27]);
    hand.header(1, 61, [0, 0, 31, 31, 31])
        .mfns(1, 66, &second[..30])
        .mfns(2, 0, &[30]);
    assert!(bytes(&plain(&[list(0..27), list(0..31)])) == hand.0);
}

/// Two lists that grew together, in segments of two postings.
#[test]
fn lists_in_turn_byte_by_byte() {
    let lists = [list([1, 2, 3]), list([4])];
    let ifp = in_turn(&lists, 2);
    let mut hand = Hand::new(1);
    hand.header(1, 0, [1, 16, 3, 2, 2]).mfns(1, 5, &[1, 2]);
    hand.header(1, 9, [1, 23, 1, 1, 1]).mfns(1, 14, &[4]);
    hand.header(1, 16, [0, 0, 3, 1, 1]).mfns(1, 21, &[3]);
    hand.header(1, 23, [0, 0, 1, 0, 0]);
    assert!(bytes(&ifp) == hand.0);
    holds(&ifp, &hand.0, &lists);
}

/// Segments out of order, room to spare in the first, a header at word 120, totals that say
/// nothing behind the first, and a file that ends with its last posting.
#[test]
fn segments_by_meaning_byte_by_byte() {
    let end = place(0, 0);
    let mut ifp = Ifp {
        segments: vec![
            Segment::full(place(1, 11), end, -5, list([3, 4])),
            Segment::full(place(1, 120), end, 99, list([5, 6])),
            Segment::full(place(2, 40), end, 6, list([1, 2])),
        ],
        lists: vec![vec![2, 0, 1]],
        free: None,
        cut: 512 - (4 + 4 * 49),
    };
    ifp.segments[2].capacity = 9;
    ifp.link();
    let mut hand = Hand::new(2);
    hand.header(2, 40, [1, 11, 6, 2, 9]).mfns(2, 45, &[1, 2]);
    hand.header(1, 11, [1, 120, -5, 2, 2]).mfns(1, 16, &[3, 4]);
    hand.header(1, 120, [0, 0, 99, 2, 2])
        .mfns(1, 125, &[5])
        .mfns(2, 0, &[6]);
    hand.0.truncate(512 + 4 + 4 * 49);
    assert!(bytes(&ifp) == hand.0);
    holds(&ifp, &hand.0, &[list(1..=6)]);
    // Whatever the numbers of a header say, they are written.
    ifp.segments[2].count = i32::MAX;
    ifp.segments[2].next = place(-1, i32::MIN);
    hand.header(2, 40, [-1, i32::MIN, 6, i32::MAX, 9]);
    assert!(bytes(&ifp) == hand.0);
}

/// Ascending postings by chance.
fn some(random: &mut Random) -> Vec<u64> {
    let mut list: Vec<u64> = (0..random.below(200)).map(|_| random.next()).collect();
    list.sort_unstable();
    list.dedup();
    list
}

/// Whether words are left out between two segments that stand in one block.
fn apart(two: &[Segment]) -> bool {
    let behind = two[0].at.word + 5 + 2 * two[0].capacity;
    two[0].at.block == two[1].at.block && behind < two[1].at.word
}

/// Whether word 126 is left out between two postings of a segment.
fn leaves_a_word(segment: &Segment) -> bool {
    segment.at.word % 2 == 1 && segment.count > (122 - segment.at.word) / 2
}

/// The shapes: lists out of order, empty segments, room to spare, headers at word 120, words
/// left out between segments and at the end of a block, a file that ends with its last posting.
#[test]
fn shuffled_files_take_every_shape_and_hold_their_lists() {
    let mut shapes = [0; 7];
    for seed in 1..=200 {
        let mut random = Random::new(seed);
        let lists: Vec<Vec<u64>> = (0..random.between(1, 5))
            .map(|_| some(&mut random))
            .collect();
        let ifp = shuffled(&lists, &mut random);
        let file = ifp.bytes(&mut |bytes| random.fill(bytes));
        holds(&ifp, &file, &lists);
        let turned = |list: &Vec<usize>| list.windows(2).any(|two| two[0] > two[1]);
        let segments = |has: fn(&Segment) -> bool| ifp.segments.iter().filter(|s| has(s)).count();
        for (count, here) in shapes.iter_mut().zip([
            ifp.lists.iter().filter(|list| turned(list)).count(),
            segments(|s| s.count == 0),
            segments(|s| s.capacity > s.count),
            segments(|s| s.at.word == 120),
            ifp.segments.windows(2).filter(|two| apart(two)).count(),
            segments(leaves_a_word),
            usize::from(!file.len().is_multiple_of(512)),
        ]) {
            *count += here;
        }
    }
    assert!(shapes.iter().all(|&count| count >= 20), "{shapes:?}");
}
