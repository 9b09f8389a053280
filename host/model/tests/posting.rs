//! A posting on bytes by hand: its four numbers have 24, 16, 8 and 16 bits, so they take three,
//! two, one and two of eight bytes, most significant first, and postings stand in the order of
//! their bytes.

use model::Refusal;
use model::postings::Posting;
use model::postings::posting::{compare, read, write};

/// PMFN, PTAG, POCC and PCNT.
type Four = [u32; 4];

fn of([mfn, tag, occurrence, sequence]: Four) -> Posting {
    Posting::of(mfn, tag, occurrence, sequence)
}

/// The widest numbers.
const WIDEST: Four = [16_777_215, 65_535, 255, 65_535];

/// Eight bytes and their numbers, ascending: the lowest and the highest bit of each number, the
/// second term of a title, eight bytes that differ, and the widest.
const BY_HAND: [([u8; 8], Four); 12] = [
    ([0, 0, 0, 0, 0, 0, 0, 0], [0, 0, 0, 0]),
    ([0, 0, 0, 0, 0, 0, 0, 1], [0, 0, 0, 1]),
    ([0, 0, 0, 0, 0, 0, 0x80, 0], [0, 0, 0, 32_768]),
    ([0, 0, 0, 0, 0, 1, 0, 0], [0, 0, 1, 0]),
    ([0, 0, 0, 0, 0, 0x80, 0, 0], [0, 0, 128, 0]),
    ([0, 0, 0, 0, 1, 0, 0, 0], [0, 1, 0, 0]),
    ([0, 0, 0, 0x80, 0, 0, 0, 0], [0, 32_768, 0, 0]),
    ([0, 0, 1, 0, 0, 0, 0, 0], [1, 0, 0, 0]),
    ([0, 0, 1, 0, 24, 1, 0, 2], [1, 24, 1, 2]),
    ([1, 2, 3, 4, 5, 6, 7, 8], [66_051, 1_029, 6, 1_800]),
    ([0x80, 0, 0, 0, 0, 0, 0, 0], [8_388_608, 0, 0, 0]),
    ([0xFF; 8], WIDEST),
];

#[test]
fn eight_bytes_are_four_numbers_and_back() {
    for (bytes, numbers) in BY_HAND {
        let posting = of(numbers);
        assert_eq!(read(&bytes), Ok(posting));
        assert_eq!(posting.bytes(), Some(bytes));
        let mut out = [9; 10];
        assert_eq!(write(posting, &mut out), Ok(()));
        assert_eq!(out, *[&bytes[..], &[9, 9]].concat());
    }
    let posting = of([1, 24, 1, 2]);
    assert_eq!(posting.bits(), 0x0000_0100_1801_0002);
    assert_eq!(Posting::of_bits(0x0000_0100_1801_0002), posting);
}

/// What stands behind eight bytes is not read; fewer are 23 to read and 17 to write into.
#[test]
fn fewer_than_eight_bytes_are_none() {
    let bytes = [0, 0, 1, 0, 24, 1, 0, 2, 0xFF];
    assert_eq!(read(&bytes), Ok(of([1, 24, 1, 2])));
    for len in 0..8 {
        assert_eq!(read(&bytes[..len]), Err(Refusal::Postings), "{len}");
        let mut out = vec![9; len];
        let written = write(of([1, 24, 1, 2]), &mut out);
        assert_eq!(written, Err(Refusal::NoRoomInList), "{len}");
        assert_eq!(out, vec![9; len]);
    }
}

/// One more than the widest of any of the four is 23, whatever the room.
#[test]
fn a_number_too_wide_is_refused() {
    assert_eq!(of(WIDEST).bytes(), Some([0xFF; 8]));
    for number in 0..4 {
        for wide in [WIDEST[number] + 1, u32::MAX] {
            for others in [[0; 4], WIDEST] {
                let mut numbers = others;
                numbers[number] = wide;
                assert_eq!(of(numbers).bytes(), None, "{numbers:?}");
                for room in [0, 7, 8, 9] {
                    let mut out = vec![9; room];
                    let written = write(of(numbers), &mut out);
                    assert_eq!(written, Err(Refusal::Postings), "{numbers:?}");
                    assert_eq!(out, vec![9; room]);
                }
            }
        }
    }
}

/// The list above ascends; the order is that of the bytes, as the manual has it.
#[test]
fn postings_are_compared_as_their_bytes() {
    for (a, (bytes_a, four_a)) in BY_HAND.iter().enumerate() {
        for (b, (bytes_b, four_b)) in BY_HAND.iter().enumerate() {
            assert_eq!(bytes_a.cmp(bytes_b), a.cmp(&b));
            let [a_bits, b_bits] = [bytes_a, bytes_b].map(|bytes| u64::from_be_bytes(*bytes));
            let wanted = (1 + (a as i32 - b as i32).signum()) as u32;
            assert_eq!(compare(a_bits, b_bits), wanted, "{four_a:?} {four_b:?}");
        }
    }
}

/// A line of the example `index`: a term, which may hold spaces and slashes, and postings.
#[test]
fn a_line_is_a_term_and_its_postings() {
    let kite = 0x0000_0100_1801_0002;
    let line = Posting::of_line;
    assert_eq!(line("KITE 1/24/1/2"), Some(("KITE", vec![kite])));
    let two = line("AND/OR 1/2 1/24/1/2 16777215/65535/255/65535");
    assert_eq!(two, Some(("AND/OR 1/2", vec![kite, u64::MAX])));
    for wrong in [
        "",
        "KITE",
        "1/24/1/2",
        "KITE 1",
        "KITE 1/24/1",
        "KITE 1/24/1/2/3",
        "KITE 1/24/1/x",
        "KITE 1/24/1/2 ",
        "KITE 1/24/256/2",
        "KITE 16777216/24/1/2",
    ] {
        assert_eq!(line(wrong), None, "{wrong:?}");
    }
}
