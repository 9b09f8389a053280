//! The first entry that breaks a rule, by hand: every entry of records of one to nine fields in
//! each of the three ways; a later one that breaks another rule; and 0 where the leader fails.

use model::record_test::record_test;

/// The longest directory that is tried.
const MOST: usize = 9;

/// A record of MFN 7 with so many fields of two bytes, tags from 24 on, and two bytes to spare.
fn record(fields: u16) -> Vec<u8> {
    let base = 18 + 6 * fields;
    let mut numbers = vec![7, 0, base + 2 * fields + 2, 0, 0, 0, base, fields, 0];
    for n in 0..fields {
        numbers.extend([24 + n, 2 * n, 2]);
    }
    let mut bytes: Vec<u8> = numbers.into_iter().flat_map(u16::to_le_bytes).collect();
    bytes.resize(usize::from(base + 2 * fields + 2), b'x');
    bytes
}

/// Where the TAG of an entry stands, which counts from 1; POS and LEN stand behind it.
fn tag(entry: usize) -> usize {
    18 + 6 * (entry - 1)
}

fn put(bytes: &mut [u8], at: usize, value: u16) {
    bytes[at..at + 2].copy_from_slice(&value.to_le_bytes());
}

/// The record with one number changed.
fn with(fields: usize, at: usize, value: u16) -> Vec<u8> {
    let mut bytes = record(fields as u16);
    put(&mut bytes, at, value);
    bytes
}

/// 8, with the number of an entry.
fn breaks(bytes: &[u8], entry: usize) {
    assert_eq!(record_test(bytes, 7, 0), (8, entry as u32), "{bytes:?}");
}

#[test]
fn a_record_that_passes_has_no_entry_to_tell() {
    for fields in 0..=MOST {
        assert_eq!(record_test(&record(fields as u16), 7, 0), (0, 0));
    }
}

#[test]
fn a_tag_outside_its_limits() {
    for (fields, entry) in all() {
        for value in [0, 32_768, 65_535] {
            breaks(&with(fields, tag(entry), value), entry);
        }
        for value in [1, 32_767] {
            let bytes = with(fields, tag(entry), value);
            assert_eq!(record_test(&bytes, 7, 0), (0, 0));
        }
    }
}

#[test]
fn a_pos_that_is_not_the_one_before_plus_its_len() {
    for (fields, entry) in all() {
        let right = 2 * (entry as u16 - 1);
        for value in [right + 1, right + 2, right + 256, right + 32_768] {
            breaks(&with(fields, tag(entry) + 2, value), entry);
        }
        if entry > 1 {
            breaks(&with(fields, tag(entry) + 2, 0), entry);
            breaks(&with(fields, tag(entry) + 2, right - 1), entry);
        }
    }
}

/// The data of all fields take 2 bytes each, and 2 are to spare.
#[test]
fn a_sum_of_lengths_that_runs_past_the_record() {
    for (fields, entry) in all() {
        let left = 2 * (fields - entry) as u16;
        for value in [2 + left + 3, 256 + left + 4, 32_767, 65_535] {
            breaks(&with(fields, tag(entry) + 4, value), entry);
        }
        // What just fits is contradicted by the next POS, if there is one.
        let fits = with(fields, tag(entry) + 4, 2 + left + 2);
        if entry == fields {
            assert_eq!(record_test(&fits, 7, 0), (0, 0));
        } else {
            breaks(&fits, entry + 1);
        }
    }
}

/// Every entry of records of every length.
fn all() -> impl Iterator<Item = (usize, usize)> {
    (1..=MOST).flat_map(|fields| (1..=fields).map(move |entry| (fields, entry)))
}

/// A POS of 65,535, a LEN of 65,535 and a TAG of 0 at two entries of nine: the first is told,
/// whichever rule either breaks.
#[test]
fn of_two_entries_the_first_is_told() {
    let ways = [(0, 0), (2, 65_535), (4, 65_535)];
    for first in 1..MOST {
        for second in first + 1..=MOST {
            for (at, value) in ways {
                for (other, behind) in ways {
                    let mut bytes = with(MOST, tag(first) + at, value);
                    put(&mut bytes, tag(second) + other, behind);
                    breaks(&bytes, first);
                }
            }
        }
    }
}

/// Sums and products that come out right in 16 bits only.
#[test]
fn no_number_is_taken_in_16_bits() {
    let mut bytes = with(3, tag(2) + 4, 65_534);
    put(&mut bytes, tag(3) + 2, 0);
    breaks(&bytes, 2);
    let mut bytes = with(3, 14, 10_926);
    put(&mut bytes, 12, 38);
    breaks(&bytes, 0);
}

/// Every rule of the leader, STATUS too, comes before every rule of the directory.
#[test]
fn a_leader_that_fails_tells_no_entry() {
    let numbers = [
        (0, 8),
        (2, 1),
        (4, 43),
        (4, 60),
        (4, 34),
        (12, 30),
        (14, 4),
        (16, 1),
    ];
    for (at, value) in numbers {
        for (way, broken) in [(0, 0), (2, 9), (4, 99)] {
            let mut bytes = with(3, at, value);
            breaks(&bytes, 0);
            put(&mut bytes, tag(1) + way, broken);
            breaks(&bytes, 0);
        }
    }
    for len in 0..44 {
        breaks(&record(3)[..len], 0);
    }
    assert_eq!(record_test(&record(3)[..44], 7, 0), (0, 0));
}

/// The MFN is compared as 32 bits, and any number but 0 asks for a deleted record.
#[test]
fn the_mfn_and_the_deletion_that_are_asked_for() {
    let bytes = record(3);
    for mfn in [0, 6, 0x0001_0007, 0x8000_0007, u32::MAX] {
        assert_eq!(record_test(&bytes, mfn, 0), (8, 0));
        let mut own = bytes.clone();
        own[..4].copy_from_slice(&mfn.to_le_bytes());
        assert_eq!(record_test(&own, mfn, 0), (0, 0));
    }
    let gone = with(3, 16, 1);
    for deleted in [1, 2, 256, 65_536, u32::MAX] {
        assert_eq!(record_test(&bytes, 7, deleted), (8, 0));
        assert_eq!(record_test(&gone, 7, deleted), (0, 0));
    }
    assert_eq!(record_test(&gone, 7, 0), (8, 0));
}

/// Bytes behind the record, and a back pointer to nowhere, are not asked.
#[test]
fn what_is_no_part_of_the_test() {
    let mut bytes = record(3);
    bytes.extend([255; 5]);
    bytes[6..12].fill(255);
    assert_eq!(record_test(&bytes, 7, 0), (0, 0));
}
