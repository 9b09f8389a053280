//! The record test, one rule at a time: a changed leader or directory must be
//! refused with 8, its edge accepted.

mod common;
use common::Card;
use model::Refusal::Record;

/// MFN 1 at 64: tag 24 "Kite", tag 70 "ab"; MFRL 36, BASE 30, end 100, settled.
fn two_fields() -> Card {
    let mut card = Card::formatted(2, 1);
    card.create(&[(24, b"Kite"), (70, b"ab")]).unwrap();
    card.settle(1).unwrap();
    assert_eq!((card.u16(68), card.u16(76), card.u16(12)), (36, 30, 101));
    card
}

fn refused(change: impl FnOnce(&mut Card) -> &mut Card) {
    let mut card = two_fields();
    change(&mut card);
    assert_eq!(card.view(1, 24, 1), Err(Record));
    assert_eq!(card.check(), Err(model::Refusal::NotSound));
}

fn accepted(change: impl FnOnce(&mut Card) -> &mut Card) {
    let mut card = two_fields();
    change(&mut card);
    assert!(card.view(1, 24, 1).is_ok());
}

#[test]
fn the_mfn_field() {
    for mfn in [0, 2, -1, 0x0100_0001] {
        refused(|card| card.put_i32(64, mfn));
    }
}

#[test]
fn mfrl_even_in_range_and_before_the_end() {
    for mfrl in [0, 16, 17, 35, 37, 38, 32_766, 32_768, 65_534, 65_535] {
        refused(|card| card.put_u16(68, mfrl));
    }
    // The end may lie behind the record.
    accepted(|card| card.put_u16(68, 38).put_end(1, 102));
    accepted(|card| card.put_end(1, 102));
    refused(|card| card.put_end(1, 98));
}

#[test]
fn an_odd_mfrl_is_refused_even_before_the_end() {
    refused(|card| card.put_u16(68, 37).put_end(1, 102));
    accepted(|card| card.put_u16(68, 38).put_end(1, 102));
}

#[test]
fn mfrl_is_at_most_32766_even_before_the_end() {
    let mut card = Card::formatted(130, 1);
    card.create(&[(24, b"Kite")]).unwrap();
    // The end at block 66, offset 0, is past all three.
    card.put_end(66, 0);
    assert!(card.put_u16(68, 32_766).view(1, 24, 1).is_ok());
    assert_eq!(card.put_u16(68, 32_768).view(1, 24, 1), Err(Record));
    assert_eq!(card.put_u16(68, 33_000).view(1, 24, 1), Err(Record));
}

#[test]
fn mfrl_must_hold_base_and_data() {
    refused(|card| card.put_u16(68, 34));
    refused(|card| card.put_u16(68, 28));
    // Shorter data under the same MFRL are well formed.
    accepted(|card| card.put_u16(92, 0));
    // Without fields 18 bytes are a record.
    let mut card = two_fields();
    card.put_u16(68, 18).put_u16(76, 18).put_u16(78, 0);
    assert_eq!(card.view(1, 24, 1), Err(model::Refusal::NoField));
}

#[test]
fn base_is_18_and_6_for_each_field() {
    for base in [0, 18, 24, 29, 31, 36] {
        refused(|card| card.put_u16(76, base));
    }
    for nvf in [0, 1, 3, 10_924] {
        refused(|card| card.put_u16(78, nvf));
    }
    // One field with its own BASE; the second becomes data.
    accepted(|card| card.put_u16(78, 1).put_u16(76, 24));
}

#[test]
fn nvf_times_6_is_not_taken_in_16_bits() {
    // 18 + 6 x 10925 = 65568 = 32 in 16 bits, and 32 <= 36.
    refused(|card| card.put_u16(78, 10_925).put_u16(76, 32));
}

#[test]
fn tags_in_1_to_32767() {
    for at in [82, 88] {
        for tag in [0, 32_768, 65_535] {
            refused(|card| card.put_u16(at, tag));
        }
    }
    accepted(|card| card.put_u16(88, 32_767));
    accepted(|card| card.put_u16(88, 1));
}

#[test]
fn positions_follow_from_the_lengths() {
    for (at, pos) in [(84, 1), (84, 65_535), (90, 0), (90, 3), (90, 5), (90, 6)] {
        refused(|card| card.put_u16(at, pos));
    }
    accepted(|card| card.put_u16(90, 3).put_u16(86, 3));
}

#[test]
fn the_sum_of_lengths() {
    for len in [3, 4, 65_534, 65_535] {
        refused(|card| card.put_u16(92, len));
    }
    // 65532 + 4 = 0 in 16 bits.
    refused(|card| card.put_u16(92, 65_532));
    refused(|card| card.put_u16(86, 65_535).put_u16(90, 65_535));
}

#[test]
fn status_is_1_exactly_if_deleted() {
    for status in [1, 2, 256, 65_535] {
        refused(|card| card.put_u16(80, status));
    }
    let mut card = two_fields();
    card.put_entry(4, -1984);
    assert_eq!(card.view(1, 24, 1), Err(Record));
    card.put_u16(80, 1);
    assert_eq!(card.view(1, 24, 1), Err(model::Refusal::Deleted));
    card.put_u16(80, 2);
    assert_eq!(card.view(1, 24, 1), Err(Record));
}

#[test]
fn the_back_pointer_is_0_0_unless_changed() {
    for (block, offset) in [(1, 0), (0, 64), (1, 64), (-1, 0), (0, 1)] {
        refused(|card| card.put_i32(70, block).put_u16(74, offset));
        let mut card = Card::with_kite(2, 1);
        card.put_i32(70, block).put_u16(74, offset);
        assert_eq!(card.view(1, 24, 1), Err(Record));
    }
}

#[test]
fn under_changed_the_back_pointer_is_another_well_formed_place() {
    // The record is at 92, the end at 122.
    let bad = [
        (0, 0),
        (1, 92),
        (1, 62),
        (1, 65),
        (1, 106),
        (1, 500),
        (-1, 64),
        (0, 576),
        (2, 0),
        (i32::MIN, 64),
    ];
    for (block, offset) in bad {
        let mut card = Card::with_changed_kite(2, 1);
        card.put_i32(98, block).put_u16(102, offset);
        assert_eq!(card.view(1, 24, 1), Err(Record), "{block}/{offset}");
        assert_eq!(card.settle(1), Err(Record));
    }
    // Another place will do for all but revert, the settled view and check.
    let mut card = Card::with_changed_kite(2, 1);
    card.put_u16(102, 104);
    assert!(card.view(1, 24, 1).is_ok());
    assert_eq!(card.view_settled(1, 24, 1), Err(Record));
    assert_eq!(card.revert(1), Err(Record));
    assert_eq!(card.check(), Err(model::Refusal::NotSound));
    assert_eq!(card.settle(1), Ok(()));
}
