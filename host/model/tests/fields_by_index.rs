//! Fields by their index in the directory: in directory order from 0, answers as the
//! two views give them, and 12 exactly where the directory has no such entry.

mod common;

use common::Card;
use model::Refusal;

/// Indexes that no directory has: one past the last of five, and edges of the number.
const BEYOND: [usize; 5] = [5, 5_458, 65_536, 1 << 32, usize::MAX];

#[test]
fn repeated_tags_and_empty_fields_come_in_directory_order() {
    let mut card = Card::formatted(4, 1);
    let fields: [(u16, &[u8]); 5] = [
        (70, b"one"),
        (24, b""),
        (70, b"two"),
        (32_767, b"three"),
        (70, b""),
    ];
    card.create(&fields).unwrap();
    for (index, field) in fields.into_iter().enumerate() {
        assert_eq!(card.field(1, index), Ok(field));
        assert_eq!(card.field_settled(1, index), Err(Refusal::New));
    }
    for index in BEYOND {
        assert_eq!(card.field(1, index), Err(Refusal::NoField));
    }
    card.settle(1).unwrap();
    for (index, field) in fields.into_iter().enumerate() {
        assert_eq!(card.field_settled(1, index), Ok(field));
    }
    for index in BEYOND {
        assert_eq!(card.field_settled(1, index), Err(Refusal::NoField));
    }
}

/// Where the fields stand: the data of a record at 64 begin at 64 + 18 + 6 for each.
#[test]
fn the_part_is_the_fields_own() {
    let mut card = Card::formatted(1, 1);
    card.create(&[(24, b"Kite"), (24, b""), (70, b"s")])
        .unwrap();
    let part = |index| model::store::field(&card.mst, &card.xrf, 1, index);
    assert_eq!(part(0), Ok((24, 100..104)));
    assert_eq!(part(1), Ok((24, 104..104)));
    assert_eq!(part(2), Ok((70, 104..105)));
}

#[test]
fn an_empty_record_has_no_index() {
    let mut card = Card::formatted(1, 1);
    card.create(&[]).unwrap();
    assert_eq!(card.field(1, 0), Err(Refusal::NoField));
    card.settle(1).unwrap();
    assert_eq!(card.field_settled(1, 0), Err(Refusal::NoField));
    assert_eq!(card.field(0, 0), Err(Refusal::Mfn));
    assert_eq!(card.field_settled(2, 0), Err(Refusal::Mfn));
}

/// An update in place with fewer fields: what stands after the data is no field.
#[test]
fn the_two_versions_have_their_own_fields() {
    let mut card = Card::with_changed_kite(1, 1);
    card.update(1, &[(70, b"x")]).unwrap();
    assert_eq!(card.field(1, 0), Ok((70, &b"x"[..])));
    assert_eq!(card.field(1, 1), Err(Refusal::NoField));
    assert_eq!(card.field_settled(1, 0), Ok((24, &b"Kite"[..])));
    card.delete(1).unwrap();
    assert_eq!(card.field(1, 0), Err(Refusal::Deleted));
    assert_eq!(card.field_settled(1, 0), Ok((24, &b"Kite"[..])));
    assert_eq!(card.field_settled(1, 1), Err(Refusal::NoField));
    card.settle(1).unwrap();
    assert_eq!(card.field_settled(1, 0), Err(Refusal::Deleted));
}

/// A lower number than 12 is given for an index that is not there, too.
#[test]
fn damage_is_refused_before_the_index_is_looked_for() {
    for index in [0, 1, usize::MAX] {
        let mut card = Card::with_changed_kite(1, 1);
        // The settled version at 64, its tag.
        card.put_u16(64 + 18, 0);
        let found = card.field(1, index).map(|(tag, _)| tag);
        let wanted = if index == 0 {
            Ok(24)
        } else {
            Err(Refusal::NoField)
        };
        assert_eq!(found, wanted);
        assert_eq!(card.field_settled(1, index), Err(Refusal::Record));
        // The changed record at 92, its second directory entry's worth of BASE.
        card.put_u16(92 + 12, 30);
        assert_eq!(card.field(1, index), Err(Refusal::Record));
        card.put_entry(4, -2048);
        assert_eq!(card.field(1, index), Err(Refusal::Gone));
        card.put_entry(4, 0);
        assert_eq!(card.field(1, index), Err(Refusal::Entry));
        assert_eq!(card.field_settled(1, index), Err(Refusal::Entry));
        card.put_u16(14, 1);
        assert_eq!(card.field(1, index), Err(Refusal::Control));
        card.mst.pop();
        assert_eq!(card.field(1, index), Err(Refusal::Length));
        assert_eq!(card.field_settled(1, index), Err(Refusal::Length));
    }
}
