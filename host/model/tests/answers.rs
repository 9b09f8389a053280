//! Every answer of every call, each on a store where no lower number applies, and
//! pairs of faults where the lower number must win.

mod common;
use common::Card;
use model::Refusal::{self, *};
use model::store;

/// What each call that names an MFN answers to it: view, settled view, update with
/// "K", delete, settle, revert.
fn six(card: &Card, mfn: u32) -> [u32; 6] {
    let number = |result: Result<(), Refusal>| model::answer::number(&result);
    [
        number(card.view(mfn, 24, 1).map(|_| ())),
        number(card.view_settled(mfn, 24, 1).map(|_| ())),
        number(card.clone().update(mfn, &[(24, b"K")])),
        number(card.clone().delete(mfn)),
        number(card.clone().settle(mfn)),
        number(card.clone().revert(mfn)),
    ]
}

#[test]
fn what_each_kind_of_record_answers() {
    let new = Card::with_kite(2, 1);
    assert_eq!(six(&new, 1), [0, 11, 0, 0, 0, 11]);
    let settled = Card::with_settled_kite(2, 1);
    assert_eq!(six(&settled, 1), [0, 0, 0, 0, 10, 10]);
    let changed = Card::with_changed_kite(2, 1);
    assert_eq!(six(&changed, 1), [0, 0, 0, 0, 0, 0]);
    let mut new_deleted = new.clone();
    new_deleted.delete(1).unwrap();
    assert_eq!(six(&new_deleted, 1), [9, 11, 9, 9, 0, 11]);
    let mut settled_deleted = new_deleted.clone();
    settled_deleted.settle(1).unwrap();
    assert_eq!(six(&settled_deleted, 1), [9, 9, 9, 9, 10, 10]);
    let mut changed_deleted = changed.clone();
    changed_deleted.delete(1).unwrap();
    assert_eq!(six(&changed_deleted, 1), [9, 0, 9, 9, 0, 0]);
    let mut gone = settled.clone();
    gone.put_entry(4, -2048);
    assert_eq!(six(&gone, 1), [7; 6]);
}

#[test]
fn answer_1_for_every_call_and_before_2() {
    for (mst_len, xrf_len) in [
        (0, 512),
        (512, 0),
        (511, 512),
        (1024, 513),
        (512, 4097 * 512),
    ] {
        let mut card = Card {
            mst: vec![0xFF; mst_len],
            xrf: vec![0xFF; xrf_len],
        };
        assert_eq!(six(&card, 1), [1; 6]);
        assert_eq!(card.create(&[]), Err(Length));
        assert_eq!(card.check(), Err(Length));
        let before = card.clone();
        assert_eq!(store::format(&mut card.mst, &mut card.xrf), Err(Length));
        assert!(card == before);
    }
}

#[test]
fn answer_2_for_every_call_and_before_3_and_4() {
    let mut card = Card::with_changed_kite(1, 1);
    card.put_u16(14, 1);
    assert_eq!(six(&card, 1), [2; 6]);
    assert_eq!(six(&card, 0), [2; 6]);
    assert_eq!(card.create_draft(&[0], &[], &[]), Err(Control));
    assert_eq!(card.check(), Err(Control));
    assert_eq!(store::format(&mut card.mst, &mut card.xrf), Ok(()));
}

#[test]
fn answer_3_for_drafts_that_are_not_right() {
    let mut card = Card::formatted(130, 1);
    let long = vec![0; 32_766 - 24];
    let max = long.len() as u16;
    let bad: [(&[u16], &[u16], &[u8]); 9] = [
        (&[24], &[], &[]),
        (&[], &[0], &[]),
        (&[24], &[1], &[]),
        (&[24], &[0], &[1]),
        (&[], &[], &[1]),
        (&[0], &[1], &[1]),
        (&[32_768], &[1], &[1]),
        (&[24, 65_535], &[1, 0], &[1]),
        (&[24, 1], &[max, 0], &long),
    ];
    for (i, (tags, lens, data)) in bad.into_iter().enumerate() {
        assert_eq!(card.create_draft(tags, lens, data), Err(Draft), "draft {i}");
    }
    assert_eq!(card.create_draft(&[24], &[max], &long), Ok(1));
    assert_eq!(card.u16(68), 32_766);
    let odd = vec![0; long.len() - 1];
    assert_eq!(card.create_draft(&[1], &[max - 1], &odd), Ok(2));
    let over = vec![0; long.len() + 1];
    assert_eq!(card.create_draft(&[1], &[max + 1], &over), Err(Draft));
    // Lengths whose sum is the data's length only by 16 bits.
    assert_eq!(card.create_draft(&[1, 1], &[65_535, 1], &[]), Err(Draft));
    // 18 + 6 x 5458 = 32766.
    let tags = vec![32_767; 5_459];
    let lens = vec![0; 5_459];
    assert_eq!(card.create_draft(&tags, &lens, &[]), Err(Draft));
    assert_eq!(card.create_draft(&tags[1..], &lens[1..], &[]), Err(NoRoom));
    assert_eq!(card.check(), Ok(()));
}

#[test]
fn answer_3_comes_before_4_and_5() {
    let mut card = Card::with_kite(1, 1);
    assert_eq!(card.update(9, &[(0, b"")]), Err(Draft));
    card.put_i32(4, 128);
    assert_eq!(card.create(&[(0, b"")]), Err(Draft));
    assert_eq!(card.create(&[]), Err(Full));
}

#[test]
fn answer_4_below_1_and_from_nxtmfn_on() {
    let card = Card::with_kite(1, 1);
    for mfn in [0, 2, 3, 0x7FFF_FFFF, 0x8000_0000, 0x8000_0001, u32::MAX] {
        assert_eq!(six(&card, mfn), [4; 6], "{mfn}");
    }
}

#[test]
fn answer_5_when_the_slots_are_used_up() {
    let mut card = Card::formatted(8, 1);
    for mfn in 1..=127 {
        assert_eq!(card.create(&[]), Ok(mfn));
    }
    assert_eq!(card.create(&[]), Err(Full));
    assert_eq!(card.i32(4), 128);
    // 5 comes before 13.
    card.put_end(9, 0);
    assert_eq!(card.create(&[]), Err(Full));
}

#[test]
fn answer_6_for_malformed_entries() {
    let mut card = Card::with_changed_kite(2, 1);
    // Never used; both marks; before 64; odd; past 498; no 18 bytes before 122; block 0.
    for entry in [
        0,
        3648,
        2560,
        2113,
        2048 + 500,
        2048 + 106,
        64,
        -1,
        i32::MIN,
        i32::MAX,
    ] {
        card.put_entry(4, entry);
        assert_eq!(six(&card, 1), [6; 6], "{entry}");
        assert_eq!(card.check(), Err(NotSound));
    }
    // 104 + 18 = 122: the place is well formed, the record there is not.
    card.put_entry(4, 2048 + 104);
    assert_eq!(six(&card, 1), [8; 6]);
}

#[test]
fn answer_6_for_a_wrong_first_integer_and_before_7() {
    let mut card = Card::with_kite(2, 2);
    for first in [0, -1, 2] {
        card.put_entry(0, first);
        assert_eq!(six(&card, 1), [6; 6]);
        assert_eq!(card.create(&[]), Err(Entry));
        assert_eq!(card.check(), Err(NotSound));
    }
    card.put_entry(4, -2048);
    assert_eq!(six(&card, 1), [6; 6]);
    // Another block's first integer is no single call's business.
    let mut card = Card::with_kite(2, 2);
    card.put_entry(512, 2);
    assert_eq!(six(&card, 1), [0, 11, 0, 0, 0, 11]);
    assert_eq!(card.create(&[]), Ok(2));
    assert_eq!(card.check(), Err(NotSound));
    // MFN 128 stands in block 2, which is the last one.
    card.put_i32(4, 128);
    assert_eq!(card.create(&[]), Err(Entry));
    card.put_entry(512, -2);
    assert_eq!(card.create(&[]), Ok(128));
}

#[test]
fn answer_6_for_a_slot_that_is_not_0_and_before_13() {
    let mut card = Card::with_kite(1, 1);
    card.put_entry(8, 1);
    assert_eq!(card.create(&[]), Err(Entry));
    card.put_end(2, 0);
    assert_eq!(card.create(&[]), Err(Entry));
    card.put_entry(8, 0);
    assert_eq!(card.create(&[]), Err(NoRoom));
}

#[test]
fn answer_8_for_the_settled_version_only_where_it_is_used() {
    // STATUS of the settled version at 64.
    let mut card = Card::with_changed_kite(2, 1);
    card.put_u16(80, 1);
    assert_eq!(six(&card, 1), [0, 8, 0, 0, 0, 8]);
    assert_eq!(card.check(), Err(NotSound));
    // Its back pointer.
    let mut card = Card::with_changed_kite(2, 1);
    card.put_i32(70, 1).put_u16(74, 92);
    assert_eq!(six(&card, 1), [0, 8, 0, 0, 0, 8]);
    // Its MFN; deleted, 8 still comes first where the version is used.
    let mut card = Card::with_changed_kite(2, 1);
    card.put_i32(64, 2);
    card.delete(1).unwrap();
    assert_eq!(six(&card, 1), [9, 8, 9, 9, 0, 8]);
}

#[test]
fn answer_8_comes_before_9_to_13() {
    for card in [Card::with_kite(1, 1), Card::with_settled_kite(1, 1)] {
        let mut card = card;
        card.delete(1).unwrap();
        let at = if card.entry(4) == -960 { 64 } else { 92 };
        card.put_u16(at + 12, 23);
        assert_eq!(six(&card, 1), [8; 6]);
        assert_eq!(card.view(1, 99, 0), Err(Record));
    }
}

/// A tag, an occurrence and what a view of them must give.
type Shown = (u16, u32, Result<&'static [u8], Refusal>);

#[test]
fn answers_12_and_15_for_tags_and_occurrences() {
    let mut card = Card::formatted(2, 1);
    card.create(&[(24, b"a"), (70, b""), (24, b"bc"), (24, b"")])
        .unwrap();
    card.settle(1).unwrap();
    let shown: [Shown; 11] = [
        (24, 1, Ok(b"a")),
        (24, 2, Ok(b"bc")),
        (24, 3, Ok(b"")),
        (24, 4, Err(Fewer(3))),
        (24, 0, Err(NoField)),
        (24, u32::MAX, Err(Fewer(3))),
        (70, 1, Ok(b"")),
        (70, 2, Err(Fewer(1))),
        (71, 1, Err(NoField)),
        (0, 1, Err(NoField)),
        (65_535, 1, Err(NoField)),
    ];
    for (tag, occurrence, wanted) in shown {
        assert_eq!(card.view(1, tag, occurrence), wanted);
        assert_eq!(card.view_settled(1, tag, occurrence), wanted);
    }
    assert_eq!(store::view(&card.mst, &card.xrf, 1, 24, 2), Ok(107..109));
}

#[test]
fn answer_13_exactly_by_the_room_rule() {
    // 64 + 420 = 484: 28 bytes are left in one block.
    let bytes = vec![b'x'; 420 - 24];
    let mut card = Card::formatted(1, 1);
    card.create(&[(24, &bytes)]).unwrap();
    assert_eq!(card.create(&[(24, b"Kites")]), Err(NoRoom));
    assert_eq!(card.create(&[(24, b"Kite")]), Ok(2));
    assert_eq!((card.i32(8), card.u16(12)), (2, 1));
    // Pending records are still updated and deleted in place on the full card.
    assert_eq!(card.update(2, &[(24, b"Kit")]), Ok(()));
    assert_eq!(card.update(2, &[(24, b"Kites")]), Err(NoRoom));
    assert_eq!(card.settle(2), Ok(()));
    assert_eq!(card.update(2, &[]), Err(NoRoom));
    assert_eq!(card.delete(2), Err(NoRoom));
    assert_eq!(card.delete(1), Ok(()));
    assert_eq!(card.check(), Ok(()));
}

#[test]
fn answer_9_comes_before_13() {
    let mut card = Card::with_kite(1, 1);
    card.delete(1).unwrap();
    card.put_end(2, 0);
    let bytes = vec![b'x'; 400];
    assert_eq!(card.update(1, &[(24, &bytes)]), Err(Deleted));
}
