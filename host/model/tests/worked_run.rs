//! The one run of "Numbers to test on", byte by byte, and the slips it warns of.

mod common;
use common::Card;
use model::{Refusal, store};

const KITE: [u8; 28] = [
    0x01, 0x00, 0x00, 0x00, 0x1C, 0x00, 0x00, 0x00, 0x00, 0x00, 0x00, 0x00, 0x18, 0x00, 0x01, 0x00,
    0x00, 0x00, 0x18, 0x00, 0x00, 0x00, 0x04, 0x00, 0x4B, 0x69, 0x74, 0x65,
];

/// NXTMFN, NXTMFB, and NXTMFP, which is the offset plus 1.
fn control(card: &Card) -> (i32, i32, u16) {
    (card.i32(4), card.i32(8), card.u16(12))
}

#[test]
fn format_fills_with_zero_and_sets_four_kinds_of_integer() {
    let card = Card::formatted(2, 3);
    let mut mst = vec![0; 1024];
    mst[4] = 1;
    mst[8] = 1;
    mst[12] = 65;
    assert_eq!(card.mst, mst);
    let mut xrf = vec![0; 1536];
    xrf[0] = 1;
    xrf[512] = 2;
    xrf[1024..1028].copy_from_slice(&[0xFD, 0xFF, 0xFF, 0xFF]);
    assert_eq!(card.xrf, xrf);
    assert_eq!(Card::formatted(1, 1).xrf[..4], [0xFF; 4]);
}

#[test]
fn the_run() {
    let mut card = Card::formatted(1, 1);
    assert_eq!(card.create(&[(24, b"Kite")]), Ok(1));
    assert_eq!(card.mst[64..92], KITE);
    assert_eq!(control(&card), (2, 1, 93));
    assert_eq!(card.entry(4), 3136);

    assert_eq!(card.update(1, &[(24, b"Kit")]), Ok(()));
    let mut kit = KITE;
    kit[22] = 3;
    kit[27] = 0;
    assert_eq!(card.mst[64..92], kit);
    assert_eq!(control(&card), (2, 1, 93));
    assert_eq!(card.entry(4), 3136);

    assert_eq!(card.settle(1), Ok(()));
    assert_eq!(card.entry(4), 2112);
    assert_eq!(card.mst[64..92], kit);

    assert_eq!(card.update(1, &[(24, b"Kites")]), Ok(()));
    let kites = [
        0x01, 0x00, 0x00, 0x00, 0x1E, 0x00, 0x01, 0x00, 0x00, 0x00, 0x40, 0x00, 0x18, 0x00, 0x01,
        0x00, 0x00, 0x00, 0x18, 0x00, 0x00, 0x00, 0x05, 0x00, b'K', b'i', b't', b'e', b's', 0x00,
    ];
    assert_eq!(card.mst[92..122], kites);
    assert_eq!(card.mst[64..92], kit);
    assert_eq!(card.entry(4), 2652);
    assert_eq!(control(&card), (2, 1, 123));
    assert_eq!(card.view(1, 24, 1), Ok(&b"Kites"[..]));
    assert_eq!(card.view_settled(1, 24, 1), Ok(&b"Kit"[..]));

    let before = card.mst.clone();
    assert_eq!(card.revert(1), Ok(()));
    assert_eq!(card.mst, before);
    assert_eq!(card.entry(4), 2112);
    assert_eq!(control(&card), (2, 1, 123));
    assert_eq!(card.view(1, 24, 1), Ok(&b"Kit"[..]));
    assert_eq!(card.check(), Ok(()));
}

#[test]
fn p9_and_p10_as_creates() {
    for (data, block, offset) in [(434 - 24, 1, 498), (436 - 24, 2, 0)] {
        let mut card = Card::formatted(2, 1);
        let bytes = vec![b'x'; data];
        assert_eq!(card.create(&[(24, &bytes)]), Ok(1));
        assert_eq!(control(&card), (2, block, offset + 1));
        assert_eq!(card.check(), Ok(()));
    }
}

#[test]
fn an_end_in_the_last_block_moves_to_the_length_of_the_mst() {
    // 64 + 448 fills the block; 436 to 446 stop on 500 to 510. All end at 512 = block 2, 0.
    for length in (436..=448).step_by(2) {
        let mut card = Card::formatted(1, 1);
        card.mst[500..].fill(0x77);
        let bytes = vec![b'x'; length - 24];
        assert_eq!(card.create(&[(24, &bytes)]), Ok(1), "{length}");
        assert_eq!(control(&card), (2, 2, 1));
        assert!(card.mst[64 + length..].iter().all(|&b| b == 0x77));
        assert_eq!(card.create(&[]), Err(Refusal::NoRoom));
        assert_eq!(card.settle(1), Ok(()));
        assert_eq!(card.check(), Ok(()));
    }
    let mut card = Card::formatted(1, 1);
    let bytes = vec![b'x'; 450 - 24];
    assert_eq!(card.create(&[(24, &bytes)]), Err(Refusal::NoRoom));
}

#[test]
fn bytes_20_to_63_are_kept_by_every_call_but_format() {
    let mut card = Card::formatted(2, 1);
    let kept: Vec<u8> = (100..144).collect();
    card.mst[20..64].copy_from_slice(&kept);
    card.create(&[(24, b"Kite")]).unwrap();
    card.settle(1).unwrap();
    card.update(1, &[(24, b"Kites")]).unwrap();
    card.delete(1).unwrap();
    card.revert(1).unwrap();
    card.recount().unwrap();
    assert_eq!(card.mst[20..64], kept);
    assert_eq!(card.check(), Ok(()));
    store::format(&mut card.mst, &mut card.xrf).unwrap();
    assert_eq!(card.mst[16..64], [0; 48]);
}

#[test]
fn a_settled_record_is_deleted_by_a_copy_and_p3_is_its_entry_at_64() {
    let mut card = Card::with_settled_kite(1, 1);
    assert_eq!(card.delete(1), Ok(()));
    let mut copy = KITE;
    copy[6] = 1;
    copy[10] = 64;
    copy[16] = 1;
    assert_eq!(card.mst[92..120], copy);
    assert_eq!(card.mst[64..92], KITE);
    assert_eq!(card.entry(4), -2048 + 92 + 512);
    assert_eq!(control(&card), (2, 1, 121));
    assert_eq!(card.view(1, 24, 1), Err(Refusal::Deleted));
    assert_eq!(card.view_settled(1, 24, 1), Ok(&b"Kite"[..]));
    assert_eq!(card.settle(1), Ok(()));
    assert_eq!(card.entry(4), -2048 + 92);
    assert_eq!(card.mst[98..104], [0; 6]);
    assert_eq!(card.view_settled(1, 24, 1), Err(Refusal::Deleted));
    assert_eq!(card.check(), Ok(()));
}

#[test]
fn a_new_record_is_deleted_in_place_and_its_tail_is_zeroed() {
    let mut card = Card::with_kite(1, 1);
    card.update(1, &[(24, b"Kit")]).unwrap();
    card.mst[91] = 0x99;
    assert_eq!(card.delete(1), Ok(()));
    let mut deleted = KITE;
    deleted[22] = 3;
    deleted[27] = 0;
    deleted[16] = 1;
    assert_eq!(card.mst[64..92], deleted);
    assert_eq!(card.entry(4), -960);
    assert_eq!(control(&card), (2, 1, 93));
    assert_eq!(card.settle(1), Ok(()));
    assert_eq!(card.entry(4), -1984);
}

#[test]
fn a_settled_record_with_slack_is_copied_with_the_need_as_its_length() {
    let mut card = Card::with_kite(1, 1);
    card.update(1, &[(24, b"")]).unwrap();
    card.settle(1).unwrap();
    assert_eq!(card.u16(68), 28);
    assert_eq!(card.delete(1), Ok(()));
    assert_eq!(card.u16(96), 24);
    assert_eq!(control(&card), (2, 1, 117));
    assert_eq!(card.check(), Ok(()));
}

#[test]
fn a_pending_record_that_outgrows_its_place_moves_and_keeps_its_back_pointer() {
    let mut card = Card::with_changed_kite(1, 1);
    assert_eq!(card.update(1, &[(24, b"Kites and winds")]), Ok(()));
    assert_eq!((card.i32(128), card.u16(132)), (1, 64));
    assert_eq!(card.entry(4), 2048 + 122 + 512);
    assert_eq!(control(&card), (2, 1, 163));
    assert_eq!(card.view_settled(1, 24, 1), Ok(&b"Kite"[..]));
    let mut card = Card::with_kite(1, 1);
    assert_eq!(card.update(1, &[(24, b"Kites")]), Ok(()));
    assert_eq!(card.entry(4), 2048 + 92 + 1024);
    assert_eq!((card.i32(98), card.u16(102)), (0, 0));
    assert_eq!(control(&card), (2, 1, 123));
    assert_eq!(card.check(), Ok(()));
}

#[test]
fn the_padding_byte_is_0_whatever_stood_there() {
    let mut card = Card::formatted(1, 1);
    card.mst[64..].fill(0x99);
    // Need 28 with 3 data bytes: one byte of padding each time.
    card.create(&[(24, b"Kit")]).unwrap();
    assert_eq!(card.mst[64 + 27], 0);
    card.settle(1).unwrap();
    card.update(1, &[(24, b"Cat")]).unwrap();
    assert_eq!(card.mst[92 + 27], 0);
    card.settle(1).unwrap();
    card.delete(1).unwrap();
    assert_eq!(card.mst[120 + 24..120 + 28], *b"Cat\0");
    assert!(card.mst[148..].iter().all(|&byte| byte == 0x99));
}

#[test]
fn an_update_that_needs_just_the_old_length_stays_in_place() {
    let mut card = Card::with_kite(1, 1);
    assert_eq!(card.update(1, &[(70, b"Wind")]), Ok(()));
    assert_eq!((card.entry(4), card.u16(12)), (3136, 93));
    assert_eq!(card.view(1, 70, 1), Ok(&b"Wind"[..]));
    let mut card = Card::with_changed_kite(1, 1);
    assert_eq!(card.update(1, &[(24, b"Kitten")]), Ok(()));
    assert_eq!((card.entry(4), card.u16(12)), (2652, 123));
    assert_eq!(card.view_settled(1, 24, 1), Ok(&b"Kite"[..]));
}
