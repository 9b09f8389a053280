//! The ends of the ranges: every MFN of the largest XRF given out, and records in the
//! last block of the largest MST, where an entry comes near the largest integer.

use isis::{Card, Field, Refusal};
use model::call::OwnedDraft;
use model::store;

const MFNS: u32 = 520_192;
const LAST_BLOCK: i32 = 1_048_575;

#[test]
fn the_largest_xrf_is_filled_up() {
    // 28 records of 18 bytes fit into a block: 18,579 blocks hold them all.
    let (mut mst, mut xrf) = (vec![0xFF; 20_000 * 512], vec![0xFF; 4_096 * 512]);
    let (mut model_mst, mut model_xrf) = (mst.clone(), xrf.clone());
    let mut card = Card::over(&mut mst, &mut xrf);
    card.format().unwrap();
    store::format(&mut model_mst, &mut model_xrf).unwrap();
    let draft = OwnedDraft::default();
    for mfn in 1..=MFNS {
        assert_eq!(card.create::<&[u8]>([]), Ok(mfn));
        assert_eq!(
            store::create(&mut model_mst, &mut model_xrf, &draft.lent()),
            Ok(mfn)
        );
    }
    assert_eq!(card.create::<&[u8]>([]), Err(Refusal::NoSlot));
    assert_eq!(card.settle(MFNS), Ok(()));
    assert_eq!(store::settle(&mut model_mst, &mut model_xrf, MFNS), Ok(()));
    assert_eq!(card.settle(MFNS + 1), Err(Refusal::NoMfn));
    assert_eq!(card.check(), Ok(()));
    assert_eq!(card.mst()[16..20], MFNS.to_le_bytes());
    assert_eq!(card.recount(), Ok(()));
    assert!(card.mst() == model_mst, "the MSTs differ");
    assert!(card.xrf() == model_xrf, "the XRFs differ");
    mst[16..20].fill(0xFF);
    let mut card = Card::over(&mut mst, &mut xrf);
    assert_eq!(card.check(), Err(Refusal::NotSound));
    assert_eq!(card.recount(), Ok(()));
    assert!(card.mst() == model_mst, "the MSTs differ once recounted");
}

#[test]
fn one_block_too_many_is_refused_by_every_call() {
    for (mst_blocks, xrf_blocks) in [(LAST_BLOCK as usize + 1, 1), (1, 4_097)] {
        let (mut mst, mut xrf) = (vec![0; mst_blocks * 512], vec![0; xrf_blocks * 512]);
        let mut card = Card::over(&mut mst, &mut xrf);
        let refused = Err(Refusal::BadLength);
        assert_eq!(card.format(), refused);
        assert_eq!(card.view(1, 24, 1).map(|_| ()), refused);
        assert_eq!(card.view_settled(1, 24, 1).map(|_| ()), refused);
        assert_eq!(card.field(1, 0).map(|_| ()), refused);
        assert_eq!(card.field_settled(1, 0).map(|_| ()), refused);
        assert_eq!(card.create([(24, "Kite")]).map(|_| ()), refused);
        assert_eq!(card.update(1, [(24, "Kite")]), refused);
        assert_eq!(card.delete(1), refused);
        assert_eq!(card.settle(1), refused);
        assert_eq!(card.revert(1), refused);
        assert_eq!(card.check(), refused);
        assert_eq!(card.recount(), refused);
        assert!(card.xrf().iter().all(|&byte| byte == 0));
        assert!(card.mst()[..512].iter().all(|&byte| byte == 0));
    }
}

#[test]
fn records_in_the_last_block_of_the_largest_mst() {
    let (mut mst, mut xrf) = (vec![0; LAST_BLOCK as usize * 512], vec![0; 512]);
    Card::over(&mut mst, &mut xrf).format().unwrap();
    // The end is put to the last block; nothing but the whole check steps there.
    mst[8..12].copy_from_slice(&LAST_BLOCK.to_le_bytes());
    mst[12..14].copy_from_slice(&449u16.to_le_bytes());
    let mut card = Card::over(&mut mst, &mut xrf);
    assert_eq!(card.create([(24, "Kite")]), Ok(1));
    let entry = LAST_BLOCK * 2048 + 448;
    assert_eq!(card.xrf()[4..8], (entry + 1024).to_le_bytes());
    assert_eq!(card.mst()[12..14], 477u16.to_le_bytes());
    assert_eq!(card.view(1, 24, 1), Ok(&b"Kite"[..]));
    assert_eq!(card.settle(1), Ok(()));
    assert_eq!(card.xrf()[4..8], entry.to_le_bytes());
    assert_eq!(card.update(1, [(24, "Kites, many")]), Ok(()));
    assert_eq!(card.xrf()[4..8], (entry + 28 + 512).to_le_bytes());
    // 476 + 36 = 512: the end is the length of the MST, block 1,048,576, offset 0.
    assert_eq!(card.mst()[8..14], [0, 0, 0x10, 0, 1, 0]);
    assert_eq!(card.create::<&[u8]>([]), Err(Refusal::NoRoom));
    assert_eq!(card.view_settled(1, 24, 1), Ok(&b"Kite"[..]));
    let field = |tag, bytes| Ok(Field { tag, bytes });
    assert_eq!(card.field(1, 0), field(24, b"Kites, many"));
    assert_eq!(card.field_settled(1, 0), field(24, b"Kite"));
    assert_eq!(card.delete(1), Ok(()));
    assert_eq!(
        card.xrf()[4..8],
        (-LAST_BLOCK * 2048 + 476 + 512).to_le_bytes()
    );
    assert_eq!(card.revert(1), Ok(()));
    assert_eq!(card.xrf()[4..8], entry.to_le_bytes());
    assert_eq!(card.check(), Err(Refusal::NotSound));
}

/// (32,766 - 18) / 6 = 5,458 directory entries are the most that a record has.
#[test]
fn every_field_of_the_longest_directory() {
    const MOST: usize = 5_458;
    let (mut mst, mut xrf) = (vec![0; 80 * 512], vec![0; 512]);
    let mut card = Card::over(&mut mst, &mut xrf);
    card.format().unwrap();
    let tag = |index: usize| (index % 32_767 + 1) as u16;
    let empty = |fields: usize| (0..fields).map(move |index| (tag(index), ""));
    assert_eq!(card.create(empty(MOST + 1)), Err(Refusal::BadDraft));
    assert_eq!(card.create(empty(MOST)), Ok(1));
    let tags: Vec<u16> = card.fields(1).unwrap().map(|field| field.tag).collect();
    assert!(tags.into_iter().eq((0..MOST).map(tag)));
    assert_eq!(card.field(1, MOST - 1).map(|field| field.tag), Ok(5_458));
    assert_eq!(card.field(1, MOST), Err(Refusal::NoField));
    assert_eq!(card.field(1, MOST + 65_536), Err(Refusal::NoField));
}

/// All of them of one tag: the last occurrence, and how many there are.
#[test]
fn every_occurrence_of_the_longest_directory() {
    const MOST: u32 = 5_458;
    let (mut mst, mut xrf) = (vec![0; 80 * 512], vec![0; 512]);
    let mut card = Card::over(&mut mst, &mut xrf);
    card.format().unwrap();
    assert_eq!(card.create((0..MOST).map(|_| (70, ""))), Ok(1));
    card.settle(1).unwrap();
    let fewer = Err(Refusal::FewerFields(MOST));
    for occurrence in [1, 255, 256, 257, MOST - 1, MOST] {
        assert_eq!(card.view(1, 70, occurrence), Ok(&b""[..]));
        assert_eq!(card.view_settled(1, 70, occurrence), Ok(&b""[..]));
    }
    for occurrence in [MOST + 1, MOST + 2, 65_536, 65_537, 1 << 31, u32::MAX] {
        assert_eq!(card.view(1, 70, occurrence), fewer);
        assert_eq!(card.view_settled(1, 70, occurrence), fewer);
    }
    assert_eq!(card.view(1, 70, 0), Err(Refusal::NoField));
    assert_eq!(card.view(1, 71, MOST), Err(Refusal::NoField));
}
