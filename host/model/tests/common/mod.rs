//! A card for tests, with its integers reachable by their byte numbers in the paper; and
//! the answers that each call can give from format on.
#![allow(dead_code)]

use model::{Draft, Refusal, store};
use std::collections::BTreeSet;

/// Every answer that a list from format can give, by the call's number in a list; then
/// the two fields by index, and the calls that tell something.
pub const FROM_FORMAT: [(u32, &[u32]); 18] = [
    (0, &[0]),
    (1, &[0, 4, 9, 12, 15]),
    (2, &[0, 4, 9, 11, 12, 15]),
    (3, &[0, 3, 5, 13]),
    (4, &[0, 3, 4, 9, 13]),
    (5, &[0, 4, 9, 13]),
    (6, &[0, 4, 10]),
    (7, &[0, 4, 10, 11]),
    (8, &[0]),
    (9, &[2]),
    (10, &[0, 17]),
    (11, &[0]),
    (12, &[0, 4, 9, 12]),
    (13, &[0, 4, 9, 11, 12]),
    (14, &[0]),
    (15, &[0, 4]),
    (16, &[0, 4, 9, 17]),
    (17, &[0, 4, 9, 11, 17]),
];

/// The first `calls` rows of it as pairs.
pub fn from_format(calls: usize) -> BTreeSet<(u32, u32)> {
    FROM_FORMAT[..calls]
        .iter()
        .flat_map(|(call, answers)| answers.iter().map(move |answer| (*call, *answer)))
        .collect()
}

/// The two buffers.
#[derive(Clone, Debug, PartialEq, Eq)]
pub struct Card {
    pub mst: Vec<u8>,
    pub xrf: Vec<u8>,
}

impl Card {
    /// A formatted card of so many blocks.
    pub fn formatted(mst_blocks: usize, xrf_blocks: usize) -> Card {
        let mut card = Card {
            mst: vec![0xA5; mst_blocks * 512],
            xrf: vec![0x5A; xrf_blocks * 512],
        };
        store::format(&mut card.mst, &mut card.xrf).unwrap();
        card
    }

    /// A card with MFN 1 = tag 24 "Kite", new, at 64; end 92.
    pub fn with_kite(mst_blocks: usize, xrf_blocks: usize) -> Card {
        let mut card = Card::formatted(mst_blocks, xrf_blocks);
        assert_eq!(card.create(&[(24, b"Kite")]), Ok(1));
        card
    }

    /// The same, settled.
    pub fn with_settled_kite(mst_blocks: usize, xrf_blocks: usize) -> Card {
        let mut card = Card::with_kite(mst_blocks, xrf_blocks);
        assert_eq!(card.settle(1), Ok(()));
        card
    }

    /// The same, then changed to "Kites" at 92; end 122.
    pub fn with_changed_kite(mst_blocks: usize, xrf_blocks: usize) -> Card {
        let mut card = Card::with_settled_kite(mst_blocks, xrf_blocks);
        assert_eq!(card.update(1, &[(24, b"Kites")]), Ok(()));
        card
    }

    /// RECCNT.
    pub fn count(&self) -> i32 {
        self.i32(16)
    }

    pub fn put_count(&mut self, count: i32) -> &mut Card {
        self.put_i32(16, count)
    }

    pub fn u16(&self, at: usize) -> u16 {
        u16::from_le_bytes(self.mst[at..at + 2].try_into().unwrap())
    }

    pub fn i32(&self, at: usize) -> i32 {
        i32::from_le_bytes(self.mst[at..at + 4].try_into().unwrap())
    }

    pub fn entry(&self, at: usize) -> i32 {
        i32::from_le_bytes(self.xrf[at..at + 4].try_into().unwrap())
    }

    pub fn put_u16(&mut self, at: usize, value: u16) -> &mut Card {
        self.mst[at..at + 2].copy_from_slice(&value.to_le_bytes());
        self
    }

    /// Sets the end: its block, and its offset as NXTMFP counts it.
    pub fn put_end(&mut self, block: i32, offset: u16) -> &mut Card {
        self.put_i32(8, block).put_u16(12, offset + 1)
    }

    pub fn put_i32(&mut self, at: usize, value: i32) -> &mut Card {
        self.mst[at..at + 4].copy_from_slice(&value.to_le_bytes());
        self
    }

    pub fn put_entry(&mut self, at: usize, value: i32) -> &mut Card {
        self.xrf[at..at + 4].copy_from_slice(&value.to_le_bytes());
        self
    }

    pub fn view(&self, mfn: u32, tag: u16, occurrence: u32) -> Result<&[u8], Refusal> {
        store::view(&self.mst, &self.xrf, mfn, tag, occurrence).map(|part| &self.mst[part])
    }

    pub fn view_settled(&self, mfn: u32, tag: u16, occurrence: u32) -> Result<&[u8], Refusal> {
        store::view_settled(&self.mst, &self.xrf, mfn, tag, occurrence).map(|part| &self.mst[part])
    }

    pub fn field(&self, mfn: u32, index: usize) -> Result<(u16, &[u8]), Refusal> {
        store::field(&self.mst, &self.xrf, mfn, index).map(|(tag, part)| (tag, &self.mst[part]))
    }

    pub fn field_settled(&self, mfn: u32, index: usize) -> Result<(u16, &[u8]), Refusal> {
        let found = store::field_settled(&self.mst, &self.xrf, mfn, index);
        found.map(|(tag, part)| (tag, &self.mst[part]))
    }

    pub fn create(&mut self, fields: &[(u16, &[u8])]) -> Result<u32, Refusal> {
        let draft = model::OwnedDraft::of(fields);
        self.kept_if_refused(|card| store::create(&mut card.mst, &mut card.xrf, &draft.lent()))
    }

    pub fn create_draft(
        &mut self,
        tags: &[u16],
        lens: &[u16],
        data: &[u8],
    ) -> Result<u32, Refusal> {
        let draft = Draft { tags, lens, data };
        self.kept_if_refused(|card| store::create(&mut card.mst, &mut card.xrf, &draft))
    }

    pub fn update(&mut self, mfn: u32, fields: &[(u16, &[u8])]) -> Result<(), Refusal> {
        let draft = model::OwnedDraft::of(fields);
        self.kept_if_refused(|card| store::update(&mut card.mst, &mut card.xrf, mfn, &draft.lent()))
    }

    pub fn delete(&mut self, mfn: u32) -> Result<(), Refusal> {
        self.kept_if_refused(|card| store::delete(&mut card.mst, &mut card.xrf, mfn))
    }

    pub fn settle(&mut self, mfn: u32) -> Result<(), Refusal> {
        self.kept_if_refused(|card| store::settle(&mut card.mst, &mut card.xrf, mfn))
    }

    pub fn revert(&mut self, mfn: u32) -> Result<(), Refusal> {
        self.kept_if_refused(|card| store::revert(&mut card.mst, &mut card.xrf, mfn))
    }

    pub fn migrate(&mut self) -> Result<(), Refusal> {
        self.kept_if_refused(|card| store::migrate(&mut card.mst, &card.xrf))
    }

    pub fn recount(&mut self) -> Result<(), Refusal> {
        self.kept_if_refused(|card| store::recount(&mut card.mst, &card.xrf))
    }

    pub fn check(&self) -> Result<(), Refusal> {
        store::check(&self.mst, &self.xrf)
    }

    /// Runs a call and holds that a refusal changed no byte.
    fn kept_if_refused<T>(
        &mut self,
        call: impl FnOnce(&mut Card) -> Result<T, Refusal>,
    ) -> Result<T, Refusal> {
        let before = self.clone();
        let result = call(self);
        if result.is_err() {
            assert!(*self == before, "a refused call changed a byte");
        }
        result
    }
}
