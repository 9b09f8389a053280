//! The cards that are measured on, made by the model so that both ways start from
//! the same bytes.

use model::OwnedDraft;
use model::layout::{BLOCK, PER_BLOCK};
use model::store;

/// A pair of buffers.
#[derive(Clone, PartialEq)]
pub struct Buffers {
    /// The master file.
    pub mst: Vec<u8>,
    /// The cross-reference file.
    pub xrf: Vec<u8>,
}

impl Buffers {
    /// A formatted card with room for so many records of a need, `versions` times.
    pub fn formatted(records: usize, need: usize, versions: usize) -> Buffers {
        let bytes = 64 + records * versions * (need + 12);
        let mut buffers = Buffers {
            mst: vec![0; bytes.next_multiple_of(BLOCK)],
            xrf: vec![0; records.div_ceil(PER_BLOCK) * BLOCK],
        };
        store::format(&mut buffers.mst, &mut buffers.xrf).expect("a permitted size");
        buffers
    }

    /// Copies another card of the same lengths.
    pub fn copy_from(&mut self, other: &Buffers) {
        self.mst.copy_from_slice(&other.mst);
        self.xrf.copy_from_slice(&other.xrf);
    }
}

/// A draft of so many fields of `len` bytes, tags 1, 2, 3 and so on.
pub fn draft(fields: u16, len: u16) -> OwnedDraft {
    OwnedDraft {
        tags: (1..=fields).collect(),
        lens: vec![len; usize::from(fields)],
        data: vec![b'x'; usize::from(fields) * usize::from(len)],
    }
}

/// How far the records of a card have come.
#[derive(Clone, Copy, PartialEq, Eq)]
pub enum Kind {
    /// Created.
    New,
    /// Created and settled.
    Settled,
    /// Created, settled and updated.
    Changed,
    /// Created, settled and deleted.
    Deleted,
}

/// A card of equal records, with room for one more version of each.
pub fn card(records: usize, draft: &OwnedDraft, kind: Kind) -> Buffers {
    let need = draft.lent().need_if_right().expect("a right draft");
    let mut card = Buffers::formatted(records, need, 3);
    for mfn in 1..=records as u32 {
        let (mst, xrf) = (&mut card.mst, &mut card.xrf);
        assert_eq!(store::create(mst, xrf, &draft.lent()), Ok(mfn));
        if kind != Kind::New {
            store::settle(mst, xrf, mfn).expect("a new record");
        }
        if kind == Kind::Changed {
            store::update(mst, xrf, mfn, &draft.lent()).expect("a settled record");
        }
        if kind == Kind::Deleted {
            store::delete(mst, xrf, mfn).expect("a settled record");
        }
    }
    card
}
