//! Random lists of calls, made so that every answer comes often: few tags, so that
//! occurrences repeat; MFNs around the next one; drafts that are mostly right and
//! mostly short, with lengths around the edges now and then.

use crate::ask::Room;
use crate::call::{Call, OwnedDraft};
use crate::layout::{LAST_TAG, LONGEST};
use crate::random::Random;
use crate::store::MOST_SETTLED;

/// The numbers at which RECCNT makes a difference, and those beside them.
pub const PLANTED: [i32; 6] = [-1, 0, 1, i32::MAX - 1, i32::MAX, i32::MIN];

/// What kind of lists to make.
#[derive(Clone, Copy, Debug)]
pub struct Taste {
    /// The longest field of an ordinary draft.
    pub field: usize,
    /// The most fields of an ordinary draft.
    pub fields: usize,
    /// One format in so many calls, after the first.
    pub format_in: usize,
    /// One bad draft in so many.
    pub bad_draft_in: usize,
}

impl Taste {
    /// Short records: many fit into a small store.
    pub const SHORT: Taste = Taste {
        field: 12,
        fields: 3,
        format_in: 400,
        bad_draft_in: 12,
    };
    /// Records of up to several blocks.
    pub const LONG: Taste = Taste {
        field: 300,
        fields: 8,
        format_in: 200,
        bad_draft_in: 12,
    };
}

/// A random call of any kind for a store whose next MFN is about `next`: one in eight
/// shows a field by its index, and one in eight tells something of the card.
pub fn any_call(random: &mut Random, taste: Taste, next: usize) -> Call {
    match random.below(8) {
        0 => field_by_index(random, next),
        1 => telling(random, taste, next),
        _ => call(random, taste, next),
    }
}

fn field_by_index(random: &mut Random, next: usize) -> Call {
    let (mfn, index) = (mfn(random, next), index(random));
    if random.one_in(2) {
        Call::Field { mfn, index }
    } else {
        Call::FieldSettled { mfn, index }
    }
}

/// A call that tells something of the card.
pub fn telling(random: &mut Random, taste: Taste, next: usize) -> Call {
    let (mfn, room) = (mfn(random, next), room(random, taste));
    match random.below(8) {
        0 => Call::Next,
        1..=2 => Call::State(mfn),
        3..=5 => Call::Fields { mfn, room },
        _ => Call::FieldsSettled { mfn, room },
    }
}

/// Lengths of three lists, up to one more than an ordinary record has fields: mostly
/// equal, sometimes with one that is shorter, sometimes of any length each.
fn room(random: &mut Random, taste: Taste) -> Room {
    let mut length = || random.below(taste.fields + 2);
    let (mut equal, any) = ([length(); 3], [length(), length(), length()]);
    match random.below(8) {
        0 => return any,
        1..=2 => {
            let short = random.below(3);
            equal[short] = equal[short].saturating_sub(1);
        }
        _ => {}
    }
    equal
}

/// A random call of demand 3's list for a store whose next MFN is about `next`: those of
/// document 01, and now and then a migration, a list of MFNs or a recount.
pub fn call(random: &mut Random, taste: Taste, next: usize) -> Call {
    if random.one_in(taste.format_in) {
        return Call::Format;
    }
    match random.below(23) {
        0..=3 => Call::Create(draft(random, taste)),
        4..=7 => Call::Update(mfn(random, next), draft(random, taste)),
        8 => Call::Delete(mfn(random, next)),
        9..=11 => Call::Settle(mfn(random, next)),
        12..=13 => Call::Revert(mfn(random, next)),
        14..=16 => Call::view(mfn(random, next), tag(random), occurrence(random)),
        17..=18 => Call::view_settled(mfn(random, next), tag(random), occurrence(random)),
        19 => Call::Migrate,
        20 => settle_list(random, next),
        21 => Call::Recount,
        _ => Call::Check,
    }
}

/// A list of MFNs to settle, mostly short: some of them again, and a list for the answers
/// that is mostly as long. A few lists are about the longest.
pub fn settle_list(random: &mut Random, next: usize) -> Call {
    let most = MOST_SETTLED;
    let count = match random.below(200) {
        0 => random.pick(&[most - 1, most, most + 1]),
        1..=20 => random.below(2),
        _ => random.below(9),
    };
    let mut mfns: Vec<u32> = (0..count).map(|_| mfn(random, next)).collect();
    if count > 1 && random.one_in(3) {
        let (from, to) = (random.below(count), random.below(count));
        mfns[to] = mfns[from];
    }
    let room = match random.below(12) {
        0 => count + 1,
        1 => count.saturating_sub(1),
        2 => random.below(9),
        _ => count,
    };
    Call::SettleList { mfns, room }
}

/// An MFN: mostly one that was given out, sometimes any number.
pub fn mfn(random: &mut Random, next: usize) -> u32 {
    match random.below(24) {
        0 => random.pick(&[0, 1, u32::MAX, 0x7FFF_FFFF, 0x8000_0000, 0x8000_0001]),
        1 => random.next() as u32,
        2 => next as u32,
        _ => random.between(1, next.max(2) - 1) as u32,
    }
}

/// A tag: mostly one of three, so that fields repeat.
pub fn tag(random: &mut Random) -> u16 {
    match random.below(24) {
        0 => random.pick(&[0, LAST_TAG, LAST_TAG + 1, u16::MAX]),
        1 => random.next() as u16,
        _ => random.pick(&[24, 70, 1]),
    }
}

/// An occurrence: mostly 1 or 2.
pub fn occurrence(random: &mut Random) -> u32 {
    match random.below(16) {
        0 => random.pick(&[0, u32::MAX, 0x8000_0000, 0x1_0001]),
        1 => 3,
        2..=4 => 2,
        _ => 1,
    }
}

/// A directory index: mostly one of the first three.
pub fn index(random: &mut Random) -> usize {
    match random.below(16) {
        0 => random.pick(&[usize::MAX, 1 << 63, 1 << 32, 0x1_0000, usize::MAX / 6 + 1]),
        1 => random.below(40),
        2 => random.next() as usize,
        _ => random.below(3),
    }
}

/// A draft: mostly right, sometimes at the longest record, sometimes bad.
pub fn draft(random: &mut Random, taste: Taste) -> OwnedDraft {
    if random.one_in(taste.bad_draft_in) {
        return hostile_draft(random, taste);
    }
    if random.one_in(60) {
        return draft_at_edge(random);
    }
    ordinary_draft(random, taste)
}

/// A draft that is right.
pub fn ordinary_draft(random: &mut Random, taste: Taste) -> OwnedDraft {
    let mut draft = OwnedDraft::default();
    for _ in 0..random.below(taste.fields + 1) {
        let len = random.below(taste.field + 1);
        let mut bytes = vec![0; len];
        random.fill(&mut bytes);
        let tag = match random.below(24) {
            0 => random.pick(&[1, LAST_TAG]),
            _ => random.pick(&[24, 70, 1]),
        };
        draft.tags.push(tag);
        draft.lens.push(len as u16);
        draft.data.extend(bytes);
    }
    draft
}

/// A draft whose need is about the longest record.
fn draft_at_edge(random: &mut Random) -> OwnedDraft {
    let fields = random.between(1, 4);
    let data = random.between(LONGEST - 3, LONGEST + 2) - 18 - 6 * fields;
    let mut draft = OwnedDraft {
        tags: vec![24; fields],
        lens: vec![0; fields],
        data: vec![b'x'; data],
    };
    draft.lens[fields - 1] = data as u16;
    draft
}

/// A draft with one thing wrong with it, or with nothing but random lists.
pub fn hostile_draft(random: &mut Random, taste: Taste) -> OwnedDraft {
    let mut draft = ordinary_draft(random, taste);
    match random.below(8) {
        0 => draft.tags.push(24),
        1 => draft.lens.push(0),
        2 => draft.data.push(0),
        3 => _ = draft.data.pop(),
        4 if !draft.tags.is_empty() => {
            let at = random.below(draft.tags.len());
            draft.tags[at] = random.pick(&[0, LAST_TAG + 1, u16::MAX]);
        }
        5 if !draft.lens.is_empty() => {
            let at = random.below(draft.lens.len());
            draft.lens[at] = draft.lens[at].wrapping_add(random.pick(&[1, 2, 0x8000, 0xFFFF]));
        }
        6 => draft.lens = vec![u16::MAX; random.below(70_000)],
        _ => {
            let many = random.between(5_400, 5_500);
            draft.tags = vec![1; many];
            draft.lens = vec![0; many];
            draft.data.clear();
        }
    }
    draft
}
