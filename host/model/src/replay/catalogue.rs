//! One long list that goes through a whole catalogue: every MFN of an XRF of one block,
//! records under every mark, live and deleted, updates in place and at the end, views
//! of both versions, reverts after other records changed, every refusal, migrations and
//! recounts, which change nothing, the MST full, and then a second catalogue over the first.

use crate::call::{Call, OwnedDraft};

/// MFNs that are given out before the changes begin.
const FIRST: u32 = 100;
/// The last MFN of an XRF of one block.
const LAST: u32 = 127;

/// All calls; the MST has twenty blocks.
pub fn calls() -> Vec<Call> {
    let mut calls = Vec::new();
    creates(&mut calls);
    settles(&mut calls);
    updates(&mut calls);
    deletes(&mut calls);
    looks(&mut calls);
    reverts(&mut calls);
    to_the_last_mfn(&mut calls);
    bad_arguments(&mut calls);
    until_full(&mut calls, LAST, 500, 6);
    second_catalogue(&mut calls);
    calls
}

/// The letters of a field: 0 to 12 of them, other ones for each record and turn.
fn field(mfn: u32, turn: u32, index: u32) -> Vec<u8> {
    let letters = (mfn * 5 + turn * 7 + index * 3) % 13;
    let letter = |i| b'a' + ((mfn + 3 * turn + 7 * index + i) % 26) as u8;
    (0..letters).map(letter).collect()
}

/// No field to three, of which the first and the third have one tag.
fn draft(mfn: u32, turn: u32) -> OwnedDraft {
    let tags: [u16; 3] = match mfn % 9 {
        0 => [32_767, 1, 32_767],
        _ => [24, 70, 24],
    };
    let count = (mfn + turn) % 4;
    let fields: Vec<Vec<u8>> = (0..count).map(|index| field(mfn, turn, index)).collect();
    let lent: Vec<(u16, &[u8])> = tags
        .into_iter()
        .zip(fields.iter().map(Vec::as_slice))
        .collect();
    OwnedDraft::of(&lent)
}

/// One field of so many letters.
fn long(letters: usize) -> OwnedDraft {
    OwnedDraft::of(&[(24, &vec![b'z'; letters])])
}

/// The first hundred records, new; every fifth is looked at.
fn creates(calls: &mut Vec<Call>) {
    for mfn in 1..=FIRST {
        calls.push(Call::Create(draft(mfn, 0)));
        if mfn % 5 == 0 {
            calls.push(Call::view(mfn, 24, 1 + mfn % 2));
        }
    }
    calls.push(Call::Check);
}

/// Every other record settled, and some of them once more.
fn settles(calls: &mut Vec<Call>) {
    calls.extend((1..=FIRST).step_by(2).map(Call::Settle));
    calls.extend([Call::Settle(25), Call::Settle(75)]);
    calls.push(Call::settle_list([25, 1, 0, 60, 101, 60]));
    let (mfns, room) = (vec![58, 60], 1);
    calls.push(Call::SettleList { mfns, room });
    calls.push(Call::Check);
}

/// Updates of settled and new records; then shorter and longer ones of some of these.
fn updates(calls: &mut Vec<Call>) {
    let turn = |step: usize, turn: u32| {
        let mfns = (1..=FIRST).step_by(step);
        mfns.map(move |mfn| Call::Update(mfn, draft(mfn, turn)))
    };
    calls.extend(turn(3, 1));
    calls.extend(
        (1..=FIRST)
            .step_by(12)
            .map(|mfn| Call::Update(mfn, long(1))),
    );
    calls.extend(
        (1..=FIRST)
            .step_by(15)
            .map(|mfn| Call::Update(mfn, long(41))),
    );
    calls.extend(turn(9, 2));
    calls.push(Call::Check);
}

/// Deletions under every mark, some of them settled; what is deleted stays as it is.
fn deletes(calls: &mut Vec<Call>) {
    calls.extend((2..=FIRST).step_by(7).map(Call::Delete));
    calls.extend((2..=FIRST).step_by(21).map(Call::Settle));
    calls.extend((2..=FIRST).step_by(35).map(Call::Delete));
    calls.extend(
        (9..=FIRST)
            .step_by(42)
            .map(|mfn| Call::Update(mfn, long(2))),
    );
    calls.extend([Call::Migrate, Call::Recount, Call::Check]);
}

/// Both views of every third record.
fn looks(calls: &mut Vec<Call>) {
    for mfn in (1..=FIRST).step_by(3) {
        let tag = if mfn % 9 == 0 { 32_767 } else { 24 };
        let occurrence = 1 + mfn / 3 % 2;
        calls.push(Call::view(mfn, tag, occurrence));
        calls.push(Call::view_settled(mfn, tag, occurrence));
    }
    calls.extend((2..=FIRST).step_by(14).map(|mfn| Call::view(mfn, 24, 1)));
    calls.extend(
        (2..=FIRST)
            .step_by(14)
            .map(|mfn| Call::view_settled(mfn, 24, 1)),
    );
}

/// Reverts, with many records changed since; each is looked at. Some changes are
/// settled, and then there is nothing to go back to.
fn reverts(calls: &mut Vec<Call>) {
    for mfn in (1..=FIRST).step_by(5) {
        calls.push(Call::Revert(mfn));
        calls.push(Call::view(mfn, 24, 1));
    }
    calls.extend((9..=FIRST).step_by(14).map(Call::Revert));
    calls.extend((9..=FIRST).step_by(14).map(|mfn| Call::view(mfn, 24, 1)));
    for mfn in (7..=FIRST).step_by(30) {
        calls.extend([Call::Settle(mfn), Call::view_settled(mfn, 24, 1)]);
        calls.push(Call::Revert(mfn));
    }
    calls.extend([Call::Recount, Call::Check]);
}

/// The rest of the MFNs, and one create too many.
fn to_the_last_mfn(calls: &mut Vec<Call>) {
    calls.extend((FIRST + 1..=LAST).map(|mfn| Call::Create(draft(mfn, 1))));
    calls.push(Call::Create(draft(1, 1)));
    calls.push(Call::Check);
}

/// Drafts that are not right, and MFNs that were never given out.
fn bad_arguments(calls: &mut Vec<Call>) {
    let bad = |tags: &[u16], lens: &[u16], data: &[u8]| OwnedDraft {
        tags: tags.to_vec(),
        lens: lens.to_vec(),
        data: data.to_vec(),
    };
    let drafts = [
        bad(&[24], &[], b""),
        bad(&[], &[0], b""),
        bad(&[0], &[4], b"zero"),
        bad(&[32_768], &[4], b"high"),
        bad(&[24, 70], &[1, 2], b"more"),
        bad(&[24, 70], &[3, 2], b"less"),
        bad(&[24, 70], &[65_535, 5], b"wrap"),
    ];
    for draft in drafts {
        calls.push(Call::Create(draft.clone()));
        calls.push(Call::Update(3, draft));
    }
    for mfn in [0, LAST + 1, 0x8000_0000, u32::MAX] {
        calls.extend([Call::view(mfn, 24, 1), Call::view_settled(mfn, 24, 1)]);
        calls.extend([Call::Update(mfn, draft(2, 0)), Call::Delete(mfn)]);
        calls.extend([Call::Settle(mfn), Call::Revert(mfn)]);
    }
    let edges = [(0, 1), (65_535, 1), (24, 0), (24, u32::MAX), (70, 2)];
    calls.extend(edges.map(|(tag, occurrence)| Call::view(3, tag, occurrence)));
    calls.extend(edges.map(|(tag, occurrence)| Call::view_settled(3, tag, occurrence)));
}

/// A long record deleted and taken back until the MST is full: each deletion is
/// one more copy at the end. Then nothing is appended any more, and updates in
/// place are still done.
fn until_full(calls: &mut Vec<Call>, mfn: u32, letters: usize, rounds: usize) {
    calls.extend([Call::Update(mfn, long(letters)), Call::Settle(mfn)]);
    for _ in 0..rounds {
        calls.extend([Call::Delete(mfn), Call::Revert(mfn)]);
    }
    calls.extend([
        Call::Update(mfn, long(letters)),
        Call::Create(long(letters)),
        Call::view(mfn, 24, 1),
        Call::view_settled(mfn, 24, 1),
        Call::Update(6, OwnedDraft::default()),
        Call::view(6, 24, 1),
        Call::Check,
    ]);
}

/// A second catalogue over the first, of which nothing is left.
fn second_catalogue(calls: &mut Vec<Call>) {
    calls.extend([Call::Format, Call::Migrate, Call::Recount, Call::Check]);
    calls.push(Call::view(1, 24, 1));
    for mfn in 1..=12 {
        calls.push(Call::Create(draft(mfn, 3)));
        calls.push(Call::view(mfn, 24, 1));
    }
    calls.extend([Call::Settle(1), Call::Settle(2), Call::Delete(2)]);
    calls.extend([Call::view(2, 24, 1), Call::view_settled(2, 24, 1)]);
    until_full(calls, 7, 700, 14);
    calls.extend([Call::Revert(2), Call::view(2, 24, 1)]);
    calls.extend([Call::Recount, Call::Check]);
}
