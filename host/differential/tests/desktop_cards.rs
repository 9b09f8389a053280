//! Five databases that desktop programs wrote, WinISIS one and IsisMarc four, as they come
//! with the source of Biblio::Isis. `.ci/desktop-cards` puts them into target/desktop-cards;
//! where they are not there, each test says so and holds nothing.
//!
//! What the rules make of them: NXTMFP is odd in all, the offset plus 1, as request C-12 has
//! it, and 61 of the 62 records are read, as Biblio::Isis reads them. The one left was deleted
//! by WinISIS, which negates the whole entry where document 01 negates the block. Four of the
//! five stores are not sound: in three the first version, out of date, has a negative MFRL, in
//! one a record was shortened in place; the fifth is empty. RECCNT is 0 in all, so that none of
//! their records can be deleted. With NXTMFP one less each is a card of the old rule, which a
//! migration makes what it was, byte for byte.

use differential::archive::Archive;
use differential::biblio::{Asked, Fields, lines, read};
use differential::guarded::Side;
use differential::tally::Tally;
use differential::trial::{Run, Step, Trial};
use isis::{Card, Refusal};
use model::call::{Call, OwnedDraft, on_bytes};
use model::layout::reccnt;
use std::fs;
use std::path::Path;

/// A database: its files, how many records it has, and what the whole check answers.
struct Desktop {
    files: [&'static str; 2],
    records: u32,
    check: u32,
}

const fn desktop(mst: &'static str, xrf: &'static str, records: u32, check: u32) -> Desktop {
    Desktop {
        files: [mst, xrf],
        records,
        check,
    }
}

const DESKTOP: [Desktop; 5] = [
    desktop("winisis/BIBL.mst", "winisis/BIBL.XRF", 5, 14),
    desktop("isismarc/BIBL.mst", "isismarc/BIBL.XRF", 5, 14),
    desktop(
        "isismarc/isismarc/fdt21.mst",
        "isismarc/isismarc/fdt21.xrf",
        51,
        14,
    ),
    desktop(
        "isismarc/isismarc/fmt21.mst",
        "isismarc/isismarc/fmt21.xrf",
        1,
        14,
    ),
    desktop(
        "isismarc/isismarc/pft21.mst",
        "isismarc/isismarc/pft21.xrf",
        0,
        0,
    ),
];

/// The record that WinISIS deleted, and its entry.
const DELETED: (&str, u32, i32) = ("winisis/BIBL.mst", 3, -(6 * 2048 + 322));

impl Desktop {
    /// Both files as they are, if they are there.
    fn bytes(&self) -> Option<(Vec<u8>, Vec<u8>)> {
        let folder = Path::new(env!("CARGO_MANIFEST_DIR")).join("../../target/desktop-cards");
        if !folder.is_dir() {
            println!("skipped, there is no target/desktop-cards: .ci/desktop-cards fetches it");
            return None;
        }
        let [mst, xrf] = self
            .files
            .map(|file| fs::read(folder.join(file)).expect(file));
        Some((mst, xrf))
    }

    /// Both files as the old rule would have them: NXTMFP, which is odd, one less.
    fn made_old(&self) -> Option<(Vec<u8>, Vec<u8>)> {
        let (mut mst, xrf) = self.bytes()?;
        assert_eq!(mst[12] % 2, 1, "{}", self.files[0]);
        mst[12] -= 1;
        Some((mst, xrf))
    }

    /// All calls but format, on every MFN up to the first that is free.
    fn calls(&self) -> Vec<Call> {
        let draft = OwnedDraft::of(&[(24, b"Kite")]);
        let mut calls = vec![Call::Check, Call::Next, Call::Create(draft.clone())];
        calls.extend([Call::Migrate, Call::Recount]);
        for mfn in 1..=self.records + 1 {
            calls.extend((0..4).map(|index| Call::Field { mfn, index }));
            calls.extend((0..4).map(|index| Call::FieldSettled { mfn, index }));
            calls.extend([Call::view(mfn, 200, 1), Call::view_settled(mfn, 245, 1)]);
            calls.extend([Call::view(mfn, 200, 9), Call::view_settled(mfn, 245, 9)]);
            calls.push(Call::State(mfn));
            for room in [[4; 3], [40; 3]] {
                calls.extend([
                    Call::Fields { mfn, room },
                    Call::FieldsSettled { mfn, room },
                ]);
            }
            calls.extend([Call::Settle(mfn), Call::Revert(mfn), Call::Delete(mfn)]);
            calls.push(Call::Update(mfn, draft.clone()));
        }
        calls
    }
}

/// Runs calls on the archive and on the model, each on the card as it came; both must give
/// the same, and the same bytes.
fn held(mst: &[u8], xrf: &[u8], calls: &[Call]) {
    for call in calls {
        let trial = Trial::on(mst, xrf, Side::Back);
        let mut archive = Archive::new();
        let mut run = Run::new(&mut archive, &trial);
        let step = Step::Call(call.clone());
        if let Err(difference) = run.step(&step, &mut Tally::default()) {
            panic!("{call:?}: {}", difference.what);
        }
    }
}

#[test]
fn as_they_are_the_archive_does_as_the_model() {
    for desktop in &DESKTOP {
        let Some((mst, xrf)) = desktop.bytes() else {
            return;
        };
        held(&mst, &xrf, &desktop.calls());
    }
}

#[test]
fn by_the_old_rule_every_call_answers_2_but_a_migration() {
    for desktop in &DESKTOP {
        let Some((mst, xrf)) = desktop.made_old() else {
            return;
        };
        let file = desktop.files[0];
        held(&mst, &xrf, &desktop.calls());
        for call in desktop.calls() {
            let (outcome, _) = on_bytes(&mut mst.clone(), &mut xrf.clone(), &call);
            let wanted = if call == Call::Migrate { 0 } else { 2 };
            assert_eq!(outcome.number, wanted, "{file}: {call:?}");
        }
        let (mut mst, mut xrf) = (mst, xrf);
        let mut card = Card::over(&mut mst, &mut xrf);
        assert_eq!(card.migrate(), Ok(()), "{file}");
        assert_eq!(card.migrate(), Err(Refusal::BadControl), "{file}");
        assert!(desktop.bytes() == Some((mst, xrf)), "{file}: other bytes");
    }
}

#[test]
fn all_records_but_a_deleted_one_are_read() {
    let mut read_well = 0;
    for desktop in &DESKTOP {
        let Some((mut mst, mut xrf)) = desktop.bytes() else {
            return;
        };
        let theirs = read(&mst, &xrf, Asked::Live);
        let (mut ours, file) = (String::new(), desktop.files[0]);
        let card = Card::over(&mut mst, &mut xrf);
        for mfn in 1..=desktop.records {
            match card.fields(mfn) {
                Ok(fields) => {
                    let fields: Fields = fields.map(|f| (f.tag, f.bytes.to_vec())).collect();
                    ours += &lines(mfn, &fields);
                    read_well += 1;
                }
                Err(refusal) => {
                    assert_eq!((file, mfn), (DELETED.0, DELETED.1));
                    assert_eq!(refusal.number(), 6);
                }
            }
        }
        assert_eq!(ours, theirs, "{file}");
    }
    assert_eq!(read_well, 61);
}

#[test]
fn a_record_that_winisis_deleted_has_its_whole_entry_negated() {
    let Some((mst, xrf)) = DESKTOP[0].bytes() else {
        return;
    };
    let (_, mfn, entry) = DELETED;
    assert_eq!(xrf[4 * mfn as usize..][..4], entry.to_le_bytes());
    let (mut mst, mut xrf) = (mst, xrf);
    let view = |mst: &mut Vec<u8>, xrf: &mut Vec<u8>| {
        Card::over(mst, xrf)
            .view(mfn, 200, 1)
            .err()
            .map(Refusal::number)
    };
    assert_eq!(view(&mut mst, &mut xrf), Some(6));
    // The same place with only its block negated is a deleted record.
    let ours = -6 * 2048 + 322i32;
    xrf[4 * mfn as usize..][..4].copy_from_slice(&ours.to_le_bytes());
    assert_eq!(view(&mut mst, &mut xrf), Some(9));
}

/// The first step from 64 whose MFRL, read as a signed number, is not positive or leads past
/// the end; `None` if stepping arrives there.
fn wrong_step(mst: &[u8]) -> Option<usize> {
    let i16_at = |at: usize| i16::from_le_bytes([mst[at], mst[at + 1]]);
    let end = (i16_at(8) as usize - 1) * 512 + i16_at(12) as usize - 1;
    let mut at = 64;
    while at < end {
        let mfrl = i16_at(at + 4);
        if mfrl <= 0 || at + mfrl as usize > end {
            return Some(at);
        }
        at += mfrl as usize;
        if at % 512 > 498 {
            at = (at / 512 + 1) * 512;
        }
    }
    None
}

/// In fmt21 a record at 12,116 was made shorter in place, to 1,600 bytes, and its MFRL with
/// it, so the step behind it lies in old data.
#[test]
fn stepping_fails_at_a_negative_mfrl_or_behind_a_shortened_record() {
    let wrong = [Some(64), Some(64), Some(64), Some(12_116 + 1_600), None];
    for (desktop, wrong) in DESKTOP.iter().zip(wrong) {
        let Some((mst, _)) = desktop.bytes() else {
            return;
        };
        assert_eq!(wrong_step(&mst), wrong, "{}", desktop.files[0]);
        let negative = mst[69] >= 0x80;
        assert_eq!(negative, wrong == Some(64), "{}", desktop.files[0]);
    }
}

#[test]
fn the_whole_check_finds_four_of_five_not_sound() {
    for desktop in &DESKTOP {
        let Some((mut mst, mut xrf)) = desktop.bytes() else {
            return;
        };
        let checked = Card::over(&mut mst, &mut xrf).check();
        let number = checked.map_or_else(Refusal::number, |()| 0);
        assert_eq!(number, desktop.check, "{}", desktop.files[0]);
    }
}

/// So a recount is refused where the check is, and no live record can be deleted: 2, also where
/// there would be no room for the copy.
#[test]
fn reccnt_is_0_in_all_of_them() {
    let mut barred = 0;
    for desktop in &DESKTOP {
        let Some((mut mst, mut xrf)) = desktop.bytes() else {
            return;
        };
        let file = desktop.files[0];
        assert_eq!(reccnt(&mst), 0, "{file}");
        let mut card = Card::over(&mut mst, &mut xrf);
        let recounted = card.recount().map_or_else(Refusal::number, |()| 0);
        assert_eq!(recounted, desktop.check, "{file}");
        for mfn in (1..=desktop.records).filter(|mfn| (file, *mfn) != (DELETED.0, DELETED.1)) {
            assert_eq!(card.delete(mfn), Err(Refusal::BadControl), "{file}: {mfn}");
            barred += 1;
        }
    }
    assert_eq!(barred, 61);
}
