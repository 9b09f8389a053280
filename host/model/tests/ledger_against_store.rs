//! Demand 3 on random lists: from format on, the byte store and the ledger give the
//! same answers, MFNs and fields; NXTMFN and the end are the ledger's; RECCNT is the number of
//! its live items and the count that the history gives, and a recount changes nothing; the store
//! stays sound; and after the list every field of every MFN is shown in both views,
//! by its index and in one list in both versions, and every state is told.

mod common;

use model::call::{Call, Outcome, on_bytes, on_ledger};
use model::history::History;
use model::layout::{Control, reccnt};
use model::lists::{self, Taste};
use model::random::Random;
use model::{Ledger, sound};
use std::collections::BTreeSet;

/// One list on a store of so many blocks; gives the (call, answer) pairs that came.
fn run(seed: u64, blocks: (usize, usize), taste: Taste, calls: usize) -> BTreeSet<(u32, u32)> {
    let mut random = Random::new(seed);
    let (mut mst, mut xrf) = (vec![0; blocks.0 * 512], vec![0; blocks.1 * 512]);
    random.fill(&mut mst);
    random.fill(&mut xrf);
    let mut ledger = Ledger::new(mst.len(), xrf.len()).unwrap();
    on_bytes(&mut mst, &mut xrf, &Call::Format);
    let (mut came, mut history) = (BTreeSet::new(), History::default());
    for i in 0..calls {
        let call = lists::any_call(&mut random, taste, ledger.next_mfn());
        let before = (call == Call::Recount).then(|| (mst.clone(), xrf.clone()));
        let (outcome, _) = on_bytes(&mut mst, &mut xrf, &call);
        let kept = before.is_none_or(|(m, x)| m == mst && x == xrf);
        assert!(kept, "seed {seed}, call {i}: a recount changed a byte");
        let wanted: Outcome = on_ledger(&mut ledger, &call);
        assert_eq!(outcome, wanted, "seed {seed}, call {i}: {call:?}");
        let control = Control::read(&mst, xrf.len()).unwrap();
        assert_eq!(control.next_mfn, ledger.next_mfn(), "seed {seed}, call {i}");
        assert_eq!(control.end, ledger.end(), "seed {seed}, call {i}");
        history.add(&call, &outcome);
        let counts = (i64::from(reccnt(&mst)), ledger.live() as i64);
        let counted = (history.count(), history.count());
        assert_eq!(counts, counted, "seed {seed}, call {i}: {call:?}");
        assert!(sound::is_sound(&mst, &xrf), "seed {seed}, call {i}");
        came.insert((call.kind() as u32, outcome.number));
    }
    every_field_is_shown(seed, &mut mst, &mut xrf, &mut ledger);
    came
}

/// Both versions of every MFN: by every tag and occurrence that its drafts could have, by
/// occurrence 0 and by the highest,
/// and by index up to the first that the directory does not have.
fn every_field_is_shown(seed: u64, mst: &mut [u8], xrf: &mut [u8], ledger: &mut Ledger) {
    for mfn in 1..ledger.next_mfn() as u32 {
        for tag in [1, 24, 70, 32_767] {
            for occurrence in (0..10).chain([u32::MAX]) {
                for call in [
                    Call::view(mfn, tag, occurrence),
                    Call::view_settled(mfn, tag, occurrence),
                ] {
                    let (outcome, _) = on_bytes(mst, xrf, &call);
                    assert_eq!(outcome, on_ledger(ledger, &call), "seed {seed}: {call:?}");
                }
            }
        }
        for index in 0..10 {
            for call in [
                Call::Field { mfn, index },
                Call::FieldSettled { mfn, index },
            ] {
                let (outcome, _) = on_bytes(mst, xrf, &call);
                assert_eq!(outcome, on_ledger(ledger, &call), "seed {seed}: {call:?}");
            }
        }
        let room = [9; 3];
        for call in [
            Call::State(mfn),
            Call::Fields { mfn, room },
            Call::FieldsSettled { mfn, room },
        ] {
            let (outcome, _) = on_bytes(mst, xrf, &call);
            assert_eq!(outcome, on_ledger(ledger, &call), "seed {seed}: {call:?}");
        }
    }
}

#[test]
fn random_lists_agree_and_every_answer_comes() {
    let mut came = BTreeSet::new();
    for seed in 0..40 {
        came.extend(run(seed, (12, 1), Taste::SHORT, 400));
        came.extend(run(seed + 1000, (2, 1), Taste::SHORT, 120));
        came.extend(run(seed + 2000, (40, 2), Taste::LONG, 200));
    }
    // Long enough between two formats that every MFN is given out.
    for seed in 3000..3004 {
        came.extend(run(seed, (400, 1), Taste::SHORT, 2_500));
    }
    assert_eq!(came, common::from_format(18));
}

#[test]
fn a_longest_store_of_long_records_agrees() {
    for seed in 0..4 {
        run(4000 + seed, (700, 1), Taste::LONG, 400);
    }
}
