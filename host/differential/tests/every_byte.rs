//! Every byte of a small card set to several values, one at a time, and then every
//! call made on every MFN: the archive and the model must agree on each. The card has
//! a record of every kind: settled, new, changed, deleted under each mark, gone; and is sound.

use differential::archive::Archive;
use differential::families::said;
use differential::guarded::{Side, report_hits};
use differential::shrink::{report, shrink};
use differential::tally::Tally;
use differential::trial::{Run, Step, Trial};
use model::call::{Call, OwnedDraft, on_bytes};

fn draft(text: &str) -> OwnedDraft {
    OwnedDraft::of(&[(24, text.as_bytes()), (70, b"x")])
}

/// One block of MST: seven MFNs, of which the last is gone.
fn card() -> (Vec<u8>, Vec<u8>) {
    let (mut mst, mut xrf) = (vec![0; 512], vec![0; 512]);
    let mut calls = vec![Call::Format];
    calls.extend((0..7).map(|_| Call::Create(draft("a"))));
    calls.extend([1, 2, 3, 4, 7].map(Call::Settle));
    calls.extend([
        Call::Update(2, draft("b")),
        Call::Delete(3),
        Call::Delete(4),
        Call::Settle(4),
        Call::Delete(6),
    ]);
    for call in &calls {
        let (outcome, _) = on_bytes(&mut mst, &mut xrf, call);
        assert_eq!(outcome.number, 0, "{call:?}");
    }
    xrf[28..32].copy_from_slice(&(-2048i32).to_le_bytes());
    mst[16] -= 1;
    let (outcome, _) = on_bytes(&mut mst, &mut xrf, &Call::Check);
    assert_eq!((outcome.number, mst[16]), (0, 3));
    (mst, xrf)
}

/// Every call, on every MFN up to one that was never given out.
fn calls() -> Vec<Call> {
    let mut calls = vec![
        Call::Check,
        Call::Migrate,
        Call::Recount,
        Call::settle_list([8, 2, 1, 3, 2, 4, 7, 5, 6]),
        Call::Next,
        Call::Create(draft("c")),
        Call::Create(draft("")),
    ];
    for mfn in 1..=8 {
        calls.extend([
            Call::view(mfn, 70, 1),
            Call::view_settled(mfn, 70, 1),
            Call::view(mfn, 70, 2),
            Call::view_settled(mfn, 24, 3),
            Call::Field { mfn, index: 0 },
            Call::Field { mfn, index: 1 },
            Call::Field { mfn, index: 2 },
            Call::FieldSettled { mfn, index: 0 },
            Call::FieldSettled { mfn, index: 1 },
            Call::FieldSettled { mfn, index: 2 },
            Call::State(mfn),
            Call::Fields { mfn, room: [2; 3] },
            Call::FieldsSettled {
                mfn,
                room: [2, 3, 2],
            },
            Call::FieldsSettled {
                mfn,
                room: [2, 2, 1],
            },
            Call::Update(mfn, draft("")),
            Call::Update(mfn, draft("longer")),
            Call::Delete(mfn),
            Call::Settle(mfn),
            Call::Revert(mfn),
        ]);
    }
    calls
}

/// The values that a byte is set to.
fn values(old: u8) -> [u8; 6] {
    [0, 1, 0xFF, old ^ 0x80, old.wrapping_add(2), old ^ 1]
}

/// The card with one byte changed.
struct Changed<'a> {
    card: &'a (Vec<u8>, Vec<u8>),
    side: Side,
    poke: Step,
}

impl Changed<'_> {
    fn trial(&self, steps: Vec<Step>) -> Trial {
        Trial {
            steps,
            ..Trial::on(&self.card.0, &self.card.1, self.side)
        }
    }

    /// Makes every call, each on the card with nothing but this byte changed.
    fn try_all(&self, calls: &[Call], archive: &mut Archive, tally: &mut Tally) {
        let whole = |xrf: bool, bytes: &[u8]| Step::Poke {
            xrf,
            at: 0,
            bytes: bytes.to_vec(),
        };
        let restore = [whole(false, &self.card.0), whole(true, &self.card.1)];
        let start = self.trial(Vec::new());
        let mut run = Run::new(archive, &start);
        for call in calls {
            let steps = [self.poke.clone(), Step::Call(call.clone())];
            let mut all = steps.iter().chain(&restore);
            if all.try_for_each(|step| run.step(step, tally)).is_err() {
                let failing = self.trial(steps.to_vec());
                let (small, difference) = shrink(&failing, archive).expect("it fails again");
                panic!("{}", report(&small, &difference));
            }
        }
    }
}

#[test]
fn every_byte_of_a_small_card() {
    report_hits();
    let card = card();
    let calls = calls();
    let mut archive = Archive::new();
    let mut tally = Tally::default();
    // In a build without optimisation only every eleventh byte is tried.
    let stride = if cfg!(debug_assertions) { 11 } else { 1 };
    for place in (0..1024).step_by(stride) {
        let (xrf, at) = (place >= 512, place % 512);
        let old = if xrf { card.1[at] } else { card.0[at] };
        for value in values(old) {
            let changed = Changed {
                card: &card,
                side: [Side::Front, Side::Back][place % 2],
                poke: Step::Poke {
                    xrf,
                    at,
                    bytes: vec![value],
                },
            };
            changed.try_all(&calls, &mut archive, &mut tally);
        }
    }
    said(&format!(
        "every byte of a small card: {} calls, all equal",
        tally.calls()
    ));
    println!("{tally}");
}
