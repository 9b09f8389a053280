//! RECCNT and the recount of request C-17, against either guard page. On a card with a record of
//! every kind, sound and damaged, RECCNT is planted where something changes and beside it, and
//! then every call is made on every MFN: the archive gives what the model does and leaves the
//! same bytes. Besides, known without the model: which calls are refused at which number, what
//! each makes of it, and that a recount writes nothing else.

use differential::archive::{Archive, Subject};
use differential::families::said;
use differential::guarded::{Side, report_hits};
use differential::tally::Tally;
use differential::trial::{Run, Step, Trial};
use isis::Card;
use model::call::{Call, OwnedDraft, on_bytes};
use model::layout::{put_reccnt, reccnt, slot_at};
use model::lists::PLANTED;

/// Both files of a card.
type Files = (Vec<u8>, Vec<u8>);

fn title(text: &str) -> OwnedDraft {
    OwnedDraft::of(&[(24, text.as_bytes())])
}

/// How many records of the card are neither deleted nor gone.
const LIVE: i32 = 4;

/// MFN 1 and 2 new, 3 settled, 4 changed; 5 changed and deleted, 6 new and deleted, 7 deleted
/// and settled, 8 gone.
fn card() -> Files {
    let (mut mst, mut xrf) = (vec![0; 4 * 512], vec![0; 512]);
    let mut calls = vec![Call::Format];
    calls.extend((1..=8).map(|_| Call::Create(title("Kite"))));
    calls.extend([3, 4, 5, 7, 8].map(Call::Settle));
    calls.push(Call::Update(4, title("Kit")));
    calls.extend([5, 6, 7].map(Call::Delete));
    calls.push(Call::Settle(7));
    for call in &calls {
        let (outcome, _) = on_bytes(&mut mst, &mut xrf, call);
        assert_eq!(outcome.number, 0, "{call:?}");
    }
    xrf[slot_at(8)..][..4].copy_from_slice(&(-2048i32).to_le_bytes());
    put_reccnt(&mut mst, LIVE);
    let (outcome, _) = on_bytes(&mut mst, &mut xrf, &Call::Check);
    assert_eq!(outcome.number, 0);
    (mst, xrf)
}

/// The planted numbers, the right one, and its neighbours.
fn counts() -> Vec<i32> {
    [&PLANTED[..], &[LIVE - 1, LIVE, LIVE + 1, LIVE + 65_536]].concat()
}

/// Every call, on every MFN from 0 to one that was never given out.
fn calls() -> Vec<Call> {
    let bad = OwnedDraft {
        tags: vec![24],
        ..OwnedDraft::default()
    };
    let mut calls = vec![
        Call::Format,
        Call::Check,
        Call::Migrate,
        Call::Recount,
        Call::Next,
        Call::settle_list(0..=9),
        Call::Create(title("Kites")),
        Call::Create(title(&"k".repeat(2_000))),
        Call::Create(bad.clone()),
    ];
    for mfn in 0..=9 {
        calls.extend([
            Call::Delete(mfn),
            Call::Revert(mfn),
            Call::Settle(mfn),
            Call::Update(mfn, title("Kit")),
            Call::Update(mfn, title("Kites and winds")),
            Call::Update(mfn, bad.clone()),
            Call::view(mfn, 24, 1),
            Call::view_settled(mfn, 24, 1),
            Call::State(mfn),
        ]);
    }
    calls
}

/// A card by its name.
type Named = (&'static str, Files);

/// The card, which is sound apart from RECCNT, and the same damaged in one number each.
fn cards() -> Vec<Named> {
    let sound = card();
    let end = || u16::from_le_bytes([sound.0[12], sound.0[13]]);
    let mut full = sound.clone();
    full.0[8..14].copy_from_slice(&[5, 0, 0, 0, 1, 0]);
    let mut cards = vec![("sound", sound.clone())];
    let mut put = |name, xrf: bool, at: usize, bytes: &[u8]| {
        let mut card = sound.clone();
        let file = if xrf { &mut card.1 } else { &mut card.0 };
        file[at..at + bytes.len()].copy_from_slice(bytes);
        cards.push((name, card));
    };
    put("old", false, 12, &(end() - 1).to_le_bytes());
    put("MFTYPE 1", false, 14, &[1]);
    put("first integer wrong", true, 0, &[1]);
    put("slot 9 not 0", true, slot_at(9), &[1]);
    put("entry 0", true, slot_at(1), &[0; 4]);
    put("entry with both marks", true, slot_at(2) + 1, &[0x0E]);
    put("MFRL 0", false, 64 + 4, &[0; 2]);
    put("STATUS 1 under a live entry", false, 64 + 16, &[1]);
    put(
        "STATUS 0 under a deleted entry",
        false,
        64 + 28 * 5 + 16,
        &[0],
    );
    put("settled version with a wrong MFN", false, 64 + 28 * 4, &[9]);
    put("another end", false, 12, &(end() + 2).to_le_bytes());
    cards.push(("no room", full));
    let odd = (sound.0[..2_047].to_vec(), sound.1.clone());
    cards.push(("MST of 2047 bytes", odd));
    cards.push(("no XRF", (sound.0.clone(), Vec::new())));
    cards
}

/// Makes each call on a card as it stands, through the archive and the model.
fn compare(name: &str, card: &Files, side: Side, calls: &[Call], tally: &mut Tally) {
    let trial = Trial::on(&card.0, &card.1, side);
    let whole = |xrf: bool, bytes: &[u8]| Step::Poke {
        xrf,
        at: 0,
        bytes: bytes.to_vec(),
    };
    let restore = [whole(false, &card.0), whole(true, &card.1)];
    let mut archive = Archive::new();
    let mut run = Run::new(&mut archive, &trial);
    for call in calls {
        let made = run.step(&Step::Call(call.clone()), tally);
        made.unwrap_or_else(|difference| panic!("{name}: {call:?}: {}", difference.what));
        for step in &restore {
            run.step(step, tally).expect("a poke");
        }
    }
}

#[test]
fn every_call_on_every_card_with_every_number() {
    report_hits();
    let (calls, mut tally) = (calls(), Tally::default());
    for (name, card) in cards() {
        for count in counts() {
            let mut planted = card.clone();
            put_reccnt(&mut planted.0, count);
            let name = format!("{name}, RECCNT {count}");
            for side in [Side::Front, Side::Back] {
                compare(&name, &planted, side, &calls, &mut tally);
            }
        }
    }
    said(&format!(
        "planted RECCNT: {} calls, all equal",
        tally.calls()
    ));
    let kind = Call::Recount.kind();
    for number in [0, 1, 2, 14] {
        assert!(tally.count(kind, number) >= 20, "recount {number}");
    }
}

/// What the archive answers to a call on the sound card with a number planted, and what number
/// stands there afterwards.
fn with(count: i32, call: &Call) -> (u32, i32) {
    let (mut mst, mut xrf) = card();
    put_reccnt(&mut mst, count);
    let given = Archive::new().run(&mut mst, &mut xrf, call, Side::Back);
    (given.number, reccnt(&mst))
}

/// A create, and the reverts of a live record, of a deleted one, and of none.
#[test]
fn one_more_and_its_end() {
    for before in counts() {
        let full = before == i32::MAX;
        let number = |done: u32| if full { 2 } else { done };
        let more = if full { before } else { before + 1 };
        let create = Call::Create(title("Kites"));
        assert_eq!(with(before, &create), (number(0), more));
        assert_eq!(with(before, &Call::Revert(4)), (number(0), before));
        assert_eq!(with(before, &Call::Revert(5)), (number(0), more));
        for (mfn, refused) in [(0, 4), (9, 4), (8, 7), (3, 10), (7, 10), (1, 11), (6, 11)] {
            let given = with(before, &Call::Revert(mfn));
            assert_eq!(given, (number(refused), before), "MFN {mfn}");
        }
        let bad = OwnedDraft {
            tags: vec![0],
            ..OwnedDraft::default()
        };
        assert_eq!(with(before, &Call::Create(bad)), (number(3), before));
        let long = Call::Create(title(&"k".repeat(2_000)));
        assert_eq!(with(before, &long), (number(13), before));
    }
}

/// A delete in place, by a copy, without room for it, and of what cannot be deleted.
#[test]
fn one_less_and_its_end() {
    for before in counts() {
        let none = before <= 0;
        let done = if none { (2, before) } else { (0, before - 1) };
        for mfn in [1, 2, 3, 4] {
            assert_eq!(with(before, &Call::Delete(mfn)), done, "MFN {mfn}");
        }
        for (mfn, refused) in [(0, 4), (9, 4), (8, 7), (5, 9), (6, 9), (7, 9)] {
            let given = with(before, &Call::Delete(mfn));
            assert_eq!(given, (refused, before), "MFN {mfn}");
        }
        let (mut mst, mut xrf) = card();
        put_reccnt(&mut mst, before);
        mst[8..14].copy_from_slice(&[5, 0, 0, 0, 1, 0]);
        let copied = Archive::new().run(&mut mst, &mut xrf, &Call::Delete(3), Side::Back);
        assert_eq!(copied.number, if none { 2 } else { 13 });
        assert_eq!(reccnt(&mst), before);
    }
}

/// The other calls neither look at it nor change it, but for the check, which asks.
#[test]
fn calls_that_leave_it() {
    for before in counts() {
        for call in [
            Call::Update(1, title("Kit")),
            Call::Update(3, title("Kites")),
            Call::Settle(1),
            Call::Settle(5),
            Call::settle_list([1, 4, 5, 6]),
            Call::view(1, 24, 1),
            Call::Next,
        ] {
            assert_eq!(with(before, &call), (0, before), "{call:?}");
        }
        let sound = if before == LIVE { 0 } else { 14 };
        assert_eq!(with(before, &Call::Check), (sound, before));
        assert_eq!(with(before, &Call::Migrate), (2, before));
        assert_eq!(with(before, &Call::Format), (0, 0));
    }
}

/// An old card is migrated whatever RECCNT is, and is recounted then.
#[test]
fn an_old_card_is_migrated_and_recounted() {
    let (sound, xrf) = card();
    for before in counts() {
        let (mut mst, mut xrf) = (sound.clone(), xrf.clone());
        put_reccnt(&mut mst, before);
        mst[12] -= 1;
        let mut card = Card::over(&mut mst, &mut xrf);
        assert_eq!(card.recount(), Err(isis::Refusal::BadControl));
        assert_eq!(card.migrate(), Ok(()));
        assert_eq!(reccnt(card.mst()), before);
        assert_eq!(card.check().is_ok(), before == LIVE);
        assert_eq!(card.recount(), Ok(()));
        assert_eq!(card.check(), Ok(()));
        assert!(card.mst() == sound, "RECCNT {before}");
    }
}

/// A recount writes bytes 16 to 19 and no other, and a second one nothing; where it is refused
/// no byte is another, RECCNT included.
#[test]
fn a_recount_writes_reccnt_and_nothing_else() {
    let (sound, _) = card();
    for (name, (mst, xrf)) in cards() {
        for before in counts() {
            let (mut mst, mut xrf_after) = (mst.clone(), xrf.clone());
            put_reccnt(&mut mst, before);
            let kept = mst.clone();
            let given = Archive::new().run(&mut mst, &mut xrf_after, &Call::Recount, Side::Back);
            assert!(xrf_after == xrf, "{name}, RECCNT {before}");
            match name {
                "sound" => assert!(given.number == 0 && mst == sound, "RECCNT {before}"),
                _ => assert!(given.number != 0 && mst == kept, "{name}, RECCNT {before}"),
            }
        }
    }
}

/// One more and one less carry into every byte; a number that differs in a single bit is another.
#[test]
fn numbers_that_carry_and_numbers_of_one_bit() {
    let edges = [
        0xFF,
        0x7F,
        0xFFFF,
        0x7FFF,
        0xFF_FFFF,
        0x7F_FFFF,
        0x7FFF_FFFE,
    ];
    for edge in edges {
        let create = Call::Create(title("Kites"));
        assert_eq!(with(edge, &create), (0, edge + 1));
        assert_eq!(with(edge, &Call::Revert(5)), (0, edge + 1));
        assert_eq!(with(edge + 1, &Call::Delete(3)), (0, edge));
        assert_eq!(with(edge + 1, &Call::Delete(1)), (0, edge));
    }
    assert_eq!(with(-1, &Call::Revert(5)), (0, 0));
    assert_eq!(with(i32::MIN, &Call::Revert(5)), (0, i32::MIN + 1));
    for shift in 2..32 {
        let other = LIVE ^ (1 << shift);
        assert_eq!(with(other, &Call::Check).0, 14, "{other}");
        assert_eq!(with(other, &Call::Recount), (0, LIVE));
    }
}
