//! A whole list of MFNs in one call, against either guard page: lists of none, of one, of the
//! longest length and of one more; the same MFN again; MFN 0, MFNs never used, gone, deleted
//! and pending; damaged cards; lists that are not equally long. The archive gives what the
//! model does, keeps what it keeps, and does what its own single calls do.

use differential::archive::{Archive, Subject};
use differential::families::said;
use differential::guarded::{Side, report_hits};
use differential::tally::Tally;
use differential::trial::{Run, Step, Trial};
use model::call::{Call, OwnedDraft, on_bytes};
use model::layout::slot_at;
use model::random::Random;

/// The most MFNs of a list.
const MOST: usize = 4_096;
/// The records of a card.
const RECORDS: u32 = 12;
/// MFNs that were never given out.
const UNUSED: [u32; 5] = [0, RECORDS + 1, 0x7FFF_FFFF, 0x8000_0000, u32::MAX];

/// Both files of a card.
type Files = (Vec<u8>, Vec<u8>);

fn title(text: &str) -> OwnedDraft {
    OwnedDraft::of(&[(24, text.as_bytes())])
}

/// Records that are new, settled, changed, deleted and pending, deleted and settled, new and
/// deleted, gone; with a malformed entry, and with a leader that is not right.
fn card() -> Files {
    let (mut mst, mut xrf) = (vec![0; 512 * 8], vec![0; 512]);
    let mut calls = vec![Call::Format];
    calls.extend((1..=RECORDS).map(|_| Call::Create(title("Kite"))));
    calls.extend((3..=8).map(Call::Settle));
    calls.extend([Call::Update(4, title("Kit")), Call::Update(5, title("Key"))]);
    calls.extend([Call::Delete(6), Call::Delete(7), Call::Settle(7)]);
    calls.push(Call::Delete(9));
    for call in &calls {
        let (outcome, _) = on_bytes(&mut mst, &mut xrf, call);
        assert_eq!(outcome.number, 0, "{call:?}");
    }
    xrf[slot_at(10)..][..4].copy_from_slice(&(-2048i32).to_le_bytes());
    xrf[slot_at(11)..][..4].copy_from_slice(&1i32.to_le_bytes());
    let entry = i32::from_le_bytes(xrf[slot_at(12)..][..4].try_into().unwrap());
    let at = ((entry / 2048 - 1) * 512 + entry % 512) as usize;
    mst[at + 16] = 9;
    (mst, xrf)
}

/// What the card answers to each of its MFNs, and to some that it never gave out.
#[test]
fn the_card_has_every_answer_of_a_settle() {
    let (mut mst, mut xrf) = card();
    let list = Call::settle_list((1..=RECORDS).chain(UNUSED));
    let (outcome, _) = on_bytes(&mut mst, &mut xrf, &list);
    let records = [0, 0, 10, 0, 0, 0, 10, 10, 0, 7, 6, 8];
    assert_eq!(outcome.answers, [&records[..], &[4; 5]].concat());
}

/// So many MFNs, every one of the card and of the unused again and again, in some order.
fn mfns(random: &mut Random, count: usize) -> Vec<u32> {
    let all: Vec<u32> = (1..=RECORDS).chain(UNUSED).collect();
    (0..count).map(|_| random.pick(&all)).collect()
}

/// Runs calls on a card through the archive and the model.
fn compare(card: &Files, side: Side, calls: &[Call], tally: &mut Tally) {
    let trial = Trial::on(&card.0, &card.1, side);
    let mut archive = Archive::new();
    let mut run = Run::new(&mut archive, &trial);
    for call in calls {
        let made = run.step(&Step::Call(call.clone()), tally);
        made.unwrap_or_else(|difference| panic!("{call:?}: {}", difference.what));
    }
}

#[test]
fn lists_of_every_length_that_matters() {
    report_hits();
    let (card, mut random, mut tally) = (card(), Random::new(13), Tally::default());
    for side in [Side::Front, Side::Back] {
        for count in [0, 1, 2, 17, MOST - 1, MOST, MOST + 1, MOST + 2] {
            let list = mfns(&mut random, count);
            let again = Call::settle_list(list.iter().copied());
            compare(
                &card,
                side,
                &[again.clone(), again, Call::Check],
                &mut tally,
            );
            for room in [0, 1, count.saturating_sub(1), count + 1, MOST, MOST + 1] {
                let mfns = list.clone();
                compare(&card, side, &[Call::SettleList { mfns, room }], &mut tally);
            }
        }
    }
    let kind = Call::settle_list([]).kind();
    let (done, refused) = (tally.count(kind, 0), tally.count(kind, 17));
    said(&format!("lists of MFNs: {done} settled, {refused} refused"));
    assert!(done >= 24 && refused >= 60);
}

/// Buffers of a length that is not permitted, a control record that is not right, and an old
/// card: the call answers 0, and each MFN of the list 1 or 2.
#[test]
fn cards_that_are_refused() {
    let (mst, xrf) = card();
    let wrong = |at: usize, value: u8| {
        let mut mst = mst.clone();
        mst[at] = value;
        (mst, xrf.clone())
    };
    let cards = [
        (mst[..mst.len() - 1].to_vec(), xrf.clone()),
        (mst.clone(), Vec::new()),
        (Vec::new(), Vec::new()),
        wrong(0, 1),
        wrong(12, mst[12] - 1),
    ];
    let mut tally = Tally::default();
    for (card, wanted) in cards.iter().zip([1, 1, 1, 2, 2]) {
        let list = Call::settle_list((0..=RECORDS).chain([1, 1]));
        let (mut mst, mut xrf) = card.clone();
        let (outcome, _) = on_bytes(&mut mst, &mut xrf, &list);
        assert_eq!((outcome.number, &outcome.answers), (0, &vec![wanted; 15]));
        assert!((mst, xrf) == *card, "nothing is changed");
        for side in [Side::Front, Side::Back] {
            compare(card, side, std::slice::from_ref(&list), &mut tally);
        }
    }
}

/// One call, and a single call of the archive for each MFN: the same bytes and answers.
#[test]
fn a_list_does_what_its_single_calls_do() {
    let (mut random, mut archive) = (Random::new(14), Archive::new());
    for count in [0, 1, 2, 100, MOST] {
        let (list, mut one, mut many) = (mfns(&mut random, count), card(), card());
        let call = Call::settle_list(list.iter().copied());
        let given = archive.run(&mut one.0, &mut one.1, &call, Side::Back);
        let settle = |&mfn: &u32| {
            let single = Call::Settle(mfn);
            archive
                .run(&mut many.0, &mut many.1, &single, Side::Back)
                .number
        };
        let answers: Vec<u32> = list.iter().map(settle).collect();
        assert_eq!((given.number, given.answers), (0, answers));
        assert!(one == many, "the same bytes");
    }
}
