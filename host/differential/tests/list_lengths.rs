//! All fields at once, in lists of every length about their number, each list for itself,
//! against either guard page: records of no field, of some, and of as many as there can
//! be, in both versions. The archive gives what the model does, and keeps what it keeps.

use differential::archive::Archive;
use differential::families::said;
use differential::guarded::{Side, report_hits};
use differential::tally::Tally;
use differential::trial::{Run, Step, Trial};
use model::ask::Room;
use model::call::{Call, OwnedDraft, on_bytes};

/// The most fields of a record: 18 bytes and 6 for each, at most 32,766.
const MOST: usize = 5_458;

/// How many fields the settled versions have.
const SETTLED: [usize; 8] = [0, 1, 2, 3, 8, 63, 64, MOST];

/// How many fields the version has that changes such a one.
fn changed(settled: usize) -> usize {
    if settled < MOST {
        settled + 1
    } else {
        MOST - 1
    }
}

/// A draft of so many fields; where there is room for data, some of them are not empty.
fn draft(fields: usize) -> OwnedDraft {
    let most = if fields < 100 { 4 } else { 1 };
    let lens: Vec<u16> = (0..fields).map(|i| (i % most) as u16).collect();
    OwnedDraft {
        tags: (1..=fields as u16).collect(),
        data: vec![b'x'; lens.iter().map(|&len| usize::from(len)).sum()],
        lens,
    }
}

/// A card of changed records, with nothing done to it yet.
fn trial(side: Side) -> Trial {
    let (mut mst, mut xrf) = (vec![0; 512 * 160], vec![0; 512]);
    let mut calls = vec![Call::Format];
    for (mfn, settled) in (1..).zip(SETTLED) {
        calls.push(Call::Create(draft(settled)));
        calls.push(Call::Settle(mfn));
        calls.push(Call::Update(mfn, draft(changed(settled))));
    }
    for call in &calls {
        let (outcome, _) = on_bytes(&mut mst, &mut xrf, call);
        assert_eq!(outcome.number, 0, "{call:?}");
    }
    Trial::on(&mst, &xrf, side)
}

/// No element, and up to two fewer or more than there are fields, each list for itself.
fn rooms(fields: usize) -> impl Iterator<Item = Room> {
    let about = fields.saturating_sub(2)..=fields + 2;
    let none = (fields > 2).then_some(0);
    let lengths: Vec<usize> = about.chain(none).collect();
    let count = lengths.len();
    (0..count.pow(3))
        .map(move |i| [i / count / count, i / count % count, i % count].map(|i| lengths[i]))
}

/// The calls for both versions of a record, each in lists about its own number of fields.
fn calls(mfn: u32, settled: usize) -> impl Iterator<Item = Call> {
    let current = rooms(changed(settled)).map(move |room| Call::Fields { mfn, room });
    current.chain(rooms(settled).map(move |room| Call::FieldsSettled { mfn, room }))
}

#[test]
fn lists_of_every_length_about_the_number_of_fields() {
    report_hits();
    let mut archive = Archive::new();
    let mut tally = Tally::default();
    for side in [Side::Front, Side::Back] {
        let trial = trial(side);
        let mut run = Run::new(&mut archive, &trial);
        let records = (1..).zip(SETTLED);
        for call in records.flat_map(|(mfn, settled)| calls(mfn, settled)) {
            let made = run.step(&Step::Call(call.clone()), &mut tally);
            made.unwrap_or_else(|difference| panic!("{call:?}: {}", difference.what));
        }
    }
    said(&format!(
        "lists of every length: {} calls, all equal",
        tally.calls()
    ));
    // Of each version, each list at its number of fields or up to two more.
    let done = 2 * SETTLED.len() * 27;
    for call in [
        Call::Fields {
            mfn: 1,
            room: [0; 3],
        },
        Call::FieldsSettled {
            mfn: 1,
            room: [0; 3],
        },
    ] {
        assert_eq!(tally.count(call.kind(), 0), done);
        assert!(tally.count(call.kind(), 17) > done);
    }
}
