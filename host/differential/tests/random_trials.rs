//! At least a million calls through the archive, each compared with the model. The
//! tables printed say how often each answer of each call came; from the fixed seeds each
//! must come often enough, from a seed in ISIS_SEED only the comparing counts.

use differential::damage::Damaged;
use differential::families::{Family, FromFormat, Hostile, Planted, calls, drive};
use differential::random_cards::RandomCards;
use differential::tally::{ANSWERS, Tally};
use model::{Call, OwnedDraft};

const FROM_FORMAT: usize = 600_000;
const DAMAGED: usize = 500_000;
const RANDOM: usize = 150_000;
const HOSTILE: usize = 40_000;
const PLANTED: usize = 150_000;
const _: () = assert!(FROM_FORMAT + DAMAGED + RANDOM + HOSTILE >= 1_000_000);

fn run(name: &str, family: &mut dyn Family, wanted: usize) -> Tally {
    let tally = drive(name, family, calls(wanted));
    assert!(tally.calls() >= calls(wanted));
    tally
}

/// An answer of a call came at least so often, unless the seeds are somebody's own.
fn came(tally: &Tally, call: usize, number: usize, times: usize) {
    let count = tally.count(call, number);
    assert!(
        count >= times || std::env::var_os("ISIS_SEED").is_some(),
        "{} answered {number} {count} times",
        Call::NAMES[call]
    );
}

/// Every one of these answers of every call came at least `times` times.
fn all_came(tally: &Tally, left_out: &[usize], times: usize) {
    for (call, answers) in ANSWERS.iter().enumerate() {
        for &number in answers.iter().filter(|number| !left_out.contains(number)) {
            came(tally, call, number, times);
        }
    }
}

#[test]
fn lists_from_format() {
    let tally = run("lists from format", &mut FromFormat::new(), FROM_FORMAT);
    let migrate = Call::Migrate.kind();
    for (call, answers) in ANSWERS.iter().enumerate() {
        for &number in *answers {
            let never = if call == migrate {
                number != 2
            } else {
                [1, 2, 6, 7, 8, 14].contains(&number)
            };
            if never {
                let name = Call::NAMES[call];
                assert_eq!(tally.count(call, number), 0, "{name} {number}");
            } else {
                came(&tally, call, number, calls(60));
            }
        }
    }
}

#[test]
fn damaged_cards() {
    let tally = run("damaged cards", &mut Damaged::default(), DAMAGED);
    all_came(&tally, &[1, 5, 13], calls(20));
}

#[test]
fn random_cards() {
    let tally = run("random cards", &mut RandomCards, RANDOM);
    for (call, answers) in ANSWERS.iter().enumerate() {
        // a list of MFNs answers 0 there, and 1 to each of them
        let number = usize::from(answers.contains(&1));
        came(&tally, call, number, 10);
    }
}

#[test]
fn hostile_arguments() {
    let tally = run("hostile arguments", &mut Hostile, HOSTILE);
    for (call, number) in [(1, 15), (3, 3), (4, 3), (12, 12), (13, 12), (16, 17)] {
        came(&tally, call, number, calls(100));
    }
    came(&tally, 2, 15, calls(20));
}

/// RECCNT at its edges and beside them: 2 of create, delete and revert, 14 of a check and not of
/// a recount.
#[test]
fn planted_counts() {
    let tally = run("planted counts", &mut Planted::default(), PLANTED);
    let kind = |call: Call| call.kind();
    for (call, numbers) in [
        (
            kind(Call::Create(OwnedDraft::default())),
            &[0, 2, 3, 13][..],
        ),
        (kind(Call::Delete(1)), &[0, 2, 4, 9, 13]),
        (kind(Call::Revert(1)), &[0, 2, 4, 10, 11]),
        (kind(Call::Check), &[0, 14]),
        (kind(Call::Recount), &[0]),
        (kind(Call::Settle(1)), &[0, 4, 10]),
        (kind(Call::Update(1, OwnedDraft::default())), &[0, 3, 4, 9]),
    ] {
        for &number in numbers {
            came(&tally, call, number, calls(200));
        }
    }
    assert_eq!(tally.count(kind(Call::Recount), 14), 0);
}
