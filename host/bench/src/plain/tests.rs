//! What is timed does the model's work.

use super::called;
use differential::guarded::Side;
use differential::index::cases;
use differential::index::compare::{Case, Family};
use differential::postings::compare::{KINDS, broken, drive_reader};
use differential::postings::{self as posted, Element, Given, Reader};
use differential::records::compare::{Family as OfRecords, drive_tester};
use differential::records::{self, Tester, cases as tested};
use model::Refusal;
use model::ask::{Lists, RUBBISH, Room};
use model::call::{Call, Outcome, Shown, on_bytes};
use model::index::{check, lookup};
use model::layout::put_reccnt;
use model::lists::{self, PLANTED, Taste};
use model::postings::Place;
use model::postings::fault::Broken;
use model::postings::read::Merge;
use model::random::Random;

/// The outcome of a call in plain safe Rust.
fn run(mst: &mut [u8], xrf: &mut [u8], call: &Call) -> (Outcome, Shown) {
    let mut outcome = Outcome::default();
    outcome.number = match call {
        Call::Format => called::format(mst, xrf),
        Call::Check => called::check(mst, xrf),
        Call::Migrate => called::migrate(mst, xrf),
        Call::Recount => called::recount(mst, xrf),
        Call::Delete(mfn) => called::delete(mst, xrf, *mfn),
        Call::Settle(mfn) => called::settle(mst, xrf, *mfn),
        Call::Revert(mfn) => called::revert(mst, xrf, *mfn),
        Call::Update(mfn, draft) => called::update(mst, xrf, *mfn, &draft.lent()),
        Call::Create(draft) => {
            let number;
            (number, outcome.mfn) = called::create(mst, xrf, &draft.lent());
            number
        }
        Call::Next => {
            let number;
            (number, outcome.mfn, outcome.end) = called::next(mst, xrf);
            number
        }
        Call::State(mfn) => {
            let number;
            (number, outcome.mark, outcome.deleted) = called::state(mst, xrf, *mfn);
            number
        }
        Call::SettleList { mfns, room } => return settled(mst, xrf, mfns, *room),
        Call::Fields { room, .. } | Call::FieldsSettled { room, .. } => {
            return listed(mst, xrf, call, *room);
        }
        _ => return shown(mst, xrf, call),
    };
    (outcome, Shown::default())
}

/// The outcome of the calls that show a field.
fn shown(mst: &[u8], xrf: &[u8], call: &Call) -> (Outcome, Shown) {
    let untagged = |(number, start, len, occurrences)| (number, 0, start, len, occurrences);
    let uncounted = |(number, tag, start, len)| (number, tag, start, len, 0);
    let (number, tag, start, len, occurrences) = match *call {
        Call::View {
            mfn,
            tag,
            occurrence,
        } => untagged(called::view(mst, xrf, mfn, tag, occurrence)),
        Call::ViewSettled {
            mfn,
            tag,
            occurrence,
        } => untagged(called::view_settled(mst, xrf, mfn, tag, occurrence)),
        Call::Field { mfn, index } => uncounted(called::field(mst, xrf, mfn, index)),
        Call::FieldSettled { mfn, index } => uncounted(called::field_settled(mst, xrf, mfn, index)),
        _ => unreachable!("only calls that show a field come here"),
    };
    let part = start..start + len;
    let outcome = Outcome {
        number,
        tag,
        occurrences,
        field: mst[part.clone()].to_vec(),
        ..Outcome::default()
    };
    let shown = Shown {
        part,
        ..Shown::default()
    };
    (outcome, shown)
}

/// The outcome of the calls that hand out all fields.
fn listed(mst: &[u8], xrf: &[u8], call: &Call, room: Room) -> (Outcome, Shown) {
    let mut lists = Lists::lent(room);
    let (number, count) = match *call {
        Call::Fields { mfn, .. } => called::fields(mst, xrf, mfn, &mut lists),
        Call::FieldsSettled { mfn, .. } => called::fields_settled(mst, xrf, mfn, &mut lists),
        _ => unreachable!("only calls for all fields come here"),
    };
    let outcome = Outcome {
        number,
        fields: lists.fields(mst, count),
        ..Outcome::default()
    };
    let shown = Shown {
        lists,
        ..Shown::default()
    };
    (outcome, shown)
}

/// A list of MFNs, with the list of so many answers that it was lent.
fn settled(mst: &mut [u8], xrf: &mut [u8], mfns: &[u32], room: usize) -> (Outcome, Shown) {
    let mut answers = vec![u32::from_ne_bytes([RUBBISH; 4]); room];
    let number = called::settle_list(mst, xrf, mfns, &mut answers);
    let outcome = Outcome {
        number,
        answers: if number == 0 {
            answers.clone()
        } else {
            Vec::new()
        },
        ..Outcome::default()
    };
    let shown = Shown {
        answers,
        ..Shown::default()
    };
    (outcome, shown)
}

/// On lists from format, damaged now and then; in some of them RECCNT is planted.
#[test]
fn the_plain_program_does_the_same_as_the_model() {
    for seed in 0..400 {
        let mut random = Random::new(seed);
        let (mut mst, mut xrf) = (vec![0; 2048], vec![0; 512]);
        let (mut model_mst, mut model_xrf) = (mst.clone(), xrf.clone());
        let mut call = Call::Format;
        for step in 0..150 {
            let wanted = on_bytes(&mut model_mst, &mut model_xrf, &call);
            assert_eq!(
                run(&mut mst, &mut xrf, &call),
                wanted,
                "{seed}, {step}: {call:?}"
            );
            assert!(
                mst == model_mst && xrf == model_xrf,
                "{seed}, {step}: {call:?}"
            );
            if seed % 2 == 1 && random.one_in(10) {
                let (at, bit) = (random.between(4, 400), 1 << random.below(8));
                mst[at] ^= bit;
                model_mst[at] ^= bit;
                xrf[at % 40] ^= bit;
                model_xrf[at % 40] ^= bit;
            }
            if seed % 4 == 2 && random.one_in(4) {
                let count = random.pick(&PLANTED);
                put_reccnt(&mut mst, count);
                put_reccnt(&mut model_mst, count);
            }
            call = lists::any_call(&mut random, Taste::SHORT, 12);
        }
    }
}

/// The number of a lookup or a check by the model, with what it gives.
fn numbered<T: Default>(answer: Result<T, Refusal>) -> (u32, T) {
    answer.map_or_else(|why| (why.number(), T::default()), |given| (0, given))
}

/// On indexes as they are built, damaged and made by chance.
#[test]
fn the_plain_lookup_and_index_check_do_the_same_as_the_model() {
    let families: [Family; 5] = [
        cases::built,
        cases::damaged,
        cases::poked,
        cases::chance,
        cases::rubbish,
    ];
    for seed in 0..10_000 {
        let family = families[seed as usize % families.len()];
        let Case {
            what, files, terms, ..
        } = family(&mut Random::new(seed));
        let [cnt, n01, l01, n02, l02] = files.all();
        for term in &terms {
            let (number, (block, word)) = numbered(lookup(&files, term));
            let found = called::lookup(cnt, n01, l01, n02, l02, term);
            assert_eq!(found, (number, block, word), "{seed}, {what}: {term:?}");
        }
        let (number, ()) = numbered(check(&files));
        let found = called::check_index(cnt, n01, l01, n02, l02);
        assert_eq!(found, number, "{seed}, {what}");
    }
}

/// The record test in plain safe Rust.
struct PlainTest;

impl Tester for PlainTest {
    fn test(&mut self, record: &[u8], mfn: u32, deleted: u32, _: Side) -> records::Given {
        let given = called::record_test(record, mfn, deleted);
        let plainly = called::record_test_plainly(record, mfn, deleted);
        assert_eq!(plainly, given, "one entry in a turn and four");
        given
    }
}

/// On the families that the library is held to the model with.
#[test]
fn the_plain_record_test_is_that_of_the_model() {
    let families: [OfRecords; 7] = [
        tested::right,
        tested::leaders,
        tested::entries,
        tested::arguments,
        tested::poked,
        tested::chance,
        tested::rubbish,
    ];
    for family in families {
        let held = drive_tester(&mut PlainTest, family, 20_000, 1);
        held.unwrap_or_else(|words| panic!("{words}"));
    }
}

/// Lists of postings in plain safe Rust; single postings are not timed.
struct Plain(Vec<u8>);

impl Reader for Plain {
    fn lend(&mut self, file: &[u8], _: Side) {
        self.0 = file.to_vec();
    }

    fn postings(&mut self, from: Place, room: usize, _: Side) -> Given<u64> {
        given(room, |list| called::postings(&self.0, pair(from), list))
    }

    fn merged(&mut self, merge: Merge, from: [Place; 2], room: usize, _: Side) -> Given<u32> {
        let [a, b] = from.map(pair);
        given(room, |list| match merge {
            Merge::Common => called::common(&self.0, a, b, list),
            Merge::Joined => called::joined(&self.0, a, b, list),
        })
    }

    fn read(&mut self, _: &[u8], _: Side) -> (u32, [u32; 4]) {
        unreachable!()
    }

    fn write(&mut self, _: [u32; 4], _: usize, _: Side) -> (u32, Vec<u8>) {
        unreachable!()
    }

    fn compare(&mut self, _: u64, _: u64) -> u32 {
        unreachable!()
    }
}

fn pair(Place { block, word }: Place) -> (i32, i32) {
    (block, word)
}

fn given<T: Element>(room: usize, work: impl FnOnce(&mut [T]) -> (u32, usize)) -> Given<T> {
    let mut list = vec![T::RUBBISH; room];
    let (number, count) = work(&mut list);
    Given {
        number,
        count,
        list,
    }
}

/// On the families that the library is held to the model with, each rule broken.
#[test]
fn the_plain_lists_are_those_of_the_model() {
    let families: [(posted::compare::Family, usize); 5] = [
        (posted::cases::damaged, 5_000),
        (posted::cases::built, 500),
        (posted::cases::poked, 2_000),
        (posted::cases::chance, 500),
        (posted::cases::rubbish, 1_000),
    ];
    let [damaged, ..] = families.map(|(family, cases)| {
        let held = drive_reader(&mut Plain(Vec::new()), family, cases, 1);
        held.unwrap_or_else(|words| panic!("{words}"))
    });
    for kind in KINDS {
        for rule in Broken::ALL {
            assert!(damaged.times(kind, broken(rule)) > 0, "{kind:?}, {rule:?}");
        }
    }
}
