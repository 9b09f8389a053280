//! Families of random trials, and the driver that runs one until enough calls were
//! made. Here are lists from format, hostile arguments, and cards with any RECCNT;
//! [`damage`](crate::damage) and [`random_cards`](crate::random_cards) have the others.

use crate::archive::{Archive, Subject};
use crate::damage::planted;
use crate::guarded::{Side, report_hits};
use crate::shrink::{report, shrink};
use crate::tally::Tally;
use crate::trial::{Run, Step, Trial};
use model::call::Call;
use model::layout::BLOCK;
use model::lists::{self, Taste};
use model::random::Random;
use model::{Refusal, store};
use std::io::Write;
use std::ops::Range;

/// A way to make trials.
pub trait Family {
    /// The card that a trial starts with, in blocks or bytes of its own choice.
    fn card(&mut self, random: &mut Random) -> (Vec<u8>, Vec<u8>);

    /// The next step; `None` ends the trial.
    fn next(&mut self, random: &mut Random, run: &Run, done: usize) -> Option<Step>;
}

/// The first seed: `ISIS_SEED`, or 1.
pub fn first_seed() -> u64 {
    let given = std::env::var("ISIS_SEED").ok();
    given.map_or(1, |text| {
        text.parse().expect("ISIS_SEED must be a whole number")
    })
}

/// How many calls to make: fewer in a build without optimisation.
pub fn calls(wanted: usize) -> usize {
    if cfg!(debug_assertions) {
        wanted / 20
    } else {
        wanted
    }
}

/// Runs trials of a family on the archive until so many calls were made; panics with
/// a shrunk list at the first difference.
pub fn drive(name: &str, family: &mut dyn Family, wanted: usize) -> Tally {
    report_hits();
    let first = first_seed();
    let (tally, last) = drive_subject(&mut Archive::new(), family, wanted, first)
        .unwrap_or_else(|words| panic!("{name}: {words}"));
    said(&format!(
        "{name}: seeds {first} to {last}, {} calls, all equal",
        tally.calls()
    ));
    println!("{tally}");
    tally
}

/// Prints a line past the test harness, which keeps what a passing test prints.
pub fn said(line: &str) {
    let _ = writeln!(std::io::stderr(), "{line}");
}

/// The same on any subject; gives the tally and the last seed, or the shrunk list.
pub fn drive_subject(
    subject: &mut dyn Subject,
    family: &mut dyn Family,
    wanted: usize,
    first: u64,
) -> Result<(Tally, u64), String> {
    let mut tally = Tally::default();
    let mut seed = first;
    loop {
        if let Err(trial) = one(subject, family, seed, &mut tally) {
            let (small, difference) = shrink(&trial, subject)
                .ok_or_else(|| format!("seed {seed}: a difference that does not come again"))?;
            return Err(report(&small, &difference));
        }
        if tally.calls() >= wanted {
            return Ok((tally, seed));
        }
        seed += 1;
    }
}

/// One trial; on a difference, the trial with the steps that led there.
fn one(
    subject: &mut dyn Subject,
    family: &mut dyn Family,
    seed: u64,
    tally: &mut Tally,
) -> Result<(), Box<Trial>> {
    let mut random = Random::new(seed);
    let (mst, xrf) = family.card(&mut random);
    let side = random.pick(&[Side::Front, Side::Back]);
    let mut trial = Trial {
        seed,
        mst,
        xrf,
        side,
        steps: Vec::new(),
    };
    let mut run = Run::new(subject, &trial);
    while let Some(step) = family.next(&mut random, &run, trial.steps.len()) {
        let result = run.step(&step, tally);
        trial.steps.push(step);
        if result.is_err() {
            return Err(Box::new(trial));
        }
    }
    Ok(())
}

/// A card of so many blocks with random bytes.
pub fn rubbish(random: &mut Random, mst_blocks: usize, xrf_blocks: usize) -> (Vec<u8>, Vec<u8>) {
    let (mut mst, mut xrf) = (vec![0; mst_blocks * BLOCK], vec![0; xrf_blocks * BLOCK]);
    random.fill(&mut mst);
    random.fill(&mut xrf);
    (mst, xrf)
}

/// A random call of any kind; one in eight is a view that asks for about as many occurrences of
/// a tag as there are.
pub fn any_call(random: &mut Random, taste: Taste, run: &Run) -> Call {
    if random.one_in(8) {
        return view_around(random, run);
    }
    lists::any_call(random, taste, run.next_mfn())
}

/// A view of the current or the settled version: mostly of an occurrence up to two off the last
/// that the model's card has, sometimes of 0, of the highest, or of any.
fn view_around(random: &mut Random, run: &Run) -> Call {
    let (mfn, tag) = (lists::mfn(random, run.next_mfn()), lists::tag(random));
    let (mst, xrf) = run.card();
    let (view, call) = if random.one_in(2) {
        (store::view as View, Call::view as fn(u32, u16, u32) -> Call)
    } else {
        (store::view_settled as View, Call::view_settled as _)
    };
    let there = match view(mst, xrf, mfn, tag, u32::MAX) {
        Err(Refusal::Fewer(occurrences)) => occurrences,
        _ => 0,
    };
    let occurrence = match random.below(8) {
        0 => random.pick(&[0, u32::MAX]),
        1 => random.next() as u32,
        off => (there + off as u32).saturating_sub(5),
    };
    call(mfn, tag, occurrence)
}

/// A view of the model.
type View = fn(&[u8], &[u8], u32, u16, u32) -> store::Answer<Range<usize>>;

/// Records so short that the slots are used up before the space.
const TINY: Taste = Taste {
    field: 2,
    fields: 1,
    format_in: 1500,
    bad_draft_in: 30,
};

/// Lists from format: small stores, in which 5 and 13 come often, and some large ones.
#[derive(Debug)]
pub struct FromFormat {
    taste: Taste,
    steps: usize,
}

impl FromFormat {
    /// The family.
    #[allow(clippy::new_without_default)]
    pub fn new() -> FromFormat {
        FromFormat {
            taste: Taste::SHORT,
            steps: 0,
        }
    }
}

impl Family for FromFormat {
    fn card(&mut self, random: &mut Random) -> (Vec<u8>, Vec<u8>) {
        let (mst, xrf, taste, steps) = random.pick(&[
            (1, 1, Taste::SHORT, 60),
            (2, 1, Taste::SHORT, 100),
            (3, 2, Taste::SHORT, 150),
            (6, 1, Taste::SHORT, 250),
            (12, 1, Taste::SHORT, 400),
            (9, 1, TINY, 1_150),
            (24, 2, TINY, 2_000),
            (20, 1, Taste::LONG, 150),
            (100, 3, Taste::LONG, 200),
        ]);
        (self.taste, self.steps) = (taste, steps);
        rubbish(random, mst, xrf)
    }

    fn next(&mut self, random: &mut Random, run: &Run, done: usize) -> Option<Step> {
        match done {
            0 => Some(Step::Call(Call::Format)),
            _ if done == self.steps => None,
            _ => Some(Step::Call(any_call(random, self.taste, run))),
        }
    }
}

/// A good card and arguments that are not: drafts that do not fit together or are far
/// too long, MFNs, tags, occurrences and indexes at the edges of their numbers.
#[derive(Debug, Default)]
pub struct Hostile;

impl Family for Hostile {
    fn card(&mut self, random: &mut Random) -> (Vec<u8>, Vec<u8>) {
        let (mst, xrf) = random.pick(&[(4, 1), (8, 1), (200, 1)]);
        rubbish(random, mst, xrf)
    }

    fn next(&mut self, random: &mut Random, run: &Run, done: usize) -> Option<Step> {
        if done == 0 {
            return Some(Step::Call(Call::Format));
        }
        if done == 120 {
            return None;
        }
        let (tag, occurrence) = (lists::tag(random), lists::occurrence(random));
        let mfn = match random.below(3) {
            0 => random.next() as u32,
            _ => lists::mfn(random, run.next_mfn()),
        };
        Some(Step::Call(match random.below(12) {
            0..=1 => Call::Create(lists::hostile_draft(random, Taste::SHORT)),
            2..=3 => Call::Update(mfn, lists::hostile_draft(random, Taste::SHORT)),
            4 => Call::view(mfn, tag, random.next() as u32),
            5 => Call::view_settled(mfn, random.next() as u16, occurrence),
            6 => Call::Field {
                mfn,
                index: random.next() as usize,
            },
            7 => Call::FieldSettled {
                mfn,
                index: lists::index(random),
            },
            8 => lists::telling(random, Taste::SHORT, mfn as usize),
            9 => view_around(random, run),
            _ => lists::call(random, Taste::SHORT, run.next_mfn()),
        }))
    }
}

/// Cards that are sound apart from RECCNT, which somebody plants again and again: from format
/// on the calls that keep it, read it or write it come most often.
#[derive(Debug, Default)]
pub struct Planted {
    building: usize,
}

impl Family for Planted {
    fn card(&mut self, random: &mut Random) -> (Vec<u8>, Vec<u8>) {
        self.building = random.between(2, 40);
        let (mst, xrf) = random.pick(&[(1, 1), (1, 1), (2, 1), (12, 2)]);
        rubbish(random, mst, xrf)
    }

    fn next(&mut self, random: &mut Random, run: &Run, done: usize) -> Option<Step> {
        if done == 0 {
            return Some(Step::Call(Call::Format));
        }
        if done == self.building + 60 {
            return None;
        }
        if done > self.building && random.one_in(3) {
            let (xrf, at, bytes) = planted(random, run);
            return Some(Step::Poke { xrf, at, bytes });
        }
        let (mfn, taste) = (lists::mfn(random, run.next_mfn()), Taste::SHORT);
        Some(Step::Call(match random.below(16) {
            0..=2 => Call::Create(lists::draft(random, taste)),
            3..=5 => Call::Delete(mfn),
            6..=8 => Call::Revert(mfn),
            9 => Call::Check,
            10..=11 => Call::Recount,
            12..=13 => Call::Settle(mfn),
            14 => Call::Update(mfn, lists::draft(random, taste)),
            _ => any_call(random, taste, run),
        }))
    }
}
