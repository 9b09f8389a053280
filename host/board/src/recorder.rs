//! The model answers calls, and every call is written down with what it gave. What
//! stands in a list is so the model's alone; the library is asked only on the board.

use crate::list::{List, SLICE_MAX};
use crate::posted::Posted;
use crate::search::Search;
use crate::tested::Tested;
use differential::archive::{Given, Subject};
use differential::families::{Family, drive_subject, first_seed};
use differential::guarded::Side;
use differential::index;
use differential::postings;
use differential::postings::compare::Single;
use differential::records;
use differential::records::compare::{Case, Outcome as OfRecord};
use differential::tally::Tally;
use model::call::{Call, Outcome, on_bytes};
use model::index::Files;
use model::index::fault::Why;
use model::postings::fault::Why as WhyPosted;
use model::postings::read::Merge;
use model::random::Random;
use model::replay;
use std::collections::BTreeSet;

/// A call on an index by its kind, and why it was refused if it was.
pub type Searched = (usize, Result<(), Why>);

/// A call on postings by its kind, and why it was refused if it was.
pub type Read = (usize, Result<(), WhyPosted>);

/// The model, and the lists of what it was asked.
#[derive(Debug, Default)]
pub struct Recorder {
    /// What was asked so far; each list has room in a board's memory.
    pub lists: Vec<List>,
    /// How often each answer of each call came.
    pub tally: Tally,
    /// Which outcomes calls on an index had.
    pub searched: BTreeSet<Searched>,
    /// Which outcomes calls on postings had.
    pub posted: BTreeSet<Read>,
    /// Which outcomes tests of records had.
    pub tested: BTreeSet<OfRecord>,
}

impl Recorder {
    /// The model's outcome of a call, and what the board must give, written down.
    fn record(&mut self, mst: &mut [u8], xrf: &mut [u8], call: &Call) -> (Outcome, Given) {
        let before = (mst.to_vec(), xrf.to_vec());
        let (outcome, shown) = on_bytes(mst, xrf, call);
        let after = (mst.to_vec(), xrf.to_vec());
        let wanted = Given::wanted(&outcome, shown);
        self.list().push(&before, call, &wanted, &after);
        self.tally.add(call, outcome.number);
        (outcome, wanted)
    }

    /// A call on an index, written down with what the model's reader finds.
    pub fn search(&mut self, index: &Files, search: &Search) {
        let found = search.on(index);
        self.list().push_search(index, search, found);
        self.searched.insert((search.kind(), found.map(|_| ())));
    }

    /// A call on postings, written down with what the model's reader gives.
    pub fn post(&mut self, ifp: &[u8], posted: &Posted) {
        let (wanted, why) = posted.on(ifp);
        self.list().push_posted(ifp, posted, &wanted);
        self.posted.insert((posted.kind(), why));
    }

    /// The test of a record, written down with what the model tells.
    pub fn test(&mut self, case: &Case) {
        let (wanted, outcome) = case.wanted();
        self.list().push_tested(Tested::of(case), wanted);
        self.tested.insert(outcome);
    }

    /// A list that has room.
    fn list(&mut self) -> &mut List {
        if !self.lists.last().is_some_and(List::has_room) {
            self.lists.push(List::default());
        }
        self.lists.last_mut().expect("there is one")
    }
}

impl Subject for Recorder {
    fn run(&mut self, mst: &mut [u8], xrf: &mut [u8], call: &Call, _: Side) -> Given {
        self.record(mst, xrf, call).1
    }
}

/// The trials of a family, at least so many calls.
pub fn of_family(family: &mut dyn Family, calls: usize) -> Recorder {
    let mut recorder = Recorder::default();
    drive_subject(&mut recorder, family, calls, first_seed())
        .unwrap_or_else(|words| panic!("the model and its ledger disagree: {words}"));
    recorder
}

/// The random numbers of so many cases, from the first seed on.
fn seeded(cases: u64) -> impl Iterator<Item = Random> {
    let first = first_seed();
    (first..first + cases).map(Random::new)
}

/// So many terms of a case are looked up.
const TERMS: usize = 8;

/// So many cases of a family of indexes, each with its check and some of its terms; one
/// with a file that is longer than the runner's is left out.
pub fn of_index_family(family: index::compare::Family, cases: u64) -> Recorder {
    let mut recorder = Recorder::default();
    for mut random in seeded(cases) {
        let case = family(&mut random);
        if case.files.all().iter().any(|file| file.len() > SLICE_MAX) {
            continue;
        }
        recorder.search(&case.files, &Search::Check);
        for _ in 0..TERMS {
            let term = &case.terms[random.below(case.terms.len())];
            recorder.search(&case.files, &Search::Lookup(term.clone()));
        }
    }
    recorder
}

/// So many places of a case are read from.
const PLACES: usize = 4;

/// So many cases of a family of postings files, each with some of its lists, into a list of
/// some room around the number of items, or around 3 where the call is refused. A file longer
/// than half of what the runner holds is left out, so that what it gives has room there.
pub fn of_postings_family(family: postings::compare::Family, cases: u64) -> Recorder {
    let mut recorder = Recorder::default();
    for mut random in seeded(cases) {
        let case = family(&mut random);
        if case.file.len() > SLICE_MAX / 2 {
            continue;
        }
        for _ in 0..PLACES {
            let from = [(); 2].map(|()| random.pick(&case.places));
            let merge = random.pick(&[Merge::Common, Merge::Joined]);
            let of = |room| {
                [
                    Posted::Postings {
                        from: from[0],
                        room,
                    },
                    Posted::Merged { merge, from, room },
                ]
            };
            for (n, call) in of(SLICE_MAX / 8).into_iter().enumerate() {
                let count = match call.on(&case.file) {
                    (outputs, Ok(())) => outputs.count as usize,
                    (_, Err(_)) => 3,
                };
                let room = random.pick(&[0, count.saturating_sub(1), count, count + 1]);
                recorder.post(&case.file, &of(room)[n]);
            }
        }
    }
    recorder
}

/// So many postings by chance, read, written and compared.
pub fn of_singles(cases: u64) -> Recorder {
    let mut recorder = Recorder::default();
    for mut random in seeded(cases) {
        let Single {
            numbers,
            room,
            bytes,
            two,
        } = Single::any(&mut random);
        for call in [
            Posted::Read(bytes),
            Posted::Write { numbers, room },
            Posted::Compare(two),
        ] {
            recorder.post(&[], &call);
        }
    }
    recorder
}

/// So many cases of each of some families of records; one that is longer than the runner's is
/// left out.
pub fn of_records(families: &[records::compare::Family], cases: u64) -> Recorder {
    let mut recorder = Recorder::default();
    for family in families {
        for mut random in seeded(cases) {
            let case = family(&mut random);
            if case.record.len() <= SLICE_MAX {
                recorder.test(&case);
            }
        }
    }
    recorder
}

/// The lists that the proved program `replay_run` is given, each on two buffers full of 255.
pub fn of_replay_lists() -> Recorder {
    let mut recorder = Recorder::default();
    for list in replay::lists::all() {
        let (mut mst, mut xrf) = (vec![255; list.mst_len], vec![255; list.xrf_len]);
        let mut run = |call: &Call| recorder.record(&mut mst, &mut xrf, call).0;
        if run(&Call::Format).number == 0 {
            list.run(run);
        }
    }
    recorder
}
