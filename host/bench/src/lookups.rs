//! Lookups in an index of many terms, and the index check there and at doubling sizes.

use crate::checks::doubling;
use crate::indexes::{index, terms};
use crate::plain;
use crate::rows::{ROUNDS, Reading, Task};
use isis::Index;
use model::index::{Entry, Files};
use std::cell::LazyCell;
use std::hint::black_box;
use std::time::Duration;

/// Terms of the index that terms are looked up in.
const TERMS: usize = 200_000;
/// The five files take a megabyte for so many terms.
const TERMS_OF_A_MEGABYTE: usize = 32_800;

/// A term, and what its lookup gives: the answer, the block and the word.
type Asked = (Vec<u8>, (u32, i32, i32));

/// An index, terms that it holds and as many that it does not.
struct Sample {
    files: Files,
    held: Vec<Asked>,
    absent: Vec<Asked>,
}

impl Sample {
    fn new(asked: usize) -> Sample {
        let mut held = terms(TERMS + asked);
        let absent = held.split_off(TERMS);
        let found = |of: &Entry| (of.term.clone(), (0, of.block, of.word));
        Sample {
            files: index(&held),
            held: held[..asked].iter().map(found).collect(),
            absent: absent.into_iter().map(|of| (of.term, (22, 0, 0))).collect(),
        }
    }
}

/// The lookups and the check of one index, then checks from 1 MB to `most` MB. Gives a
/// sentence on what a megabyte takes, where it was timed.
pub fn run(task: &Task, most: usize) -> String {
    let calls = task.records(10_000);
    let sample = LazyCell::new(|| Sample::new(calls));
    let held = || (&sample.files, &sample.held[..]);
    let absent = || (&sample.files, &sample.absent[..]);
    lookups(task, "lookup, one of 200,000 terms", calls, &held);
    lookups(task, "lookup, none of 200,000 terms", calls, &absent);
    check(task, "index check, 200,000 terms", &|| &sample.files);
    let each = doubling(most, |megabytes| {
        let name = format!("index check, {megabytes} MB");
        let files = LazyCell::new(|| index(&terms(megabytes * TERMS_OF_A_MEGABYTE)));
        check(task, &name, &|| &files)
    });
    each.map_or_else(String::new, |each| {
        format!("A megabyte takes the index check {each}.")
    })
}

/// The five files as the library takes them.
fn lent(files: &Files) -> Index<'_> {
    let [cnt, n01, l01, n02, l02] = files.all();
    Index {
        cnt,
        n01,
        l01,
        n02,
        l02,
    }
}

/// One lookup of each term, by each way.
fn lookups<'a>(
    task: &Task,
    name: &str,
    calls: usize,
    sample: &dyn Fn() -> (&'a Files, &'a [Asked]),
) {
    let row = Reading {
        name,
        call: "lookup",
        calls,
        rounds: ROUNDS,
    };
    let library = || {
        let (files, asked) = sample();
        for (term, wanted) in asked {
            let found = lent(black_box(files)).lookup(term);
            let found = found.map(|place| (0, place.block, place.word));
            assert_eq!(found.unwrap_or_else(|why| (why.number(), 0, 0)), *wanted);
        }
    };
    macro_rules! plainly {
        ($way:ident) => {
            || {
                let (files, asked) = sample();
                for (term, wanted) in asked {
                    let [cnt, n01, l01, n02, l02] = black_box(files).all();
                    let found = plain::$way::lookup(cnt, n01, l01, n02, l02, term);
                    assert_eq!(found, *wanted);
                }
            }
        };
    }
    task.read(&row, [&library, &plainly!(called), &plainly!(inlined)]);
}

/// The check of an index that is sound.
fn check<'a>(task: &Task, name: &str, files: &dyn Fn() -> &'a Files) -> Option<Duration> {
    let row = Reading {
        name,
        call: "check_index",
        calls: 1,
        rounds: ROUNDS,
    };
    macro_rules! plainly {
        ($way:ident) => {
            || {
                let [cnt, n01, l01, n02, l02] = black_box(files()).all();
                assert_eq!(plain::$way::check_index(cnt, n01, l01, n02, l02), 0);
            }
        };
    }
    let library = || assert_eq!(lent(black_box(files())).check(), Ok(()));
    task.read(&row, [&library, &plainly!(called), &plainly!(inlined)])
}
