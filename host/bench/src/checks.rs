//! The whole check at doubling sizes: on cards full of records of about a kilobyte, and on
//! cards of small records, most of them versions that were settled long ago.

use crate::cards::{Buffers, draft};
use crate::plain;
use crate::rows::{Reading, Task};
use isis::CardRef;
use model::store;
use std::cell::LazyCell;
use std::hint::black_box;
use std::time::Duration;

/// From 1 MB to `most` MB. Gives a sentence on what a megabyte takes, where it was timed.
pub fn run(task: &Task, most: usize) -> String {
    let kind = |kind: &str, make: fn(usize) -> Buffers| {
        doubling(most, |megabytes| {
            let name = format!("check, {megabytes} MB{kind}");
            let rounds = if megabytes <= 64 { 11 } else { 5 };
            let card = LazyCell::new(|| make(megabytes));
            check(task, &name, rounds, &|| &card)
        })
    };
    match (kind("", filled), kind(" of small records", grown)) {
        (Some(filled), Some(grown)) => format!(
            "A megabyte takes `check` {filled} on records of a kilobyte, and {grown} on small ones."
        ),
        _ => String::new(),
    }
}

/// The check of a card that is sound.
fn check<'a>(
    task: &Task,
    name: &str,
    rounds: usize,
    card: &dyn Fn() -> &'a Buffers,
) -> Option<Duration> {
    let row = Reading {
        name,
        call: "check",
        calls: 1,
        rounds,
    };
    let library = || {
        let Buffers { mst, xrf } = black_box(card());
        assert_eq!(CardRef::over(mst, xrf).check(), Ok(()));
    };
    let called = || {
        let Buffers { mst, xrf } = black_box(card());
        assert_eq!(plain::called::check(mst, xrf), 0);
    };
    let inlined = || {
        let Buffers { mst, xrf } = black_box(card());
        assert_eq!(plain::inlined::check(mst, xrf), 0);
    };
    task.read(&row, [&library, &called, &inlined])
}

/// A check at each size; gives the least and the most that a megabyte took.
pub fn doubling(most: usize, check: impl Fn(usize) -> Option<Duration>) -> Option<String> {
    let mut each = Vec::new();
    for megabytes in (0..).map(|power| 1 << power).take_while(|mb| *mb <= most) {
        each.push(check(megabytes)?.as_secs_f64() * 1e6 / megabytes as f64);
    }
    let (least, most) = (
        each.iter().copied().reduce(f64::min)?,
        each.into_iter().reduce(f64::max)?,
    );
    Some(format!("{least:.0} to {most:.0} us"))
}

/// An empty card of so many megabytes with so many MFNs.
fn empty(megabytes: usize, mfns: usize) -> Buffers {
    let mut card = Buffers {
        mst: vec![0; (megabytes << 20).min(1_048_575 * 512)],
        xrf: vec![0; mfns.div_ceil(127) * 512],
    };
    store::format(&mut card.mst, &mut card.xrf).expect("a permitted size");
    card
}

/// A card filled up with records of a kilobyte; every third has a change pending.
fn filled(megabytes: usize) -> Buffers {
    let draft = draft(12, 80);
    let mut card = empty(megabytes, (megabytes << 20) / 1_050);
    while let Ok(mfn) = store::create(&mut card.mst, &mut card.xrf, &draft.lent()) {
        store::settle(&mut card.mst, &mut card.xrf, mfn).expect("a new record");
        if mfn % 3 == 0 {
            // Answered 13 once the card is full.
            let _ = store::update(&mut card.mst, &mut card.xrf, mfn, &draft.lent());
        }
    }
    card
}

/// A card of 46-byte records: 1,016 MFNs to a megabyte (520,192 to 512 MB, all that an XRF
/// has), each updated and settled in turn until the card is full.
fn grown(megabytes: usize) -> Buffers {
    let draft = draft(2, 8);
    let mfns = 1_016 * megabytes;
    let mut card = empty(megabytes, mfns);
    for _ in 0..mfns {
        let made = store::create(&mut card.mst, &mut card.xrf, &draft.lent());
        let mfn = made.expect("room for every MFN");
        store::settle(&mut card.mst, &mut card.xrf, mfn).expect("a new record");
    }
    for mfn in (1..=mfns as u32).cycle() {
        if store::update(&mut card.mst, &mut card.xrf, mfn, &draft.lent()).is_err() {
            return card;
        }
        store::settle(&mut card.mst, &mut card.xrf, mfn).expect("a changed record");
    }
    card
}
