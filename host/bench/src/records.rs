//! The record test on ten thousand records of forty fields: all well formed, and with the last
//! entry of each broken, in each of the three ways in turn.

use crate::cards::{Buffers, Kind, card, draft};
use crate::plain;
use crate::rows::{ROUNDS, Reading, Task};
use isis::raw;
use model::bytes::i32_at;
use model::layout::{Control, Entry, slot_at};
use std::cell::LazyCell;
use std::hint::black_box;

/// How many records there are, and how many fields each has.
const RECORDS: usize = 10_000;
const FIELDS: u16 = 40;

/// What a test gives: the answer, and the number of an entry.
type Given = (u32, u32);

/// An MST, its end, where the record of each MFN stands, and what the test of each must give.
struct Sample {
    mst: Vec<u8>,
    end: usize,
    places: Vec<usize>,
    wanted: Given,
}

impl Sample {
    /// So many records that pass.
    fn passing(records: usize) -> Sample {
        let Buffers { mst, xrf } = card(records, &draft(FIELDS, 10), Kind::Settled);
        let end = Control::read(&mst, xrf.len()).expect("a card").end;
        let entry = |mfn| Entry::decode(i32_at(&xrf, slot_at(mfn)), end);
        let place = |mfn| match entry(mfn) {
            Ok(Entry::Place(place)) => place.address(),
            _ => unreachable!("every MFN has a place"),
        };
        let places = (1..=records).map(place).collect();
        Sample {
            mst,
            end,
            places,
            wanted: (0, 0),
        }
    }

    /// The same with an entry of each broken: its TAG, its POS or its LEN in turn.
    fn broken(records: usize, entry: u16) -> Sample {
        let mut sample = Sample::passing(records);
        for (way, at) in (0..3).cycle().zip(&sample.places) {
            let item = &mut sample.mst[at + 12 + 6 * usize::from(entry)..][..6];
            match way {
                0 => item[..2].fill(0),
                1 => item[2] ^= 1,
                _ => item[4..].fill(255),
            }
        }
        sample.wanted = (8, entry.into());
        sample
    }

    /// Tests every record by a way; each must give what is wanted.
    fn test(&self, way: impl Fn(&[u8], u32, u32) -> Given) {
        let store = black_box(&self.mst[..self.end]);
        for (mfn, &at) in (1..).zip(&self.places) {
            assert_eq!(way(&store[at..], black_box(mfn), black_box(0)), self.wanted);
        }
    }
}

/// The library's test.
fn library(record: &[u8], mfn: u32, deleted: u32) -> Given {
    let mut entry = 0;
    // SAFETY: the pointer goes with the length of the slice that it is from.
    let number =
        unsafe { raw::isis_record_test(record.as_ptr(), record.len(), mfn, deleted, &mut entry) };
    (number, entry)
}

/// Each sample against the fastest safe Rust, and against the plain one.
pub fn run(task: &Task) {
    let records = task.records(RECORDS);
    let right = LazyCell::new(|| Sample::passing(records));
    let broken = LazyCell::new(|| Sample::broken(records, FIELDS));
    rows(task, "record test, 40 fields", records, &|| &right);
    let name = "record test, last of 40 entries broken";
    rows(task, name, records, &|| &broken);
}

fn rows<'a>(task: &Task, name: &str, calls: usize, sample: &dyn Fn() -> &'a Sample) {
    let row = |name: &str, ways| {
        let row = Reading {
            name,
            call: "record_test",
            calls,
            rounds: ROUNDS,
        };
        task.read(&row, ways);
    };
    let library = || sample().test(library);
    let called = || sample().test(plain::called::record_test);
    let inlined = || sample().test(plain::inlined::record_test);
    row(name, [&library, &called, &inlined]);
    let called = || sample().test(plain::called::record_test_plainly);
    let inlined = || sample().test(plain::inlined::record_test_plainly);
    row(&format!("{name}; plainly"), [&library, &called, &inlined]);
}

#[cfg(test)]
mod tests {
    use super::*;
    use crate::clock::{fastest, time, words};
    use differential::families::said;

    /// The library, the plain program and the fastest one give the same on each of ten thousand
    /// records of forty fields, and what each takes for all of them is printed and never asserted.
    #[test]
    fn ten_thousand_records_of_forty_fields() {
        for (what, sample) in [
            ("well formed", Sample::passing(RECORDS)),
            ("last entry broken", Sample::broken(RECORDS, FIELDS)),
        ] {
            let times = fastest(
                ROUNDS,
                [
                    &mut || time(|| sample.test(library)),
                    &mut || time(|| sample.test(plain::called::record_test_plainly)),
                    &mut || time(|| sample.test(plain::called::record_test)),
                ],
            );
            let [ours, plain, fast] = times.map(|time| words(time.as_secs_f64()));
            said(&format!(
                "record test, 10,000 records of 40 fields, {what}: library {ours}, plain Rust {plain}, the fastest safe Rust {fast}"
            ));
        }
    }

    /// Whichever entry is broken, and in whichever way, all tell it.
    #[test]
    fn every_entry_of_forty() {
        for entry in 1..=FIELDS {
            let sample = Sample::broken(30, entry);
            sample.test(library);
            sample.test(plain::called::record_test);
            sample.test(plain::called::record_test_plainly);
            sample.test(model::record_test::record_test);
        }
    }
}
