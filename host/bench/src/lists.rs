//! Posting lists: one of many postings read, and two such lists in common and joined, in short
//! segments and in long ones.

use crate::plain;
use crate::rows::{ROUNDS, Reading, Task};
use isis::raw;
use model::Refusal;
use model::postings::{self, Place, build};
use model::random::Random;
use std::cell::{LazyCell, RefCell};
use std::hint::black_box;
use std::ops::Deref;

/// Postings of each list.
const POSTINGS: usize = 1_000_000;
/// Postings of a segment.
const SEGMENTS: [usize; 2] = [20, 10_000];

/// Two lists in one file, their segments in turn, and what one of them and both of them give.
struct Sample {
    ifp: Vec<u8>,
    a: (i32, i32),
    b: (i32, i32),
    first: Vec<u64>,
    common: Vec<u32>,
    joined: Vec<u32>,
}

/// The model's call on two lists.
type Merge = fn(&[u8], [Place; 2], &mut [u32]) -> Result<usize, Refusal>;

impl Sample {
    fn new(count: usize, segment: usize) -> Sample {
        let mut random = Random::new(segment as u64);
        let lists = [(); 2].map(|()| ascending(count, &mut random));
        let built = build::in_turn(&lists, segment);
        let (ifp, starts) = (built.bytes(&mut |_| ()), built.starts());
        let places = [starts[0], starts[1]];
        let merged = |work: Merge| {
            let mut mfns = vec![0; 2 * count];
            let given = work(&ifp, places, &mut mfns).expect("right lists");
            mfns.truncate(given);
            mfns
        };
        let (common, joined) = (merged(postings::common), merged(postings::joined));
        let [first, _] = lists;
        let [a, b] = places.map(|at| (at.block, at.word));
        Sample {
            ifp,
            a,
            b,
            first,
            common,
            joined,
        }
    }
}

/// So many postings, ascending; one in four has the MFN of the one before.
pub fn ascending(count: usize, random: &mut Random) -> Vec<u64> {
    let (mut mfn, mut rest) = (0, 0);
    let next = |_| {
        if mfn == 0 || !random.one_in(4) {
            mfn += random.between(1, 20) as u64;
            rest = random.below(1_000) as u64;
        } else {
            rest += random.between(1, 100_000) as u64;
        }
        mfn << 40 | rest
    };
    (0..count).map(next).collect()
}

/// A way to do the work of a row on a sample: the answer, and how many items were given.
type Way<'a, T> = &'a dyn Fn(&Sample, &mut [T]) -> (u32, usize);

/// A row of one call: what it is called, the call, and what it must give of a sample.
struct Row<'a, T> {
    name: &'a str,
    call: &'a str,
    wanted: fn(&Sample) -> &[T],
}

/// Three rows for each size of segments.
pub fn run(task: &Task) {
    let (count, read) = match task {
        Task::Time => (POSTINGS, "1,000,000 postings read"),
        _ => (POSTINGS / 10, "100,000 postings read"),
    };
    let (postings, mfns) = (
        RefCell::new(vec![0; count]),
        RefCell::new(vec![0; 2 * count]),
    );
    for segment in SEGMENTS {
        let sample = LazyCell::new(|| Sample::new(count, segment));
        let named = |what: &str| format!("{what}, {segment} to a segment");
        Row {
            name: &named(read),
            call: "postings",
            wanted: |sample| &sample.first,
        }
        .run(task, &sample, &postings, POSTINGS_READ);
        Row {
            name: &named("two lists in common"),
            call: "common",
            wanted: |sample| &sample.common,
        }
        .run(task, &sample, &mfns, IN_COMMON);
        Row {
            name: &named("two lists joined"),
            call: "joined",
            wanted: |sample| &sample.joined,
        }
        .run(task, &sample, &mfns, JOINED);
    }
}

impl<T: Copy + Default + PartialEq> Row<'_, T> {
    /// Does the row. Before it is timed, each way must give what is wanted and keep what
    /// stands behind.
    fn run(
        self,
        task: &Task,
        sample: &dyn Deref<Target = Sample>,
        room: &RefCell<Vec<T>>,
        ways: [Way<T>; 3],
    ) {
        let read = |way: Way<T>| {
            let out = &mut *room.borrow_mut();
            let given = way(black_box(sample), out);
            assert_eq!(given, (0, (self.wanted)(sample).len()));
            black_box(out);
        };
        let checked = |way: Way<T>| {
            room.borrow_mut().fill(T::default());
            read(way);
            let (room, wanted) = (room.borrow(), (self.wanted)(sample));
            let (given, behind) = room.split_at(wanted.len());
            assert!(given == wanted, "{}", self.name);
            assert!(behind.iter().all(|item| *item == T::default()));
        };
        if matches!(task, Task::Time) {
            ways.into_iter().for_each(checked);
        }
        let [library, called, inlined] = ways;
        let row = Reading {
            name: self.name,
            call: self.call,
            calls: 1,
            rounds: ROUNDS,
        };
        task.read(
            &row,
            [&|| read(library), &|| read(called), &|| read(inlined)],
        );
    }
}

const POSTINGS_READ: [Way<u64>; 3] = [
    &library,
    &|s, out| plain::called::postings(&s.ifp, s.a, out),
    &|s, out| plain::inlined::postings(&s.ifp, s.a, out),
];

const IN_COMMON: [Way<u32>; 3] = [
    &|s, out| merged(raw::isis_common, s, out),
    &|s, out| plain::called::common(&s.ifp, s.a, s.b, out),
    &|s, out| plain::inlined::common(&s.ifp, s.a, s.b, out),
];

const JOINED: [Way<u32>; 3] = [
    &|s, out| merged(raw::isis_joined, s, out),
    &|s, out| plain::called::joined(&s.ifp, s.a, s.b, out),
    &|s, out| plain::inlined::joined(&s.ifp, s.a, s.b, out),
];

/// The first list read by the library.
fn library(sample: &Sample, out: &mut [u64]) -> (u32, usize) {
    let (ifp, len, (block, word)) = (sample.ifp.as_ptr(), sample.ifp.len(), sample.a);
    let (out, room, mut count) = (out.as_mut_ptr(), out.len(), 0);
    // SAFETY: each pointer goes with the length of the slice that it is from.
    let number = unsafe { raw::isis_postings(ifp, len, block, word, out, room, &mut count) };
    (number, count)
}

/// Both lists merged by the library.
fn merged(merge: raw::Merge, sample: &Sample, out: &mut [u32]) -> (u32, usize) {
    let (ifp, len) = (sample.ifp.as_ptr(), sample.ifp.len());
    let ((a, v), (b, w)) = (sample.a, sample.b);
    let (out, room, mut count) = (out.as_mut_ptr(), out.len(), 0);
    // SAFETY: as in `library`.
    let number = unsafe { merge(ifp, len, a, v, b, w, out, room, &mut count) };
    (number, count)
}
