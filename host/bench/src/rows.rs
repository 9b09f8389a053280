//! The rows that hold the library against plain safe Rust. A row is either timed, or its
//! instructions are counted: then this program runs itself under callgrind, once for the
//! library and once for safe Rust, and in there does that one row for that one side.

use crate::cards::Buffers;
use crate::clock::{against, cells, fastest, row, time};
use crate::count;
use isis::Card;
use std::hint::black_box;
use std::time::Duration;

/// So many rounds at least.
pub const ROUNDS: usize = 15;

/// What is done with the rows.
pub enum Task {
    /// All are timed.
    Time,
    /// The instructions of all are counted.
    Count,
    /// One row, by its name, is done once by one side.
    Only(String, Side),
}

/// Whose instructions are counted.
#[derive(Clone, Copy, PartialEq, Eq)]
pub enum Side {
    /// The library's.
    Library,
    /// Plain safe Rust's.
    Plain,
}

/// A call on every record of a card; all must answer `wanted`.
pub struct Row<'a> {
    /// What the row is called.
    pub name: &'a str,
    /// The call that it makes.
    pub call: &'a str,
    /// The card that every round starts from.
    pub base: &'a Buffers,
    /// How many MFNs are called, from 1.
    pub calls: usize,
    /// The answer.
    pub wanted: u32,
}

/// Calls that only read.
pub struct Reading<'a> {
    /// What the row is called.
    pub name: &'a str,
    /// The call that it makes.
    pub call: &'a str,
    /// How many calls each way makes.
    pub calls: usize,
    /// How many rounds at least.
    pub rounds: usize,
}

/// The same closure twice: once its `plain` are the calls that are not inlined, once those
/// that are.
macro_rules! both_ways {
    (|$mst:ident, $xrf:ident, $mfn:pat_param| $work:expr) => {
        (
            |$mst: &mut [u8], $xrf: &mut [u8], $mfn: u32| {
                use $crate::plain::called as plain;
                $work
            },
            |$mst: &mut [u8], $xrf: &mut [u8], $mfn: u32| {
                use $crate::plain::inlined as plain;
                $work
            },
        )
    };
}
pub(crate) use both_ways;

/// Makes a call of the library on every record of a card that is copied first.
pub fn afresh(card: &mut Buffers, row: &Row, library: &impl Fn(&mut Card, u32) -> u32) -> Duration {
    card.copy_from(row.base);
    let mut card = Card::over(&mut card.mst, &mut card.xrf);
    time(|| {
        for mfn in 1..=row.calls as u32 {
            assert_eq!(library(&mut card, black_box(mfn)), row.wanted);
        }
    })
}

/// The same in plain safe Rust.
fn plainly(
    card: &mut Buffers,
    row: &Row,
    plain: &impl Fn(&mut [u8], &mut [u8], u32) -> u32,
) -> Duration {
    card.copy_from(row.base);
    let (mst, xrf) = (&mut card.mst, &mut card.xrf);
    time(|| {
        for mfn in 1..=row.calls as u32 {
            assert_eq!(plain(mst, xrf, black_box(mfn)), row.wanted);
        }
    })
}

impl Task {
    /// How many of so many records a row is done on.
    pub fn records(&self, timed: usize) -> usize {
        match self {
            Task::Time => timed,
            _ => 100,
        }
    }

    /// Does what the task is with a row, both sides: all bytes must be the same afterwards.
    pub fn measure(
        &self,
        row: &Row,
        library: impl Fn(&mut Card, u32) -> u32,
        (called, inlined): (
            impl Fn(&mut [u8], &mut [u8], u32) -> u32,
            impl Fn(&mut [u8], &mut [u8], u32) -> u32,
        ),
    ) {
        let [mut first, mut second, mut third] = [(); 3].map(|()| row.base.clone());
        match self {
            Task::Time => {
                let times = fastest(
                    ROUNDS,
                    [
                        &mut || afresh(&mut first, row, &library),
                        &mut || plainly(&mut second, row, &called),
                        &mut || plainly(&mut third, row, &inlined),
                    ],
                );
                assert!(first == second && first == third, "{}: bytes", row.name);
                crate::clock::row(row.name, &cells(&times, row.calls));
            }
            Task::Count => counted(row.name, row.call, row.calls),
            Task::Only(name, side) if name == row.name => {
                match side {
                    Side::Library => afresh(&mut first, row, &library),
                    Side::Plain => plainly(&mut second, row, &called),
                };
            }
            Task::Only(..) => {}
        }
    }

    /// Does what the task is with calls that only read, so that nothing is copied and all
    /// sides read the same bytes. Each way makes all calls. Gives the library's time if it
    /// was timed.
    pub fn read(&self, row: &Reading, ways: [&dyn Fn(); 3]) -> Option<Duration> {
        let [library, called, inlined] = ways;
        match self {
            Task::Time => {
                let times = fastest(
                    row.rounds,
                    [&mut || time(library), &mut || time(called), &mut || {
                        time(inlined)
                    }],
                );
                crate::clock::row(row.name, &cells(&times, row.calls));
                return Some(times[0]);
            }
            Task::Count => counted(row.name, row.call, row.calls),
            Task::Only(name, Side::Library) if name == row.name => library(),
            Task::Only(name, Side::Plain) if name == row.name => called(),
            Task::Only(..) => {}
        }
        None
    }
}

/// The number of an answer of the library.
pub fn number<T>(answer: isis::Answer<T>) -> u32 {
    answer.map_or_else(isis::Refusal::number, |_| 0)
}

/// Prints the instructions of one call of a row, counted for both sides.
fn counted(name: &str, call: &str, calls: usize) {
    let of = |side| count::instructions(name, side, call).map(|all| all as f64 / calls as f64);
    if let (Some(ours), Some(theirs)) = (of(Side::Library), of(Side::Plain)) {
        row(name, &against(ours, &[theirs], |each| format!("{each:.0}")));
    }
}
