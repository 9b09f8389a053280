//! How often each answer of each call came: a test that never meets an answer says
//! nothing about it.

use model::call::Call;
use std::fmt;

/// How many calls there are.
const COUNT: usize = Call::NAMES.len();

/// One more than the highest answer.
const NUMBERS: usize = 18;

/// The answers that the table of document 01 has for each call, and 15 for the views; a field by
/// its index is answered as a view, but for 15, and the calls that tell something as the header
/// says.
pub const ANSWERS: [&[usize]; COUNT] = [
    &[0, 1],
    &[0, 1, 2, 4, 6, 7, 8, 9, 12, 15],
    &[0, 1, 2, 4, 6, 7, 8, 9, 11, 12, 15],
    &[0, 1, 2, 3, 5, 6, 13],
    &[0, 1, 2, 3, 4, 6, 7, 8, 9, 13],
    &[0, 1, 2, 4, 6, 7, 8, 9, 13],
    &[0, 1, 2, 4, 6, 7, 8, 10],
    &[0, 1, 2, 4, 6, 7, 8, 10, 11],
    &[0, 1, 2, 14],
    &[0, 1, 2],
    &[0, 17],
    &[0, 1, 2, 14],
    &[0, 1, 2, 4, 6, 7, 8, 9, 12],
    &[0, 1, 2, 4, 6, 7, 8, 9, 11, 12],
    &[0, 1, 2],
    &[0, 1, 2, 4, 6, 7, 8],
    &[0, 1, 2, 4, 6, 7, 8, 9, 17],
    &[0, 1, 2, 4, 6, 7, 8, 9, 11, 17],
];

/// Counts by call and answer.
#[derive(Clone, Debug, Default)]
pub struct Tally {
    counts: [[usize; NUMBERS]; COUNT],
}

impl Tally {
    /// Counts an answer.
    pub fn add(&mut self, call: &Call, number: u32) {
        self.counts[call.kind()][number as usize] += 1;
    }

    /// Adds another tally.
    pub fn join(&mut self, other: &Tally) {
        for (mine, theirs) in self.counts.iter_mut().zip(&other.counts) {
            for (mine, theirs) in mine.iter_mut().zip(theirs) {
                *mine += theirs;
            }
        }
    }

    /// All calls counted.
    pub fn calls(&self) -> usize {
        self.counts.iter().flatten().sum()
    }

    /// How often an answer of a call came.
    pub fn count(&self, call: usize, number: usize) -> usize {
        self.counts[call][number]
    }
}

impl fmt::Display for Tally {
    fn fmt(&self, f: &mut fmt::Formatter<'_>) -> fmt::Result {
        write!(f, "{:<14}", "answer")?;
        for number in 0..NUMBERS {
            write!(f, "{number:>8}")?;
        }
        for (name, counts) in Call::NAMES.iter().zip(&self.counts) {
            write!(f, "\n{name:<14}")?;
            for count in counts {
                match count {
                    0 => write!(f, "{:>8}", "-")?,
                    _ => write!(f, "{count:>8}")?,
                }
            }
        }
        write!(f, "\n{} calls", self.calls())
    }
}
