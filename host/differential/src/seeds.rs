//! The driver of random cases: each comes from a seed of its own, which is said where the case
//! shows a difference.

use crate::families::{first_seed, said};
use crate::guarded::{at_work, report_hits};
use model::random::Random;
use std::fmt::Display;

/// Runs a case of each of so many seeds; gives the tally of all of them, or the seed and the
/// first difference.
pub fn each<T: Default>(
    cases: usize,
    first: u64,
    mut case: impl FnMut(&mut Random, &mut T) -> Result<(), String>,
) -> Result<T, String> {
    let mut tally = T::default();
    for seed in (first..).take(cases) {
        at_work(seed, 0);
        case(&mut Random::new(seed), &mut tally)
            .map_err(|words| format!("seed {seed}: {words}"))?;
    }
    Ok(tally)
}

/// Has so many cases run from the first seed on, and says how many calls were equal; panics
/// at the first difference.
pub fn drive<T: Display>(
    name: &str,
    cases: usize,
    run: impl FnOnce(u64) -> Result<T, String>,
    calls: impl FnOnce(&T) -> usize,
) -> T {
    report_hits();
    let first = first_seed();
    let tally = run(first).unwrap_or_else(|words| panic!("{name}: {words}"));
    let (last, calls) = (first + cases as u64 - 1, calls(&tally));
    said(&format!(
        "{name}: seeds {first} to {last}, {calls} calls, all equal"
    ));
    println!("{tally}");
    tally
}
