//! Several ways to do the same work, timed turn by turn, and the tables that the times
//! are printed in. The fastest of several rounds stands for each way, since whatever else
//! the machine does only makes a round slower.

use std::time::{Duration, Instant};

/// Times one piece of work.
pub fn time(work: impl FnOnce()) -> Duration {
    let start = Instant::now();
    work();
    start.elapsed()
}

/// The ways are run in turn for at least this long.
const LONG_ENOUGH: Duration = Duration::from_millis(400);

/// The fastest round of each way, run in turn at least `rounds` times; each does its own
/// untimed preparation and gives the time of its work.
pub fn fastest<const WAYS: usize>(
    rounds: usize,
    mut ways: [&mut dyn FnMut() -> Duration; WAYS],
) -> [Duration; WAYS] {
    let mut best = [Duration::MAX; WAYS];
    let start = Instant::now();
    let mut done = 0;
    while done < rounds || start.elapsed() < LONG_ENOUGH {
        for (best, way) in best.iter_mut().zip(&mut ways) {
            *best = way().min(*best);
        }
        done += 1;
    }
    best
}

/// A number of seconds for people.
pub fn words(seconds: f64) -> String {
    match seconds * 1e9 {
        ns if ns < 1e4 => format!("{ns:.1} ns"),
        ns if ns < 1e7 => format!("{:.1} us", ns / 1e3),
        ns => format!("{:.1} ms", ns / 1e6),
    }
}

/// Prints the head of a table, as the page docs/BENCHMARKS.md has it.
pub fn head(what: &str, columns: &[&str]) {
    println!("\n| {what:<44} | {} |", columns.join(" | "));
    println!("|---|{}", "---:|".repeat(columns.len()));
}

/// Prints a row of a table.
pub fn row(name: &str, cells: &[String]) {
    println!("| {name:<44} | {} |", cells.join(" | "));
}

/// The cells of a row: what one call takes in the library, and for each other way what it
/// takes and the library's ratio to it.
pub fn against(ours: f64, others: &[f64], words: impl Fn(f64) -> String) -> Vec<String> {
    let mut cells = vec![words(ours)];
    for other in others {
        cells.push(words(*other));
        cells.push(format!("{:.2}", ours / other));
    }
    cells
}

/// The cells for the times of so many calls each way, the library's first.
pub fn cells(times: &[Duration], calls: usize) -> Vec<String> {
    let each: Vec<f64> = times
        .iter()
        .map(|time| time.as_secs_f64() / calls as f64)
        .collect();
    against(each[0], &each[1..], words)
}
