//! One command that measures the library: every call, the record test and the field
//! search against the same work in plain safe Rust, called and inlined, on the same inputs
//! in the same run; the whole check and the index check at doubling sizes; copies against
//! memcpy; reading all records against Biblio::Isis; the stack that each call uses and the
//! archive's code size.
//! What it prints is the second part of docs/BENCHMARKS.md. Times are printed and never
//! asserted.
//!
//!   cargo measure                  all of it, some minutes
//!   cargo measure quick            checks up to 16 MB only
//!   cargo measure records          the rows of the record test only
//!   cargo measure lists            the rows of posting lists only
//!   cargo measure instructions     the instructions of each call, counted by callgrind

mod biblio;
mod calls;
mod cards;
mod checks;
mod clock;
mod count;
mod indexes;
mod lists;
mod lookups;
mod machine;
mod plain;
mod records;
mod rows;
mod size;
mod stack;

use rows::{Side, Task};

fn main() {
    if cfg!(debug_assertions) {
        eprintln!("bench: this is a build without optimisation; run `cargo measure`");
    }
    let words: Vec<String> = std::env::args().skip(1).collect();
    let words: Vec<&str> = words.iter().map(String::as_str).collect();
    match words[..] {
        [] => times(512),
        ["quick"] => times(16),
        ["instructions"] => instructions(&Task::Count),
        ["records"] => times_of(records::run),
        ["lists"] => times_of(lists::run),
        ["only", row, "library"] => only(row, Side::Library),
        ["only", row, "plain"] => only(row, Side::Plain),
        _ => {
            eprintln!(
                "bench: the words are 'quick', 'records', 'lists' or 'instructions', or none"
            );
            std::process::exit(64);
        }
    }
}

/// The head of the table of calls.
fn head() {
    let columns = [
        "library",
        "safe Rust",
        "ratio",
        "safe Rust, inlined",
        "ratio",
    ];
    clock::head("a call", &columns);
}

/// Some rows, timed.
fn times_of(rows: fn(&Task)) {
    machine::run();
    head();
    rows(&Task::Time);
}

/// All that is timed or measured, with checks up to so many megabytes.
fn times(most: usize) {
    machine::run();
    head();
    calls::run(&Task::Time);
    records::run(&Task::Time);
    let checks = checks::run(&Task::Time, most);
    let index_checks = lookups::run(&Task::Time, most.min(64));
    lists::run(&Task::Time);
    calls::copies();
    println!("\n{checks} {index_checks}\n");
    biblio::run();
    stack::run();
    println!();
    size::run();
}

/// The instructions of each call on both sides.
fn instructions(task: &Task) {
    machine::run();
    clock::head("a call", &["library", "safe Rust", "ratio"]);
    calls::run(task);
    records::run(task);
    checks::run(task, 1);
    lookups::run(task, 1);
    lists::run(task);
}

/// One row for one side, for callgrind to count.
fn only(row: &str, side: Side) {
    let task = Task::Only(row.to_string(), side);
    calls::run(&task);
    records::run(&task);
    checks::run(&task, 1);
    lookups::run(&task, 1);
    lists::run(&task);
}
