//! The worked run of the paper and every outcome of every call: each situation is
//! made by calls and by changing bytes, and each step is one line. The calls are
//! those of `crate::subject`: the model's in this crate, the archive's in
//! `differential`, which must print the same lines.

pub mod card;
mod counting;
mod index;
mod limits;
mod lists;
mod marks;
mod migration;
mod order;
mod postings;
mod record_tests;
mod records;
mod refusals;
mod soundness_faults;
mod telling;
mod worked_run;

use card::Card;

/// All lines, in order.
pub fn lines() -> String {
    let mut card = Card::new(512);
    worked_run::run(&mut card);
    refusals::run(&mut card);
    records::run(&mut card);
    marks::run(&mut card);
    limits::run(&mut card);
    order::run(&mut card);
    soundness_faults::run(&mut card);
    migration::run(&mut card);
    lists::run(&mut card);
    counting::run(&mut card);
    refusals::lengths(&mut card);
    let mut large = Card::new(3584);
    limits::capacity(&mut large);
    card.lines + &large.lines + &index::lines() + &postings::lines() + &record_tests::lines()
}
