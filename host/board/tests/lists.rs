//! The model's lists of calls on emulated boards: every answer, output and byte is the
//! model's, and no byte outside is touched.

use board::core::CORES;
use board::list::List;
use board::lists::ALL;
use board::posted::Posted;
use board::recorder::{Read, Searched};
use board::runner;
use board::search::Search;
use differential::families::said;
use differential::records::compare::{Outcome, Spot};
use differential::tally::{ANSWERS, Tally};
use model::Call;
use model::fault::Rule;
use model::index::fault::{Broken, Why};
use model::postings::fault as postings;
use model::postings::place;
use model::postings::read::Merge;
use std::collections::BTreeSet;

/// Makes a list and runs it on every core.
fn holds(index: usize) {
    let (name, make) = ALL[index];
    let recorder = make();
    let calls: usize = recorder.lists.iter().map(List::steps).sum();
    for core in CORES {
        if let Err(words) = runner::run(&core, name, &recorder) {
            panic!("{name} on {}: {words}", core.name);
        }
        said(&format!(
            "{name} on {}: {calls} calls, all as the model's",
            core.name
        ));
    }
}

#[test]
fn replay_lists() {
    holds(0);
}

#[test]
fn lists_from_format() {
    holds(1);
}

#[test]
fn damaged_cards() {
    holds(2);
}

#[test]
fn random_cards() {
    holds(3);
}

#[test]
fn hostile_arguments() {
    holds(4);
}

#[test]
fn built_indexes() {
    holds(5);
}

#[test]
fn damaged_indexes() {
    holds(6);
}

#[test]
fn poked_indexes() {
    holds(7);
}

#[test]
fn records_by_chance() {
    holds(8);
}

#[test]
fn rubbish_indexes() {
    holds(9);
}

#[test]
fn built_postings() {
    holds(10);
}

#[test]
fn damaged_postings() {
    holds(11);
}

#[test]
fn poked_postings() {
    holds(12);
}

#[test]
fn headers_by_chance() {
    holds(13);
}

#[test]
fn rubbish_postings() {
    holds(14);
}

#[test]
fn single_postings() {
    holds(15);
}

#[test]
fn broken_records() {
    holds(16);
}

#[test]
fn other_records() {
    holds(17);
}

#[test]
fn planted_counts() {
    holds(18);
}

/// A list that never meets an answer says nothing about it, nor one that never meets the
/// breach of a rule of an index, of postings or of a record.
#[test]
fn the_lists_meet_every_answer_and_every_broken_rule() {
    let (mut tally, mut searched) = (Tally::default(), BTreeSet::new());
    let (mut posted, mut tested) = (BTreeSet::new(), BTreeSet::new());
    for (_, make) in ALL {
        let made = make();
        tally.join(&made.tally);
        searched.extend(made.searched);
        posted.extend(made.posted);
        tested.extend(made.tested);
    }
    println!("{tally}");
    for (call, answers) in ANSWERS.iter().enumerate() {
        for &number in *answers {
            let name = Call::NAMES[call];
            assert!(
                tally.count(call, number) > 0,
                "{name} never answered {number}"
            );
        }
    }
    every_rule_is_broken(&searched);
    every_rule_of_postings_is_broken(&posted);
    every_rule_of_records_is_broken(&tested);
}

/// Whether records passed, and broke each rule of a leader, and of an entry at the first, between
/// others, and at the last.
fn every_rule_of_records_is_broken(tested: &BTreeSet<Outcome>) {
    let of_leader = Rule::OF_LEADER.map(Some).into_iter().chain([None]);
    let of_leader = of_leader.map(|rule| (rule, Spot::Nowhere));
    let of_entry = Rule::OF_ENTRY.into_iter().flat_map(|rule| {
        let spots = Spot::OF_SEVERAL.into_iter();
        spots.map(move |spot| (Some(rule), spot))
    });
    for outcome in of_leader.chain(of_entry) {
        assert!(tested.contains(&outcome), "{outcome:?}");
    }
}

/// Whether each call on lists of postings was done, and refused for all that it asks.
fn every_rule_of_postings_is_broken(posted: &BTreeSet<Read>) {
    let from = place(1, 0);
    let merged = |merge| Posted::Merged {
        merge,
        from: [from; 2],
        room: 0,
    };
    for call in [
        Posted::Postings { from, room: 0 },
        merged(Merge::Common),
        merged(Merge::Joined),
    ] {
        let rules = postings::Broken::ALL.map(postings::Why::Broken);
        let refusals = rules.into_iter().chain([postings::Why::NoRoom]).map(Err);
        for outcome in refusals.chain([Ok(())]) {
            let kind = call.kind();
            assert!(posted.contains(&(kind, outcome)), "{kind}: {outcome:?}");
        }
    }
}

/// Whether both calls on an index were done, and refused for everything that they ask.
fn every_rule_is_broken(searched: &BTreeSet<Searched>) {
    let (lookup, check) = (Search::Lookup(Vec::new()).kind(), Search::Check.kind());
    let of_both = Broken::OF_BOTH.map(Why::Broken);
    let of_lookup = [Why::BadTerm, Why::Below, Why::Absent];
    let of_check = Broken::OF_CHECK.map(Why::Broken);
    for (kind, own) in [(lookup, &of_lookup[..]), (check, &of_check)] {
        assert!(searched.contains(&(kind, Ok(()))), "{kind} was never done");
        for why in of_both.iter().chain(own) {
            assert!(searched.contains(&(kind, Err(*why))), "{kind}: {why:?}");
        }
    }
}
