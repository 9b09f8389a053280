//! The lists that `replay_run` is given and the lines that it must print: the files in
//! the repository are what the model makes; read as the program reads them they are
//! the same lists; they fit into the program's buffers; they reach every answer and
//! every stop; and the byte store says the same as the ledger.

mod common;

use model::call::{Call, Outcome, on_bytes, on_ledger};
use model::draft::need;
use model::layout::Control;
use model::ledger::Standing;
use model::replay::{List, REPORT, Replay, Stop, Turns, by_ledger, lists, text};
use model::{Ledger, sound};
use std::collections::BTreeSet;
use std::fs;
use std::path::Path;

/// Said where a file is not what the model makes.
const ANEW: &str = "to write it anew: cargo run -p model --example replay";

fn file(name: &str) -> String {
    let folder = Path::new(env!("CARGO_MANIFEST_DIR")).join("../../crates/replay_run");
    fs::read_to_string(folder.join(name)).unwrap_or_else(|error| panic!("{name}: {error}; {ANEW}"))
}

#[test]
fn the_files_are_what_the_model_makes() {
    let lists = lists::all();
    for (name, made) in [
        ("stdin", text::stdin(&lists)),
        ("stdout", text::stdout(&lists)),
    ] {
        let stands = file(name);
        let differs = stands.lines().zip(made.lines()).position(|(a, b)| a != b);
        let line = differs.map_or("its last line".to_string(), |n| format!("line {}", n + 1));
        assert!(stands == made, "{name} differs from {line} on; {ANEW}");
    }
}

/// The lists of a text in which only decimal numbers count.
fn read(text: &str) -> Vec<List> {
    let mut numbers = text
        .split(|c: char| !c.is_ascii_digit())
        .filter(|digits| !digits.is_empty())
        .map(|digits| digits.parse::<u32>().unwrap());
    let mut lists = Vec::new();
    while let Some(mst_len) = numbers.next() {
        let mut next = || numbers.next().unwrap() as usize;
        let [xrf_len, answer_room, shown_room] = [next(), next(), next()];
        let counts = [next(), next(), next(), next(), next()];
        let mut some = |count: usize| -> Vec<u32> { numbers.by_ref().take(count).collect() };
        let [calls, mfns, tags, lens, bytes] = counts.map(&mut some);
        lists.push(List {
            title: "",
            mst_len: mst_len as usize,
            xrf_len,
            answer_room,
            shown_room,
            numbers: calls,
            mfns,
            tags: tags.iter().map(|&tag| tag.try_into().unwrap()).collect(),
            lens: lens.iter().map(|&len| len.try_into().unwrap()).collect(),
            bytes: bytes.iter().map(|&byte| byte.try_into().unwrap()).collect(),
        });
    }
    lists
}

#[test]
fn the_text_reads_back_as_the_same_lists() {
    let untitled: Vec<List> = lists::all()
        .into_iter()
        .map(|list| List { title: "", ..list })
        .collect();
    let read = read(&file("stdin"));
    assert!(read == untitled, "other lists are read than were written");
    let lines = text::stdout(&read);
    assert!(lines == file("stdout"), "other lines for what is read");
}

#[test]
fn the_lists_fit_into_the_programs_buffers() {
    assert!(text::stdin(&lists::all()).len() <= 131_072);
    for list in lists::all() {
        let title = list.title;
        assert!(!title.contains(|c: char| c.is_ascii_digit()), "{title}");
        assert!(list.mst_len <= 32_768 && list.xrf_len <= 1_024, "{title}");
        assert!(list.answer_room <= 16_384, "{title}");
        assert!(list.shown_room <= 16_384, "{title}");
        assert!(list.numbers.len() <= 8_192, "{title}");
        assert!(list.mfns.len() <= 16_384, "{title}");
        assert!(list.tags.len() <= 2_048, "{title}");
        assert!(list.lens.len() <= 2_048, "{title}");
        assert!(list.bytes.len() <= 16_384, "{title}");
        assert!(list.bytes.iter().all(u8::is_ascii_alphabetic), "{title}");
    }
}

/// The worked run of document 01: answers, fields, and the end that is "still 122", counted
/// from one.
#[test]
fn the_worked_run_is_the_papers() {
    let lines = text::replay(&by_ledger(&lists::worked_run()));
    let wanted = "ended 9\n0 1 0 0 0\n0 0 0 0 0\n0 0 0 0 0\n0 0 0 0 0\n0 0 5 0 0 Kites\n\
                  0 0 3 0 0 Kit\n0 0 0 0 0\n0 0 3 0 0 Kit\n0 0 0 0 0\nNXTMFN 2 NXTMFB 1 NXTMFP 123\n";
    assert_eq!(lines, wanted);
    assert!(file("stdout").starts_with(wanted));
}

/// Of a record with tag 70 twice, new; changed to one with tag 70 once, the first settled; and
/// then deleted.
#[test]
fn a_list_reports_how_often_a_tag_occurs() {
    let lists = lists::all();
    let list = lists.iter().find(|list| list.title == "fewer than asked");
    let lines = text::replay(&by_ledger(list.unwrap()));
    let lines: Vec<&str> = lines.lines().collect();
    let of_two = [
        "12 0 0 0 0",
        "0 0 3 0 0 one",
        "0 0 3 0 0 two",
        "15 0 0 2 0",
        "15 0 0 2 0",
        "15 0 0 2 0",
    ];
    let of_one = [
        "12 0 0 0 0",
        "0 0 4 0 0 only",
        "15 0 0 1 0",
        "15 0 0 1 0",
        "15 0 0 1 0",
        "15 0 0 1 0",
    ];
    let absent = "12 0 0 0 0";
    assert_eq!(lines[2..8], of_two);
    assert_eq!(lines[8..14], ["11 0 0 0 0"; 6]);
    assert_eq!(lines[14..16], [absent, "11 0 0 0 0"]);
    assert_eq!(lines[18..24], of_one);
    assert_eq!(lines[24..30], of_two);
    assert_eq!(lines[30..32], [absent; 2]);
    assert_eq!(lines[33..39], ["9 0 0 0 0"; 6]);
    assert_eq!(lines[39..45], of_two);
    assert_eq!(lines[45..47], ["9 0 0 0 0", absent]);
}

/// A recount answers 0 with nothing else, and the other calls report what they do without it.
#[test]
fn a_recount_before_every_call_makes_no_difference() {
    let lists = lists::all();
    let replay = |title: &str| {
        let list = lists.iter().find(|list| list.title == title);
        by_ledger(list.unwrap_or_else(|| panic!("no list {title}")))
    };
    let with = replay("a recount before every call");
    let without = replay("the same calls without");
    let (recounts, others): (Turns, Turns) = with
        .turns
        .into_iter()
        .partition(|(call, _)| *call == Call::Recount);
    assert_eq!(recounts.len(), 17);
    for (_, outcome) in recounts {
        assert_eq!(outcome, Outcome::default());
    }
    assert_eq!((others, with.kept), (without.turns, without.kept));
    let other = replay("recounts with other numbers");
    assert_eq!((other.stop, other.turns.len()), (Stop::Ended, 3));
}

/// The calls of a list that were run, as numbers, each with its answer.
fn answers(list: &List) -> BTreeSet<(u32, u32)> {
    let calls = list.numbers.iter().step_by(5).copied();
    let outcomes = by_ledger(list).turns.into_iter();
    calls
        .zip(outcomes.map(|(_, outcome)| outcome.number))
        .collect()
}

#[test]
fn the_long_list_reaches_every_answer_of_every_call() {
    let wanted = common::from_format(12);
    assert_eq!(answers(&lists::catalogue()), wanted);
    let all: BTreeSet<(u32, u32)> = lists::all().iter().flat_map(answers).collect();
    assert_eq!(all, wanted);
    let numbers: BTreeSet<u32> = all.iter().map(|(_, answer)| *answer).collect();
    assert_eq!(
        numbers,
        BTreeSet::from([0, 2, 3, 4, 5, 9, 10, 11, 12, 13, 15, 17])
    );
}

#[test]
fn two_lists_have_several_hundred_calls_to_their_end() {
    let all = lists::all();
    let long = |title: &str| {
        let list = all.iter().find(|list| list.title == title).unwrap();
        by_ledger(list)
    };
    for title in ["a whole catalogue", "a random list"] {
        let Replay { stop, turns, .. } = long(title);
        assert_eq!(stop, Stop::Ended, "{title}");
        assert!((400..=600).contains(&turns.len()), "{title}");
        let done = turns.iter().filter(|(_, outcome)| outcome.number == 0);
        assert!(done.count() > 200, "{title}");
        let formats = turns.iter().filter(|(call, _)| *call == Call::Format);
        assert!(formats.count() > 0, "{title}");
    }
}

/// What an accepted call of a list met: its name, the mark before it, and how it was done.
fn met(call: &Call, before: &Ledger, after: &Ledger) -> Option<String> {
    let (name, mfn) = match *call {
        Call::Update(mfn, _) => ("update", mfn),
        Call::Delete(mfn) => ("delete", mfn),
        Call::Settle(mfn) => ("settle", mfn),
        Call::Revert(mfn) => ("revert", mfn),
        _ => return None,
    };
    let item = before.item(mfn as usize)?;
    let mark = match item.standing {
        Standing::Settled => "settled",
        Standing::Changed { .. } => "changed",
        Standing::New { .. } => "new",
    };
    let deleted = if item.deleted { " deleted" } else { "" };
    let appended = if before.end() == after.end() {
        ""
    } else {
        " appended"
    };
    Some(format!("{name} {mark}{deleted}{appended}"))
}

#[test]
fn the_long_list_meets_every_state_that_a_record_can_be_in() {
    let list = lists::catalogue();
    let mut ledger = Ledger::new(list.mst_len, list.xrf_len).unwrap();
    let mut came = BTreeSet::new();
    for (call, outcome) in by_ledger(&list).turns {
        let before = ledger.clone();
        assert_eq!(on_ledger(&mut ledger, &call), outcome);
        if outcome.number == 0 {
            came.extend(met(&call, &before, &ledger));
        }
    }
    let wanted = [
        "delete changed",
        "delete new",
        "delete settled appended",
        "revert changed",
        "revert changed deleted",
        "settle changed",
        "settle changed deleted",
        "settle new",
        "settle new deleted",
        "update changed",
        "update changed appended",
        "update new",
        "update new appended",
        "update settled appended",
    ];
    assert_eq!(came, wanted.map(String::from).into());
}

#[test]
fn the_long_list_has_empty_fields_odd_lengths_and_empty_records() {
    let turns = by_ledger(&lists::catalogue()).turns;
    let shown = |(call, outcome): &&(Call, Outcome)| {
        matches!(call, Call::View { .. } | Call::ViewSettled { .. }) && outcome.number == 0
    };
    let lens: Vec<usize> = turns
        .iter()
        .filter(shown)
        .map(|(_, outcome)| outcome.field.len())
        .collect();
    assert!(lens.contains(&0), "no empty field was shown");
    assert!(lens.iter().filter(|len| *len % 2 == 1).count() > 10);
    let padded = |(call, outcome): &&(Call, Outcome)| match call {
        Call::Create(draft) | Call::Update(_, draft) => {
            let exact = 18 + 6 * draft.tags.len() + draft.data.len();
            outcome.number == 0 && need(draft.tags.len(), draft.data.len()) > exact
        }
        _ => false,
    };
    assert!(turns.iter().filter(padded).count() > 40);
    let empty = Call::Create(model::OwnedDraft::default());
    assert!(turns.iter().any(|(call, _)| *call == empty));
    let highest = turns.iter().map(|(_, outcome)| outcome.mfn).max();
    assert_eq!(highest, Some(127));
}

#[test]
fn every_stop_comes_for_every_reason() {
    let all = lists::all();
    let stop = |title: &str| {
        let list = all.iter().find(|list| list.title == title);
        let replay = by_ledger(list.unwrap_or_else(|| panic!("no list {title}")));
        (replay.stop, replay.turns.len())
    };
    for title in [
        "four numbers left",
        "a call of no name",
        "view of a tag too large",
        "settled view of a tag too large",
        "create with a tag too many",
        "create with a length too many",
        "create with a byte too many",
        "update with a tag too many",
        "update with a length too many",
        "update with a byte too many",
        "a list with an MFN too many",
    ] {
        assert_eq!(stop(title), (Stop::Malformed, 1), "{title}");
    }
    assert_eq!(stop("one number alone"), (Stop::Malformed, 0));
    assert_eq!(stop("an empty list"), (Stop::Ended, 0));
    assert_eq!(stop("room for four numbers"), (Stop::NoRoom, 0));
    assert_eq!(stop("room for one call"), (Stop::NoRoom, 1));
    assert_eq!(stop("room for all calls but the last"), (Stop::NoRoom, 6));
    assert_eq!(stop("a byte short at the first view"), (Stop::NoRoom, 1));
    assert_eq!(stop("enough for the first view only"), (Stop::NoRoom, 4));
    assert_eq!(stop("a byte short at the second view"), (Stop::NoRoom, 4));
    assert_eq!(stop("room for all calls"), (Stop::Ended, 7));
    let answers = "a list without room for its answers";
    assert_eq!(stop(answers), (Stop::NoRoom, 6));
    assert_eq!(stop("a list whose answers just fit"), (Stop::Ended, 8));
    for title in ["MST a byte short", "XRF a byte short", "MST empty"] {
        assert_eq!(stop(title), (Stop::BadLength, 0), "{title}");
    }
}

/// No list's stop hangs on what is asked first: where numbers that are no call are
/// met, there would have been room.
#[test]
fn no_malformed_list_is_short_of_room() {
    for list in lists::all() {
        let Replay { stop, turns, .. } = by_ledger(&list);
        if stop == Stop::Malformed {
            let left = list.answer_room - REPORT * turns.len();
            assert!(left >= REPORT, "{}", list.title);
        }
    }
}

/// The replay of a list on buffers full of 255, by the byte store.
fn by_bytes(list: &List) -> Replay {
    let (mut mst, mut xrf) = (vec![255; list.mst_len], vec![255; list.xrf_len]);
    let (formatted, _) = on_bytes(&mut mst, &mut xrf, &Call::Format);
    if formatted.number != 0 {
        return Replay {
            stop: Stop::BadLength,
            turns: Vec::new(),
            kept: None,
        };
    }
    let (stop, turns) = list.run(|call| {
        let (outcome, _) = on_bytes(&mut mst, &mut xrf, call);
        assert!(sound::is_sound(&mst, &xrf), "{}: {call:?}", list.title);
        outcome
    });
    let control = Control::read(&mst, list.xrf_len).unwrap();
    Replay {
        stop,
        turns,
        kept: Some((control.next_mfn, control.end)),
    }
}

#[test]
fn the_byte_store_says_what_the_ledger_says() {
    for list in lists::all() {
        assert_eq!(by_bytes(&list), by_ledger(&list), "{}", list.title);
    }
}
