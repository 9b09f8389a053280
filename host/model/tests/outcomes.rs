//! What the model prints of the outcomes is kept beside the example, and that is the
//! paper's worked run and each answer that each call can give.

#[path = "../examples/outcomes/script/mod.rs"]
mod script;

/// What the lines are made on: the model.
mod subject {
    pub use model::ask::{fields, fields_settled, next, state};
    pub use model::index::{check as check_index, lookup};
    pub use model::postings::posting::{
        compare as posting_compare, read as posting_read, write as posting_write,
    };
    pub use model::postings::{common, joined, postings};
    pub use model::record_test::record_test;
    pub use model::store::{
        Answer, Indexed, check, create, delete, field, field_settled, format, migrate, recount,
        revert, settle, settle_list, update, view, view_settled,
    };
}

use std::collections::BTreeSet;

/// The outcomes, line by line.
const EXPECTED: &str = include_str!("../examples/outcomes/expected.txt");

/// The calls and the answers that the paper's table gives to each; a field by its
/// index is answered as a view, and the calls that tell something as the header says.
const ANSWERS: [(&str, &[u32]); 27] = [
    ("format", &[0, 1]),
    ("view", &[0, 1, 2, 4, 6, 7, 8, 9, 12, 15]),
    ("settled view", &[0, 1, 2, 4, 6, 7, 8, 9, 11, 12, 15]),
    ("create", &[0, 1, 2, 3, 5, 6, 13]),
    ("update", &[0, 1, 2, 3, 4, 6, 7, 8, 9, 13]),
    ("delete", &[0, 1, 2, 4, 6, 7, 8, 9, 13]),
    ("settle", &[0, 1, 2, 4, 6, 7, 8, 10]),
    ("revert", &[0, 1, 2, 4, 6, 7, 8, 10, 11]),
    ("check", &[0, 1, 2, 14]),
    ("migrate", &[0, 1, 2]),
    ("settle list", &[0, 17]),
    ("recount", &[0, 1, 2, 14]),
    ("field", &[0, 1, 2, 4, 6, 7, 8, 9, 12]),
    ("settled field", &[0, 1, 2, 4, 6, 7, 8, 9, 11, 12]),
    ("next", &[0, 1, 2]),
    ("state", &[0, 1, 2, 4, 6, 7, 8]),
    ("fields", &[0, 1, 2, 4, 6, 7, 8, 9, 17]),
    ("settled fields", &[0, 1, 2, 4, 6, 7, 8, 9, 11, 17]),
    ("lookup", &[0, 20, 21, 22]),
    ("index check", &[0, 21]),
    ("posting read", &[0, 23]),
    ("posting write", &[0, 17, 23]),
    ("posting compare", &[0, 1, 2]),
    ("postings", &[0, 17, 23]),
    ("common", &[0, 17, 23]),
    ("joined", &[0, 17, 23]),
    ("record test", &[0, 8]),
];

/// The answer of a line that tells of a call.
fn answer(line: &str, call: &str) -> Option<u32> {
    let (_, step) = line.split_once(": ")?;
    let rest = step.strip_prefix(call)?.strip_prefix(' ')?;
    let digits = rest.split([' ', ',']).next()?;
    digits.parse().ok()
}

#[test]
fn the_model_prints_the_outcomes() {
    let lines = script::lines();
    for (n, (model, wanted)) in lines.lines().zip(EXPECTED.lines()).enumerate() {
        assert_eq!(model, wanted, "line {}", n + 1);
    }
    assert!(lines == EXPECTED, "one text is longer than the other");
}

#[test]
fn each_call_gives_each_of_its_answers_and_no_other() {
    for (call, wanted) in ANSWERS {
        let given: BTreeSet<u32> = EXPECTED
            .lines()
            .filter_map(|line| answer(line, call))
            .collect();
        assert_eq!(given, wanted.iter().copied().collect(), "{call}");
    }
}

#[test]
fn every_line_tells_of_a_call_or_a_state() {
    for line in EXPECTED.lines() {
        let calls = ANSWERS
            .iter()
            .filter(|(call, _)| answer(line, call).is_some());
        let states = [": entry ", ": XRF at 0 "].map(|state| line.contains(state));
        let states = states.iter().filter(|&&has| has);
        assert_eq!(calls.count() + states.count(), 1, "{line}");
    }
}

/// "Numbers to test on", word for word; each line begins so.
#[test]
fn the_worked_run_is_the_papers() {
    let kite =
        "01 00 00 00 1C 00 00 00 00 00 00 00 18 00 01 00 00 00 18 00 00 00 04 00 4B 69 74 65";
    let kit = "01 00 00 00 1C 00 00 00 00 00 00 00 18 00 01 00 00 00 18 00 00 00 03 00 4B 69 74 00";
    // Need 30, back 1/64.
    let kites = "01 00 00 00 1E 00 01 00 00 00 40 00 18 00 01 00 00 00 18 00 00 00 05 00 \
                 4B 69 74 65 73 00";
    let run = [
        "format 0,".to_string(),
        "XRF at 0 FF FF FF FF 00 00 00 00".to_string(),
        "entry 0, end 64, at 0 00 00 00 00 01 00 00 00 01 00 00 00 41 00".to_string(),
        "create 0 MFN 1,".to_string(),
        format!("entry 3136, end 92, at 64 {kite}"),
        "update 0,".to_string(),
        format!("entry 3136, end 92, at 64 {kit}"),
        "settle 0,".to_string(),
        format!("entry 2112, end 92, at 64 {kit}"),
        "update 0,".to_string(),
        format!("entry 2652, end 122, at 92 {kites}"),
        "view 0 \"Kites\"".to_string(),
        "settled view 0 \"Kit\"".to_string(),
        "revert 0,".to_string(),
        format!("entry 2112, end 122, at 64 {kit} {kites}"),
        "view 0 \"Kit\"".to_string(),
        "check 0".to_string(),
    ];
    let lines: Vec<&str> = EXPECTED
        .lines()
        .filter(|line| line.starts_with("worked run"))
        .collect();
    assert_eq!(lines.len(), run.len());
    for (line, wanted) in lines.iter().zip(&run) {
        let (_, step) = line.split_once(": ").unwrap();
        let (step, wanted) = (step.to_lowercase(), wanted.to_lowercase());
        assert!(step.starts_with(&wanted), "{line} is not {wanted}");
    }
}

#[test]
fn the_ends_are_those_of_rows_p9_and_p10() {
    assert!(EXPECTED.contains("434 bytes at 64: entry 3136, end 498, "));
    assert!(EXPECTED.contains("436 bytes at 64: entry 3136, end 512, "));
}

/// A known value of the checksum.
#[test]
fn the_checksum_is_adler_32() {
    assert_eq!(script::card::adler32(b"Wikipedia"), 0x11E6_0398);
}
