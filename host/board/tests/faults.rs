//! Tests that can fail: a library that is wrong in one way is caught on the board, at
//! the step and in the words that the way asks for.

use board::core::{CORES, Core, M0};
use board::posted::Posted;
use board::recorder::Recorder;
use board::runner::run_with;
use board::search::Search;
use differential::archive::Subject;
use differential::guarded::Side;
use differential::records::Parts;
use differential::records::compare::Case;
use model::call::{Call, OwnedDraft};
use model::index::{Entry, plain};
use model::postings;
use model::random::Random;

/// Format, then creates and checks in turn: 50 steps with the MST at the last byte and the
/// XRF at the first, 50 the other way round, and 50 with a list of the draft at the last.
fn list() -> Recorder {
    let mut recorder = Recorder::default();
    let (mut mst, mut xrf) = (vec![255; 16 * 512], vec![255; 512]);
    let mut run = |call: &Call| recorder.run(&mut mst, &mut xrf, call, Side::Back);
    run(&Call::Format);
    for _ in 0..75 {
        run(&Call::Create(OwnedDraft::of(&[(24, b"Kite")])));
        run(&Call::Check);
    }
    recorder
}

/// A record with tag 70 twice, from step 2 on: its first occurrence, the third, occurrence 0 of
/// it, and an index that it does not have.
fn views() -> Recorder {
    let mut recorder = Recorder::default();
    let (mut mst, mut xrf) = (vec![255; 2 * 512], vec![255; 512]);
    let draft = OwnedDraft::of(&[(70, b"Blake"), (70, b"Byron")]);
    for call in [
        Call::Format,
        Call::Create(draft),
        Call::view(1, 70, 1),
        Call::view(1, 70, 3),
        Call::view(1, 70, 0),
        Call::Field { mfn: 1, index: 2 },
    ] {
        recorder.run(&mut mst, &mut xrf, &call, Side::Back);
    }
    recorder
}

/// Two records; the first is settled, changed and taken back, then deleted, and counted; in a
/// store without room for a copy of the second; with RECCNT below 0 at last.
fn counts() -> Recorder {
    let mut recorder = Recorder::default();
    let (mut mst, mut xrf) = (vec![255; 512], vec![255; 512]);
    let long = vec![b'k'; 200];
    let mut run = |mst: &mut Vec<u8>, call: &Call| {
        recorder.run(mst, &mut xrf, call, Side::Back);
    };
    for call in [
        Call::Format,
        Call::Create(OwnedDraft::of(&[(24, b"Kite")])),
        Call::Create(OwnedDraft::of(&[(24, &long)])),
        Call::Settle(1),
        Call::Settle(2),
        Call::Update(1, OwnedDraft::of(&[(24, b"Kites")])),
        Call::Revert(1),
        Call::Delete(2),
        Call::Delete(1),
        Call::Recount,
    ] {
        run(&mut mst, &call);
    }
    mst[16..24].fill(255);
    for call in [Call::Delete(3), Call::Check, Call::Recount] {
        run(&mut mst, &call);
    }
    recorder
}

/// A term that an index holds and one that it does not, in turn; each slice stands once at
/// the last byte, and CNT stands at the first from step 1 on.
fn searches() -> Recorder {
    let entries = [&b"KITE"[..], b"KITE RUNNER"].map(|term| Entry {
        term: term.to_vec(),
        block: 3,
        word: 8,
    });
    let (index, mut recorder) = (plain(&entries, 1, 1), Recorder::default());
    for _ in 0..3 {
        for term in ["KITE", "KITES"] {
            recorder.search(&index, &Search::Lookup(term.into()));
        }
    }
    recorder
}

/// Reads of a list of one posting, with room for it and without, in turn; the file stands at
/// the last byte in step 0 and at the first in step 1.
fn reads() -> Recorder {
    let (ifp, mut recorder) = (postings::plain(&[vec![(7 << 40) + 1]]), Recorder::default());
    let (file, from) = (ifp.bytes(&mut |_| ()), ifp.starts()[0]);
    for _ in 0..2 {
        for room in [1, 0] {
            recorder.post(&file, &Posted::Postings { from, room });
        }
    }
    recorder
}

/// Tests of a record of three fields: as it is, at the last byte; with a wrong POS in its second
/// entry, at the first; and held to another MFN.
fn tests() -> Recorder {
    let (right, mut recorder) = (
        Parts::of(&[(24, 4), (70, 8), (69, 5)], 0, 0),
        Recorder::default(),
    );
    let mut broken = right.clone();
    broken.items[1].pos = 5;
    for (parts, mfn) in [(&right, 7), (&broken, 7), (&right, 8)] {
        recorder.test(&Case {
            what: String::new(),
            record: parts.bytes(&mut Random::new(1)),
            mfn,
            deleted: 0,
            known: None,
        });
    }
    recorder
}

/// What the runner says of a library that is wrong in one way.
fn caught(core: &Core, way: &str, list: &Recorder) -> String {
    let flags = [
        &format!("-DWRONG={way}"),
        "-Wl,--wrap=isis_check,--wrap=isis_create,--wrap=isis_view,--wrap=isis_field",
        "-Wl,--wrap=isis_lookup,--wrap=isis_postings,--wrap=isis_record_test",
        "-Wl,--wrap=isis_delete,--wrap=isis_revert,--wrap=isis_recount",
    ];
    let name = format!("wrong-{way}");
    run_with(core, &name, list, &["host/board/c/wrong.c"], &flags).expect_err("nothing was noticed")
}

/// An access in a step is a fault, which the board reports.
fn faults(list: &Recorder, way: &str, step: usize) {
    for core in CORES {
        let said = caught(&core, way, list);
        assert!(said.starts_with("fault: the instruction at "), "{said}");
        assert!(said.ends_with(&format!("\nin step {step}\n")), "{said}");
    }
}

/// A difference is said as it stands.
fn differs(list: &Recorder, way: &str, words: &str) {
    for core in CORES {
        assert_eq!(caught(&core, way, list), words);
    }
}

#[test]
fn a_byte_read_outside_of_a_buffer_is_a_fault() {
    faults(&list(), "READ_BEHIND_MST", 2);
    faults(&list(), "READ_BEFORE_XRF", 2);
    faults(&list(), "READ_BEHIND_XRF", 50);
    faults(&list(), "READ_BEFORE_MST", 50);
}

#[test]
fn a_byte_read_behind_a_draft_is_a_fault() {
    faults(&list(), "READ_BEHIND_DATA", 101);
}

#[test]
fn a_byte_written_outside_of_a_buffer_is_a_fault_or_spoils_the_paint() {
    faults(&list(), "WRITE_BEHIND_MST", 2);
    differs(
        &list(),
        "WRITE_BEFORE_MST",
        "byte 63 before the MST is 0, wanted 183, in step 2\n",
    );
    differs(
        &list(),
        "WRITE_BEHIND_XRF",
        "byte 0 behind the XRF is 0, wanted 183, in step 2\n",
    );
}

#[test]
fn a_wrong_byte_answer_or_output_is_said() {
    differs(
        &list(),
        "CHANGE_A_BYTE",
        "byte 4 of the MST is 0, wanted 2, in step 2\n",
    );
    differs(
        &list(),
        "ANSWER_ONE_MORE",
        "the answer is 1, wanted 0, in step 2\n",
    );
    differs(
        &list(),
        "LEAVE_THE_MFN",
        "the MFN is 4008636142, wanted 1, in step 1\n",
    );
}

#[test]
fn a_wrong_kind_of_missing_is_said() {
    for (way, words) in [
        ("NONE_FOR_FEWER", "the answer is 12, wanted 15, in step 3\n"),
        (
            "ONE_TOO_FEW",
            "the number of occurrences is 1, wanted 2, in step 3\n",
        ),
        (
            "ONE_TOO_MANY",
            "the number of occurrences is 3, wanted 2, in step 3\n",
        ),
        (
            "FEWER_FOR_OCCURRENCE_0",
            "the answer is 15, wanted 12, in step 4\n",
        ),
        (
            "LEAVE_THE_OCCURRENCES",
            "the number of occurrences is 4008636142, wanted 0, in step 2\n",
        ),
        ("FEWER_BY_INDEX", "the answer is 15, wanted 12, in step 5\n"),
    ] {
        assert_eq!(caught(&M0, way, &views()), words);
    }
}

#[test]
fn a_byte_read_outside_of_an_index_is_a_fault() {
    faults(&searches(), "READ_BEFORE_CNT", 1);
    faults(&searches(), "READ_BEHIND_L01", 2);
}

/// What is compared is compared by the same code on every core.
#[test]
fn a_wrong_lookup_is_said() {
    for (way, words) in [
        (
            "WRITE_BEHIND_N02",
            "byte 0 behind N02 is 0, wanted 183, in step 0\n",
        ),
        (
            "CHANGE_THE_TERM",
            "byte 0 of the term is 0, wanted 75, in step 0\n",
        ),
        ("TAKE_THE_NEXT_WORD", "the word is 9, wanted 8, in step 0\n"),
        (
            "LEAVE_THE_BLOCK",
            "the block is 4008636142, wanted 0, in step 1\n",
        ),
    ] {
        assert_eq!(caught(&M0, way, &searches()), words);
    }
}

#[test]
fn a_byte_read_outside_of_postings_is_a_fault() {
    faults(&reads(), "READ_BEHIND_IFP", 0);
    faults(&reads(), "READ_BEFORE_IFP", 1);
}

#[test]
fn a_wrong_read_of_postings_is_said() {
    for (way, words) in [
        (
            "WRITE_BEHIND_LIST",
            "byte 0 behind the list is 0, wanted 183, in step 0\n",
        ),
        (
            "WRITE_BEFORE_LIST",
            "byte 63 before the list is 0, wanted 183, in step 0\n",
        ),
        (
            "CHANGE_THE_IFP",
            "byte 20 of the IFP is 0, wanted 1, in step 0\n",
        ),
        (
            "CHANGE_A_POSTING",
            "byte 0 of the list is 0, wanted 1, in step 0\n",
        ),
        (
            "LEAVE_THE_COUNT",
            "the count is 4008636142, wanted 0, in step 1\n",
        ),
    ] {
        assert_eq!(caught(&M0, way, &reads()), words);
    }
}

#[test]
fn a_byte_read_outside_of_a_record_is_a_fault() {
    faults(&tests(), "READ_BEHIND_RECORD", 0);
    faults(&tests(), "READ_BEFORE_RECORD", 1);
}

#[test]
fn a_wrong_test_of_a_record_is_said() {
    for (way, words) in [
        (
            "CHANGE_THE_RECORD",
            "byte 0 of the record is 0, wanted 7, in step 0\n",
        ),
        (
            "PASS_A_BROKEN_ENTRY",
            "the answer is 0, wanted 8, in step 1\n",
        ),
        (
            "COUNT_ENTRIES_FROM_0",
            "the entry is 1, wanted 2, in step 1\n",
        ),
        (
            "TELL_AN_ENTRY_OF_A_LEADER",
            "the entry is 1, wanted 0, in step 2\n",
        ),
        (
            "LEAVE_THE_ENTRY",
            "the entry is 4008636142, wanted 0, in step 0\n",
        ),
        (
            "WRITE_BEHIND_THE_ENTRY",
            "what stands beside the entry is 0, wanted 4008636142, in step 0\n",
        ),
    ] {
        assert_eq!(caught(&M0, way, &tests()), words);
    }
}

/// The code for a Cortex-M0 may read no word at an odd address; the other cores do.
#[test]
fn a_word_read_at_an_odd_address_is_a_fault_on_cortex_m0() {
    let said = caught(&M0, "READ_AN_ODD_WORD", &list());
    assert!(said.ends_with("\nin step 2\n"), "{said}");
}

#[test]
fn a_wrong_count_is_said() {
    for (way, words) in [
        (
            "CREATE_FORGETS",
            "byte 16 of the MST is 0, wanted 1, in step 1\n",
        ),
        (
            "ADD_FOR_A_LIVE_RECORD",
            "byte 16 of the MST is 3, wanted 2, in step 6\n",
        ),
        (
            "TAKE_FOR_NO_ROOM",
            "byte 16 of the MST is 1, wanted 2, in step 7\n",
        ),
        (
            "COUNT_THE_DELETED",
            "byte 16 of the MST is 2, wanted 1, in step 9\n",
        ),
        (
            "REFUSE_BEFORE_NO_MFN",
            "the answer is 2, wanted 4, in step 10\n",
        ),
        (
            "CHECK_WITHOUT_RECCNT",
            "the answer is 0, wanted 14, in step 11\n",
        ),
        (
            "REFUSE_FOR_RECCNT",
            "the answer is 2, wanted 0, in step 12\n",
        ),
        (
            "WRITE_BEHIND_RECCNT",
            "byte 20 of the MST is 0, wanted 255, in step 12\n",
        ),
    ] {
        assert_eq!(caught(&M0, way, &counts()), words);
    }
}
