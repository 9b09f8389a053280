//! The lists that `replay_run` is given, call by call through the archive: the lines
//! are those that the model's ledger says.

use differential::archive::{Archive, Subject};
use differential::guarded::Side;
use model::call::{Call, Outcome};
use model::layout::Control;
use model::replay::{List, Replay, Stop, lists, text};

/// The replay of a list on buffers full of 255, through the archive.
fn by_archive(archive: &mut Archive, list: &List) -> Replay {
    let (mut mst, mut xrf) = (vec![255; list.mst_len], vec![255; list.xrf_len]);
    let mut run = |call: &Call| {
        let given = archive.run(&mut mst, &mut xrf, call, Side::Back);
        Outcome {
            number: given.number,
            mfn: given.mfn,
            tag: given.tag,
            field: mst[given.part].to_vec(),
            occurrences: given.occurrences,
            answers: if given.number == 0 {
                given.answers
            } else {
                Vec::new()
            },
            ..Outcome::default()
        }
    };
    if run(&Call::Format).number != 0 {
        return Replay {
            stop: Stop::BadLength,
            turns: Vec::new(),
            kept: None,
        };
    }
    let (stop, turns) = list.run(run);
    let control = Control::read(&mst, xrf.len()).unwrap();
    Replay {
        stop,
        turns,
        kept: Some((control.next_mfn, control.end)),
    }
}

#[test]
fn the_archive_says_what_the_ledger_says() {
    let wanted = include_str!("../../../crates/replay_run/stdout");
    let mut archive = Archive::new();
    let lines: String = lists::all()
        .iter()
        .map(|list| text::replay(&by_archive(&mut archive, list)))
        .collect();
    for (n, (given, wanted)) in lines.lines().zip(wanted.lines()).enumerate() {
        assert_eq!(given, wanted, "line {}", n + 1);
    }
    assert!(lines == wanted, "one text is longer than the other");
}
