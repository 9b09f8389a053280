//! The power is cut at every step of a write, or in the middle of one. The next command
//! finds the card as it was before the write or as the write was to leave it, both files
//! byte for byte, sound, with nothing left beside them.

mod folder;

use card::replace::STEPS;
use folder::Folder;
use folder::cut::{
    CALLS, COMPLETE, HALF, TEARS, before_and_after, beside, card_in, cut, opens_as, put, the_one,
    worked, written_in,
};
use std::fs;

#[test]
fn a_cut_between_any_two_steps() {
    let folder = worked("cut");
    for call in CALLS {
        let (before, after) = before_and_after(&folder, call);
        for steps in 0..=STEPS.len() {
            put(&folder, &before);
            cut(&folder, Some(&before), &after, steps);
            // Where the XRF stays as it is, the MST alone completes the write.
            let complete = steps >= COMPLETE || steps == 4 && before.1 == after.1;
            let card = if complete { &after } else { &before };
            let done = match steps {
                0 | 10 => None,
                _ if complete => Some("has been finished"),
                _ => Some("has been undone"),
            };
            opens_as(&folder, card, done, &format!("{call}, {steps} steps"));
        }
        put(&folder, &before);
    }
}

#[test]
fn a_cut_in_the_middle_of_a_file() {
    let folder = worked("torn");
    for call in CALLS {
        let (before, after) = before_and_after(&folder, call);
        let mut torn = 0;
        for steps in 0..=STEPS.len() {
            for (which, tear) in TEARS.iter().enumerate() {
                put(&folder, &before);
                cut(&folder, Some(&before), &after, steps);
                if let Some(path) = written_in(&folder, steps) {
                    let mut bytes = fs::read(&path).unwrap();
                    tear(&mut bytes);
                    fs::write(&path, bytes).unwrap();
                    let what = format!("{call}, {steps} steps, tear {which}");
                    opens_as(&folder, &before, Some("has been undone"), &what);
                    torn += 1;
                } else {
                    folder.card("check a.mst a.xrf");
                }
            }
        }
        // The intent, and one new file or two.
        assert!(torn == 2 * TEARS.len() || torn == 3 * TEARS.len(), "{call}");
        put(&folder, &before);
    }
}

/// The two renames may come to the disk in the other order.
#[test]
fn a_cut_that_lost_the_first_rename_only() {
    let folder = worked("order");
    for call in CALLS {
        let (before, after) = before_and_after(&folder, call);
        cut(&folder, Some(&before), &after, COMPLETE);
        if let Some(xrf) = the_one(&folder, "a.xrf", ".new") {
            fs::rename(xrf, folder.0.join("a.xrf")).unwrap();
        }
        opens_as(&folder, &after, Some("has been finished"), call);
        put(&folder, &before);
    }
}

/// Some file systems take the old file away before the new one has its name.
#[test]
fn a_cut_in_the_middle_of_a_rename() {
    let folder = worked("rename");
    let (before, after) = before_and_after(&folder, CALLS[0]);
    for (steps, name) in [(COMPLETE, "a.mst"), (HALF, "a.xrf")] {
        put(&folder, &before);
        cut(&folder, Some(&before), &after, steps);
        fs::remove_file(folder.0.join(name)).unwrap();
        opens_as(&folder, &after, Some("has been finished"), name);
    }
}

/// Finishing and undoing are cut in turn: whatever was done, the rest is done later.
#[test]
fn a_cut_while_an_undo_is_on_its_way() {
    let folder = worked("undo");
    let (before, after) = before_and_after(&folder, CALLS[0]);
    cut(&folder, Some(&before), &after, COMPLETE);
    fs::remove_file(the_one(&folder, "a.mst", ".new").unwrap()).unwrap();
    opens_as(
        &folder,
        &before,
        Some("has been undone"),
        "one new file removed",
    );
}

#[test]
fn a_damaged_new_file_is_undone() {
    let folder = worked("damaged");
    let (before, after) = before_and_after(&folder, CALLS[0]);
    for start in ["a.mst", "a.xrf"] {
        cut(&folder, Some(&before), &after, COMPLETE);
        let new = the_one(&folder, start, ".new").unwrap();
        let name = new.file_name().unwrap().to_str().unwrap();
        folder.damage(name, 100, &[0xAA]);
        opens_as(&folder, &before, Some("has been undone"), start);
    }
}

/// The MST is new, and the new XRF was damaged after it was written and kept: no card
/// is shown, and nothing is touched until both files are put back.
#[test]
fn what_can_be_neither_finished_nor_undone_is_refused() {
    let folder = worked("neither");
    let (before, after) = before_and_after(&folder, CALLS[0]);
    cut(&folder, Some(&before), &after, HALF);
    let new = the_one(&folder, "a.xrf", ".new").unwrap();
    folder.damage(new.file_name().unwrap().to_str().unwrap(), 100, &[0xAA]);
    for words in ["check a.mst a.xrf", "show a.mst a.xrf", CALLS[0], CALLS[7]] {
        folder.refused(words, 66, "put back both files from a copy");
    }
    put(&folder, &before);
    opens_as(&folder, &before, Some("has been undone"), "put back");
}

/// A format of files that were not there can be made again after every cut.
#[test]
fn a_format_that_was_cut_is_made_again() {
    let folder = Folder::with_card("made");
    let made = card_in(&folder);
    for steps in 0..STEPS.len() {
        for tear in 0..=TEARS.len() {
            for path in ["a.mst", "a.xrf"] {
                fs::remove_file(folder.0.join(path)).unwrap();
            }
            cut(&folder, None, &made, steps);
            if let (Some(tear), Some(path)) = (TEARS.get(tear), written_in(&folder, steps)) {
                let mut bytes = fs::read(&path).unwrap();
                tear(&mut bytes);
                fs::write(&path, bytes).unwrap();
            }
            if tear == 0 {
                let run = folder.card("check a.mst a.xrf");
                assert!(
                    run.status == 66 && run.err.contains("no such file"),
                    "{run:?}"
                );
                assert!(
                    folder.files().is_empty(),
                    "{steps} steps: {:?}",
                    beside(&folder)
                );
            }
            let run = folder.card("format a.mst a.xrf 4 2");
            assert_eq!(run.status, 0, "{steps} steps: {run:?}");
            assert_eq!(card_in(&folder).0.len(), 4 * 512);
            opens_as(&folder, &card_in(&folder), None, "made again");
        }
    }
    for path in ["a.mst", "a.xrf"] {
        fs::remove_file(folder.0.join(path)).unwrap();
    }
    cut(&folder, None, &made, STEPS.len());
    folder.refused("format a.mst a.xrf 4 2", 66, "exists already");
}
