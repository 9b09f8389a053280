//! A write is pending, and something else comes in between: another command, another
//! process or program, files that may not be written, other folders and names.

mod folder;

use card::replace::STEPS;
use folder::cut::{
    CALLS, COMPLETE, HALF, before_and_after, card_in, cut, opens_as, put, worked, write,
};
use std::fs;
use std::os::unix::fs::symlink;
use std::process::Stdio;
use std::thread::sleep;
use std::time::Duration;

/// What was put in place of the card meanwhile is not written over.
#[test]
fn a_card_that_was_changed_since_the_cut_is_left_alone() {
    let folder = worked("changed");
    let (before, after) = before_and_after(&folder, CALLS[0]);
    let (_, other) = before_and_after(&folder, CALLS[1]);
    cut(&folder, Some(&before), &after, COMPLETE);
    put(&folder, &other);
    opens_as(&folder, &other, Some("has been undone"), "another card");
    // A settle of a new record replaces the XRF only, an update in place the MST only.
    put(&folder, &before);
    let (_, edited) = before_and_after(&folder, CALLS[2]);
    let (_, settled) = before_and_after(&folder, CALLS[5]);
    assert!(edited.1 == before.1 && settled.0 == before.0);
    cut(&folder, Some(&before), &settled, STEPS.len() - 1);
    folder.write("a.mst", &edited.0);
    let both = (edited.0, settled.1);
    opens_as(&folder, &both, Some("has been finished"), "both");
}

/// An intent that is none, or leads nowhere, does no harm.
#[test]
fn what_is_no_intent_is_removed_or_let_be() {
    let folder = worked("none");
    let card = card_in(&folder);
    for bytes in [&b""[..], b"\n", b"card intent 1 ", &[0xFF; 3000], &[0; 80]] {
        folder.write("a.mst.card-intent", bytes);
        opens_as(&folder, &card, Some("has been undone"), "no intent");
    }
    let link = folder.0.join("a.mst.card-intent");
    symlink("nowhere", &link).unwrap();
    assert_eq!(folder.done("check a.mst a.xrf"), "sound\n");
    folder.refused(CALLS[0], 66, "try again");
    fs::remove_file(&link).unwrap();
    fs::create_dir(&link).unwrap();
    folder.refused("check a.mst a.xrf", 66, "cannot be read");
}

#[test]
fn every_command_finishes_a_cut_write_first() {
    let folder = worked("commands");
    let (before, after) = before_and_after(&folder, CALLS[0]);
    for words in [
        "show a.mst a.xrf 4",
        "stat a.mst a.xrf",
        "draw a.mst a.xrf",
        "check a.mst a.xrf",
    ] {
        put(&folder, &before);
        cut(&folder, Some(&before), &after, HALF);
        let run = folder.card(words);
        assert!(
            run.status == 0 && run.err.contains("has been finished"),
            "{words}: {run:?}"
        );
        opens_as(&folder, &after, None, words);
    }
    put(&folder, &before);
    cut(&folder, Some(&before), &after, HALF);
    let run = folder.card("create a.mst a.xrf 24=five");
    assert_eq!(run.out, "created: MFN 5, new, pending\n");
}

#[test]
fn files_that_may_not_be_written_show_no_mixed_card() {
    let folder = worked("readonly");
    let (before, after) = before_and_after(&folder, CALLS[0]);
    for steps in [2, 4, COMPLETE, HALF, 8] {
        put(&folder, &before);
        cut(&folder, Some(&before), &after, steps);
        let paths = [folder.0.join("a.mst"), folder.0.join("a.xrf")];
        let permit = |readonly: bool| {
            for path in &paths {
                let mut permissions = fs::metadata(path).unwrap().permissions();
                if readonly {
                    permissions.set_readonly(true);
                } else {
                    std::os::unix::fs::PermissionsExt::set_mode(&mut permissions, 0o644);
                }
                fs::set_permissions(path, permissions).unwrap();
            }
        };
        permit(true);
        if steps > 2 {
            for command in ["show", "check", "stat", "draw"] {
                let part = "is pending and cannot be finished or undone here";
                folder.refused(&format!("{command} a.mst a.xrf"), 66, part);
            }
        }
        permit(false);
        let card = if steps < COMPLETE { &before } else { &after };
        opens_as(&folder, card, Some("has been"), "writable again");
    }
}

/// The files lie in two folders, under names that are links; then all is carried away.
#[test]
fn two_folders_and_links() {
    let folder = worked("folders");
    let (before, after) = before_and_after(&folder, CALLS[0]);
    for (mst, xrf) in [
        ("m/a.mst", "x/a.xrf"),
        ("a.mst", "x/a.xrf"),
        ("m/a.mst", "a.xrf"),
    ] {
        for steps in 0..=STEPS.len() {
            let inner = folder.0.join("inner");
            fs::create_dir_all(inner.join("m")).unwrap();
            fs::create_dir_all(inner.join("x")).unwrap();
            let (mst, xrf) = (inner.join(mst), inner.join(xrf));
            fs::write(&mst, &before.0).unwrap();
            fs::write(&xrf, &before.1).unwrap();
            symlink(&mst, inner.join("link.mst")).unwrap();
            symlink(&xrf, inner.join("link.xrf")).unwrap();
            let mut write = write(&mst, &xrf, Some(&before), &after);
            for step in &STEPS[..steps] {
                step(&mut write).unwrap();
            }
            drop(write);
            let run = folder.card("check inner/link.mst inner/link.xrf");
            assert_eq!((run.status, run.out.as_str()), (0, "sound\n"), "{run:?}");
            let now = (fs::read(&mst).unwrap(), fs::read(&xrf).unwrap());
            assert!(
                now == if steps < 5 {
                    before.clone()
                } else {
                    after.clone()
                }
            );
            let is_link = |name| fs::symlink_metadata(inner.join(name)).unwrap().is_symlink();
            assert!(is_link("link.mst") && is_link("link.xrf"));
            let mut left = 0;
            for inside in [&inner, &inner.join("m"), &inner.join("x")] {
                left += fs::read_dir(inside).unwrap().count();
            }
            assert_eq!(left, 6, "two folders, two links, two files");
            fs::remove_dir_all(&inner).unwrap();
        }
    }
    cut(&folder, Some(&before), &after, HALF);
    let away = folder.0.join("away");
    fs::create_dir(&away).unwrap();
    for (path, _) in folder.files() {
        fs::rename(&path, away.join(path.file_name().unwrap())).unwrap();
    }
    let run = folder.card("check away/a.mst away/a.xrf");
    assert!(
        run.out == "sound\n" && run.err.contains("has been finished"),
        "{run:?}"
    );
    assert_eq!(fs::read_dir(&away).unwrap().count(), 2);
}

#[test]
fn another_xrf_is_refused_while_a_cut_write_is_pending() {
    let folder = worked("other");
    let (before, after) = before_and_after(&folder, CALLS[0]);
    cut(&folder, Some(&before), &after, HALF);
    fs::create_dir(folder.0.join("sub")).unwrap();
    folder.write("sub/a.xrf", &before.1);
    folder.refused(
        "check a.mst sub/a.xrf",
        66,
        "with the XRF a.xrf was cut short",
    );
    opens_as(&folder, &after, Some("has been finished"), "its own XRF");
}

/// While a process writes, another waits to read, and does not write.
#[test]
fn two_processes_at_once() {
    let folder = worked("two");
    let (before, after) = before_and_after(&folder, CALLS[0]);
    let (mst, xrf) = (folder.0.join("a.mst"), folder.0.join("a.xrf"));
    for steps in 1..STEPS.len() {
        put(&folder, &before);
        let mut first = write(&mst, &xrf, Some(&before), &after);
        for step in &STEPS[..steps] {
            step(&mut first).unwrap();
        }
        let files = folder.files();
        let second = write(&mst, &xrf, Some(&before), &after).run();
        assert!(second.is_err(), "{steps} steps");
        assert!(files == folder.files(), "the second wrote");
        let mut reader = folder
            .command("show a.mst a.xrf 4")
            .stdout(Stdio::piped())
            .spawn()
            .unwrap();
        sleep(Duration::from_millis(50));
        assert!(
            reader.try_wait().unwrap().is_none(),
            "{steps} steps: not waiting"
        );
        for step in &STEPS[steps..] {
            step(&mut first).unwrap();
        }
        drop(first);
        let output = reader.wait_with_output().unwrap();
        assert_eq!(output.stdout, b"MFN 4: live, new, pending\n     24  Wind\n");
        opens_as(&folder, &after, None, "both");
    }
}

/// Who read the card before another wrote it does not write over that.
#[test]
fn a_card_that_was_changed_since_it_was_read_is_not_written() {
    let folder = worked("stale");
    let (mst, xrf) = (folder.0.join("a.mst"), folder.0.join("a.xrf"));
    for call in CALLS {
        let (before, after) = before_and_after(&folder, call);
        let (_, other) = before_and_after(&folder, "create a.mst a.xrf 24=other");
        put(&folder, &other);
        let trouble = write(&mst, &xrf, Some(&before), &after).run().unwrap_err();
        assert!(
            trouble.to_string().contains("changed by another program"),
            "{trouble}"
        );
        opens_as(&folder, &other, None, call);
        put(&folder, &before);
    }
    let made = card_in(&folder);
    let trouble = write(&mst, &xrf, None, &made).run().unwrap_err();
    assert!(
        trouble.to_string().contains("changed by another program"),
        "{trouble}"
    );
    opens_as(&folder, &made, None, "a card that was made by another");
}

/// A write that fails halfway leaves the card as it was.
#[test]
fn a_write_that_fails_is_undone_at_once() {
    let folder = worked("fails");
    let name = "x".repeat(250);
    fs::rename(folder.0.join("a.xrf"), folder.0.join(&name)).unwrap();
    folder.refused(
        &format!("create a.mst {name} 24=Wind"),
        66,
        "cannot be written",
    );
    folder.refused(
        &format!("format b.mst {} 1 1", "y".repeat(250)),
        66,
        "cannot be written",
    );
    let name = "m".repeat(250);
    fs::rename(folder.0.join("a.mst"), folder.0.join(&name)).unwrap();
    fs::rename(folder.0.join("x".repeat(250)), folder.0.join("a.xrf")).unwrap();
    folder.refused(
        &format!("create {name} a.xrf 24=Wind"),
        66,
        "cannot be written",
    );
    assert_eq!(folder.done(&format!("check {name} a.xrf")), "sound\n");
}

/// A file under the name of a new one is somebody's; it is let be.
#[test]
fn a_file_in_the_way_is_let_be() {
    let folder = worked("way");
    let (before, after) = before_and_after(&folder, CALLS[0]);
    for name in ["a.mst", "a.xrf"] {
        let new = format!("{name}.{}.new", std::process::id());
        folder.write(&new, b"mine");
        let files = folder.files();
        let (mst, xrf) = (folder.0.join("a.mst"), folder.0.join("a.xrf"));
        let trouble = write(&mst, &xrf, Some(&before), &after).run().unwrap_err();
        assert!(trouble.to_string().contains("in the way"), "{trouble}");
        assert!(files == folder.files());
        fs::remove_file(folder.0.join(new)).unwrap();
    }
}
