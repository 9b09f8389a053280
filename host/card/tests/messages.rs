//! No message ends a write: a line that cannot be written, on either stream, is lost and
//! nothing else is, and the exit status still says what became of the card.

mod folder;

use folder::as_nobody;
use folder::cut::{CALLS, HALF, before_and_after, card_in, cut, put, worked, write};
use std::ffi::c_int;
use std::fs::{File, OpenOptions};
use std::os::unix::process::CommandExt;
use std::process::{Command, Stdio};
use std::thread::sleep;
use std::time::Duration;

/// The work is done, but what was to be printed is not.
const NOT_PRINTED: i32 = 74;

/// A stream on which every write fails for want of room.
fn full() -> File {
    OpenOptions::new().write(true).open("/dev/full").unwrap()
}

/// A stream whose reader went away.
fn broken() -> Stdio {
    let (_, writer) = std::io::pipe().unwrap();
    writer.into()
}

fn status(command: &mut Command) -> i32 {
    command.output().unwrap().status.code().unwrap()
}

/// What each command gives, said or not.
const STATUSES: [(&str, i32); 6] = [
    ("settle a.mst a.xrf 9", 4),
    ("settle a.mst a.xrf x", 64),
    ("check none a.xrf", 66),
    ("check a.mst a.xrf", 0),
    ("show a.mst a.xrf 1", 0),
    ("nonsense", 64),
];

#[test]
fn a_sentence_that_cannot_be_said_changes_no_status() {
    let folder = worked("unsaid");
    for (words, wanted) in STATUSES {
        assert_eq!(
            status(folder.command(words).stderr(full())),
            wanted,
            "{words}"
        );
        assert_eq!(
            status(folder.command(words).stderr(broken())),
            wanted,
            "{words}"
        );
    }
    let mut bare = Command::new(env!("CARGO_BIN_EXE_card"));
    assert_eq!(status(bare.stderr(full())), 64);
}

#[test]
fn a_damaged_card_is_refused_without_a_word() {
    let folder = worked("unsaid-faults");
    folder.damage("a.mst", 64 + 4, &[0, 0]);
    assert_eq!(
        status(folder.command("check a.mst a.xrf").stderr(full())),
        14
    );
}

#[test]
fn a_cut_write_is_finished_without_a_word() {
    let folder = worked("unsaid-finish");
    let (before, after) = before_and_after(&folder, CALLS[0]);
    cut(&folder, Some(&before), &after, HALF);
    let mut check = folder.command("check a.mst a.xrf");
    let output = check.stderr(full()).output().unwrap();
    assert_eq!(
        (output.status.code(), &output.stdout[..]),
        (Some(0), &b"sound\n"[..])
    );
    assert!(card_in(&folder) == after);
}

/// A write that waits for longer than a second says so each second.
#[test]
fn progress_that_cannot_be_said_ends_no_write() {
    let folder = worked("unsaid-progress");
    let (before, after) = before_and_after(&folder, CALLS[0]);
    let (mst, xrf) = (folder.0.join("a.mst"), folder.0.join("a.xrf"));
    let mut first = write(&mst, &xrf, Some(&before), &after);
    for step in &card::replace::STEPS[..HALF] {
        step(&mut first).unwrap();
    }
    let mut second = folder.command("create a.mst a.xrf 24=next");
    let second = second
        .stdout(Stdio::piped())
        .stderr(full())
        .spawn()
        .unwrap();
    sleep(Duration::from_millis(1_400));
    for step in &card::replace::STEPS[HALF..] {
        step(&mut first).unwrap();
    }
    drop(first);
    let output = second.wait_with_output().unwrap();
    let printed = String::from_utf8(output.stdout).unwrap();
    assert_eq!(
        (output.status.code(), printed.as_str()),
        (Some(0), "created: MFN 5, new, pending\n")
    );
    assert_eq!(folder.done("check a.mst a.xrf"), "sound\n");
}

/// Standard output is full: the card is written all the same, and the status says that
/// only the words are missing.
#[test]
fn a_result_that_cannot_be_printed_has_a_status_of_its_own() {
    let folder = worked("unprinted");
    for call in CALLS {
        let (before, after) = before_and_after(&folder, call);
        for err in [full().into(), broken(), Stdio::piped()] {
            let mut command = folder.command(call);
            let status = status(command.stdout(full()).stderr(err));
            assert_eq!(status, NOT_PRINTED, "{call}");
            assert!(card_in(&folder) == after, "{call}");
            put(&folder, &before);
        }
    }
    for words in ["show", "check", "stat", "draw"] {
        let mut command = folder.command(&format!("{words} a.mst a.xrf"));
        assert_eq!(status(command.stdout(full())), NOT_PRINTED, "{words}");
    }
    assert_eq!(status(folder.command("help").stdout(full())), NOT_PRINTED);
}

/// Who reads no further has had enough: `card show ... | head` is no trouble.
#[test]
fn a_reader_that_went_away_is_no_trouble() {
    let folder = worked("pipe");
    for call in [CALLS[0], "show a.mst a.xrf", "check a.mst a.xrf"] {
        assert_eq!(status(folder.command(call).stdout(broken())), 0, "{call}");
    }
    assert!(folder.done("show a.mst a.xrf 4").contains("Wind"));
}

/// A refusal is told by its number even if the records could not be printed.
#[test]
fn a_refusal_comes_before_lost_output() {
    let folder = worked("unprinted-refusal");
    folder.done("delete a.mst a.xrf 1");
    let mut show = folder.command("show a.mst a.xrf 1");
    assert_eq!(status(show.stdout(full())), 9);
}

/// No file of the card takes the number of a stream that is closed.
#[test]
fn closed_streams_do_the_card_no_harm() {
    let folder = worked("closed");
    for call in CALLS {
        let (before, after) = before_and_after(&folder, call);
        let mut shell = Command::new("sh");
        let script = "exec \"$0\" \"$@\" <&- >&- 2>&-";
        shell.args(["-c", script, env!("CARGO_BIN_EXE_card")]);
        shell.args(folder.command(call).get_args());
        assert_eq!(status(shell.current_dir(&folder.0)), 0, "{call}");
        assert!(card_in(&folder) == after, "{call}");
        put(&folder, &before);
    }
}

unsafe extern "C" {
    fn setrlimit(resource: c_int, limit: *const [u64; 2]) -> c_int;
}

const PROCESSES: c_int = 6;

/// Where no thread can be had to tell of progress, the work is done without.
#[test]
fn a_write_needs_no_second_thread() {
    let folder = worked("thread");
    let (_, after) = before_and_after(&folder, CALLS[0]);
    let mut create = folder.command(CALLS[0]);
    // The limit does not hold for root.
    folder.permit_all();
    as_nobody(&mut create);
    // SAFETY: between fork and exec only this one system call is made.
    unsafe {
        create.pre_exec(|| match setrlimit(PROCESSES, &[0, 0]) {
            0 => Ok(()),
            _ => Err(std::io::Error::last_os_error()),
        });
    }
    let output = create.output().unwrap();
    assert_eq!(output.status.code(), Some(0), "{output:?}");
    assert!(card_in(&folder) == after);
}
