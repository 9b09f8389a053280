//! `card` itself is stopped at every system call of its run. A writer is killed there, as
//! by `kill -9`, and the next command finds the card as it was or as the call leaves it. A
//! reader goes on after another has written, and shows no mixed card. Where the machine
//! permits no tracing these tests say so and try nothing, or fail if ISIS_TRACING is set, as the
//! gate does; `cut.rs` has the same cuts, made between the steps of the protocol.

mod folder;

use folder::Folder;
use std::ffi::{c_int, c_long, c_void};
use std::io::{self, Read};
use std::os::unix::process::CommandExt;
use std::process::{Child, Command, Stdio};
use std::ptr::null_mut;

unsafe extern "C" {
    fn ptrace(request: c_long, pid: c_int, addr: *mut c_void, data: *mut c_void) -> c_long;
    fn waitpid(pid: c_int, status: *mut c_int, options: c_int) -> c_int;
}

const TRACE_ME: c_long = 0;
const RUN_TO_SYSTEM_CALL: c_long = 24;
const RUN_ON: c_long = 7;

/// Whether this machine lets a process be traced.
fn tracing_is_permitted() -> bool {
    let mut command = Command::new(env!("CARGO_BIN_EXE_card"));
    command.stdout(Stdio::null()).stderr(Stdio::null());
    trace(&mut command);
    match command.spawn() {
        Ok(mut child) => {
            let stopped = goes_on(child.id() as c_int);
            let _ = child.kill();
            while stopped && goes_on(child.id() as c_int) {}
            true
        }
        Err(why) => {
            let needed = std::env::var_os("ISIS_TRACING").is_some();
            assert!(!needed, "no process can be traced here: {why}");
            println!("not tried, since no process can be traced here: {why}");
            false
        }
    }
}

/// Has a command stop as soon as it runs, to be traced from here.
fn trace(command: &mut Command) {
    // SAFETY: between fork and exec only this one system call is made.
    unsafe {
        command.pre_exec(|| match ptrace(TRACE_ME, 0, null_mut(), null_mut()) {
            -1 => Err(io::Error::last_os_error()),
            _ => Ok(()),
        });
    }
}

/// Waits for the traced process; whether it goes on, that is, has only stopped.
fn goes_on(pid: c_int) -> bool {
    let mut status = 0;
    // SAFETY: the status is a place for one number.
    assert_eq!(unsafe { waitpid(pid, &mut status, 0) }, pid);
    status & 0xFF == 0x7F
}

/// Runs `card` until it is about to make its n-th system call; `None` if it came to its end
/// before.
#[allow(clippy::zombie_processes)] // `goes_on` waits for it
fn stopped_at(folder: &Folder, words: &str, calls: usize) -> Option<Child> {
    let mut command = folder.command(words);
    command.stdout(Stdio::piped()).stderr(Stdio::null());
    trace(&mut command);
    let child = command.spawn().expect("a process can be traced");
    let pid = child.id() as c_int;
    assert!(goes_on(pid));
    // A process stops before each system call and behind it.
    for _ in 0..2 * calls - 1 {
        // SAFETY: the process is ours and has stopped.
        unsafe { ptrace(RUN_TO_SYSTEM_CALL, pid, null_mut(), null_mut()) };
        if !goes_on(pid) {
            return None;
        }
    }
    Some(child)
}

/// Runs `card` up to its n-th system call and kills it there; false if it came to its end.
fn killed_at(folder: &Folder, words: &str, calls: usize) -> bool {
    let Some(mut child) = stopped_at(folder, words, calls) else {
        return false;
    };
    child.kill().unwrap();
    while goes_on(child.id() as c_int) {}
    true
}

/// Kills a call at every system call. Both states of the card must come up.
fn kill_everywhere(name: &str, call: &str) {
    if !tracing_is_permitted() {
        return;
    }
    let folder = Folder::with_card(name);
    folder.done("create a.mst a.xrf 24=one");
    folder.done("settle a.mst a.xrf 1");
    folder.done("update a.mst a.xrf 1 24=first");
    let before = folder.files();
    folder.done(call);
    let after = folder.files();
    let (mut undone, mut finished) = (0, 0);
    for calls in 1.. {
        for (path, bytes) in &before {
            std::fs::write(path, bytes).unwrap();
        }
        let killed = killed_at(&folder, call, calls);
        let run = folder.card("check a.mst a.xrf");
        assert_eq!(
            (run.status, run.out.as_str()),
            (0, "sound\n"),
            "{calls}: {run:?}"
        );
        let now = folder.files();
        assert!(
            now == before || now == after,
            "{call}, system call {calls}: {run:?}"
        );
        undone += usize::from(run.err.contains("has been undone"));
        finished += usize::from(run.err.contains("has been finished"));
        if !killed {
            assert!(now == after, "{call}: not killed");
            break;
        }
    }
    assert!(undone > 0 && finished > 0, "{call}: {undone}, {finished}");
}

#[test]
fn create_is_killed_everywhere() {
    kill_everywhere("kill-create", "create a.mst a.xrf 24=two");
}

#[test]
fn settle_is_killed_everywhere() {
    kill_everywhere("kill-settle", "settle a.mst a.xrf 1");
}

#[test]
fn revert_is_killed_everywhere() {
    kill_everywhere("kill-revert", "revert a.mst a.xrf 1");
}

/// A format that was killed leaves two files or none, and can be made again.
#[test]
fn format_is_killed_everywhere() {
    if !tracing_is_permitted() {
        return;
    }
    let folder = Folder::new("kill-format");
    for calls in 1.. {
        let killed = killed_at(&folder, "format a.mst a.xrf 2 1", calls);
        let run = folder.card("format a.mst a.xrf 2 1");
        let made = run.status == 0 || run.err.contains("exists already");
        assert!(made, "system call {calls}: {run:?}");
        assert_eq!(folder.done("check a.mst a.xrf"), "sound\n");
        assert_eq!(folder.files().len(), 2, "system call {calls}");
        for (path, _) in folder.files() {
            std::fs::remove_file(path).unwrap();
        }
        if !killed {
            break;
        }
    }
}

/// A reader is stopped at every system call; there another command writes both files.
#[test]
fn a_reader_meets_a_writer_everywhere() {
    if !tracing_is_permitted() {
        return;
    }
    let folder = Folder::with_card("meets");
    folder.done("create a.mst a.xrf 24=one");
    let before = folder.files();
    for calls in 1.. {
        for (path, bytes) in &before {
            std::fs::write(path, bytes).unwrap();
        }
        let Some(child) = stopped_at(&folder, "check a.mst a.xrf", calls) else {
            break;
        };
        folder.done("create a.mst a.xrf 24=two");
        let pid = child.id() as c_int;
        // SAFETY: the process is ours and has stopped.
        unsafe { ptrace(RUN_ON, pid, null_mut(), null_mut()) };
        while goes_on(pid) {
            // SAFETY: as before.
            unsafe { ptrace(RUN_ON, pid, null_mut(), null_mut()) };
        }
        let mut out = String::new();
        child.stdout.unwrap().read_to_string(&mut out).unwrap();
        assert_eq!(out, "sound\n", "system call {calls}");
    }
}
