//! Runs the model's lists on a board, and reads what the runner says.

use crate::core::Core;
use crate::recorder::Recorder;
use crate::tested;
use std::fs;

/// How many calls there are, on a card, on an index, on postings and on a record.
pub const KINDS: usize = tested::KIND + tested::NAMES.len();

/// How much stack each call used at most, in bytes, by the call's kind.
pub type Stack = [usize; KINDS];

/// Runs all lists on a core; gives the stack used, or what the board said at the first difference.
pub fn run(core: &Core, name: &str, recorder: &Recorder) -> Result<Stack, String> {
    run_with(core, name, recorder, &[], &[])
}

/// The same with more C files and words for the compiler.
pub fn run_with(
    core: &Core,
    name: &str,
    recorder: &Recorder,
    files: &[&str],
    flags: &[&str],
) -> Result<Stack, String> {
    let own = [
        "host/board/c/runner.c",
        "host/board/c/slices.c",
        "host/board/c/index.c",
        "host/board/c/postings.c",
        "host/board/c/records.c",
    ];
    let files = [&own, files].concat();
    let program = core.build(name, &files, flags);
    let mut stack = Stack::default();
    for list in &recorder.lists {
        let path = program.with_extension("list");
        fs::write(&path, list.bytes()).expect("the list could not be written");
        let ran = core.run(&program, Some(&path), &[]);
        let all_steps = ran.said.ends_with(&format!("steps {}\n", list.steps()));
        if !ran.well || !all_steps {
            return Err(ran.said);
        }
        for line in ran.said.lines() {
            if let Some((kind, bytes)) = stack_in(line) {
                stack[kind] = stack[kind].max(bytes);
            }
        }
    }
    Ok(stack)
}

/// The two numbers of a line `call KIND made COUNT stack BYTES`.
fn stack_in(line: &str) -> Option<(usize, usize)> {
    let words: Vec<&str> = line.split(' ').collect();
    match words[..] {
        ["call", kind, "made", _, "stack", bytes] => {
            Some((kind.parse().ok()?, bytes.parse().ok()?))
        }
        _ => None,
    }
}
