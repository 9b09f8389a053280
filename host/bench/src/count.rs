//! The instructions of a call, counted by valgrind's callgrind: a number that whatever
//! else the machine does cannot change.

use crate::rows::Side;
use std::process::Command;

/// How many instructions a row spends inside a call, on one side; `None`, with a line that
/// says so, where callgrind cannot be run.
pub fn instructions(row: &str, side: Side, call: &str) -> Option<u64> {
    let (word, function) = match side {
        Side::Library => ("library", format!("isis_{call}")),
        Side::Plain => ("plain", format!("bench::plain::called::{call}")),
    };
    let output = Command::new("valgrind")
        .args(["--tool=callgrind", "--callgrind-out-file=/dev/null"])
        .arg(format!("--toggle-collect={function}"))
        .arg(std::env::current_exe().ok()?)
        .args(["only", row, word])
        .output();
    let counted = output.ok().and_then(|output| {
        let said = String::from_utf8_lossy(&output.stderr).into_owned();
        collected(&said).filter(|_| output.status.success())
    });
    if counted.is_none() {
        println!("{row}, {word}: not counted, valgrind did not run or met no {function}");
    }
    counted
}

/// The number after `Collected :` in what callgrind says, if it is not 0.
fn collected(said: &str) -> Option<u64> {
    let line = said.lines().find(|line| line.contains("Collected :"))?;
    let count = line.rsplit(':').next()?.trim().parse().ok()?;
    (count > 0).then_some(count)
}
