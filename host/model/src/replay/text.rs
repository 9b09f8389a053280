//! The text of a list as `replay_run` reads it, and the lines that it prints.
//!
//! In the text only decimal numbers count, so words without digits stand between
//! them for the reader: a title, and the name of each call in front of its numbers.

use super::{CALL, List, Replay, Stop};
use crate::call::Call;
use crate::layout::{COUNT_FROM, block_and_offset};
use std::fmt::{Display, Write};

/// How many calls a list can have: the nine of document 01, the migration, the list of MFNs
/// and the recount, by their kind.
const LISTED: usize = 12;

/// Numbers of the MFNs and of the three draft lists on one line.
const PER_LINE: usize = 20;

/// A list as text.
pub fn list(list: &List) -> String {
    let mut text = format!(
        "{}\nMST {} XRF {} answers {} shown {} numbers {} MFNs {} tags {} lengths {} bytes {}\n",
        list.title,
        list.mst_len,
        list.xrf_len,
        list.answer_room,
        list.shown_room,
        list.numbers.len(),
        list.mfns.len(),
        list.tags.len(),
        list.lens.len(),
        list.bytes.len(),
    );
    for numbers in list.numbers.chunks(CALL) {
        put(&mut text, name(numbers), numbers);
    }
    let lines = list.mfns.chunks(PER_LINE);
    lines.for_each(|mfns| put(&mut text, "MFNs", mfns));
    let lines = list.tags.chunks(PER_LINE);
    lines.for_each(|tags| put(&mut text, "tags", tags));
    let lines = list.lens.chunks(PER_LINE);
    lines.for_each(|lens| put(&mut text, "lengths", lens));
    let lines = list.bytes.chunks(PER_LINE);
    lines.for_each(|bytes| put(&mut text, "bytes", bytes));
    text.push('\n');
    text
}

/// The name of the call that some numbers are, or begin with.
fn name(numbers: &[u32]) -> &'static str {
    let known = Call::NAMES[..LISTED].get(numbers[0] as usize);
    known.copied().unwrap_or("no call")
}

/// One line: a word and numbers.
fn put<T: Display>(text: &mut String, word: &str, numbers: &[T]) {
    text.push_str(word);
    for number in numbers {
        write!(text, " {number}").unwrap();
    }
    text.push('\n');
}

/// What is printed of a replay.
pub fn replay(replay: &Replay) -> String {
    let stop = match replay.stop {
        Stop::Ended => "ended",
        Stop::Malformed => "malformed",
        Stop::NoRoom => "no room",
        Stop::BadLength => "bad length",
    };
    let mut lines = format!("{stop} {}\n", replay.turns.len());
    for (_, outcome) in &replay.turns {
        let (number, mfn, len) = (outcome.number, outcome.mfn, outcome.field.len());
        let (occurrences, listed) = (outcome.occurrences, outcome.answers.len());
        write!(lines, "{number} {mfn} {len} {occurrences} {listed}").unwrap();
        if len > 0 {
            write!(lines, " {}", String::from_utf8_lossy(&outcome.field)).unwrap();
        }
        put(&mut lines, "", &outcome.answers);
    }
    if let Some((next_mfn, end)) = replay.kept {
        let (block, offset) = block_and_offset(end);
        let count = offset + COUNT_FROM;
        writeln!(lines, "NXTMFN {next_mfn} NXTMFB {block} NXTMFP {count}").unwrap();
    }
    lines
}

/// The text of all lists.
pub fn stdin(lists: &[List]) -> String {
    lists.iter().map(list).collect()
}

/// The lines of all lists, by the ledger.
pub fn stdout(lists: &[List]) -> String {
    lists
        .iter()
        .map(|list| replay(&super::by_ledger(list)))
        .collect()
}
