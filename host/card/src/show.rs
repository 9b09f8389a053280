//! `card show`: records with all their fields, deleted and pending ones marked, and
//! the settled version beside a pending change. Every field is handed out by the
//! library. A single field is shown by [`field`](crate::field).

use crate::arguments::Arguments;
use crate::check::{About, opened, refused};
use crate::field::show_field;
use crate::files::Files;
use crate::printable::printable;
use crate::say::Lines;
use crate::trouble::Trouble;
use isis::{Answer, Fields, Mark, Refusal, State};

/// `card show`.
pub fn show(mut arguments: Arguments) -> Result<(), Trouble> {
    let paths = arguments.files()?;
    let only = arguments.mfn_if_any()?;
    let asked = arguments.field_if_any()?;
    arguments.none_left()?;
    let files = Files::read(paths)?;
    let mut out = Lines::new();
    let shown = match (only, asked) {
        (Some(mfn), Some(asked)) => show_field(&files, mfn, asked, &mut out),
        (Some(mfn), None) => show_one(&files, mfn, &mut out),
        (None, _) => show_all(&files, &mut out),
    };
    out.end_after(shown)
}

/// One record. Its state is printed even if it is deleted or gone, and the exit
/// status is that of the current view.
fn show_one(files: &Files, mfn: u32, out: &mut Lines) -> Result<(), Trouble> {
    let state = files.card().state(mfn);
    let answer = state.and_then(|state| record(files, mfn, state, out));
    answer.map_err(|refusal| {
        let about = About {
            mfn: Some(mfn),
            given: None,
        };
        refused(refusal, files, about)
    })
}

/// Every record.
fn show_all(files: &Files, out: &mut Lines) -> Result<(), Trouble> {
    let store = opened(files)?;
    show_each(files, 1..store.next as u32, out)
}

/// Records of a card that is opened. Deleted and gone ones are part of the list; the first
/// record that is not as it must be gives the exit status.
pub fn show_each(
    files: &Files,
    mfns: impl IntoIterator<Item = u32>,
    out: &mut Lines,
) -> Result<(), Trouble> {
    let mut first = Ok(());
    for mfn in mfns {
        match show_one(files, mfn, out) {
            Err(Trouble::Refused(Refusal::Deleted, _)) | Ok(()) => {}
            Err(Trouble::Refused(Refusal::Gone, _)) => {
                out.add(format_args!("MFN {mfn}: gone (physically deleted)\n"));
            }
            Err(trouble) => {
                out.add(format_args!("MFN {mfn}: {trouble}\n"));
                first = first.and(Err(trouble));
            }
        }
        if out.are_lost() {
            break;
        }
    }
    first
}

/// Prints a record that was found well formed.
fn record(files: &Files, mfn: u32, state: State, out: &mut Lines) -> Answer<()> {
    out.add(format_args!("MFN {mfn}: {}\n", words(state)));
    let card = files.card();
    let current = if state.deleted {
        Err(Refusal::Deleted)
    } else {
        card.fields(mfn).map(|fields| print(fields, "  ", out))
    };
    if state.mark == Mark::Changed {
        out.add("  settled version:\n");
        print(card.fields_settled(mfn)?, "    ", out);
    }
    current
}

/// A record's state in words.
pub fn words(state: State) -> String {
    let deleted = if state.deleted { "deleted" } else { "live" };
    format!("{deleted}, {}", state.mark.words())
}

/// Prints the fields of a version, a line each.
fn print(fields: Fields, indent: &str, out: &mut Lines) {
    for field in fields {
        let (tag, text) = (field.tag, printable(field.bytes));
        out.add(format_args!("{indent}{tag:>5}  {text}\n"));
    }
}
