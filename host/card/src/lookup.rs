//! `card lookup` and `card check-index`: the library answers, and a second reading of the same
//! bytes says what is wrong with an index and where.

use crate::arguments::{Arguments, quoted};
use crate::index::{IndexFiles, place_words};
use crate::printable::printable;
use crate::progress::with_progress;
use crate::say::{Lines, print};
use crate::tree::KEYS;
use crate::tree_faults::{of_index, of_lookup};
use crate::trouble::Trouble;
use isis::{IfpPlace, Refusal};
use std::ffi::OsStr;
use std::os::unix::ffi::OsStrExt;

/// `card lookup`.
pub fn lookup(mut arguments: Arguments) -> Result<(), Trouble> {
    let name = arguments.index()?;
    let terms = arguments.terms()?;
    let files = IndexFiles::read(&name)?;
    let mut out = Lines::new();
    let mut first = Ok(());
    for term in &terms {
        match files.index().lookup(term.as_bytes()) {
            Ok(place) => out.add(line(term, &place_words(place))),
            Err(refusal) => {
                if terms.len() > 1 {
                    let refused = Trouble::Refused(refusal, String::new());
                    out.add(line(term, &refused.to_string()));
                }
                first = first.and_then(|()| Err(refused(refusal, &files, term)));
            }
        }
    }
    out.end_after(first)
}

/// Where the postings of a term begin.
pub fn place(files: &IndexFiles, term: &OsStr) -> Result<IfpPlace, Trouble> {
    let place = files.index().lookup(term.as_bytes());
    place.map_err(|refusal| refused(refusal, files, term))
}

/// The refusal of a term, with what was found behind it.
fn refused(refusal: Refusal, files: &IndexFiles, term: &OsStr) -> Trouble {
    Trouble::Refused(refusal, reason(refusal, files, term))
}

/// What became of a term, in a line.
fn line(term: &OsStr, words: &str) -> String {
    format!("{}: {words}\n", printable(term.as_bytes()))
}

/// What was found behind the refusal of a term, in words.
fn reason(refusal: Refusal, files: &IndexFiles, term: &OsStr) -> String {
    let (shown, bytes) = (quoted(term), term.as_bytes());
    match refusal {
        Refusal::BadTerm if bytes.is_empty() => "this one is empty".into(),
        Refusal::BadTerm if bytes.len() > KEYS[1] => format!("{shown} has {} bytes", bytes.len()),
        Refusal::BadTerm => format!("{shown} ends with a space"),
        Refusal::BadIndex => of_lookup(files, bytes).unwrap_or_default(),
        Refusal::NoTerm if term.to_string_lossy().chars().any(char::is_lowercase) => {
            format!("{shown}; letters are compared as they stand, and most indexes hold capitals")
        }
        _ => shown,
    }
}

/// `card check-index`.
pub fn check_index(mut arguments: Arguments) -> Result<(), Trouble> {
    let name = arguments.index()?;
    arguments.none_left()?;
    let files = IndexFiles::read(&name)?;
    match with_progress("checking", || files.index().check()) {
        Ok(()) => match with_progress("counting", || of_index(&files)) {
            Ok([short, long]) => print(&format!(
                "sound\n  terms of 1 to 10 bytes   {short}\n  terms of 11 to 30 bytes  {long}\n"
            )),
            Err(_) => print("sound\n"),
        },
        Err(refusal) => {
            let what = "looking for what is wrong";
            let words = with_progress(what, || of_index(&files).err());
            Err(Trouble::Refused(refusal, words.unwrap_or_default()))
        }
    }
}
