//! `card show` of one field: the field of a tag and an occurrence, and where it is missing,
//! whether the tag does not occur at all or only fewer times. Both are told by the library.

use crate::check::{About, refused};
use crate::files::Files;
use crate::printable::printable;
use crate::say::Lines;
use crate::show::words;
use crate::trouble::Trouble;
use isis::{Answer, Mark, Refusal};

/// Which field of a record is asked for.
#[derive(Clone, Copy, Debug, PartialEq, Eq)]
pub struct Asked {
    /// The tag.
    pub tag: u16,
    /// The occurrence, counted from 1.
    pub occurrence: u32,
}

/// One field of a record, beside the record's state; under a pending change, that of the settled
/// version too. The exit status is that of the current view.
pub fn show_field(files: &Files, mfn: u32, asked: Asked, out: &mut Lines) -> Result<(), Trouble> {
    shown(files, mfn, asked, out).map_err(|refusal| match asked.missing(refusal) {
        Some(words) => Trouble::Instead(refusal, format!("MFN {mfn}: {words}")),
        None => {
            let about = About {
                mfn: Some(mfn),
                given: None,
            };
            refused(refusal, files, about)
        }
    })
}

/// Prints what there is of the field.
fn shown(files: &Files, mfn: u32, asked: Asked, out: &mut Lines) -> Answer<()> {
    let card = files.card();
    let state = card.state(mfn)?;
    out.add(format_args!("MFN {mfn}: {}\n", words(state)));
    let current = asked.line(|occurrence| card.view(mfn, asked.tag, occurrence));
    let current = current.map(|line| out.add(format_args!("  {line}\n")));
    if state.mark == Mark::Changed {
        let settled = asked.line(|occurrence| card.view_settled(mfn, asked.tag, occurrence));
        let settled = settled.or_else(|refusal| asked.missing(refusal).ok_or(refusal));
        out.add("  settled version:\n");
        out.add(format_args!("    {}\n", settled?));
    }
    current
}

impl Asked {
    /// The field as a version has it: which of how many it is, and its text.
    fn line<'a>(self, view: impl Fn(u32) -> Answer<&'a [u8]>) -> Answer<String> {
        let Asked { tag, occurrence } = self;
        let text = printable(view(occurrence)?);
        // No record has as many fields as this, so the library says how many there are.
        let there = match view(u32::MAX) {
            Err(Refusal::FewerFields(there)) => there,
            _ => occurrence,
        };
        Ok(format!("{tag:>5}  {occurrence} of {there}: {text}"))
    }

    /// Which kind of missing it is, if the refusal is one of these.
    fn missing(self, refusal: Refusal) -> Option<String> {
        let Asked { tag, occurrence } = self;
        match refusal {
            Refusal::NoField if occurrence == 0 => Some("occurrences count from 1".into()),
            Refusal::NoField => Some(format!("no field {tag}")),
            Refusal::FewerFields(there) => {
                let times = if there == 1 { "time" } else { "times" };
                Some(format!(
                    "field {tag} occurs {there} {times}, and occurrence {occurrence} was asked for"
                ))
            }
            _ => None,
        }
    }
}
