//! `card postings` and `card search`: terms are looked up in the index, and the library reads
//! the lists of their postings and says which MFNs they have in common or joined.

use crate::arguments::{Arguments, quoted};
use crate::check::opened;
use crate::files::Files;
use crate::index::{IndexFile, IndexFiles, place_words};
use crate::lookup::place;
use crate::posting_faults::of_list;
use crate::printable::printable;
use crate::progress::with_progress;
use crate::say::{Lines, print};
use crate::show::show_each;
use crate::trouble::Trouble;
use isis::{Answer, Ifp, IfpPlace, Refusal};
use std::ffi::OsString;
use std::os::unix::ffi::OsStrExt;

/// Which records a search is for.
#[derive(Clone, Copy, Debug, PartialEq, Eq)]
pub enum Wanted {
    /// Those that have all terms.
    All,
    /// Those that have any of them.
    Any,
}

/// Terms that an index holds, and its postings file.
struct Found {
    ifp: IndexFile,
    /// Each term, and where its list begins.
    terms: Vec<(OsString, IfpPlace)>,
}

impl Found {
    /// Looks the terms up. The first that is refused gives the refusal.
    fn of((index, ifp): (IndexFiles, IndexFile), terms: Vec<OsString>) -> Result<Found, Trouble> {
        let terms = terms.into_iter().map(|term| {
            let place = place(&index, &term)?;
            Ok((term, place))
        });
        let terms = terms.collect::<Result<_, _>>()?;
        Ok(Found { ifp, terms })
    }

    /// A refusal of a list, with what was found behind it and the term that it is of.
    fn refused(&self, refusal: Refusal) -> Trouble {
        let of = |(term, from): &(OsString, IfpPlace)| {
            let fault = of_list(&self.ifp, *from)?;
            Some(format!("the list of {}: {fault}", quoted(term)))
        };
        let found = || self.terms.iter().find_map(of).unwrap_or_default();
        Trouble::Refused(refusal, with_progress("looking for what is wrong", found))
    }

    /// The MFNs of the records that are wanted: the first list is taken with each other one,
    /// or with itself where there is none.
    fn mfns(&self, wanted: Wanted) -> Answer<Vec<u32>> {
        let ifp = Ifp::over(&self.ifp.bytes);
        let first = self.terms[0].1;
        let with = |other| match wanted {
            Wanted::All => ifp.common(first, other),
            Wanted::Any => ifp.joined(first, other),
        };
        let mut mfns = with(self.terms.get(1).map_or(first, |second| second.1))?;
        for (_, other) in self.terms.iter().skip(2) {
            let more = with(*other)?;
            match wanted {
                Wanted::All => mfns.retain(|mfn| more.binary_search(mfn).is_ok()),
                Wanted::Any => {
                    mfns.extend(more);
                    mfns.sort_unstable();
                    mfns.dedup();
                }
            }
        }
        Ok(mfns)
    }
}

/// `card postings`.
pub fn postings(mut arguments: Arguments) -> Result<(), Trouble> {
    let name = arguments.index()?;
    let term = arguments.wanted("a term")?;
    arguments.none_left()?;
    let found = Found::of(IndexFiles::with_postings(&name)?, vec![term])?;
    let (term, from) = &found.terms[0];
    let read = || Ifp::over(&found.ifp.bytes).postings(*from);
    let list = with_progress("reading the postings", read);
    let list = list.map_err(|refusal| found.refused(refusal))?;
    let mut out = Lines::new();
    let (term, at) = (printable(term.as_bytes()), place_words(*from));
    let count = list.len();
    let postings = if count == 1 { "posting" } else { "postings" };
    out.add(format_args!("{term}: {at}, {count} {postings}\n"));
    for posting in list {
        let (mfn, field) = (posting.mfn(), posting.tag());
        let (occurrence, sequence) = (posting.occurrence(), posting.sequence());
        out.add(format_args!(
            "  MFN {mfn}, field {field}, occurrence {occurrence}, term {sequence}\n"
        ));
        if out.are_lost() {
            break;
        }
    }
    out.end()
}

/// `card search`.
pub fn search(mut arguments: Arguments) -> Result<(), Trouble> {
    let name = arguments.index()?;
    let paths = arguments.files()?;
    let (terms, wanted) = arguments.search()?;
    let (index, files) = (IndexFiles::with_postings(&name)?, Files::read(paths)?);
    let found = Found::of(index, terms)?;
    let mfns = with_progress("searching", || found.mfns(wanted));
    let mfns = mfns.map_err(|refusal| found.refused(refusal))?;
    opened(&files)?;
    if mfns.is_empty() {
        return print("no record is found\n");
    }
    let mut out = Lines::new();
    let shown = show_each(&files, mfns, &mut out);
    out.end_after(shown)
}
