//! What a call gave, so that the byte store, the ledger and the library can be compared.

use crate::answer::{Refusal, number};
use crate::ask::{Lists, RUBBISH, State};
use crate::ledger::Fields;
use crate::store::Indexed;
use std::ops::Range;

/// What a call gave: its answer number; the MFN of a create or of the next one, and the
/// end; the field that is shown, and its tag where the call names none; how often a tag occurs
/// where that is less often than asked; the state of a record as two numbers; all fields of one;
/// the answers of a list of MFNs.
#[derive(Clone, Debug, PartialEq, Eq, Default)]
#[allow(missing_docs)]
pub struct Outcome {
    pub number: u32,
    pub mfn: u32,
    pub end: usize,
    pub tag: u16,
    pub field: Vec<u8>,
    pub occurrences: u32,
    pub mark: u32,
    pub deleted: u32,
    pub fields: Fields,
    pub answers: Vec<u32>,
}

/// Where in the MST stands what a call shows: the part of a field (0..0 if none); the lists
/// that were lent for all fields, and the one for answers, whole.
#[derive(Clone, Debug, PartialEq, Eq, Default)]
#[allow(missing_docs)]
pub struct Shown {
    pub part: Range<usize>,
    pub lists: Lists,
    pub answers: Vec<u32>,
}

impl Outcome {
    pub(crate) fn plain(result: &Result<(), Refusal>) -> Outcome {
        Outcome {
            number: number(result),
            ..Outcome::default()
        }
    }

    pub(crate) fn created(result: &Result<u32, Refusal>) -> Outcome {
        Outcome {
            number: number(result),
            mfn: result.unwrap_or(0),
            ..Outcome::default()
        }
    }

    pub(crate) fn shown(result: Result<&[u8], Refusal>) -> Outcome {
        Outcome {
            number: number(&result),
            occurrences: result.map_or_else(Refusal::occurrences, |_| 0),
            field: result.unwrap_or(&[]).to_vec(),
            ..Outcome::default()
        }
    }

    pub(crate) fn indexed(result: Result<(u16, &[u8]), Refusal>) -> Outcome {
        Outcome {
            tag: result.map_or(0, |(tag, _)| tag),
            ..Outcome::shown(result.map(|(_, field)| field))
        }
    }

    pub(crate) fn next(result: Result<(u32, usize), Refusal>) -> Outcome {
        Outcome {
            end: result.map_or(0, |(_, end)| end),
            ..Outcome::created(&result.map(|(mfn, _)| mfn))
        }
    }

    pub(crate) fn state(result: Result<State, Refusal>) -> Outcome {
        let (mark, deleted) = result.unwrap_or_default();
        Outcome {
            mark,
            deleted,
            ..Outcome::plain(&result.map(drop))
        }
    }

    pub(crate) fn settled(result: Result<Vec<u32>, Refusal>) -> Outcome {
        Outcome {
            number: number(&result),
            answers: result.unwrap_or_default(),
            ..Outcome::default()
        }
    }

    pub(crate) fn listed(result: Result<Fields, Refusal>) -> Outcome {
        Outcome {
            number: number(&result),
            fields: result.unwrap_or_default(),
            ..Outcome::default()
        }
    }
}

impl Shown {
    /// The outcome of a view with the part of the MST that it shows.
    pub(crate) fn field(mst: &[u8], result: Result<Range<usize>, Refusal>) -> (Outcome, Shown) {
        let part = result.clone().unwrap_or(0..0);
        let outcome = Outcome::shown(result.map(|part| &mst[part]));
        (outcome, Shown::at(part))
    }

    /// The outcome of a field by index, with the part of the MST that it shows.
    pub(crate) fn indexed(mst: &[u8], result: Result<Indexed, Refusal>) -> (Outcome, Shown) {
        let part = result.clone().map_or(0..0, |(_, part)| part);
        let outcome = Outcome::indexed(result.map(|(tag, part)| (tag, &mst[part])));
        (outcome, Shown::at(part))
    }

    /// The outcome of a call for all fields, with the lists that it was lent.
    pub(crate) fn listed(
        mst: &[u8],
        mut lists: Lists,
        call: impl FnOnce(&mut Lists) -> Result<usize, Refusal>,
    ) -> (Outcome, Shown) {
        let result = call(&mut lists);
        let outcome = Outcome::listed(result.map(|count| lists.fields(mst, count)));
        let shown = Shown {
            lists,
            ..Shown::default()
        };
        (outcome, shown)
    }

    /// The outcome of a list of MFNs, with the list of so many answers that it was lent.
    pub(crate) fn settled(
        room: usize,
        call: impl FnOnce(&mut [u32]) -> Result<(), Refusal>,
    ) -> (Outcome, Shown) {
        let mut answers = vec![u32::from_ne_bytes([RUBBISH; 4]); room];
        let result = call(&mut answers);
        let outcome = Outcome::settled(result.map(|()| answers.clone()));
        let shown = Shown {
            answers,
            ..Shown::default()
        };
        (outcome, shown)
    }

    fn at(part: Range<usize>) -> Shown {
        Shown {
            part,
            ..Shown::default()
        }
    }
}
