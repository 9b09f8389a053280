//! The answers other than 0, with the paper's numbers and with words.

use std::error::Error;
use std::fmt;

/// What a call gives: a value if it was accepted, or why it was refused.
pub type Answer<T> = Result<T, Refusal>;

/// Why a call was refused. Where several apply, the library gives the lowest number, but for
/// [`NoRoomInList`](Refusal::NoRoomInList), which comes last. More may come with more calls.
#[non_exhaustive]
#[derive(Clone, Copy, Debug, PartialEq, Eq, PartialOrd, Ord, Hash)]
#[repr(u32)]
pub enum Refusal {
    /// 1: a buffer length is not permitted.
    BadLength = 1,
    /// 2: the control record is not right; of a card that is to be migrated, that it is not
    /// right by the rule before isis.h 2.0; of a create or a revert also that RECCNT is
    /// 2147483647, of a delete that it is 0 or below and none of 4 to 9 applies.
    BadControl = 2,
    /// 3: the draft is not right.
    BadDraft = 3,
    /// 4: the MFN is 0 or was never given out.
    NoMfn = 4,
    /// 5: every MFN of the XRF is given out.
    NoSlot = 5,
    /// 6: the MFN's entry is malformed, or its XRF block is misnumbered.
    BadEntry = 6,
    /// 7: the record is physically deleted.
    Gone = 7,
    /// 8: the record, or the settled version that is needed, is not well formed.
    BadRecord = 8,
    /// 9: the record is deleted.
    Deleted = 9,
    /// 10: nothing is pending.
    NotPending = 10,
    /// 11: the record was never settled.
    NeverSettled = 11,
    /// 12: the tag does not occur, or occurrence 0 was asked for; no field of that index.
    NoField = 12,
    /// 13: the record does not fit before the end of the MST.
    NoRoom = 13,
    /// 14: the store is not sound; of a recount, that it is not sound apart from RECCNT.
    NotSound = 14,
    /// 15: the tag occurs, but fewer times than asked for: so many.
    FewerFields(u32) = 15,
    /// 17: a list that is lent for outputs is too short for them; given last of all.
    NoRoomInList = 17,
    /// 20: the term is not 1 to 30 bytes long, or ends with a space.
    BadTerm = 20,
    /// 21: a rule of the index is broken.
    BadIndex = 21,
    /// 22: the index does not hold the term.
    NoTerm = 22,
    /// 23: a rule of posting lists is broken, or a number is too wide for a posting.
    BadPostings = 23,
}

impl Refusal {
    /// Every refusal, in the order of the numbers; [`FewerFields`](Refusal::FewerFields) stands
    /// here with 0, which no call gives.
    pub const ALL: &[Refusal] = &[
        Refusal::BadLength,
        Refusal::BadControl,
        Refusal::BadDraft,
        Refusal::NoMfn,
        Refusal::NoSlot,
        Refusal::BadEntry,
        Refusal::Gone,
        Refusal::BadRecord,
        Refusal::Deleted,
        Refusal::NotPending,
        Refusal::NeverSettled,
        Refusal::NoField,
        Refusal::NoRoom,
        Refusal::NotSound,
        Refusal::FewerFields(0),
        Refusal::NoRoomInList,
        Refusal::BadTerm,
        Refusal::BadIndex,
        Refusal::NoTerm,
        Refusal::BadPostings,
    ];

    /// The number of the refusal.
    pub fn number(self) -> u32 {
        // SAFETY: an enum of this representation begins with its number.
        unsafe { *std::ptr::from_ref(&self).cast::<u32>() }
    }

    /// The answer that a number stands for: `Ok` for 0, `None` for a number that is
    /// no answer. The number alone does not say how often a tag occurs: 15 stands for
    /// [`FewerFields`](Refusal::FewerFields) with 0.
    pub fn answer(number: u32) -> Option<Answer<()>> {
        if number == 0 {
            return Some(Ok(()));
        }
        let known = Refusal::ALL.iter().find(|why| why.number() == number);
        known.map(|&why| Err(why))
    }

    /// The refusal in words; the text of a refusal has the number of occurrences besides.
    pub fn words(self) -> &'static str {
        match self {
            Refusal::BadLength => {
                "a file is not 1 to 1048575 (MST) or 1 to 4096 (XRF) blocks of 512 bytes"
            }
            Refusal::BadControl => "the control record is not right",
            Refusal::BadDraft => "the draft is not right",
            Refusal::NoMfn => "no record has this MFN",
            Refusal::NoSlot => "every MFN that the XRF has room for is given out",
            Refusal::BadEntry => "the cross-reference entry is malformed",
            Refusal::Gone => "the record is physically deleted",
            Refusal::BadRecord => "the record is not well formed",
            Refusal::Deleted => "the record is deleted",
            Refusal::NotPending => "nothing is pending",
            Refusal::NeverSettled => "the record was never settled",
            Refusal::NoField => "there is no such field",
            Refusal::NoRoom => "there is no room at the end of the MST",
            Refusal::NotSound => "the store is not sound",
            Refusal::FewerFields(_) => "the tag occurs fewer times than asked for",
            Refusal::NoRoomInList => "a list is too short for what it is to hold",
            Refusal::BadTerm => "a term has 1 to 30 bytes and no space at its end",
            Refusal::BadIndex => "the index is not right",
            Refusal::NoTerm => "the index does not hold this term",
            Refusal::BadPostings => "the postings are not right",
        }
    }
}

impl fmt::Display for Refusal {
    fn fmt(&self, f: &mut fmt::Formatter<'_>) -> fmt::Result {
        f.write_str(self.words())?;
        match self {
            Refusal::FewerFields(occurrences) => write!(f, ": {occurrences}"),
            _ => Ok(()),
        }
    }
}

impl Error for Refusal {}
