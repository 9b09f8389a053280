//! The answer numbers of document 01 and of the requests. An accepted call is `Ok`; a
//! refused one is the lowest of these that applies.

/// Why a call is refused.
#[derive(Clone, Copy, Debug, PartialEq, Eq, PartialOrd, Ord, Hash)]
pub enum Refusal {
    /// 1: a buffer length is not permitted.
    Length,
    /// 2: the control record is not as it must be; create, revert: RECCNT is 2,147,483,647;
    /// delete: RECCNT is 0 or below, and none of 4 to 9 applies.
    Control,
    /// 3: the draft is not right.
    Draft,
    /// 4: the MFN is below 1 or at least NXTMFN.
    Mfn,
    /// 5: create, and NXTMFN is capacity + 1.
    Full,
    /// 6: the entry is malformed, its XRF block's first integer is wrong, or
    /// create's slot is not 0.
    Entry,
    /// 7: physically deleted.
    Gone,
    /// 8: the record, or the settled version that the call uses, is not well formed.
    Record,
    /// 9: deleted.
    Deleted,
    /// 10: not pending.
    NotPending,
    /// 11: the mark is new.
    New,
    /// 12: no field of that tag, occurrence 0, or no field of that index.
    NoField,
    /// 13: no room at the end.
    NoRoom,
    /// 14: check and recount only, the store is not sound, for a recount apart from RECCNT.
    NotSound,
    /// 15: the tag occurs fewer times than asked, namely so often.
    Fewer(u32),
    /// 17: a list that is lent for outputs has too few elements.
    NoRoomInList,
    /// 20: the term is not 1 to 30 bytes without a trailing space.
    Term,
    /// 21: a rule of the index is broken.
    Index,
    /// 22: the index does not have the term.
    NoTerm,
    /// 23: a rule of posting lists is broken, or a posting has a number too wide.
    Postings,
}

impl Refusal {
    /// The paper's number.
    pub fn number(self) -> u32 {
        match self {
            Refusal::Length => 1,
            Refusal::Control => 2,
            Refusal::Draft => 3,
            Refusal::Mfn => 4,
            Refusal::Full => 5,
            Refusal::Entry => 6,
            Refusal::Gone => 7,
            Refusal::Record => 8,
            Refusal::Deleted => 9,
            Refusal::NotPending => 10,
            Refusal::New => 11,
            Refusal::NoField => 12,
            Refusal::NoRoom => 13,
            Refusal::NotSound => 14,
            Refusal::Fewer(_) => 15,
            Refusal::NoRoomInList => 17,
            Refusal::Term => 20,
            Refusal::Index => 21,
            Refusal::NoTerm => 22,
            Refusal::Postings => 23,
        }
    }

    /// The number of occurrences that goes with the answer: 0 but for 15.
    pub fn occurrences(self) -> u32 {
        match self {
            Refusal::Fewer(occurrences) => occurrences,
            _ => 0,
        }
    }
}

/// The paper's number for what a call returned: 0 if it was accepted.
pub fn number<T>(result: &Result<T, Refusal>) -> u32 {
    match result {
        Ok(_) => 0,
        Err(refusal) => refusal.number(),
    }
}
