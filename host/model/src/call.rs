//! A call with its arguments, and what comes of it, so that the byte store, the
//! ledger and the library can be given the same list.

use crate::ask::{self, Lists, Room};
use crate::draft::Draft;
use crate::ledger::Ledger;
pub use crate::outcome::{Outcome, Shown};
use crate::store;

/// A draft that owns its three lists; it need not be right.
#[derive(Clone, Debug, PartialEq, Eq, Default)]
#[allow(missing_docs)]
pub struct OwnedDraft {
    pub tags: Vec<u16>,
    pub lens: Vec<u16>,
    pub data: Vec<u8>,
}

impl OwnedDraft {
    /// The right draft of some fields; their bytes must be at most 65,535 each.
    pub fn of(fields: &[(u16, &[u8])]) -> OwnedDraft {
        OwnedDraft {
            tags: fields.iter().map(|(tag, _)| *tag).collect(),
            lens: fields.iter().map(|(_, bytes)| bytes.len() as u16).collect(),
            data: fields
                .iter()
                .flat_map(|(_, bytes)| bytes.iter().copied())
                .collect(),
        }
    }

    /// The draft as a call takes it.
    pub fn lent(&self) -> Draft<'_> {
        Draft {
            tags: &self.tags,
            lens: &self.lens,
            data: &self.data,
        }
    }
}

/// A call: the nine of document 01, the migration of request C-12, the list of request C-13,
/// the recount of request C-17, the two that show a field by its index, and the four that tell
/// something of the card.
#[derive(Clone, Debug, PartialEq, Eq)]
#[allow(missing_docs)]
pub enum Call {
    Format,
    View {
        mfn: u32,
        tag: u16,
        occurrence: u32,
    },
    ViewSettled {
        mfn: u32,
        tag: u16,
        occurrence: u32,
    },
    Create(OwnedDraft),
    Update(u32, OwnedDraft),
    Delete(u32),
    Settle(u32),
    Revert(u32),
    Check,
    Migrate,
    /// The MFNs, and how long the list is that is lent for their answers.
    SettleList {
        mfns: Vec<u32>,
        room: usize,
    },
    Recount,
    Field {
        mfn: u32,
        index: usize,
    },
    FieldSettled {
        mfn: u32,
        index: usize,
    },
    Next,
    State(u32),
    Fields {
        mfn: u32,
        room: Room,
    },
    FieldsSettled {
        mfn: u32,
        room: Room,
    },
}

impl Call {
    /// What the calls are called, by their kind.
    pub const NAMES: [&str; 18] = [
        "format",
        "view",
        "settled view",
        "create",
        "update",
        "delete",
        "settle",
        "revert",
        "check",
        "migrate",
        "settle a list",
        "recount",
        "field",
        "settled field",
        "next",
        "state",
        "fields",
        "settled fields",
    ];

    /// Which call it is: the nine in the order of document 01, the migration, the list of MFNs
    /// and the recount, as a list numbers them, then the two by index and the four that tell.
    pub fn kind(&self) -> usize {
        match self {
            Call::Format => 0,
            Call::View { .. } => 1,
            Call::ViewSettled { .. } => 2,
            Call::Create(_) => 3,
            Call::Update(..) => 4,
            Call::Delete(_) => 5,
            Call::Settle(_) => 6,
            Call::Revert(_) => 7,
            Call::Check => 8,
            Call::Migrate => 9,
            Call::SettleList { .. } => 10,
            Call::Recount => 11,
            Call::Field { .. } => 12,
            Call::FieldSettled { .. } => 13,
            Call::Next => 14,
            Call::State(_) => 15,
            Call::Fields { .. } => 16,
            Call::FieldsSettled { .. } => 17,
        }
    }

    /// Whether it only reads the card.
    pub fn only_reads(&self) -> bool {
        let writes = matches!(
            self,
            Call::Format
                | Call::Create(_)
                | Call::Update(..)
                | Call::Delete(_)
                | Call::Settle(_)
                | Call::Revert(_)
                | Call::Migrate
                | Call::SettleList { .. }
                | Call::Recount
        );
        !writes
    }

    /// The MFNs that it names.
    pub fn mfns_mut(&mut self) -> &mut [u32] {
        match self {
            Call::Format
            | Call::Create(_)
            | Call::Check
            | Call::Migrate
            | Call::Recount
            | Call::Next => &mut [],
            Call::SettleList { mfns, .. } => mfns,
            Call::Update(mfn, _)
            | Call::Delete(mfn)
            | Call::Settle(mfn)
            | Call::Revert(mfn)
            | Call::State(mfn)
            | Call::View { mfn, .. }
            | Call::ViewSettled { mfn, .. }
            | Call::Field { mfn, .. }
            | Call::FieldSettled { mfn, .. }
            | Call::Fields { mfn, .. }
            | Call::FieldsSettled { mfn, .. } => std::slice::from_mut(mfn),
        }
    }

    /// A list of MFNs to settle, lent a list of the same length.
    pub fn settle_list(mfns: impl IntoIterator<Item = u32>) -> Call {
        let mfns: Vec<u32> = mfns.into_iter().collect();
        let room = mfns.len();
        Call::SettleList { mfns, room }
    }

    /// A view of the current version.
    pub fn view(mfn: u32, tag: u16, occurrence: u32) -> Call {
        Call::View {
            mfn,
            tag,
            occurrence,
        }
    }

    /// A view of the settled version.
    pub fn view_settled(mfn: u32, tag: u16, occurrence: u32) -> Call {
        Call::ViewSettled {
            mfn,
            tag,
            occurrence,
        }
    }
}

/// The byte store's outcome, with where it stands in the MST. Lists are lent full of rubbish.
pub fn on_bytes(mst: &mut [u8], xrf: &mut [u8], call: &Call) -> (Outcome, Shown) {
    let outcome = match call {
        Call::View {
            mfn,
            tag,
            occurrence,
        } => {
            return Shown::field(mst, store::view(mst, xrf, *mfn, *tag, *occurrence));
        }
        Call::ViewSettled {
            mfn,
            tag,
            occurrence,
        } => {
            return Shown::field(mst, store::view_settled(mst, xrf, *mfn, *tag, *occurrence));
        }
        Call::Field { mfn, index } => {
            return Shown::indexed(mst, store::field(mst, xrf, *mfn, *index));
        }
        Call::FieldSettled { mfn, index } => {
            return Shown::indexed(mst, store::field_settled(mst, xrf, *mfn, *index));
        }
        Call::Fields { mfn, room } => {
            let call = |lists: &mut Lists| ask::fields(mst, xrf, *mfn, lists);
            return Shown::listed(mst, Lists::lent(*room), call);
        }
        Call::FieldsSettled { mfn, room } => {
            let call = |lists: &mut Lists| ask::fields_settled(mst, xrf, *mfn, lists);
            return Shown::listed(mst, Lists::lent(*room), call);
        }
        Call::Format => Outcome::plain(&store::format(mst, xrf)),
        Call::Create(draft) => Outcome::created(&store::create(mst, xrf, &draft.lent())),
        Call::Update(mfn, draft) => Outcome::plain(&store::update(mst, xrf, *mfn, &draft.lent())),
        Call::Delete(mfn) => Outcome::plain(&store::delete(mst, xrf, *mfn)),
        Call::Settle(mfn) => Outcome::plain(&store::settle(mst, xrf, *mfn)),
        Call::Revert(mfn) => Outcome::plain(&store::revert(mst, xrf, *mfn)),
        Call::Check => Outcome::plain(&store::check(mst, xrf)),
        Call::Migrate => Outcome::plain(&store::migrate(mst, xrf)),
        Call::Recount => Outcome::plain(&store::recount(mst, xrf)),
        Call::SettleList { mfns, room } => {
            let call = |answers: &mut [u32]| store::settle_list(mst, xrf, mfns, answers);
            return Shown::settled(*room, call);
        }
        Call::Next => Outcome::next(ask::next(mst, xrf)),
        Call::State(mfn) => Outcome::state(ask::state(mst, xrf, *mfn)),
    };
    (outcome, Shown::default())
}

/// The ledger's outcome.
pub fn on_ledger(ledger: &mut Ledger, call: &Call) -> Outcome {
    match call {
        Call::Format => Outcome::plain(&ledger.format()),
        Call::View {
            mfn,
            tag,
            occurrence,
        } => Outcome::shown(ledger.view(*mfn, *tag, *occurrence)),
        Call::ViewSettled {
            mfn,
            tag,
            occurrence,
        } => Outcome::shown(ledger.view_settled(*mfn, *tag, *occurrence)),
        Call::Create(draft) => Outcome::created(&ledger.create(&draft.lent())),
        Call::Update(mfn, draft) => Outcome::plain(&ledger.update(*mfn, &draft.lent())),
        Call::Delete(mfn) => Outcome::plain(&ledger.delete(*mfn)),
        Call::Settle(mfn) => Outcome::plain(&ledger.settle(*mfn)),
        Call::Revert(mfn) => Outcome::plain(&ledger.revert(*mfn)),
        Call::Check => Outcome::plain(&ledger.check()),
        Call::Migrate => Outcome::plain(&ledger.migrate()),
        Call::Recount => Outcome::plain(&ledger.recount()),
        Call::SettleList { mfns, room } => Outcome::settled(ledger.settle_list(mfns, *room)),
        Call::Field { mfn, index } => Outcome::indexed(ledger.field(*mfn, *index)),
        Call::FieldSettled { mfn, index } => Outcome::indexed(ledger.field_settled(*mfn, *index)),
        Call::Next => Outcome::next(Ok((ledger.next_mfn() as u32, ledger.end()))),
        Call::State(mfn) => Outcome::state(ledger.state(*mfn)),
        Call::Fields { mfn, room } => Outcome::listed(ledger.fields(*mfn, *room)),
        Call::FieldsSettled { mfn, room } => Outcome::listed(ledger.fields_settled(*mfn, *room)),
    }
}
