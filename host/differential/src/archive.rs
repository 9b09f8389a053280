//! A call through the C interface, with every area that is lent between guard pages
//! and every output filled with rubbish before.

use crate::guarded::Side;
use crate::lent::{Drafts, Input, Output, pointer};
use isis::raw;
use model::ask::{Lists, Room};
use model::call::{Call, Outcome, OwnedDraft, Shown};
use std::ops::Range;

/// What a call gave: its number; the MFN of a create or of the next one, and the end; the
/// tag of a field by its index, the part that is shown, and how often a tag occurs; the mark and
/// the deletion of a record; the number of its fields, and the lists that were lent for them, whole; the list
/// that was lent for answers, whole.
#[derive(Clone, Debug, PartialEq, Eq, Default)]
#[allow(missing_docs)]
pub struct Given {
    pub number: u32,
    pub mfn: u32,
    pub end: usize,
    pub tag: u16,
    pub part: Range<usize>,
    pub occurrences: u32,
    pub mark: u32,
    pub deleted: u32,
    pub count: usize,
    pub lists: Lists,
    pub answers: Vec<u32>,
}

impl Given {
    /// What the model says that a call must give.
    pub fn wanted(outcome: &Outcome, shown: Shown) -> Given {
        Given {
            number: outcome.number,
            mfn: outcome.mfn,
            end: outcome.end,
            tag: outcome.tag,
            part: shown.part,
            occurrences: outcome.occurrences,
            mark: outcome.mark,
            deleted: outcome.deleted,
            count: outcome.fields.len(),
            lists: shown.lists,
            answers: shown.answers,
        }
    }
}

/// Something that answers calls on two buffers.
pub trait Subject {
    /// Runs a call.
    fn run(&mut self, mst: &mut [u8], xrf: &mut [u8], call: &Call, side: Side) -> Given;
}

/// The archive of the proved library, with areas for drafts and outputs.
#[derive(Debug)]
pub struct Archive {
    drafts: Drafts,
    mfns: Input<u32>,
    tags: Output<u16>,
    words: [Output<u32>; 2],
    sizes: [Output<usize>; 3],
}

/// The four arguments that every function begins with.
type Buffers = (*mut u8, usize, *mut u8, usize);

fn plain(number: u32) -> Given {
    Given {
        number,
        ..Given::default()
    }
}

impl Subject for Archive {
    fn run(&mut self, mst: &mut [u8], xrf: &mut [u8], call: &Call, side: Side) -> Given {
        let (mst_len, xrf_len) = (mst.len(), xrf.len());
        let b: Buffers = (pointer(mst, side), mst_len, pointer(xrf, side), xrf_len);
        // SAFETY: the buffers are exclusive borrows of these lengths; what else is lent
        // stands in areas of its own.
        unsafe {
            match call {
                Call::Format => plain(raw::isis_format(b.0, b.1, b.2, b.3)),
                Call::Delete(mfn) => plain(raw::isis_delete(b.0, b.1, b.2, b.3, *mfn)),
                Call::Settle(mfn) => plain(raw::isis_settle(b.0, b.1, b.2, b.3, *mfn)),
                Call::Revert(mfn) => plain(raw::isis_revert(b.0, b.1, b.2, b.3, *mfn)),
                Call::Check => plain(raw::isis_check(b.0, b.1, b.2, b.3)),
                Call::Migrate => plain(raw::isis_migrate(b.0, b.1, b.2, b.3)),
                Call::SettleList { mfns, room } => self.settle_list(b, mfns, *room, side),
                Call::Recount => plain(raw::isis_recount(b.0, b.1, b.2, b.3)),
                Call::Create(draft) => self.create(b, draft, side),
                Call::Update(mfn, draft) => self.update(b, *mfn, draft, side),
                Call::View { .. } | Call::ViewSettled { .. } => self.view(b, call, side),
                Call::Field { .. } | Call::FieldSettled { .. } => self.field(b, call, side),
                Call::Next => self.next(b, side),
                Call::State(mfn) => self.state(b, *mfn, side),
                Call::Fields { room, .. } | Call::FieldsSettled { room, .. } => {
                    self.fields(b, call, *room, side)
                }
            }
        }
    }
}

impl Archive {
    /// The archive.
    #[allow(clippy::new_without_default)]
    pub fn new() -> Archive {
        Archive {
            drafts: Drafts::new(),
            mfns: Input::new(),
            tags: Output::new(),
            words: [(); 2].map(|()| Output::new()),
            sizes: [(); 3].map(|()| Output::new()),
        }
    }

    unsafe fn create(&mut self, b: Buffers, draft: &OwnedDraft, side: Side) -> Given {
        let (d, mfn) = (self.drafts.lend(draft, side), self.words[0].lend(1, side));
        // SAFETY: as in `run`.
        let number = unsafe {
            raw::isis_create(
                b.0, b.1, b.2, b.3, d.tags, d.tags_len, d.lens, d.lens_len, d.data, d.data_len, mfn,
            )
        };
        self.drafts.only_read(draft);
        Given {
            mfn: self.words[0].one(side),
            ..plain(number)
        }
    }

    unsafe fn update(&mut self, b: Buffers, mfn: u32, draft: &OwnedDraft, side: Side) -> Given {
        let d = self.drafts.lend(draft, side);
        // SAFETY: as in `run`.
        let number = unsafe {
            raw::isis_update(
                b.0, b.1, b.2, b.3, mfn, d.tags, d.tags_len, d.lens, d.lens_len, d.data, d.data_len,
            )
        };
        self.drafts.only_read(draft);
        plain(number)
    }

    unsafe fn settle_list(&mut self, b: Buffers, mfns: &[u32], room: usize, side: Side) -> Given {
        let (m, len) = self.mfns.lend(mfns, side, false);
        let a = self.words[0].lend(room, side);
        // SAFETY: as in `run`.
        let number = unsafe { raw::isis_settle_list(b.0, b.1, b.2, b.3, m, len, a, room) };
        assert!(self.mfns.kept(mfns), "a lent list was written to");
        Given {
            answers: self.words[0].taken(room, side),
            ..plain(number)
        }
    }

    /// Lends the two outputs of a part.
    fn lend_part(&mut self, side: Side) -> (*mut usize, *mut usize) {
        let [start, len, _] = &mut self.sizes;
        (start.lend(1, side), len.lend(1, side))
    }

    /// The part, taken back.
    fn part(&mut self, side: Side) -> Range<usize> {
        let [start, len, _] = &mut self.sizes;
        let start = start.one(side);
        start..start.wrapping_add(len.one(side))
    }

    unsafe fn view(&mut self, b: Buffers, call: &Call, side: Side) -> Given {
        let (start, len) = self.lend_part(side);
        let count = self.words[0].lend(1, side);
        let (view, mfn, tag, occurrence) = match *call {
            Call::View {
                mfn,
                tag,
                occurrence,
            } => (raw::isis_view as raw::View, mfn, tag, occurrence),
            Call::ViewSettled {
                mfn,
                tag,
                occurrence,
            } => (raw::isis_view_settled as raw::View, mfn, tag, occurrence),
            _ => unreachable!("only views come here"),
        };
        // SAFETY: as in `run`.
        let number = unsafe { view(b.0, b.1, b.2, b.3, mfn, tag, occurrence, start, len, count) };
        Given {
            part: self.part(side),
            occurrences: self.words[0].one(side),
            ..plain(number)
        }
    }

    unsafe fn field(&mut self, b: Buffers, call: &Call, side: Side) -> Given {
        let (tag, (start, len)) = (self.tags.lend(1, side), self.lend_part(side));
        // SAFETY: as in `run`.
        let number = unsafe {
            match *call {
                Call::Field { mfn, index } => {
                    raw::isis_field(b.0, b.1, b.2, b.3, mfn, index, tag, start, len)
                }
                Call::FieldSettled { mfn, index } => {
                    raw::isis_field_settled(b.0, b.1, b.2, b.3, mfn, index, tag, start, len)
                }
                _ => unreachable!("only fields by index come here"),
            }
        };
        Given {
            tag: self.tags.one(side),
            part: self.part(side),
            ..plain(number)
        }
    }

    unsafe fn next(&mut self, b: Buffers, side: Side) -> Given {
        let (next, end) = (self.words[0].lend(1, side), self.sizes[0].lend(1, side));
        // SAFETY: as in `run`.
        let number = unsafe { raw::isis_next(b.0, b.1, b.2, b.3, next, end) };
        Given {
            mfn: self.words[0].one(side),
            end: self.sizes[0].one(side),
            ..plain(number)
        }
    }

    unsafe fn state(&mut self, b: Buffers, mfn: u32, side: Side) -> Given {
        let [mark, deleted] = &mut self.words;
        let lent = (mark.lend(1, side), deleted.lend(1, side));
        // SAFETY: as in `run`.
        let number = unsafe { raw::isis_state(b.0, b.1, b.2, b.3, mfn, lent.0, lent.1) };
        Given {
            mark: mark.one(side),
            deleted: deleted.one(side),
            ..plain(number)
        }
    }

    unsafe fn fields(&mut self, b: Buffers, call: &Call, room: Room, side: Side) -> Given {
        let (tags, [starts, lens, count]) = (&mut self.tags, &mut self.sizes);
        let (t, s) = (tags.lend(room[0], side), starts.lend(room[1], side));
        let (l, c) = (lens.lend(room[2], side), count.lend(1, side));
        let [tl, sl, ll] = room;
        // SAFETY: as in `run`.
        let number = unsafe {
            match *call {
                Call::Fields { mfn, .. } => {
                    raw::isis_fields(b.0, b.1, b.2, b.3, mfn, t, tl, s, sl, l, ll, c)
                }
                Call::FieldsSettled { mfn, .. } => {
                    raw::isis_fields_settled(b.0, b.1, b.2, b.3, mfn, t, tl, s, sl, l, ll, c)
                }
                _ => unreachable!("only calls for all fields come here"),
            }
        };
        Given {
            count: count.one(side),
            lists: Lists {
                tags: tags.taken(tl, side),
                starts: starts.taken(sl, side),
                lens: lens.taken(ll, side),
            },
            ..plain(number)
        }
    }
}
