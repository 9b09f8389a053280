//! A CDS/ISIS catalogue in two lent byte buffers: safe Rust over the proved library.
//!
//! A [`Card`] borrows the master file (MST) and the cross-reference file (XRF), each
//! whole in memory. It may be made over any bytes; every call looks at what it finds
//! and either does its work or gives the [`Refusal`] that applies, having changed
//! nothing.
//!
//! ```
//! let (mut mst, mut xrf) = (vec![0; 8 * 512], vec![0; 512]);
//! let mut card = isis::Card::over(&mut mst, &mut xrf);
//! card.format()?;
//! let mfn = card.create([(24, "Kite"), (70, "Hosseini, Khaled")])?;
//! card.settle(mfn)?;
//! card.update(mfn, [(24, "Kites")])?;
//! assert_eq!(card.view(mfn, 24, 1)?, b"Kites");
//! assert_eq!(card.view_settled(mfn, 24, 1)?, b"Kite");
//! assert_eq!(card.fields_settled(mfn)?.len(), 2);
//! assert_eq!(card.state(mfn)?.mark, isis::Mark::Changed);
//! card.revert(mfn)?;
//! assert_eq!(card.view(mfn, 24, 1)?, b"Kite");
//! assert_eq!(card.view(mfn, 70, 2), Err(isis::Refusal::FewerFields(1)));
//! card.check()?;
//! # Ok::<(), isis::Refusal>(())
//! ```
//!
//! A [`CardRef`] reads a card whose bytes may not be written. [`record_test`] says of a single
//! record where it is broken. An [`Index`] looks terms up in the five files of a search index,
//! and an [`Ifp`] reads the lists of their postings.

mod draft;
mod fields;
mod index;
mod postings;
pub mod raw;
mod reader;
mod record;
mod refusal;
mod state;

pub use draft::{Draft, Lists};
pub use fields::{Field, Fields};
pub use index::{IfpPlace, Index};
pub use postings::{Ifp, Posting, Postings};
pub use reader::CardRef;
pub use record::{Broken, record_test};
pub use refusal::{Answer, Refusal};
pub use state::{Mark, Next, State};
use std::ops::Range;

/// The file of the archive that this crate was built with, for tests and measurements.
pub const ARCHIVE: &str = env!("ISIS_ARCHIVE");

/// The most MFNs that [`Card::settle_list`] takes.
pub const SETTLE_MOST: usize = 4096;

/// A card: the two buffers of one catalogue, to read and to write. A [`CardRef`] only
/// reads.
#[derive(Debug)]
pub struct Card<'a> {
    mst: &'a mut [u8],
    xrf: &'a mut [u8],
}

/// The answer behind a number of the library.
fn answer(number: u32) -> Answer<()> {
    Refusal::answer(number)
        .unwrap_or_else(|| panic!("the archive answered {number}, which is no answer known here"))
}

/// A function of the C interface that is about the whole card and may write.
type Whole = unsafe extern "C" fn(*mut u8, usize, *mut u8, usize) -> u32;

/// A function of the C interface that names an MFN and may write.
type Act = unsafe extern "C" fn(*mut u8, usize, *mut u8, usize, u32) -> u32;

impl<'a> Card<'a> {
    /// A card over two buffers with any bytes in them.
    pub fn over(mst: &'a mut [u8], xrf: &'a mut [u8]) -> Card<'a> {
        Card { mst, xrf }
    }

    /// The card as it is now, only to read.
    pub fn reader(&self) -> CardRef<'_> {
        CardRef::over(self.mst, self.xrf)
    }

    /// Empties the card.
    pub fn format(&mut self) -> Answer<()> {
        self.whole(raw::isis_format)
    }

    /// Counts the end of a card that was written before isis.h 2.0 from one, and changes
    /// nothing else; every other call but [`format`](Card::format) refuses such a card with
    /// [`BadControl`](Refusal::BadControl). So does this one, a card of today.
    pub fn migrate(&mut self) -> Answer<()> {
        self.whole(raw::isis_migrate)
    }

    /// Writes RECCNT, how many records are neither deleted nor physically deleted, on a card
    /// that was written before isis.h 4.0 and did not keep it; no other byte changes.
    /// [`NotSound`](Refusal::NotSound) if the card is not sound apart from RECCNT, which may
    /// hold anything. Afterwards [`check`](Card::check) gives `Ok`; a sound card stays as it is.
    pub fn recount(&mut self) -> Answer<()> {
        self.whole(raw::isis_recount)
    }

    fn whole(&mut self, call: Whole) -> Answer<()> {
        let (mst, xrf) = (&mut *self.mst, &mut *self.xrf);
        // SAFETY: both are exclusive borrows of their whole length.
        answer(unsafe { call(mst.as_mut_ptr(), mst.len(), xrf.as_mut_ptr(), xrf.len()) })
    }

    /// Writes a new record, pending, and gives its MFN; RECCNT grows by one. A RECCNT of
    /// 2147483647 is [`BadControl`](Refusal::BadControl).
    pub fn create<F: AsRef<[u8]>>(
        &mut self,
        fields: impl IntoIterator<Item = (u16, F)>,
    ) -> Answer<u32> {
        self.create_from(Draft::gather(fields).lists())
    }

    /// [`create`](Card::create) from three lists.
    pub fn create_from(&mut self, draft: Lists) -> Answer<u32> {
        let Lists { tags, lens, data } = draft;
        let mut mfn = 0;
        // SAFETY: every pointer goes with the length of the slice that it is from, and
        // the two buffers are exclusive borrows.
        let number = unsafe {
            raw::isis_create(
                self.mst.as_mut_ptr(),
                self.mst.len(),
                self.xrf.as_mut_ptr(),
                self.xrf.len(),
                tags.as_ptr(),
                tags.len(),
                lens.as_ptr(),
                lens.len(),
                data.as_ptr(),
                data.len(),
                &mut mfn,
            )
        };
        answer(number).map(|()| mfn)
    }

    /// Replaces all fields of a record; the change is pending.
    pub fn update<F: AsRef<[u8]>>(
        &mut self,
        mfn: u32,
        fields: impl IntoIterator<Item = (u16, F)>,
    ) -> Answer<()> {
        self.update_from(mfn, Draft::gather(fields).lists())
    }

    /// [`update`](Card::update) from three lists.
    pub fn update_from(&mut self, mfn: u32, draft: Lists) -> Answer<()> {
        let Lists { tags, lens, data } = draft;
        // SAFETY: as in `create_from`.
        answer(unsafe {
            raw::isis_update(
                self.mst.as_mut_ptr(),
                self.mst.len(),
                self.xrf.as_mut_ptr(),
                self.xrf.len(),
                mfn,
                tags.as_ptr(),
                tags.len(),
                lens.as_ptr(),
                lens.len(),
                data.as_ptr(),
                data.len(),
            )
        })
    }

    /// Deletes a record; the deletion is pending, and RECCNT falls by one. A RECCNT of 0 or
    /// below is [`BadControl`](Refusal::BadControl) where none of 4 to 9 applies, whether or not
    /// there is room.
    pub fn delete(&mut self, mfn: u32) -> Answer<()> {
        self.act(raw::isis_delete, mfn)
    }

    /// Makes the pending change of a record final.
    pub fn settle(&mut self, mfn: u32) -> Answer<()> {
        self.act(raw::isis_settle, mfn)
    }

    /// [`settle`](Card::settle) for each MFN of a list, in order; gives the answer of each. The
    /// list may be of any length: the library settles up to [`SETTLE_MOST`] at a time.
    pub fn settle_all(&mut self, mfns: &[u32]) -> Vec<Answer<()>> {
        let mut numbers = vec![0; mfns.len()];
        for (mfns, numbers) in mfns
            .chunks(SETTLE_MOST)
            .zip(numbers.chunks_mut(SETTLE_MOST))
        {
            self.settle_list(mfns, numbers)
                .expect("two lists of one length that the library takes");
        }
        numbers.into_iter().map(answer).collect()
    }

    /// Settles each MFN of a list, in order, and writes its answer's number to the same place
    /// of `answers`: [`NoRoomInList`](Refusal::NoRoomInList), with nothing changed, if the two
    /// are not equally long, or have more than [`SETTLE_MOST`] elements.
    pub fn settle_list(&mut self, mfns: &[u32], answers: &mut [u32]) -> Answer<()> {
        let (mst, xrf) = (&mut *self.mst, &mut *self.xrf);
        // SAFETY: as in `create_from`.
        answer(unsafe {
            raw::isis_settle_list(
                mst.as_mut_ptr(),
                mst.len(),
                xrf.as_mut_ptr(),
                xrf.len(),
                mfns.as_ptr(),
                mfns.len(),
                answers.as_mut_ptr(),
                answers.len(),
            )
        })
    }

    /// Makes the settled version of a record current again. Where that undoes a deletion
    /// RECCNT grows by one, and no other byte of the MST is written; otherwise none is. A
    /// RECCNT of 2147483647 is [`BadControl`](Refusal::BadControl) either way.
    pub fn revert(&mut self, mfn: u32) -> Answer<()> {
        self.act(raw::isis_revert, mfn)
    }

    fn act(&mut self, act: Act, mfn: u32) -> Answer<()> {
        let (mst, xrf) = (&mut *self.mst, &mut *self.xrf);
        // SAFETY: both are exclusive borrows of their whole length.
        answer(unsafe {
            act(
                mst.as_mut_ptr(),
                mst.len(),
                xrf.as_mut_ptr(),
                xrf.len(),
                mfn,
            )
        })
    }
}

/// What a [`CardRef`] reads.
impl Card<'_> {
    /// [`CardRef::mst`].
    pub fn mst(&self) -> &[u8] {
        self.mst
    }

    /// [`CardRef::xrf`].
    pub fn xrf(&self) -> &[u8] {
        self.xrf
    }

    /// [`CardRef::view`].
    pub fn view(&self, mfn: u32, tag: u16, occurrence: u32) -> Answer<&[u8]> {
        self.reader().view(mfn, tag, occurrence)
    }

    /// [`CardRef::view_settled`].
    pub fn view_settled(&self, mfn: u32, tag: u16, occurrence: u32) -> Answer<&[u8]> {
        self.reader().view_settled(mfn, tag, occurrence)
    }

    /// [`CardRef::view_part`].
    pub fn view_part(&self, mfn: u32, tag: u16, occurrence: u32) -> Answer<Range<usize>> {
        self.reader().view_part(mfn, tag, occurrence)
    }

    /// [`CardRef::view_settled_part`].
    pub fn view_settled_part(&self, mfn: u32, tag: u16, occurrence: u32) -> Answer<Range<usize>> {
        self.reader().view_settled_part(mfn, tag, occurrence)
    }

    /// [`CardRef::field`].
    pub fn field(&self, mfn: u32, index: usize) -> Answer<Field<'_>> {
        self.reader().field(mfn, index)
    }

    /// [`CardRef::field_settled`].
    pub fn field_settled(&self, mfn: u32, index: usize) -> Answer<Field<'_>> {
        self.reader().field_settled(mfn, index)
    }

    /// [`CardRef::fields`].
    pub fn fields(&self, mfn: u32) -> Answer<Fields<'_>> {
        self.reader().fields(mfn)
    }

    /// [`CardRef::fields_settled`].
    pub fn fields_settled(&self, mfn: u32) -> Answer<Fields<'_>> {
        self.reader().fields_settled(mfn)
    }

    /// [`CardRef::next`].
    pub fn next(&self) -> Answer<Next> {
        self.reader().next()
    }

    /// [`CardRef::state`].
    pub fn state(&self, mfn: u32) -> Answer<State> {
        self.reader().state(mfn)
    }

    /// [`CardRef::check`].
    pub fn check(&self) -> Answer<()> {
        self.reader().check()
    }
}
