//! A card that is only read. Nothing is changed by these calls, so shared bytes are
//! enough, and what is handed out lives as long as those.

use crate::fields::{Field, Fields, by_index};
use crate::raw::View;
use crate::refusal::{Answer, Refusal};
use crate::state::{Mark, Next, State};
use crate::{answer, raw};
use std::ops::Range;

/// A card in two buffers that are only read.
///
/// ```
/// let (mut mst, mut xrf) = (vec![0; 8 * 512], vec![0; 512]);
/// let mut card = isis::Card::over(&mut mst, &mut xrf);
/// card.format()?;
/// let mfn = card.create([(24, "Kite")])?;
///
/// let (mst, xrf): (&[u8], &[u8]) = (&mst, &xrf);
/// let title = isis::CardRef::over(mst, xrf).view(mfn, 24, 1)?;
/// assert_eq!(title, b"Kite");
/// # Ok::<(), isis::Refusal>(())
/// ```
#[derive(Clone, Copy, Debug)]
pub struct CardRef<'a> {
    mst: &'a [u8],
    xrf: &'a [u8],
}

impl<'a> CardRef<'a> {
    /// A card over two buffers with any bytes in them.
    pub fn over(mst: &'a [u8], xrf: &'a [u8]) -> CardRef<'a> {
        CardRef { mst, xrf }
    }

    /// The bytes of the master file.
    pub fn mst(self) -> &'a [u8] {
        self.mst
    }

    /// The bytes of the cross-reference file.
    pub fn xrf(self) -> &'a [u8] {
        self.xrf
    }

    /// A field of the current version; occurrences count from 1. Where the tag occurs, but not
    /// as often, [`FewerFields`](Refusal::FewerFields) says how often;
    /// [`NoField`](Refusal::NoField) is for a tag that does not occur, and for occurrence 0.
    pub fn view(self, mfn: u32, tag: u16, occurrence: u32) -> Answer<&'a [u8]> {
        Ok(&self.mst[self.view_part(mfn, tag, occurrence)?])
    }

    /// A field of the settled version; occurrences count from 1, and what is missing is told as
    /// by [`view`](CardRef::view).
    pub fn view_settled(self, mfn: u32, tag: u16, occurrence: u32) -> Answer<&'a [u8]> {
        Ok(&self.mst[self.view_settled_part(mfn, tag, occurrence)?])
    }

    /// Where in the MST a field of the current version stands.
    pub fn view_part(self, mfn: u32, tag: u16, occurrence: u32) -> Answer<Range<usize>> {
        self.part(raw::isis_view, mfn, tag, occurrence)
    }

    /// Where in the MST a field of the settled version stands.
    pub fn view_settled_part(self, mfn: u32, tag: u16, occurrence: u32) -> Answer<Range<usize>> {
        self.part(raw::isis_view_settled, mfn, tag, occurrence)
    }

    fn part(self, view: View, mfn: u32, tag: u16, occurrence: u32) -> Answer<Range<usize>> {
        let (mut start, mut len, mut occurrences) = (0, 0, 0);
        // SAFETY: the buffers are borrowed for their whole length, the outputs are three
        // variables of this function.
        let number = unsafe {
            view(
                self.mst.as_ptr(),
                self.mst.len(),
                self.xrf.as_ptr(),
                self.xrf.len(),
                mfn,
                tag,
                occurrence,
                &mut start,
                &mut len,
                &mut occurrences,
            )
        };
        match answer(number) {
            Err(Refusal::FewerFields(_)) => Err(Refusal::FewerFields(occurrences)),
            given => given.map(|()| start..start + len),
        }
    }

    /// A field of the current version by its index in the directory, from 0.
    pub fn field(self, mfn: u32, index: usize) -> Answer<Field<'a>> {
        by_index(self.mst, self.xrf, raw::isis_field, mfn, index)
    }

    /// A field of the settled version by its index in the directory, from 0.
    pub fn field_settled(self, mfn: u32, index: usize) -> Answer<Field<'a>> {
        by_index(self.mst, self.xrf, raw::isis_field_settled, mfn, index)
    }

    /// All fields of the current version, in directory order.
    pub fn fields(self, mfn: u32) -> Answer<Fields<'a>> {
        Fields::of(self.mst, self.xrf, raw::isis_fields, mfn)
    }

    /// All fields of the settled version, in directory order.
    pub fn fields_settled(self, mfn: u32) -> Answer<Fields<'a>> {
        Fields::of(self.mst, self.xrf, raw::isis_fields_settled, mfn)
    }

    /// What the next create is given: how many MFNs there are, and where the records end.
    pub fn next(self) -> Answer<Next> {
        let (mut mfn, mut end) = (0, 0);
        // SAFETY: the buffers are borrowed for their whole length, the outputs are two
        // variables of this function.
        let number = unsafe {
            raw::isis_next(
                self.mst.as_ptr(),
                self.mst.len(),
                self.xrf.as_ptr(),
                self.xrf.len(),
                &mut mfn,
                &mut end,
            )
        };
        answer(number).map(|()| Next { mfn, end })
    }

    /// The state of a record.
    pub fn state(self, mfn: u32) -> Answer<State> {
        let (mut mark, mut deleted) = (0, 0);
        // SAFETY: as in `next`.
        let number = unsafe {
            raw::isis_state(
                self.mst.as_ptr(),
                self.mst.len(),
                self.xrf.as_ptr(),
                self.xrf.len(),
                mfn,
                &mut mark,
                &mut deleted,
            )
        };
        answer(number).map(|()| State {
            mark: Mark::numbered(mark),
            deleted: deleted != 0,
        })
    }

    /// Checks the whole store: accepted exactly if it is sound.
    pub fn check(self) -> Answer<()> {
        // SAFETY: both buffers are borrowed for their whole length.
        answer(unsafe {
            raw::isis_check(
                self.mst.as_ptr(),
                self.mst.len(),
                self.xrf.as_ptr(),
                self.xrf.len(),
            )
        })
    }
}
