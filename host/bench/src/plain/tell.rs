//! The calls that tell something of a card: the next MFN and the end, the state of a
//! record, and all its fields after one record test, in one walk over its directory.

use super::gate;
use super::record::{Tested, list_out};
use super::store::{current, found, kept};
use model::ask::Lists;

/// The answer, NXTMFN and the end.
#[inline(always)]
pub fn next(mst: &[u8], xrf: &[u8]) -> (u32, u32, usize) {
    match gate(mst, xrf) {
        Ok(control) => (0, control.next as u32, control.end),
        Err(refusal) => (refusal, 0, 0),
    }
}

/// The answer, the mark, and 1 for a deleted record.
#[inline(always)]
pub fn state(mst: &[u8], xrf: &[u8], mfn: u32) -> (u32, u32, u32) {
    match gate(mst, xrf).and_then(|control| found(mst, xrf, control, mfn)) {
        Ok(found) => (
            0,
            u32::from(found.place.mark),
            u32::from(found.place.deleted),
        ),
        Err(refusal) => (refusal, 0, 0),
    }
}

/// The answer and the number of fields.
type Listed = (u32, usize);

fn listed(mst: &[u8], record: Result<Tested, u32>, lists: &mut Lists) -> Listed {
    match record.and_then(|record| list_out(mst, &record, lists).ok_or(17)) {
        Ok(count) => (0, count),
        Err(refusal) => (refusal, 0),
    }
}

/// All fields of the current version.
#[inline(always)]
pub fn fields(mst: &[u8], xrf: &[u8], mfn: u32, lists: &mut Lists) -> Listed {
    listed(mst, current(mst, xrf, mfn), lists)
}

/// All fields of the settled version.
#[inline(always)]
pub fn fields_settled(mst: &[u8], xrf: &[u8], mfn: u32, lists: &mut Lists) -> Listed {
    listed(mst, kept(mst, xrf, mfn), lists)
}
