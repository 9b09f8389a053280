//! The calls on the bytes. Each asks for the refusals in the order of their
//! numbers and writes only after the last of them.

use crate::answer::{Refusal, number};
use crate::bytes::{i32_at, put_i32, put_u16, u16_at};
use crate::draft::{Draft, need};
use crate::layout::{
    BLOCK, Control, Entry, FIRST, Mark, Place, capacity, first_integer, first_integer_right,
    lengths_permitted, put_reccnt, reccnt, slot_at, step_over, xrf_block,
};
use crate::record::{self, Record, back_to, write_draft};
use crate::sound;
use std::ops::Range;

/// A call's answer: what it returns, or the lowest refusal that applies.
pub type Answer<T> = Result<T, Refusal>;

/// Answers 1 and 2: the lengths, then the control record.
pub fn gate(mst: &[u8], xrf: &[u8]) -> Answer<Control> {
    if !lengths_permitted(mst.len(), xrf.len()) {
        return Err(Refusal::Length);
    }
    Control::read(mst, xrf.len()).map_err(|_| Refusal::Control)
}

/// Answers 1 and 2 for create and revert: a RECCNT that cannot grow is 2 as well.
fn gate_to_one_more(mst: &[u8], xrf: &[u8]) -> Answer<Control> {
    let control = gate(mst, xrf)?;
    if reccnt(mst) == i32::MAX {
        return Err(Refusal::Control);
    }
    Ok(control)
}

/// A record that answers 4 to 8 have let through.
pub(crate) struct Found {
    control: Control,
    mfn: usize,
    pub(crate) place: Place,
    record: Record,
}

/// Answers 4, 6, 7 and 8 for a call that names an MFN.
pub(crate) fn find(mst: &[u8], xrf: &[u8], control: Control, mfn: u32) -> Answer<Found> {
    let mfn = mfn as usize;
    if mfn < 1 || mfn >= control.next_mfn {
        return Err(Refusal::Mfn);
    }
    if !first_integer_right(xrf, xrf_block(mfn)) {
        return Err(Refusal::Entry);
    }
    let value = i32_at(xrf, slot_at(mfn));
    let place = match Entry::decode(value, control.end) {
        Err(_) => return Err(Refusal::Entry),
        Ok(Entry::Gone) => return Err(Refusal::Gone),
        Ok(Entry::Place(place)) => place,
    };
    let record = record::well_formed(mst, control.end, mfn, place).map_err(|_| Refusal::Record)?;
    Ok(Found {
        control,
        mfn,
        place,
        record,
    })
}

/// Answer 8 for the settled version of a changed record.
fn settled_version(mst: &[u8], found: &Found) -> Answer<Record> {
    record::settled_version(mst, found.control.end, found.mfn, &found.record)
        .map_err(|_| Refusal::Record)
}

/// Answer 13: where a record of `length` bytes goes, and the end after it.
fn room(mst: &[u8], control: Control, length: usize) -> Answer<(usize, usize)> {
    let stop = control.end + length;
    if stop > mst.len() {
        return Err(Refusal::NoRoom);
    }
    Ok((control.end, step_over(stop)))
}

/// Empties two buffers of permitted length.
pub fn format(mst: &mut [u8], xrf: &mut [u8]) -> Answer<()> {
    if !lengths_permitted(mst.len(), xrf.len()) {
        return Err(Refusal::Length);
    }
    mst.fill(0);
    xrf.fill(0);
    Control {
        next_mfn: 1,
        end: FIRST,
    }
    .write(mst);
    for block in 1..=xrf.len() / BLOCK {
        let first = first_integer(xrf.len(), block);
        put_i32(xrf, (block - 1) * BLOCK, first);
    }
    Ok(())
}

/// The current version, for the calls that show it: answers up to 9.
pub(crate) fn current(mst: &[u8], xrf: &[u8], mfn: u32) -> Answer<Record> {
    let found = find(mst, xrf, gate(mst, xrf)?, mfn)?;
    if found.place.deleted {
        return Err(Refusal::Deleted);
    }
    Ok(found.record)
}

/// The settled version, for the calls that show it: answers up to 11.
pub(crate) fn settled(mst: &[u8], xrf: &[u8], mfn: u32) -> Answer<Record> {
    let found = find(mst, xrf, gate(mst, xrf)?, mfn)?;
    match found.place.mark {
        Mark::Changed => settled_version(mst, &found),
        Mark::Settled if found.place.deleted => Err(Refusal::Deleted),
        Mark::Settled => Ok(found.record),
        Mark::New => Err(Refusal::New),
    }
}

/// A field of the current version, as a part of the MST.
pub fn view(mst: &[u8], xrf: &[u8], mfn: u32, tag: u16, occurrence: u32) -> Answer<Range<usize>> {
    current(mst, xrf, mfn)?.find(mst, tag, occurrence)
}

/// A field of the settled version, as a part of the MST.
pub fn view_settled(
    mst: &[u8],
    xrf: &[u8],
    mfn: u32,
    tag: u16,
    occurrence: u32,
) -> Answer<Range<usize>> {
    settled(mst, xrf, mfn)?.find(mst, tag, occurrence)
}

/// A field by its place in the directory: its tag, and its part of the MST.
pub type Indexed = (u16, Range<usize>);

/// The field of the current version that stands at an index, from 0, in the directory.
pub fn field(mst: &[u8], xrf: &[u8], mfn: u32, index: usize) -> Answer<Indexed> {
    let shown = current(mst, xrf, mfn)?;
    shown.fields(mst).nth(index).ok_or(Refusal::NoField)
}

/// The field of the settled version that stands at an index, from 0, in the directory.
pub fn field_settled(mst: &[u8], xrf: &[u8], mfn: u32, index: usize) -> Answer<Indexed> {
    let shown = settled(mst, xrf, mfn)?;
    shown.fields(mst).nth(index).ok_or(Refusal::NoField)
}

/// Writes a new record at the end and returns its MFN.
pub fn create(mst: &mut [u8], xrf: &mut [u8], draft: &Draft) -> Answer<u32> {
    let control = gate_to_one_more(mst, xrf)?;
    let need = draft.need_if_right().ok_or(Refusal::Draft)?;
    let mfn = control.next_mfn;
    if mfn > capacity(xrf.len()) {
        return Err(Refusal::Full);
    }
    if !first_integer_right(xrf, xrf_block(mfn)) || i32_at(xrf, slot_at(mfn)) != 0 {
        return Err(Refusal::Entry);
    }
    let (at, end) = room(mst, control, need)?;
    write_draft(mst, at, mfn, need, (0, 0), draft);
    put_i32(xrf, slot_at(mfn), Place::at(at, false, Mark::New).encode());
    Control {
        next_mfn: mfn + 1,
        end,
    }
    .write(mst);
    put_reccnt(mst, reccnt(mst) + 1);
    Ok(mfn as u32)
}

/// Replaces the fields of a live record.
pub fn update(mst: &mut [u8], xrf: &mut [u8], mfn: u32, draft: &Draft) -> Answer<()> {
    let control = gate(mst, xrf)?;
    let need = draft.need_if_right().ok_or(Refusal::Draft)?;
    let found = find(mst, xrf, control, mfn)?;
    if found.place.deleted {
        return Err(Refusal::Deleted);
    }
    let leader = found.record.leader;
    let (back, mark) = match found.place.mark {
        Mark::Settled => (back_to(found.record.at), Mark::Changed),
        mark => ((leader.back_block, leader.back_offset), mark),
    };
    let length = usize::from(leader.length);
    if found.place.mark != Mark::Settled && need <= length {
        write_draft(mst, found.record.at, found.mfn, length, back, draft);
        return Ok(());
    }
    let (at, end) = room(mst, control, need)?;
    write_draft(mst, at, found.mfn, need, back, draft);
    put_i32(xrf, slot_at(found.mfn), Place::at(at, false, mark).encode());
    Control { end, ..control }.write(mst);
    Ok(())
}

/// Deletes a live record: a settled one is copied to the end, a pending one stays. Answer 2
/// for a RECCNT that counts no record is asked behind 4 to 9 and before 13.
pub fn delete(mst: &mut [u8], xrf: &mut [u8], mfn: u32) -> Answer<()> {
    let control = gate(mst, xrf)?;
    let found = find(mst, xrf, control, mfn)?;
    if found.place.deleted {
        return Err(Refusal::Deleted);
    }
    let count = reccnt(mst);
    if count <= 0 {
        return Err(Refusal::Control);
    }
    let place = match found.place.mark {
        Mark::Settled => delete_by_copy(mst, control, &found)?,
        _ => {
            let (at, record) = (found.record.at, found.record);
            put_u16(mst, at + 16, 1);
            let stop = at + usize::from(record.leader.base) + record.data;
            mst[stop..at + usize::from(record.leader.length)].fill(0);
            found.place
        }
    };
    let deleted = Place {
        deleted: true,
        ..place
    };
    put_i32(xrf, slot_at(found.mfn), deleted.encode());
    put_reccnt(mst, count - 1);
    Ok(())
}

/// The deleted copy of a settled record at the end; gives its place.
fn delete_by_copy(mst: &mut [u8], control: Control, found: &Found) -> Answer<Place> {
    let old = found.record;
    let length = need(usize::from(old.leader.fields), old.data);
    let (at, end) = room(mst, control, length)?;
    let used = usize::from(old.leader.base) + old.data;
    mst.copy_within(old.at..old.at + used, at);
    mst[at + used..at + length].fill(0);
    let (back_block, back_offset) = back_to(old.at);
    record::Leader {
        length: length as u16,
        back_block,
        back_offset,
        status: 1,
        ..old.leader
    }
    .write(mst, at);
    Control { end, ..control }.write(mst);
    Ok(Place::at(at, true, Mark::Changed))
}

/// Takes the pending mark away; the settled version is given up.
pub fn settle(mst: &mut [u8], xrf: &mut [u8], mfn: u32) -> Answer<()> {
    let found = find(mst, xrf, gate(mst, xrf)?, mfn)?;
    if found.place.mark == Mark::Settled {
        return Err(Refusal::NotPending);
    }
    put_i32(mst, found.record.at + 6, 0);
    put_u16(mst, found.record.at + 10, 0);
    let settled = Place {
        mark: Mark::Settled,
        ..found.place
    };
    put_i32(xrf, slot_at(found.mfn), settled.encode());
    Ok(())
}

/// The most MFNs of a list that is settled in one call.
pub const MOST_SETTLED: usize = 4096;

/// Whether a list of MFNs and one for their answers are equally long and not over-long.
pub fn lists_right(mfns: usize, answers: usize) -> bool {
    mfns == answers && mfns <= MOST_SETTLED
}

/// Settles each MFN of a list in order; its answer's number goes to the same place of the
/// other list. Answers 17, before anything is read, if the two lists are not right.
pub fn settle_list(
    mst: &mut [u8],
    xrf: &mut [u8],
    mfns: &[u32],
    answers: &mut [u32],
) -> Answer<()> {
    if !lists_right(mfns.len(), answers.len()) {
        return Err(Refusal::NoRoomInList);
    }
    for (&mfn, answer) in mfns.iter().zip(answers) {
        *answer = number(&settle(mst, xrf, mfn));
    }
    Ok(())
}

/// Makes the settled version of a changed record current; one that was deleted counts again.
pub fn revert(mst: &mut [u8], xrf: &mut [u8], mfn: u32) -> Answer<()> {
    let found = find(mst, xrf, gate_to_one_more(mst, xrf)?, mfn)?;
    match found.place.mark {
        Mark::Settled => return Err(Refusal::NotPending),
        Mark::New => return Err(Refusal::New),
        Mark::Changed => settled_version(mst, &found)?,
    };
    let back = record::back_place(&found.record);
    put_i32(xrf, slot_at(found.mfn), back.encode());
    if found.place.deleted {
        put_reccnt(mst, reccnt(mst) + 1);
    }
    Ok(())
}

/// Counts the end of an old card from one: NXTMFP plus 1, and no other byte. Answers 2 if
/// the control record is not right by the old rule.
pub fn migrate(mst: &mut [u8], xrf: &[u8]) -> Answer<()> {
    if !lengths_permitted(mst.len(), xrf.len()) {
        return Err(Refusal::Length);
    }
    Control::read_old(mst, xrf.len()).map_err(|_| Refusal::Control)?;
    let count = u16_at(mst, 12);
    put_u16(mst, 12, count + 1);
    Ok(())
}

/// Writes RECCNT of a store that is sound apart from it: 0, 1, 2 or 14, whatever RECCNT is.
pub fn recount(mst: &mut [u8], xrf: &[u8]) -> Answer<()> {
    let control = gate(mst, xrf)?;
    if !sound::is_sound_apart(mst, xrf) {
        return Err(Refusal::NotSound);
    }
    put_reccnt(mst, sound::live(xrf, control) as i32);
    Ok(())
}

/// The whole-store check: 0, 1, 2 or 14.
pub fn check(mst: &[u8], xrf: &[u8]) -> Answer<()> {
    gate(mst, xrf)?;
    if sound::is_sound(mst, xrf) {
        Ok(())
    } else {
        Err(Refusal::NotSound)
    }
}
