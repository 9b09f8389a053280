//! The calls that name an MFN and take no draft.

use super::record::{Tested, at_index, find, settled, test};
use super::{CHANGED, Control, Place, RECCNT, SETTLED};
use super::{
    entry, entry_of, gate, gate_to_one_more, i32_at, numbered, put_count, slot, step_over,
};

/// A record that answers 4 to 8 have let through.
pub struct Found {
    pub control: Control,
    pub mfn: usize,
    pub place: Place,
    pub record: Tested,
}

/// Answers 4, 6, 7 and 8.
pub fn found(mst: &[u8], xrf: &[u8], control: Control, mfn: u32) -> Result<Found, u32> {
    let mfn = mfn as usize;
    if mfn < 1 || mfn >= control.next {
        return Err(4);
    }
    if !numbered(xrf, mfn) {
        return Err(6);
    }
    let place = entry(i32_at(xrf, slot(mfn)), control.end)?;
    let record = test(mst, control.end, mfn, place).ok_or(8u32)?;
    Ok(Found {
        control,
        mfn,
        place,
        record,
    })
}

/// A call's number.
fn number(result: Result<(), u32>) -> u32 {
    result.err().unwrap_or(0)
}

/// The current version, up to answer 9.
pub fn current(mst: &[u8], xrf: &[u8], mfn: u32) -> Result<Tested, u32> {
    let found = found(mst, xrf, gate(mst, xrf)?, mfn)?;
    if found.place.deleted {
        return Err(9);
    }
    Ok(found.record)
}

/// The settled version, up to answer 11.
pub fn kept(mst: &[u8], xrf: &[u8], mfn: u32) -> Result<Tested, u32> {
    let found = found(mst, xrf, gate(mst, xrf)?, mfn)?;
    match found.place.mark {
        CHANGED => settled(mst, found.control.end, found.mfn, &found.record).ok_or(8),
        SETTLED if found.place.deleted => Err(9),
        SETTLED => Ok(found.record),
        _ => Err(11),
    }
}

/// The answer, the start and the length of a field that is shown, and how often its tag occurs
/// where that is less often than asked.
type Shown = (u32, usize, usize, u32);

#[inline(always)]
fn shown(mst: &[u8], record: Result<Tested, u32>, tag: u16, occurrence: u32) -> Shown {
    let record = match record {
        Ok(record) => record,
        Err(refusal) => return (refusal, 0, 0, 0),
    };
    match find(mst, &record, tag, occurrence) {
        Ok((start, len)) => (0, start, len, 0),
        Err(seen) if seen == 0 || occurrence == 0 => (12, 0, 0, 0),
        Err(seen) => (15, 0, 0, seen),
    }
}

/// A field of the current version.
#[inline(always)]
pub fn view(mst: &[u8], xrf: &[u8], mfn: u32, tag: u16, occurrence: u32) -> Shown {
    shown(mst, current(mst, xrf, mfn), tag, occurrence)
}

/// A field of the settled version.
#[inline(always)]
pub fn view_settled(mst: &[u8], xrf: &[u8], mfn: u32, tag: u16, occurrence: u32) -> Shown {
    shown(mst, kept(mst, xrf, mfn), tag, occurrence)
}

/// The answer, the tag, the start and the length of a field by its index.
type Indexed = (u32, u16, usize, usize);

fn indexed(field: Result<(u16, usize, usize), u32>) -> Indexed {
    field.map_or_else(
        |refusal| (refusal, 0, 0, 0),
        |(tag, start, len)| (0, tag, start, len),
    )
}

/// A field of the current version by its index.
#[inline(always)]
pub fn field(mst: &[u8], xrf: &[u8], mfn: u32, index: usize) -> Indexed {
    let at = |record| at_index(mst, &record, index).ok_or(12);
    indexed(current(mst, xrf, mfn).and_then(at))
}

/// A field of the settled version by its index.
#[inline(always)]
pub fn field_settled(mst: &[u8], xrf: &[u8], mfn: u32, index: usize) -> Indexed {
    let at = |record| at_index(mst, &record, index).ok_or(12);
    indexed(kept(mst, xrf, mfn).and_then(at))
}

/// Deletes a record.
#[inline(always)]
pub fn delete(mst: &mut [u8], xrf: &mut [u8], mfn: u32) -> u32 {
    number(try_delete(mst, xrf, mfn))
}

fn try_delete(mst: &mut [u8], xrf: &mut [u8], mfn: u32) -> Result<(), u32> {
    let found = found(mst, xrf, gate(mst, xrf)?, mfn)?;
    if found.place.deleted {
        return Err(9);
    }
    let count = i32_at(mst, RECCNT);
    if count <= 0 {
        return Err(2);
    }
    let old = found.record;
    let used = old.base + old.data;
    let (at, mark) = if found.place.mark == SETTLED {
        (copy_deleted(mst, &found)?, CHANGED)
    } else {
        mst[old.at + 16] = 1;
        mst[old.at + used..old.at + old.length].fill(0);
        (old.at, found.place.mark)
    };
    let slot = slot(found.mfn);
    xrf[slot..slot + 4].copy_from_slice(&entry_of(at, mark, true).to_le_bytes());
    put_count(mst, count - 1);
    Ok(())
}

/// The deleted copy of a settled record at the end.
fn copy_deleted(mst: &mut [u8], found: &Found) -> Result<usize, u32> {
    let (old, at) = (found.record, found.control.end);
    let used = old.base + old.data;
    let length = used + used % 2;
    if at + length > mst.len() {
        return Err(13);
    }
    mst.copy_within(old.at..old.at + used, at);
    mst[at + used..at + length].fill(0);
    let leader = &mut mst[at..at + 18];
    leader[4..6].copy_from_slice(&(length as u16).to_le_bytes());
    leader[6..10].copy_from_slice(&((old.at / 512 + 1) as i32).to_le_bytes());
    leader[10..12].copy_from_slice(&((old.at % 512) as u16).to_le_bytes());
    leader[16] = 1;
    super::write::put_end(mst, step_over(at + length));
    Ok(at)
}

/// Makes a pending change final.
#[inline(always)]
pub fn settle(mst: &mut [u8], xrf: &mut [u8], mfn: u32) -> u32 {
    let control = gate(mst, xrf);
    number(control.and_then(|control| settle_behind(mst, xrf, control, mfn)))
}

/// The same behind the gate.
#[inline(always)]
fn settle_behind(mst: &mut [u8], xrf: &mut [u8], control: Control, mfn: u32) -> Result<(), u32> {
    let found = found(mst, xrf, control, mfn)?;
    if found.place.mark == SETTLED {
        return Err(10);
    }
    let (at, deleted) = (found.record.at, found.place.deleted);
    mst[at + 6..at + 12].fill(0);
    let slot = slot(found.mfn);
    xrf[slot..slot + 4].copy_from_slice(&entry_of(at, SETTLED, deleted).to_le_bytes());
    Ok(())
}

/// Settles each MFN of a list. A settle changes no length and nothing of the control record,
/// so the gate is asked once.
#[inline(always)]
pub fn settle_list(mst: &mut [u8], xrf: &mut [u8], mfns: &[u32], answers: &mut [u32]) -> u32 {
    if mfns.len() != answers.len() || mfns.len() > 4_096 {
        return 17;
    }
    let control = gate(mst, xrf);
    for (&mfn, answer) in mfns.iter().zip(answers) {
        *answer = number(control.and_then(|control| settle_behind(mst, xrf, control, mfn)));
    }
    0
}

/// Makes the settled version current again.
#[inline(always)]
pub fn revert(mst: &mut [u8], xrf: &mut [u8], mfn: u32) -> u32 {
    let mut act = || {
        let (control, count) = gate_to_one_more(mst, xrf)?;
        let found = found(mst, xrf, control, mfn)?;
        match found.place.mark {
            SETTLED => return Err(10),
            CHANGED => {}
            _ => return Err(11),
        }
        let back = settled(mst, found.control.end, found.mfn, &found.record).ok_or(8u32)?;
        let slot = slot(found.mfn);
        xrf[slot..slot + 4].copy_from_slice(&entry_of(back.at, SETTLED, false).to_le_bytes());
        if found.place.deleted {
            put_count(mst, count + 1);
        }
        Ok(())
    };
    number(act())
}
