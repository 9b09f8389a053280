//! Format and the calls that take a draft.

use super::store::found;
use super::{CHANGED, SETTLED};
use super::{counted, entry_of, gate, gate_to_one_more, i32_at, lengths_permitted, numbered};
use super::{put_count, slot, step_over, u16_at};
use model::Draft;

/// The mark of a record that was never settled.
const NEW: u8 = 2;

/// Writes NXTMFB and NXTMFP.
pub fn put_end(mst: &mut [u8], end: usize) {
    mst[8..12].copy_from_slice(&((end / 512 + 1) as i32).to_le_bytes());
    mst[12..14].copy_from_slice(&((end % 512) as u16 + 1).to_le_bytes());
}

/// Counts the end of an old card from one.
#[inline(always)]
pub fn migrate(mst: &mut [u8], xrf: &[u8]) -> u32 {
    match counted(mst, xrf, 0) {
        Ok(_) => {
            let count = u16_at(mst, 12) + 1;
            mst[12..14].copy_from_slice(&count.to_le_bytes());
            0
        }
        Err(refusal) => refusal,
    }
}

/// Empties a card of permitted lengths.
#[inline(always)]
pub fn format(mst: &mut [u8], xrf: &mut [u8]) -> u32 {
    if !lengths_permitted(mst, xrf) {
        return 1;
    }
    mst.fill(0);
    xrf.fill(0);
    mst[4] = 1;
    put_end(mst, 64);
    let last = xrf.len() / 512;
    for (i, block) in xrf.chunks_exact_mut(512).enumerate() {
        let number = i as i32 + 1;
        let first = if i + 1 == last { -number } else { number };
        block[..4].copy_from_slice(&first.to_le_bytes());
    }
    0
}

/// The need of a draft that is right.
fn need(draft: &Draft) -> Result<usize, u32> {
    let sum: usize = draft.lens.iter().map(|&len| usize::from(len)).sum();
    let need = (18 + 6 * draft.tags.len() + draft.data.len() + 1) & !1;
    let right = draft.tags.len() == draft.lens.len()
        && draft.tags.iter().all(|&tag| tag != 0 && tag <= 32_767)
        && sum == draft.data.len()
        && need <= 32_766;
    if right { Ok(need) } else { Err(3) }
}

/// Writes a record for a draft into all of `record`.
fn write(record: &mut [u8], mfn: usize, back: (i32, u16), draft: &Draft) {
    let base = 18 + 6 * draft.tags.len();
    let length = record.len() as u16;
    let (head, data) = record.split_at_mut(base);
    let (leader, items) = head.split_at_mut(18);
    leader[0..4].copy_from_slice(&(mfn as i32).to_le_bytes());
    leader[4..6].copy_from_slice(&length.to_le_bytes());
    leader[6..10].copy_from_slice(&back.0.to_le_bytes());
    leader[10..12].copy_from_slice(&back.1.to_le_bytes());
    leader[12..14].copy_from_slice(&(base as u16).to_le_bytes());
    leader[14..16].copy_from_slice(&(draft.tags.len() as u16).to_le_bytes());
    leader[16..18].fill(0);
    let mut pos = 0u16;
    let fields = draft.tags.iter().zip(draft.lens);
    for (item, (tag, len)) in items.as_chunks_mut::<6>().0.iter_mut().zip(fields) {
        item[0..2].copy_from_slice(&tag.to_le_bytes());
        item[2..4].copy_from_slice(&pos.to_le_bytes());
        item[4..6].copy_from_slice(&len.to_le_bytes());
        pos += len;
    }
    let (fields, tail) = data.split_at_mut(draft.data.len());
    fields.copy_from_slice(draft.data);
    tail.fill(0);
}

/// Writes a new record: the answer and its MFN.
#[inline(always)]
pub fn create(mst: &mut [u8], xrf: &mut [u8], draft: &Draft) -> (u32, u32) {
    match try_create(mst, xrf, draft) {
        Ok(mfn) => (0, mfn),
        Err(refusal) => (refusal, 0),
    }
}

fn try_create(mst: &mut [u8], xrf: &mut [u8], draft: &Draft) -> Result<u32, u32> {
    let (control, count) = gate_to_one_more(mst, xrf)?;
    let need = need(draft)?;
    let (mfn, at) = (control.next, control.end);
    if mfn > xrf.len() / 512 * 127 {
        return Err(5);
    }
    let slot = slot(mfn);
    if !numbered(xrf, mfn) || i32_at(xrf, slot) != 0 {
        return Err(6);
    }
    let record = mst.get_mut(at..at + need).ok_or(13u32)?;
    write(record, mfn, (0, 0), draft);
    xrf[slot..slot + 4].copy_from_slice(&entry_of(at, NEW, false).to_le_bytes());
    mst[4..8].copy_from_slice(&(mfn as i32 + 1).to_le_bytes());
    put_end(mst, step_over(at + need));
    put_count(mst, count + 1);
    Ok(mfn as u32)
}

/// Replaces the fields of a record.
#[inline(always)]
pub fn update(mst: &mut [u8], xrf: &mut [u8], mfn: u32, draft: &Draft) -> u32 {
    try_update(mst, xrf, mfn, draft).err().unwrap_or(0)
}

fn try_update(mst: &mut [u8], xrf: &mut [u8], mfn: u32, draft: &Draft) -> Result<(), u32> {
    let control = gate(mst, xrf)?;
    let need = need(draft)?;
    let found = found(mst, xrf, control, mfn)?;
    if found.place.deleted {
        return Err(9);
    }
    let (old, mfn) = (found.record, found.mfn);
    let (back, mark) = match found.place.mark {
        SETTLED => (((old.at / 512 + 1) as i32, (old.at % 512) as u16), CHANGED),
        mark => (old.back, mark),
    };
    if found.place.mark != SETTLED && need <= old.length {
        write(&mut mst[old.at..old.at + old.length], mfn, back, draft);
        return Ok(());
    }
    let at = control.end;
    let record = mst.get_mut(at..at + need).ok_or(13u32)?;
    write(record, mfn, back, draft);
    let slot = slot(mfn);
    xrf[slot..slot + 4].copy_from_slice(&entry_of(at, mark, false).to_le_bytes());
    put_end(mst, step_over(at + need));
    Ok(())
}
