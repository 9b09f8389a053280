//! The record test, the field search, the field of an index and the walk over all fields.

use super::{Place, i32_at, place_at, u16_at};
use model::ask::Lists;

/// What the record test found.
#[derive(Clone, Copy)]
pub struct Tested {
    pub at: usize,
    pub length: usize,
    pub base: usize,
    pub data: usize,
    pub back: (i32, u16),
}

/// Tests the record of an MFN at its place, and its back pointer.
pub fn test(mst: &[u8], end: usize, mfn: usize, place: Place) -> Option<Tested> {
    let record = &mst[place.at..end];
    let (leader, length, base) = leader(record, mfn as u32, place.deleted)?;
    let data = walk(&record[18..base], length - base).ok()?;
    let back = (i32_at(leader, 6), u16_at(leader, 10));
    let back_right = if place.mark == super::CHANGED {
        place_at(back.0, back.1, end).is_some_and(|at| at != place.at)
    } else {
        back == (0, 0)
    };
    back_right.then_some(Tested {
        at: place.at,
        length,
        base,
        data,
        back,
    })
}

/// The record test alone: the answer, and the first entry that breaks a rule.
#[inline(always)]
pub fn record_test(record: &[u8], mfn: u32, deleted: u32) -> (u32, u32) {
    let Some((_, length, base)) = leader(record, mfn, deleted != 0) else {
        return (8, 0);
    };
    match walk(&record[18..base], length - base) {
        Ok(_) => (0, 0),
        Err(entry) => (8, entry),
    }
}

/// The same, one entry in each turn of the loop: the plain way to write it.
#[inline(always)]
pub fn record_test_plainly(record: &[u8], mfn: u32, deleted: u32) -> (u32, u32) {
    let Some((_, length, base)) = leader(record, mfn, deleted != 0) else {
        return (8, 0);
    };
    let room = (length - base) as u32;
    let mut sum = 0;
    for (entry, item) in (1..).zip(record[18..base].as_chunks::<6>().0) {
        if !right(item, &mut sum, room) {
            return (8, entry);
        }
    }
    (0, 0)
}

/// A leader that is right, with MFRL and BASE.
#[inline(always)]
fn leader(record: &[u8], mfn: u32, deleted: bool) -> Option<(&[u8; 18], usize, usize)> {
    let leader: &[u8; 18] = record.first_chunk()?;
    let length = usize::from(u16_at(leader, 4));
    let base = usize::from(u16_at(leader, 12));
    let right = i32_at(leader, 0) as u32 == mfn
        && length.is_multiple_of(2)
        && (18..=32_766).contains(&length)
        && length <= record.len()
        && base == 18 + 6 * usize::from(u16_at(leader, 14))
        && base <= length
        && u16_at(leader, 16) == u16::from(deleted);
    right.then_some((leader, length, base))
}

/// One walk over the directory: the sum of its lengths, or the first entry that breaks a rule.
/// Four entries stand in each turn of the loop, which is faster than one.
#[inline(always)]
fn walk(items: &[u8], room: usize) -> Result<usize, u32> {
    let (fours, rest) = items.as_chunks::<6>().0.as_chunks::<4>();
    let (mut sum, mut entry) = (0, 0);
    for four in fours {
        for item in four {
            entry += 1;
            if !right(item, &mut sum, room as u32) {
                return Err(entry);
            }
        }
    }
    for item in rest {
        entry += 1;
        if !right(item, &mut sum, room as u32) {
            return Err(entry);
        }
    }
    Ok(sum as usize)
}

/// Whether an entry breaks no rule, with the sum of the lengths before, which becomes that up to
/// it. A tag of 1 to 32,767 is one that is above 0 if it has a sign.
#[inline(always)]
fn right(item: &[u8; 6], sum: &mut u32, room: u32) -> bool {
    let (tag, pos) = (u16_at(item, 0).cast_signed(), u32::from(u16_at(item, 2)));
    let before = *sum;
    *sum += u32::from(u16_at(item, 4));
    tag > 0 && pos == before && *sum <= room
}

/// The settled version of a changed record.
pub fn settled(mst: &[u8], end: usize, mfn: usize, record: &Tested) -> Option<Tested> {
    let at = place_at(record.back.0, record.back.1, end)?;
    let place = Place {
        at,
        mark: super::SETTLED,
        deleted: false,
    };
    test(mst, end, mfn, place)
}

/// The field of a tag and an occurrence, or how often the tag occurs.
pub fn find(mst: &[u8], record: &Tested, tag: u16, occurrence: u32) -> Result<(usize, usize), u32> {
    let base = record.at + record.base;
    let mut seen = 0;
    for item in mst[record.at + 18..base].as_chunks::<6>().0 {
        if u16_at(item, 0) == tag {
            seen += 1;
            if seen == occurrence {
                let start = base + usize::from(u16_at(item, 2));
                return Ok((start, usize::from(u16_at(item, 4))));
            }
        }
    }
    Err(seen)
}

/// Tag, start and length of the field at an index of the directory.
pub fn at_index(mst: &[u8], record: &Tested, index: usize) -> Option<(u16, usize, usize)> {
    let base = record.at + record.base;
    let item = mst[record.at + 18..base].as_chunks::<6>().0.get(index)?;
    let start = base + usize::from(u16_at(item, 2));
    Some((u16_at(item, 0), start, usize::from(u16_at(item, 4))))
}

/// Every field into three lists; how many there are, or `None` where a list is too short.
pub fn list_out(mst: &[u8], record: &Tested, lists: &mut Lists) -> Option<usize> {
    let base = record.at + record.base;
    let items = mst[record.at + 18..base].as_chunks::<6>().0;
    let tags = lists.tags.get_mut(..items.len())?;
    let starts = lists.starts.get_mut(..items.len())?;
    let lens = lists.lens.get_mut(..items.len())?;
    let outputs = tags.iter_mut().zip(starts).zip(lens);
    for (item, ((tag, start), len)) in items.iter().zip(outputs) {
        *tag = u16_at(item, 0);
        *start = base + usize::from(u16_at(item, 2));
        *len = usize::from(u16_at(item, 4));
    }
    Some(items.len())
}
