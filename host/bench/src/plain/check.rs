//! The whole check, by the same linear method as the library's: one pass over the MFNs
//! tests every entry, record and settled version and counts the places and the live records;
//! one pass over the steps counts those places that are steps. The recount does the same.

use super::record::{settled, test};
use super::{CHANGED, Control, RECCNT, entry, gate, i32_at, numbered, put_count};
use super::{slot, step_over, u16_at};

/// The answer number of the check.
#[inline(always)]
pub fn check(mst: &[u8], xrf: &[u8]) -> u32 {
    match live(mst, xrf) {
        Ok(live) if i32_at(mst, RECCNT) == live => 0,
        Ok(_) => 14,
        Err(refusal) => refusal,
    }
}

/// The answer number of the recount.
#[inline(always)]
pub fn recount(mst: &mut [u8], xrf: &[u8]) -> u32 {
    match live(mst, xrf) {
        Ok(live) => {
            put_count(mst, live);
            0
        }
        Err(refusal) => refusal,
    }
}

/// How many records are live, on a store that is sound apart from RECCNT.
#[inline(always)]
fn live(mst: &[u8], xrf: &[u8]) -> Result<i32, u32> {
    let control = gate(mst, xrf)?;
    let capacity = xrf.len() / 512 * 127;
    let heads = (0..xrf.len() / 512).all(|block| numbered(xrf, block * 127 + 1));
    let free = (control.next..=capacity).all(|mfn| i32_at(xrf, slot(mfn)) == 0);
    if !heads || !free {
        return Err(14);
    }
    match (places(mst, xrf, control), hits(mst, xrf, control)) {
        (Some((places, live)), Some(hits)) if places == hits => Ok(live),
        _ => Err(14),
    }
}

/// How many places and back places the entries name, and how many are live; `None` if one is
/// not right.
fn places(mst: &[u8], xrf: &[u8], control: Control) -> Option<(usize, i32)> {
    let (mut places, mut live) = (0, 0);
    for mfn in 1..control.next {
        let place = match entry(i32_at(xrf, slot(mfn)), control.end) {
            Ok(place) => place,
            Err(7) => continue,
            Err(_) => return None,
        };
        let record = test(mst, control.end, mfn, place)?;
        places += 1;
        live += i32::from(!place.deleted);
        if place.mark == CHANGED {
            settled(mst, control.end, mfn, &record)?;
            places += 1;
        }
    }
    Some((places, live))
}

/// How many steps are the place, or the back place, of the MFN that stands there;
/// `None` if stepping does not arrive at the end.
fn hits(mst: &[u8], xrf: &[u8], control: Control) -> Option<usize> {
    let (mut at, mut hits) = (64, 0);
    while at < control.end {
        let length = usize::from(u16_at(mst, at + 4));
        if !length.is_multiple_of(2) || !(18..=32_766).contains(&length) {
            return None;
        }
        hits += usize::from(is_hit(mst, xrf, control, at));
        at = step_over(at + length);
    }
    (at == control.end).then_some(hits)
}

fn is_hit(mst: &[u8], xrf: &[u8], control: Control, at: usize) -> bool {
    let mfn = i32_at(mst, at);
    if mfn < 1 || mfn as usize >= control.next {
        return false;
    }
    let Ok(place) = entry(i32_at(xrf, slot(mfn as usize)), control.end) else {
        return false;
    };
    let back = (i32_at(mst, place.at + 6), u16_at(mst, place.at + 10));
    let here = ((at / 512 + 1) as i32, (at % 512) as u16);
    place.at == at || (place.mark == CHANGED && back == here)
}
