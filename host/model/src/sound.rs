//! "A sound store", as the paper states it: collect the steps of the file, then
//! hold every entry and every back place against them. Every departure is
//! reported with its place, in the paper's order.

use crate::bytes::{i32_at, u16_at};
use crate::fault::{Fault, MfnFault, StepFault};
use crate::layout::{
    BLOCK, Control, Entry, FIRST, Mark, Place, capacity, first_integer, lengths_permitted, reccnt,
    slot_at, step_over, xrf_block,
};
use crate::record;

/// Whether the store is sound.
pub fn is_sound(mst: &[u8], xrf: &[u8]) -> bool {
    faults(mst, xrf, 1).is_empty()
}

/// Whether the store is sound, whatever RECCNT is.
pub fn is_sound_apart(mst: &[u8], xrf: &[u8]) -> bool {
    faults_apart(mst, xrf, 1).is_empty()
}

/// What keeps a store from being sound, at most `limit` faults of it. RECCNT is held against
/// the entries where nothing else is wrong with them.
pub fn faults(mst: &[u8], xrf: &[u8], limit: usize) -> Vec<Fault> {
    let list = faults_apart(mst, xrf, limit);
    if list.is_empty() && limit > 0 {
        return count(mst, xrf).err().into_iter().collect();
    }
    list
}

/// RECCNT is the number of live records, on a store that is sound apart from it.
fn count(mst: &[u8], xrf: &[u8]) -> Result<(), Fault> {
    let control = Control::read(mst, xrf.len()).map_err(Fault::Control)?;
    let (found, live) = (reccnt(mst), live(xrf, control));
    if i64::from(found) == live as i64 {
        return Ok(());
    }
    Err(Fault::Count { found, live })
}

/// How many records have an entry that is neither deleted nor gone.
pub fn live(xrf: &[u8], control: Control) -> usize {
    let entry = |mfn| Entry::decode(i32_at(xrf, slot_at(mfn)), control.end);
    let live = |mfn: &usize| matches!(entry(*mfn), Ok(Entry::Place(place)) if !place.deleted);
    (1..control.next_mfn).filter(live).count()
}

/// What keeps a store from being sound apart from RECCNT.
fn faults_apart(mst: &[u8], xrf: &[u8], limit: usize) -> Vec<Fault> {
    let mut found = Faults {
        list: Vec::new(),
        limit,
    };
    let (mst_len, xrf_len) = (mst.len(), xrf.len());
    if !lengths_permitted(mst_len, xrf_len) {
        found.add(Fault::Lengths { mst_len, xrf_len });
        return found.list;
    }
    match Control::read(mst, xrf_len) {
        Err(fault) => found.add(Fault::Control(fault)),
        Ok(control) => {
            first_integers(xrf, &mut found);
            free_slots(xrf, control, &mut found);
            let steps = steps(mst, control.end, &mut found);
            for mfn in 1..control.next_mfn {
                if found.full() {
                    break;
                }
                if let Err(fault) = entry(mst, xrf, control, &steps, mfn) {
                    found.add(Fault::Mfn { mfn, fault });
                }
            }
        }
    }
    found.list
}

/// A list of faults that stops growing at its limit.
struct Faults {
    list: Vec<Fault>,
    limit: usize,
}

impl Faults {
    fn full(&self) -> bool {
        self.list.len() >= self.limit
    }

    fn add(&mut self, fault: Fault) {
        if !self.full() {
            self.list.push(fault);
        }
    }
}

/// Every XRF block's first integer is right.
fn first_integers(xrf: &[u8], found: &mut Faults) {
    for block in 1..=xrf.len() / BLOCK {
        if let Err(fault) = first_integer_of(xrf, block) {
            found.add(fault);
        }
    }
}

/// The first integer of one XRF block is right.
fn first_integer_of(xrf: &[u8], block: usize) -> Result<(), Fault> {
    let stands = i32_at(xrf, (block - 1) * BLOCK);
    let wanted = first_integer(xrf.len(), block);
    if stands == wanted {
        return Ok(());
    }
    Err(Fault::FirstInteger {
        block,
        found: stands,
        wanted,
    })
}

/// Slots from NXTMFN on are 0.
fn free_slots(xrf: &[u8], control: Control, found: &mut Faults) {
    for mfn in control.next_mfn..=capacity(xrf.len()) {
        let at = slot_at(mfn);
        let value = i32_at(xrf, at);
        if value != 0 {
            found.add(Fault::SlotUsed {
                mfn,
                at,
                found: value,
            });
        }
    }
}

/// The addresses met by stepping from 64, ascending; they must lead exactly to the end.
fn steps(mst: &[u8], end: usize, found: &mut Faults) -> Vec<usize> {
    let mut steps = Vec::new();
    let mut at = FIRST;
    while at < end {
        let mfrl = u16_at(mst, at + 4);
        if !record::length_right(mfrl) {
            let fault = StepFault::Length { mfrl };
            found.add(Fault::Step { at, fault });
            return steps;
        }
        let next = step_over(at + usize::from(mfrl));
        if next > end {
            let fault = StepFault::PastEnd { mfrl, end };
            found.add(Fault::Step { at, fault });
            return steps;
        }
        steps.push(at);
        at = next;
    }
    steps
}

/// The entry of an MFN below NXTMFN is -2048, or names a step with a well-formed
/// record whose back place, if it has one, is a step with a well-formed settled version.
fn entry(
    mst: &[u8],
    xrf: &[u8],
    control: Control,
    steps: &[usize],
    mfn: usize,
) -> Result<(), MfnFault> {
    let at = slot_at(mfn);
    let place = match Entry::decode(i32_at(xrf, at), control.end) {
        Ok(Entry::Gone) => return Ok(()),
        Ok(Entry::Place(place)) => place,
        Err(fault) => return Err(MfnFault::Entry { at, fault }),
    };
    let at = place.address();
    if steps.binary_search(&at).is_err() {
        return Err(MfnFault::NotStep { at });
    }
    match versions(mst, control.end, mfn, place)? {
        Some(at) if steps.binary_search(&at).is_err() => Err(MfnFault::BackNotStep { at }),
        _ => Ok(()),
    }
}

/// The record at a place and, under the changed mark, its settled version are well
/// formed; gives the back place.
fn versions(mst: &[u8], end: usize, mfn: usize, place: Place) -> Result<Option<usize>, MfnFault> {
    let at = place.address();
    let record = record::well_formed(mst, end, mfn, place)
        .map_err(|fault| MfnFault::Record { at, fault })?;
    if place.mark != Mark::Changed {
        return Ok(None);
    }
    let at = record::back_place(&record).address();
    record::settled_version(mst, end, mfn, &record)
        .map_err(|fault| MfnFault::Settled { at, fault })?;
    Ok(Some(at))
}

/// What is wrong with one MFN alone, as the answers 6 and 8 see it, on a store whose
/// control record is right: its XRF block's first integer, its entry, its record and
/// its settled version.
pub fn fault_of(mst: &[u8], xrf: &[u8], control: Control, mfn: usize) -> Option<Fault> {
    let at = slot_at(mfn);
    if let Err(fault) = first_integer_of(xrf, xrf_block(mfn)) {
        return Some(fault);
    }
    let fault = match Entry::decode(i32_at(xrf, at), control.end) {
        Ok(Entry::Gone) => None,
        Ok(Entry::Place(place)) => versions(mst, control.end, mfn, place).err(),
        Err(fault) => Some(MfnFault::Entry { at, fault }),
    };
    fault.map(|fault| Fault::Mfn { mfn, fault })
}
