//! Damaged cards: made by a list from format, then changed in one number at a time, with
//! the numbers that are most likely to be believed: entries, leaders, directories; and RECCNT,
//! which is planted where something changes, or made right for the entries as they are.

use crate::families::{Family, any_call, rubbish};
use crate::trial::{Run, Step};
use model::call::Call;
use model::layout::{BLOCK, Control, Entry, PER_BLOCK, Place, RECCNT, lengths_permitted, slot_at};
use model::lists::{PLANTED, Taste};
use model::random::Random;
use model::{sound, store};

/// Cards made by a list from format and then damaged again and again; most damage is
/// repaired after some calls, so that the next one is met on a card that is else sound.
#[derive(Debug, Default)]
pub struct Damaged {
    building: usize,
    steps: usize,
    repair: Option<Step>,
}

impl Family for Damaged {
    fn card(&mut self, random: &mut Random) -> (Vec<u8>, Vec<u8>) {
        self.building = random.between(4, 60);
        self.steps = self.building + random.between(20, 120);
        self.repair = None;
        let (mst, xrf) = random.pick(&[(2, 1), (4, 1), (8, 1), (8, 2), (16, 1)]);
        rubbish(random, mst, xrf)
    }

    fn next(&mut self, random: &mut Random, run: &Run, done: usize) -> Option<Step> {
        if done == 0 {
            return Some(Step::Call(Call::Format));
        }
        if done == self.steps {
            return None;
        }
        if done > self.building && random.one_in(3) {
            if let Some(repair) = self.repair.take()
                && !random.one_in(8)
            {
                return Some(repair);
            }
            let (damage, repair) = damage(random, run);
            self.repair = repair;
            return Some(damage);
        }
        let taste = Taste {
            format_in: if done > self.building { 60 } else { 10_000 },
            ..Taste::SHORT
        };
        Some(Step::Call(any_call(random, taste, run)))
    }
}

/// A poke, and the poke that takes it back.
fn damage(random: &mut Random, run: &Run) -> (Step, Option<Step>) {
    let (mst, xrf) = run.card();
    let (in_xrf, at, bytes) = match random.below(16) {
        0 => control_damage(random, mst),
        1 => first_integer_damage(random, xrf),
        2..=5 => entry_damage(random, run),
        6..=9 => leader_damage(random, run),
        10 => directory_damage(random, run),
        11 => made_old(mst),
        13..=15 => planted(random, run),
        _ => {
            let in_xrf = random.one_in(3);
            let at = random.below(if in_xrf { xrf.len() } else { mst.len() });
            (in_xrf, at, vec![1 << random.below(8)])
        }
    };
    let file = if in_xrf { xrf } else { mst };
    let before = file.get(at..at + bytes.len()).map(<[u8]>::to_vec);
    let poke = |bytes| Step::Poke {
        xrf: in_xrf,
        at,
        bytes,
    };
    (poke(bytes), before.map(poke))
}

/// A place in a file and the bytes to put there.
pub type Poke = (bool, usize, Vec<u8>);

/// A 2-byte number near an old one, or at some edge.
pub fn near(random: &mut Random, old: u16) -> u16 {
    match random.below(3) {
        0 => old.wrapping_add(random.pick(&[1, 2, 6, 0xFFFF, 0xFFFE, 0x8000, 512])),
        1 => random.pick(&[
            0, 1, 2, 17, 18, 24, 64, 498, 500, 32_766, 32_767, 32_768, 65_535,
        ]),
        _ => random.next() as u16,
    }
}

/// A 4-byte number near an old one, or at some edge.
fn near_long(random: &mut Random, old: i32) -> i32 {
    match random.below(3) {
        0 => old.wrapping_add(random.pick(&[1, -1, 2, -2, 512, 1024, 2048, -2048, 4096])),
        1 => random.pick(&[0, 1, -1, 2, 127, 128, -2048, i32::MIN, i32::MAX, 64, 2112]),
        _ => random.next() as i32,
    }
}

fn short_at(bytes: &[u8], at: usize) -> u16 {
    bytes
        .get(at..at + 2)
        .map_or(0, |b| u16::from_le_bytes([b[0], b[1]]))
}

fn long_at(bytes: &[u8], at: usize) -> i32 {
    let long = bytes.get(at..at + 4);
    long.map_or(0, |b| i32::from_le_bytes([b[0], b[1], b[2], b[3]]))
}

fn control_damage(random: &mut Random, mst: &[u8]) -> Poke {
    match random.below(5) {
        0..=2 => {
            let at = random.pick(&[0, 4, 8]);
            let value = near_long(random, long_at(mst, at));
            (false, at, value.to_le_bytes().to_vec())
        }
        _ => {
            let at = random.pick(&[12, 14]);
            let value = near(random, short_at(mst, at));
            (false, at, value.to_le_bytes().to_vec())
        }
    }
}

/// RECCNT at one of its edges, off by a little, or right for the entries as they are now, so
/// that a card with an entry that somebody has made gone may be sound.
pub fn planted(random: &mut Random, run: &Run) -> Poke {
    let (mst, xrf) = run.card();
    let value = match random.below(4) {
        0..=1 => random.pick(&PLANTED),
        2 => near_long(random, long_at(mst, RECCNT)),
        _ => live(mst, xrf),
    };
    (false, RECCNT, value.to_le_bytes().to_vec())
}

/// The number that RECCNT should hold; 0 if the control record is not right.
pub fn live(mst: &[u8], xrf: &[u8]) -> i32 {
    store::gate(mst, xrf).map_or(0, |control| sound::live(xrf, control) as i32)
}

/// No damage: the card as the old rule has it, NXTMFP one less.
fn made_old(mst: &[u8]) -> Poke {
    let count = short_at(mst, 12).wrapping_sub(1);
    (false, 12, count.to_le_bytes().to_vec())
}

fn first_integer_damage(random: &mut Random, xrf: &[u8]) -> Poke {
    let block = random.below(xrf.len() / BLOCK);
    let value = match random.below(3) {
        0 => block as i32 + 1,
        1 => -(block as i32) - 1,
        _ => random.below(4) as i32 - 2,
    };
    (true, block * BLOCK, value.to_le_bytes().to_vec())
}

/// The places that the entries of the model's card name.
fn places(run: &Run) -> Vec<Place> {
    let (mst, xrf) = run.card();
    if !lengths_permitted(mst.len(), xrf.len()) {
        return Vec::new();
    }
    let Ok(control) = Control::read(mst, xrf.len()) else {
        return Vec::new();
    };
    (1..control.next_mfn)
        .filter_map(|mfn| Entry::decode(long_at(xrf, slot_at(mfn)), control.end).ok())
        .filter_map(|entry| match entry {
            Entry::Place(place) => Some(place),
            Entry::Gone => None,
        })
        .collect()
}

fn entry_damage(random: &mut Random, run: &Run) -> Poke {
    let (_, xrf) = run.card();
    let capacity = xrf.len() / BLOCK * PER_BLOCK;
    let mfn = random.between(1, run.next_mfn() + 1).min(capacity);
    let at = slot_at(mfn);
    let old = long_at(xrf, at);
    let places = places(run);
    let value = match random.below(10) {
        0 if !places.is_empty() => random.pick(&places).encode(),
        1 => 0,
        2..=4 => -2048,
        // The same place under another mark, or deleted, or alive again.
        5 => old ^ random.pick(&[512, 1024, 1536]),
        6 => old.wrapping_sub(2 * old.div_euclid(2048).wrapping_mul(2048)),
        7 => old.rem_euclid(2048),
        _ => near_long(random, old),
    };
    (true, at, value.to_le_bytes().to_vec())
}

/// The address of some record, current or older.
fn some_record(random: &mut Random, run: &Run) -> usize {
    let places = places(run);
    if places.is_empty() {
        return 64;
    }
    let at = random.pick(&places).address();
    let (block, offset) = (
        long_at(run.card().0, at + 6),
        short_at(run.card().0, at + 10),
    );
    let back = model::layout::address(i64::from(block), i64::from(offset));
    if block > 0 && random.one_in(2) && (back as usize) < run.card().0.len() {
        back as usize
    } else {
        at
    }
}

fn leader_damage(random: &mut Random, run: &Run) -> Poke {
    let mst = run.card().0;
    let at = some_record(random, run);
    match random.below(8) {
        0 => {
            let value = near_long(random, long_at(mst, at));
            (false, at, value.to_le_bytes().to_vec())
        }
        1 => back_damage(random, run, at),
        2 => {
            // NVF and BASE changed together.
            let nvf = near(random, short_at(mst, at + 14));
            let base = nvf.wrapping_mul(6).wrapping_add(18);
            let bytes = [base.to_le_bytes(), nvf.to_le_bytes()].concat();
            (false, at + 12, bytes)
        }
        _ => {
            let field = at + random.pick(&[4, 4, 10, 12, 14, 16]);
            let value = near(random, short_at(mst, field));
            (false, field, value.to_le_bytes().to_vec())
        }
    }
}

/// A back pointer to some record, or to somewhere.
fn back_damage(random: &mut Random, run: &Run, at: usize) -> Poke {
    let places = places(run);
    let (block, offset) = if places.is_empty() || random.one_in(2) {
        (near_long(random, 1), near(random, 64))
    } else {
        let place = random.pick(&places);
        (place.block, place.offset)
    };
    let bytes = [&block.to_le_bytes()[..], &offset.to_le_bytes()[..]].concat();
    (false, at + 6, bytes)
}

fn directory_damage(random: &mut Random, run: &Run) -> Poke {
    let mst = run.card().0;
    let at = some_record(random, run) + 18 + 2 * random.below(9);
    let value = near(random, short_at(mst, at));
    (false, at, value.to_le_bytes().to_vec())
}
