//! Families of random records: right ones; those with one rule of the leader, or one of an entry,
//! broken by meaning; and those of bytes changed, cut off, or all by chance.

use super::Parts;
use super::compare::Case;
use crate::damage::near;
use model::layout::{ITEM, LEADER};
use model::random::Random;

/// A case of a record by its parts, held to its own MFN and to its own STATUS, where any number
/// but 0 says that it is deleted.
fn case(what: String, parts: &Parts, deleted: bool, random: &mut Random) -> Case {
    let not_0 = random.pick(&[1, 1, 2, 256, 65_536, 0x8000_0000, u32::MAX]);
    Case {
        what,
        record: parts.bytes(random),
        mfn: parts.mfn,
        deleted: if deleted { not_0 } else { 0 },
        known: None,
    }
}

/// A record that passes.
pub fn right(random: &mut Random) -> Case {
    let parts = Parts::right(random, 0);
    let case = case("right".into(), &parts, parts.status == 1, random);
    Case {
        known: Some((0, 0)),
        ..case
    }
}

/// A record with one rule of its leader broken, and an entry of its directory too in one of two.
pub fn leaders(random: &mut Random) -> Case {
    let mut parts = Parts::right(random, 0);
    let deleted = parts.status == 1;
    if random.one_in(2) && !parts.items.is_empty() {
        let entry = random.between(1, parts.items.len());
        break_entry(&mut parts, entry, random);
    }
    let (own, len) = (parts.mfn, LEADER + ITEM * parts.items.len() + parts.behind);
    let what = break_leader(&mut parts, len, random);
    let case = case(what.into(), &parts, deleted, random);
    Case {
        mfn: own,
        known: Some((8, 0)),
        ..case
    }
}

/// Breaks a rule of the leader of a record of so many bytes.
fn break_leader(parts: &mut Parts, len: usize, random: &mut Random) -> &'static str {
    match random.below(9) {
        0 => {
            parts.mfn ^= 1 << random.below(32);
            "another MFN"
        }
        1 => {
            parts.mfrl += 1;
            "an odd MFRL"
        }
        2 => {
            parts.mfrl = random.pick(&[0, 2, 16, 32_768, 40_000, 65_534]);
            parts.behind = parts.behind.max(parts.mfrl.into());
            "MFRL out of range"
        }
        3 => {
            let past = len + 1 + random.below(100);
            parts.mfrl = past.next_multiple_of(2) as u16;
            "MFRL past the end"
        }
        4 => {
            parts.base = parts
                .base
                .wrapping_add(random.pick(&[1, 6, 0xFFFA, 0x8000]));
            "another BASE"
        }
        5 => {
            parts.nvf = parts.nvf.wrapping_add(random.pick(&[1, 2, 0xFFFF, 0x8000]));
            "another NVF"
        }
        6 => {
            let (nvf, base) =
                random.pick(&[(10_923, 20), (10_924, 26), (10_925, 32), (21_846, 22)]);
            (parts.nvf, parts.base) = (nvf, base);
            "NVF that is right in 16 bits"
        }
        7 => {
            let more = parts.room() / ITEM + 1;
            parts.nvf += more as u16;
            parts.base += (ITEM * more) as u16;
            "BASE past MFRL"
        }
        _ => {
            parts.status = match parts.status {
                0 => random.pick(&[1, 2, 256, 65_535]),
                _ => random.pick(&[0, 2, 257, 65_535]),
            };
            "another STATUS"
        }
    }
}

/// A record whose leader is right, with an entry broken in one of the three ways, or several: at
/// the first, the last, or any. Entries behind it may be broken too.
pub fn entries(random: &mut Random) -> Case {
    let mut parts = Parts::right(random, 1);
    let last = parts.items.len();
    let entry = match random.below(4) {
        0 => 1,
        1 => last,
        2 => last.div_ceil(2),
        _ => random.between(1, last),
    };
    let how = break_entry(&mut parts, entry, random);
    if entry < last && random.one_in(3) {
        let behind = random.between(entry + 1, last);
        break_entry(&mut parts, behind, random);
    }
    let what = format!("{how} of entry {entry} of {last}");
    let case = case(what, &parts, parts.status == 1, random);
    Case {
        known: Some((8, entry as u32)),
        ..case
    }
}

/// Breaks one rule of an entry, or all.
fn break_entry(parts: &mut Parts, entry: usize, random: &mut Random) -> &'static str {
    let at = entry - 1;
    match random.below(5) {
        0 => {
            parts.items[at].tag = random.pick(&[0, 32_768, 32_769, 65_535]);
            "TAG"
        }
        1 => {
            let off = random.pick(&[1, 2, 6, 255, 256, 0x8000, 0xFFFF, 0xFFFE]);
            parts.items[at].pos = parts.items[at].pos.wrapping_add(off);
            "POS"
        }
        2 => {
            let most = parts.room().saturating_sub(parts.sum_before(entry));
            let more = random.pick(&[1, 2, 256, 32_000]);
            parts.items[at].len = (most + more).min(65_535) as u16;
            "LEN"
        }
        3 => {
            wrap(parts, entry);
            "LEN, right in 16 bits,"
        }
        _ => {
            let item = &mut parts.items[at];
            (item.tag, item.pos) = (0, item.pos ^ 1);
            item.len = 65_535;
            "all"
        }
    }
}

/// Makes the lengths up to an entry sum to 65,536 or more, which is what it was in 16 bits where
/// that can be; the POS behind it is then right in 16 bits.
fn wrap(parts: &mut Parts, entry: usize) {
    let (before, last) = (parts.sum_before(entry), parts.items.len());
    let wrapped = 65_536usize.saturating_sub(before).min(65_535);
    parts.items[entry - 1].len = wrapped as u16;
    if entry < last {
        parts.items[entry].pos = ((before + wrapped) % 65_536) as u16;
    }
}

/// A right record that is held to another MFN, or to being deleted or not.
pub fn arguments(random: &mut Random) -> Case {
    let parts = Parts::right(random, 0);
    let case = case("arguments".into(), &parts, random.one_in(2), random);
    let mfn = match random.below(4) {
        0 => random.next() as u32,
        1 => parts.mfn ^ 1 << random.below(32),
        _ => parts.mfn,
    };
    Case { mfn, ..case }
}

/// A right record with numbers of its leader and its directory changed, or cut at any length.
pub fn poked(random: &mut Random) -> Case {
    let parts = Parts::right(random, 0);
    let mut case = case(String::new(), &parts, parts.status == 1, random);
    let bytes = &mut case.record;
    let numbers = (LEADER + ITEM * parts.items.len()) / 2;
    for _ in 0..random.pick(&[1, 1, 2, 5]) {
        let first = numbers.min(random.pick(&[9, 21, numbers]));
        let at = 2 * random.below(first);
        let old = u16::from_le_bytes([bytes[at], bytes[at + 1]]);
        bytes[at..at + 2].copy_from_slice(&near(random, old).to_le_bytes());
    }
    if random.one_in(3) {
        bytes.truncate(random.below(bytes.len() + 1));
    }
    case.what = format!("{} bytes, poked", case.record.len());
    case
}

/// A leader that is right, and a directory in which each number is right but for one in so many.
pub fn chance(random: &mut Random) -> Case {
    let mut parts = Parts::right(random, 1);
    let one_in = random.pick(&[2, 5, 20, 100]);
    for item in &mut parts.items {
        for number in [&mut item.tag, &mut item.pos, &mut item.len] {
            if random.one_in(one_in) {
                *number = near(random, *number);
            }
        }
    }
    let what = format!("one in {one_in} by chance");
    case(what, &parts, parts.status == 1, random)
}

/// Any bytes, of lengths about the leader's or any, held to what stands there; in one of three
/// the numbers of a leader without fields stand before them.
pub fn rubbish(random: &mut Random) -> Case {
    let len = match random.below(3) {
        0 => random.below(200),
        _ => random.below(26),
    };
    let mut record = vec![0; len];
    random.fill(&mut record);
    if random.one_in(3) {
        let mfrl = random.pick(&[18, 20, 24, 26]);
        let leader = [0, 0, mfrl, 0, 0, 0, 18, 0, 0u16].map(u16::to_le_bytes);
        for (byte, own) in record.iter_mut().zip(leader.as_flattened()).skip(4) {
            *byte = *own;
        }
    }
    let mfn = record
        .first_chunk()
        .map_or(0, |four| u32::from_le_bytes(*four));
    let deleted = record.get(16).copied().unwrap_or(0);
    Case {
        what: "rubbish".into(),
        record,
        mfn,
        deleted: deleted.into(),
        known: None,
    }
}
