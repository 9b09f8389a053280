//! A record by its parts, so that any of its numbers can be made wrong before it is written out.

use model::layout::{ITEM, LEADER, LONGEST};
use model::random::Random;
use model::record_test::Item;

/// A record: the numbers of its leader, the entries of its directory, and how many bytes stand
/// behind the directory, up to the store's end.
#[derive(Clone, Debug)]
#[allow(missing_docs)]
pub struct Parts {
    pub mfn: u32,
    pub mfrl: u16,
    pub back: (u32, u16),
    pub base: u16,
    pub nvf: u16,
    pub status: u16,
    pub items: Vec<Item>,
    pub behind: usize,
}

impl Parts {
    /// A right record of fields, with some bytes to spare, and others behind it.
    pub fn of(fields: &[(u16, u16)], spare: u16, behind: usize) -> Parts {
        let mut pos = 0;
        let item = |&(tag, len)| {
            pos += len;
            Item {
                tag,
                pos: pos - len,
                len,
            }
        };
        let items: Vec<Item> = fields.iter().map(item).collect();
        let base = (LEADER + ITEM * items.len()) as u16;
        let mfrl = (base + pos + spare).next_multiple_of(2);
        Parts {
            mfn: 7,
            mfrl,
            back: (0, 0),
            base,
            nvf: items.len() as u16,
            status: 0,
            items,
            behind: usize::from(mfrl - base) + behind,
        }
    }

    /// A right record at random, with at least so many fields: mostly few, sometimes as many as
    /// there can be; of lengths that all may be 0.
    pub fn right(random: &mut Random, least: usize) -> Parts {
        let most = match random.below(24) {
            0 => (LONGEST - LEADER) / ITEM,
            1..=4 => 60,
            _ => 7,
        };
        let count = random.between(least, most.max(least));
        let mut left = LONGEST - LEADER - ITEM * count;
        let longest = random.pick(&[0, 3, 20, 300, left]);
        let mut field = |_| {
            let len = random.below(longest.min(left) + 1);
            left -= len;
            (tag(random), len as u16)
        };
        let fields: Vec<(u16, u16)> = (0..count).map(&mut field).collect();
        let spare = random.below(left.min(9) + 1) as u16;
        let behind = random.pick(&[0, 0, 1, 2, 40]);
        let mut parts = Parts::of(&fields, spare, behind);
        parts.mfn = mfn(random);
        parts.status = random.pick(&[0, 0, 1]);
        if random.one_in(4) {
            // The back pointer is not asked.
            parts.back = (random.next() as u32, random.next() as u16);
        }
        parts
    }

    /// MFRL - BASE.
    pub fn room(&self) -> usize {
        usize::from(self.mfrl.saturating_sub(self.base))
    }

    /// The sum of the lengths before an entry, which counts from 1.
    pub fn sum_before(&self, entry: usize) -> usize {
        let before = self.items[..entry - 1].iter();
        before.map(|item| usize::from(item.len)).sum()
    }

    /// The bytes; those behind the directory are by chance.
    pub fn bytes(&self, random: &mut Random) -> Vec<u8> {
        let mut bytes = self.mfn.to_le_bytes().to_vec();
        bytes.extend(self.mfrl.to_le_bytes());
        bytes.extend(self.back.0.to_le_bytes());
        for number in [self.back.1, self.base, self.nvf, self.status] {
            bytes.extend(number.to_le_bytes());
        }
        for item in &self.items {
            for number in [item.tag, item.pos, item.len] {
                bytes.extend(number.to_le_bytes());
            }
        }
        let data = bytes.len();
        bytes.resize(data + self.behind, 0);
        random.fill(&mut bytes[data..]);
        bytes
    }
}

/// A tag that is right, its limits among them.
fn tag(random: &mut Random) -> u16 {
    match random.below(6) {
        0 => random.pick(&[1, 2, 255, 256, 32_766, 32_767]),
        _ => random.between(1, 32_767) as u16,
    }
}

/// An MFN, sometimes one that no card gives out.
fn mfn(random: &mut Random) -> u32 {
    match random.below(4) {
        0 => random.pick(&[0, 1, 127, 520_192, 0x7FFF_FFFF, 0x8000_0000, u32::MAX]),
        1 => random.next() as u32,
        _ => random.between(1, 300) as u32,
    }
}
