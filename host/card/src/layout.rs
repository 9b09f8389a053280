//! Where things stand on a card, by the constants of the layout. The command reads bytes
//! with these only to say where something is and what is wrong with it; whether something
//! is wrong is the library's to answer.

use isis::{Answer, CardRef, Mark};

/// Bytes of a block of either file.
pub const BLOCK: usize = 512;
/// The most blocks of an MST.
pub const MST_BLOCKS: usize = 1_048_575;
/// The most blocks of an XRF.
pub const XRF_BLOCKS: usize = 4_096;
/// Slots of an XRF block, behind its first integer.
pub const SLOTS: usize = 127;
/// The address of the first record, behind the control record.
pub const FIRST: usize = 64;
/// The highest offset of a record in its block.
pub const LAST: usize = 498;
/// What NXTMFP holds of an end at offset 0.
pub const COUNT_FROM: usize = 1;
/// The MST byte of RECCNT, how many records are neither deleted nor gone.
pub const RECCNT: usize = 16;
/// Bytes of a leader, the shortest record.
pub const LEADER: usize = 18;
/// Bytes of a field's part of the directory.
pub const ITEM: usize = 6;
/// Bytes of the longest record.
pub const LONGEST: usize = 32_766;
/// The highest tag.
pub const LAST_TAG: usize = 32_767;

/// The number in two bytes.
pub fn short(bytes: &[u8], at: usize) -> usize {
    let [low, high] = [bytes[at], bytes[at + 1]];
    usize::from(low) | usize::from(high) << 8
}

/// The number in four bytes, which has a sign.
pub fn long(bytes: &[u8], at: usize) -> i32 {
    let mut four = [0; 4];
    four.copy_from_slice(&bytes[at..at + 4]);
    i32::from_le_bytes(four)
}

/// A card that the library lets through its answers 1 and 2.
#[derive(Clone, Copy)]
pub struct Store<'a> {
    /// The master file's bytes.
    pub mst: &'a [u8],
    /// The cross-reference file's bytes.
    pub xrf: &'a [u8],
    /// NXTMFN: the MFN that the next create gives.
    pub next: usize,
    /// The address where the next record goes.
    pub end: usize,
}

/// Where a record stands, and in which state it is.
#[derive(Clone, Copy, Debug, PartialEq, Eq)]
pub struct Place {
    /// Its address.
    pub at: usize,
    /// Whether it is deleted.
    pub deleted: bool,
    /// Whether a change is pending.
    pub mark: Mark,
}

/// What an entry says.
#[derive(Debug, PartialEq, Eq)]
pub enum Entry {
    /// 0: the slot was never used.
    Unused,
    /// The record is physically deleted.
    Gone,
    /// A record stands there.
    At(Place),
    /// It names a place past the end.
    PastEnd,
    /// It names nothing; the words say why.
    Wrong(String),
}

/// Why no record stands at a block and offset.
pub enum Astray {
    /// There are not 18 bytes before the end.
    PastEnd,
    /// None ever stands there.
    Never(&'static str),
}

/// The address of a block and offset, if a record may stand there.
pub fn place(block: i64, offset: usize, end: usize) -> Result<usize, Astray> {
    let at = (block - 1) * BLOCK as i64 + offset as i64;
    match usize::try_from(at) {
        _ if offset % 2 == 1 => Err(Astray::Never("the offset is odd")),
        _ if offset > LAST => Err(Astray::Never("no record begins past offset 498")),
        Ok(at) if at >= FIRST && at + LEADER <= end => Ok(at),
        Ok(at) if at >= FIRST => Err(Astray::PastEnd),
        _ => Err(Astray::Never("this lies before address 64")),
    }
}

/// The block and offset of an address.
pub fn block_and_offset(at: usize) -> (usize, usize) {
    (at / BLOCK + 1, at % BLOCK)
}

/// Where the next record goes behind one that stops at an address.
pub fn step_over(stop: usize) -> usize {
    match stop % BLOCK {
        0..=LAST => stop,
        offset => stop + BLOCK - offset,
    }
}

/// The XRF byte of an MFN's entry.
pub fn slot_at(mfn: usize) -> usize {
    let (block, slot) = ((mfn - 1) / SLOTS, (mfn - 1) % SLOTS);
    block * BLOCK + 4 * (slot + 1)
}

/// How many MFNs an XRF has slots for.
pub fn slots(xrf: &[u8]) -> usize {
    xrf.len() / BLOCK * SLOTS
}

impl<'a> Store<'a> {
    /// A card that may be looked at, or why it may not.
    pub fn open(card: CardRef<'a>) -> Answer<Store<'a>> {
        let next = card.next()?;
        Ok(Store {
            mst: card.mst(),
            xrf: card.xrf(),
            next: next.mfn as usize,
            end: next.end,
        })
    }

    /// The card itself.
    pub fn card(&self) -> CardRef<'a> {
        CardRef::over(self.mst, self.xrf)
    }

    /// An MFN's slot of the XRF, as it stands.
    pub fn slot(&self, mfn: usize) -> i32 {
        long(self.xrf, slot_at(mfn))
    }

    /// What the entry of an MFN says.
    pub fn entry(&self, mfn: usize) -> Entry {
        let value = self.slot(mfn);
        if value == 0 {
            return Entry::Unused;
        }
        if value == -2048 {
            return Entry::Gone;
        }
        // The shift rounds toward minus infinity, as the layout has it.
        let (block, low) = (value >> 11, value as usize & 2047);
        let mark = match low >> 9 {
            0 => Mark::Settled,
            1 => Mark::Changed,
            2 => Mark::New,
            _ => return Entry::Wrong(format!("the entry {value} is marked both changed and new")),
        };
        let (block, deleted, offset) = (i64::from(block).abs(), block < 0, low & 511);
        match place(block, offset, self.end) {
            Ok(at) => Entry::At(Place { at, deleted, mark }),
            Err(Astray::PastEnd) => Entry::PastEnd,
            Err(Astray::Never(why)) => Entry::Wrong(format!(
                "the entry {value} names no place for a record: block {block}, offset {offset}: {why}"
            )),
        }
    }
}

#[cfg(test)]
mod tests {
    use super::*;

    /// What an entry says on a card with two MST blocks and the end at the last byte.
    fn says(value: i32) -> Entry {
        let xrf = [&(-1i32).to_le_bytes()[..], &value.to_le_bytes()].concat();
        let store = Store {
            mst: &[],
            xrf: &xrf,
            next: 2,
            end: 1024,
        };
        store.entry(1)
    }

    #[test]
    fn entries_are_taken_apart() {
        let at = |at, deleted, mark| Entry::At(Place { at, deleted, mark });
        assert_eq!(says(0), Entry::Unused);
        assert_eq!(says(-2048), Entry::Gone);
        assert_eq!(says(2048 + 64), at(64, false, Mark::Settled));
        assert_eq!(says(2048 + 64 + 512), at(64, false, Mark::Changed));
        assert_eq!(says(2 * 2048 + 498 - 6 + 1024), at(1004, false, Mark::New));
        assert_eq!(says(-2048 + 100), at(100, true, Mark::Settled));
        assert_eq!(says(-4096 + 10 + 1024), at(522, true, Mark::New));
        assert_eq!(says(2 * 2048 + 496), Entry::PastEnd);
        assert_eq!(says(3 * 2048), Entry::PastEnd);
        for wrong in [
            2048,
            2048 + 62,
            2048 + 65,
            2048 + 500,
            2048 + 64 + 1536,
            5,
            -1,
        ] {
            assert!(matches!(says(wrong), Entry::Wrong(_)), "{wrong}");
        }
    }

    #[test]
    fn records_begin_early_enough_in_their_block() {
        let after: Vec<usize> = [64, 498, 500, 510, 512, 1010].map(step_over).to_vec();
        assert_eq!(after, [64, 498, 512, 512, 512, 1010]);
        assert_eq!([1, 127, 128].map(slot_at), [4, 508, 516]);
    }
}
