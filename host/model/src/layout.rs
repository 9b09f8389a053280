//! Sizes, addresses, the control record and the cross-reference entries.

use crate::bytes::{i32_at, put_i32, put_u16, u16_at};
use crate::fault::{ControlFault, EntryFault, PlaceFault};

/// Bytes in a block of either file.
pub const BLOCK: usize = 512;
/// Most blocks of an MST.
pub const MST_BLOCKS: usize = 1_048_575;
/// Most blocks of an XRF.
pub const XRF_BLOCKS: usize = 4_096;
/// MFNs that one XRF block holds.
pub const PER_BLOCK: usize = 127;
/// Where the first record goes: the bytes before are the control record's.
pub const FIRST: usize = 64;
/// The highest offset at which a record begins.
pub const LAST_OFFSET: usize = 498;
/// What NXTMFP holds of an end at offset 0; the old rule had 0 there.
pub const COUNT_FROM: u16 = 1;
/// The MST byte at which RECCNT begins.
pub const RECCNT: usize = 16;
/// Bytes of a leader, and so of the shortest record.
pub const LEADER: usize = 18;
/// Bytes of a directory entry.
pub const ITEM: usize = 6;
/// The longest record.
pub const LONGEST: usize = 32_766;
/// The highest tag.
pub const LAST_TAG: u16 = 32_767;

/// Whether a buffer length is 1 to `most` whole blocks.
fn whole_blocks(len: usize, most: usize) -> bool {
    len.is_multiple_of(BLOCK) && (1..=most).contains(&(len / BLOCK))
}

/// Whether both buffer lengths are permitted.
pub fn lengths_permitted(mst_len: usize, xrf_len: usize) -> bool {
    whole_blocks(mst_len, MST_BLOCKS) && whole_blocks(xrf_len, XRF_BLOCKS)
}

/// How many MFNs an XRF of this length has slots for.
pub fn capacity(xrf_len: usize) -> usize {
    xrf_len / BLOCK * PER_BLOCK
}

/// The address of block `block`, offset `offset`; negative for blocks below 1.
pub fn address(block: i64, offset: i64) -> i64 {
    (block - 1) * BLOCK as i64 + offset
}

/// The block and offset of an address.
pub fn block_and_offset(at: usize) -> (i32, u16) {
    ((at / BLOCK + 1) as i32, (at % BLOCK) as u16)
}

/// Where the next record goes after bytes that stop at `at`: an offset of 500 to
/// 510 moves on to the next block.
pub fn step_over(at: usize) -> usize {
    if at % BLOCK > LAST_OFFSET {
        at.next_multiple_of(BLOCK)
    } else {
        at
    }
}

/// What the control record says.
#[derive(Clone, Copy, Debug, PartialEq, Eq)]
pub struct Control {
    /// NXTMFN, the MFN that the next create returns.
    pub next_mfn: usize,
    /// The address where the next record goes.
    pub end: usize,
}

impl Control {
    /// Reads the control record of an MST whose length is permitted.
    pub fn read(mst: &[u8], xrf_len: usize) -> Result<Control, ControlFault> {
        Control::counted(mst, xrf_len, COUNT_FROM)
    }

    /// Reads it by the old rule, where NXTMFP was the offset itself.
    pub fn read_old(mst: &[u8], xrf_len: usize) -> Result<Control, ControlFault> {
        Control::counted(mst, xrf_len, 0)
    }

    /// Reads it where the offset is counted from a number.
    fn counted(mst: &[u8], xrf_len: usize, from: u16) -> Result<Control, ControlFault> {
        let (ctlmfn, nxtmfn) = (i32_at(mst, 0), i32_at(mst, 4));
        let (nxtmfb, nxtmfp) = (i32_at(mst, 8), u16_at(mst, 12));
        let mftype = u16_at(mst, 14);
        if ctlmfn != 0 {
            return Err(ControlFault::Ctlmfn(ctlmfn));
        }
        let most = capacity(xrf_len) as i64 + 1;
        if !(1..=most).contains(&i64::from(nxtmfn)) {
            return Err(ControlFault::Nxtmfn { nxtmfn, most });
        }
        let offset = i64::from(nxtmfp) - i64::from(from);
        let end = address(i64::from(nxtmfb), offset);
        let offset_right = (0..=LAST_OFFSET as i64).contains(&offset) && offset % 2 == 0;
        if !offset_right || end < FIRST as i64 || end > mst.len() as i64 {
            return Err(ControlFault::End { nxtmfb, nxtmfp });
        }
        if mftype != 0 {
            return Err(ControlFault::Mftype(mftype));
        }
        Ok(Control {
            next_mfn: nxtmfn as usize,
            end: end as usize,
        })
    }

    /// Writes NXTMFN, NXTMFB and NXTMFP and no other byte.
    pub fn write(self, mst: &mut [u8]) {
        let (block, offset) = block_and_offset(self.end);
        put_i32(mst, 4, self.next_mfn as i32);
        put_i32(mst, 8, block);
        put_u16(mst, 12, offset + COUNT_FROM);
    }
}

/// RECCNT, as it stands.
pub fn reccnt(mst: &[u8]) -> i32 {
    i32_at(mst, RECCNT)
}

/// Writes RECCNT.
pub fn put_reccnt(mst: &mut [u8], count: i32) {
    put_i32(mst, RECCNT, count);
}

/// Whether a change is pending, and of which kind.
#[derive(Clone, Copy, Debug, PartialEq, Eq)]
pub enum Mark {
    /// Nothing is pending.
    Settled,
    /// A settled record was changed; its settled version is kept.
    Changed,
    /// The record was never settled.
    New,
}

/// Where an entry's record stands, and in which state it is.
#[derive(Clone, Copy, Debug, PartialEq, Eq)]
pub struct Place {
    /// The block, from 1.
    pub block: i32,
    /// The offset in the block.
    pub offset: u16,
    /// Whether the record is deleted.
    pub deleted: bool,
    /// Whether a change is pending.
    pub mark: Mark,
}

/// A well-formed cross-reference entry.
#[derive(Clone, Copy, Debug, PartialEq, Eq)]
pub enum Entry {
    /// Physically deleted.
    Gone,
    /// A record's place.
    Place(Place),
}

/// The rule for the place of a record, or of a settled version: an even offset up
/// to 498, an address of 64 or more, 18 bytes before the end.
pub fn well_formed_place(block: i32, offset: u16, end: usize) -> Result<usize, PlaceFault> {
    let at = address(i64::from(block), i64::from(offset));
    let fault = if !offset.is_multiple_of(2) {
        PlaceFault::OddOffset { block, offset }
    } else if usize::from(offset) > LAST_OFFSET {
        PlaceFault::HighOffset { block, offset }
    } else if at < FIRST as i64 {
        PlaceFault::BeforeFirst { block, offset }
    } else if at + LEADER as i64 > end as i64 {
        PlaceFault::PastEnd { block, offset, end }
    } else {
        return Ok(at as usize);
    };
    Err(fault)
}

impl Entry {
    /// Takes an entry apart, with the store's end known.
    pub fn decode(value: i32, end: usize) -> Result<Entry, EntryFault> {
        if value == -2048 {
            return Ok(Entry::Gone);
        }
        if value == 0 {
            return Err(EntryFault::Unused);
        }
        // The divisor is positive, so the Euclidean quotient is the floor.
        let (block, low) = (value.div_euclid(2048), value.rem_euclid(2048));
        let mark = match low / 512 {
            0 => Mark::Settled,
            1 => Mark::Changed,
            2 => Mark::New,
            _ => return Err(EntryFault::BothMarks { value }),
        };
        let place = Place {
            block: block.abs(),
            offset: (low % 512) as u16,
            deleted: block < 0,
            mark,
        };
        match well_formed_place(place.block, place.offset, end) {
            Ok(_) => Ok(Entry::Place(place)),
            Err(fault) => Err(EntryFault::Place { value, fault }),
        }
    }
}

impl Place {
    /// The address of the place.
    pub fn address(self) -> usize {
        address(i64::from(self.block), i64::from(self.offset)) as usize
    }

    /// The place of a record that stands at an address.
    pub fn at(at: usize, deleted: bool, mark: Mark) -> Place {
        let (block, offset) = block_and_offset(at);
        Place {
            block,
            offset,
            deleted,
            mark,
        }
    }

    /// The entry that names this place.
    pub fn encode(self) -> i32 {
        let block = if self.deleted {
            -self.block
        } else {
            self.block
        };
        let mark = match self.mark {
            Mark::Settled => 0,
            Mark::Changed => 512,
            Mark::New => 1024,
        };
        block * 2048 + i32::from(self.offset) + mark
    }
}

/// The XRF block, from 1, in which an MFN stands.
pub fn xrf_block(mfn: usize) -> usize {
    (mfn - 1) / PER_BLOCK + 1
}

/// The XRF byte at which an MFN's entry begins.
pub fn slot_at(mfn: usize) -> usize {
    (xrf_block(mfn) - 1) * BLOCK + 4 + (mfn - 1) % PER_BLOCK * 4
}

/// What the first integer of XRF block `block` must be.
pub fn first_integer(xrf_len: usize, block: usize) -> i32 {
    if block == xrf_len / BLOCK {
        -(block as i32)
    } else {
        block as i32
    }
}

/// Whether the first integer of XRF block `block` is right.
pub fn first_integer_right(xrf: &[u8], block: usize) -> bool {
    i32_at(xrf, (block - 1) * BLOCK) == first_integer(xrf.len(), block)
}
