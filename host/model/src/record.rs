//! Records: the leader, the directory, the data, and the back pointer; what else "Records" asks is
//! the record test ([`record_test`](crate::record_test)).

use crate::answer::Refusal;
use crate::bytes::{i32_at, put_i32, put_u16, u16_at};
use crate::draft::Draft;
use crate::fault::{BackFault, RecordFault};
use crate::layout::{ITEM, LEADER, LONGEST, Mark, Place, block_and_offset, well_formed_place};
use crate::record_test::{Paper, test_by};
use std::ops::Range;

/// The eighteen bytes that a record begins with.
#[derive(Clone, Copy, Debug, PartialEq, Eq)]
pub struct Leader {
    /// The record's own MFN.
    pub mfn: i32,
    /// MFRL, the record's length.
    pub length: u16,
    /// MFBWB, the block of the settled version, or 0.
    pub back_block: i32,
    /// MFBWP, the offset of the settled version, or 0.
    pub back_offset: u16,
    /// BASE, where the data begin.
    pub base: u16,
    /// NVF, the number of fields.
    pub fields: u16,
    /// STATUS, 1 if deleted.
    pub status: u16,
}

impl Leader {
    /// Reads the leader at an address.
    pub fn read(mst: &[u8], at: usize) -> Leader {
        Leader {
            mfn: i32_at(mst, at),
            length: u16_at(mst, at + 4),
            back_block: i32_at(mst, at + 6),
            back_offset: u16_at(mst, at + 10),
            base: u16_at(mst, at + 12),
            fields: u16_at(mst, at + 14),
            status: u16_at(mst, at + 16),
        }
    }

    /// Writes the leader at an address.
    pub fn write(&self, mst: &mut [u8], at: usize) {
        put_i32(mst, at, self.mfn);
        put_u16(mst, at + 4, self.length);
        put_i32(mst, at + 6, self.back_block);
        put_u16(mst, at + 10, self.back_offset);
        put_u16(mst, at + 12, self.base);
        put_u16(mst, at + 14, self.fields);
        put_u16(mst, at + 16, self.status);
    }
}

/// Whether an MFRL is even and in 18 to 32,766.
pub fn length_right(length: u16) -> bool {
    length.is_multiple_of(2) && (LEADER..=LONGEST).contains(&usize::from(length))
}

/// A record that passed the test.
#[derive(Clone, Copy, Debug)]
pub struct Record {
    /// Its address.
    pub at: usize,
    /// Its leader.
    pub leader: Leader,
    /// The sum of its field lengths.
    pub data: usize,
}

/// Tests the record of MFN `mfn` at its entry's place, with the end known: the record test, and
/// then the back pointer.
pub fn well_formed(
    mst: &[u8],
    end: usize,
    mfn: usize,
    place: Place,
) -> Result<Record, RecordFault> {
    let at = place.address();
    let (leader, data) = test_by(&Paper, &mst[at..end], mfn as u32, place.deleted.into())?;
    back_pointer(&leader, at, end, place.mark).map_err(RecordFault::Back)?;
    Ok(Record { at, leader, data })
}

/// Tests the back pointer of a record at `at` under a mark.
fn back_pointer(leader: &Leader, at: usize, end: usize, mark: Mark) -> Result<(), BackFault> {
    let (block, offset) = (leader.back_block, leader.back_offset);
    if mark != Mark::Changed {
        return if (block, offset) == (0, 0) {
            Ok(())
        } else {
            Err(BackFault::NotZero { block, offset })
        };
    }
    let back = well_formed_place(block, offset, end).map_err(BackFault::Place)?;
    if back == at {
        return Err(BackFault::Own);
    }
    Ok(())
}

/// Tests the settled version of a changed record that passed its own test.
pub fn settled_version(
    mst: &[u8],
    end: usize,
    mfn: usize,
    record: &Record,
) -> Result<Record, RecordFault> {
    well_formed(mst, end, mfn, back_place(record))
}

/// Where the back pointer of a changed record leads: a live place without a mark.
pub fn back_place(record: &Record) -> Place {
    Place {
        block: record.leader.back_block,
        offset: record.leader.back_offset,
        deleted: false,
        mark: Mark::Settled,
    }
}

impl Record {
    /// Tag, start and length of every field in directory order, as parts of the MST.
    pub fn fields(self, mst: &[u8]) -> impl Iterator<Item = (u16, Range<usize>)> {
        let base = self.at + usize::from(self.leader.base);
        mst[self.at + LEADER..base]
            .chunks_exact(ITEM)
            .map(move |item| {
                let start = base + usize::from(u16_at(item, 2));
                let stop = start + usize::from(u16_at(item, 4));
                (u16_at(item, 0), start..stop)
            })
    }

    /// The field of a tag and an occurrence, counted from 1. Answer 12 if the tag does not
    /// occur or occurrence 0 is asked; 15, with how often it occurs, if that is less often.
    pub fn find(self, mst: &[u8], tag: u16, occurrence: u32) -> Result<Range<usize>, Refusal> {
        let mut parts = Vec::new();
        for (its, part) in self.fields(mst) {
            if its == tag {
                parts.push(part);
            }
        }
        if occurrence == 0 || parts.is_empty() {
            return Err(Refusal::NoField);
        }
        let part = parts.get(occurrence as usize - 1).cloned();
        part.ok_or(Refusal::Fewer(parts.len() as u32))
    }
}

/// A back pointer: block and offset, 0/0 for none.
pub type Back = (i32, u16);

/// The back pointer to a record at an address.
pub fn back_to(at: usize) -> Back {
    block_and_offset(at)
}

/// Writes the record that the layout gives for a draft into its `length` bytes at `at`.
pub fn write_draft(
    mst: &mut [u8],
    at: usize,
    mfn: usize,
    length: usize,
    back: Back,
    draft: &Draft,
) {
    let fields = draft.tags.len();
    let base = LEADER + ITEM * fields;
    Leader {
        mfn: mfn as i32,
        length: length as u16,
        back_block: back.0,
        back_offset: back.1,
        base: base as u16,
        fields: fields as u16,
        status: 0,
    }
    .write(mst, at);
    let mut pos = 0;
    let items = &mut mst[at + LEADER..at + base];
    for (item, (&tag, &len)) in items
        .chunks_exact_mut(ITEM)
        .zip(draft.tags.iter().zip(draft.lens))
    {
        put_u16(item, 0, tag);
        put_u16(item, 2, pos as u16);
        put_u16(item, 4, len);
        pos += usize::from(len);
    }
    mst[at + base..at + base + pos].copy_from_slice(draft.data);
    mst[at + base + pos..at + length].fill(0);
}
