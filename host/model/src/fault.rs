//! What exactly is wrong with a card, and where: the reasons behind the answers 1,
//! 2, 6, 8 and 14, so that a person can be told more than a number.

use std::fmt;

/// What is wrong with a place.
#[derive(Clone, Copy, Debug, PartialEq, Eq)]
#[allow(missing_docs)]
pub enum PlaceFault {
    OddOffset { block: i32, offset: u16 },
    HighOffset { block: i32, offset: u16 },
    BeforeFirst { block: i32, offset: u16 },
    PastEnd { block: i32, offset: u16, end: usize },
}

impl fmt::Display for PlaceFault {
    fn fmt(&self, f: &mut fmt::Formatter<'_>) -> fmt::Result {
        match self {
            Self::OddOffset { block, offset } => {
                write!(f, "block {block}, offset {offset}: the offset is odd")
            }
            Self::HighOffset { block, offset } => write!(
                f,
                "block {block}, offset {offset}: no record begins past offset 498"
            ),
            Self::BeforeFirst { block, offset } => write!(
                f,
                "block {block}, offset {offset}: this lies before address 64"
            ),
            Self::PastEnd { block, offset, end } => write!(
                f,
                "block {block}, offset {offset}: there are not 18 bytes before the end, {end}"
            ),
        }
    }
}

/// What is wrong with the control record.
#[derive(Clone, Copy, Debug, PartialEq, Eq)]
#[allow(missing_docs)]
pub enum ControlFault {
    Ctlmfn(i32),
    Nxtmfn { nxtmfn: i32, most: i64 },
    End { nxtmfb: i32, nxtmfp: u16 },
    Mftype(u16),
}

impl fmt::Display for ControlFault {
    fn fmt(&self, f: &mut fmt::Formatter<'_>) -> fmt::Result {
        match self {
            Self::Ctlmfn(found) => write!(f, "CTLMFN (MST byte 0) is {found}, not 0"),
            Self::Nxtmfn { nxtmfn, most } => {
                write!(f, "NXTMFN (MST byte 4) is {nxtmfn}, not in 1 to {most}")
            }
            Self::End { nxtmfb, nxtmfp } => write!(
                f,
                "the end, NXTMFB {nxtmfb} and NXTMFP {nxtmfp} (MST bytes 8 and 12), is not \
                 an even offset up to 498, plus 1, at an address from 64 to the file's length"
            ),
            Self::Mftype(found) => write!(f, "MFTYPE (MST byte 14) is {found}, not 0"),
        }
    }
}

/// What is wrong with a cross-reference entry.
#[derive(Clone, Copy, Debug, PartialEq, Eq)]
#[allow(missing_docs)]
pub enum EntryFault {
    Unused,
    BothMarks { value: i32 },
    Place { value: i32, fault: PlaceFault },
}

impl fmt::Display for EntryFault {
    fn fmt(&self, f: &mut fmt::Formatter<'_>) -> fmt::Result {
        match self {
            Self::Unused => write!(
                f,
                "the entry is 0 (never used), but the MFN is below NXTMFN"
            ),
            Self::BothMarks { value } => {
                write!(f, "the entry {value} is marked both changed and new")
            }
            Self::Place { value, fault } => {
                write!(f, "the entry {value} names no place for a record: {fault}")
            }
        }
    }
}

/// What is wrong with a directory.
#[derive(Clone, Copy, Debug, PartialEq, Eq)]
#[allow(missing_docs)]
pub enum DirectoryFault {
    Tag {
        item: usize,
        found: u16,
    },
    Pos {
        item: usize,
        found: u16,
        wanted: usize,
    },
    Sum {
        item: usize,
        sum: usize,
        room: usize,
    },
}

impl fmt::Display for DirectoryFault {
    fn fmt(&self, f: &mut fmt::Formatter<'_>) -> fmt::Result {
        match self {
            Self::Tag { item, found } => {
                write!(f, "the tag of field {item} is {found}, not in 1 to 32767")
            }
            Self::Pos {
                item,
                found,
                wanted,
            } => {
                write!(f, "the POS of field {item} is {found}, not {wanted}")
            }
            Self::Sum { item, sum, room } => write!(
                f,
                "with field {item} its lengths sum to {sum}, but only {room} bytes follow its BASE"
            ),
        }
    }
}

/// What is wrong with a back pointer.
#[derive(Clone, Copy, Debug, PartialEq, Eq)]
#[allow(missing_docs)]
pub enum BackFault {
    NotZero { block: i32, offset: u16 },
    Place(PlaceFault),
    Own,
}

impl fmt::Display for BackFault {
    fn fmt(&self, f: &mut fmt::Formatter<'_>) -> fmt::Result {
        match self {
            Self::NotZero { block, offset } => write!(
                f,
                "its back pointer is {block}/{offset}, but it must be 0/0"
            ),
            Self::Place(fault) => write!(f, "its back pointer names no place: {fault}"),
            Self::Own => write!(f, "its back pointer names the record itself"),
        }
    }
}

/// What is wrong with a record.
#[derive(Clone, Copy, Debug, PartialEq, Eq)]
#[allow(missing_docs)]
pub enum RecordFault {
    Short { found: usize },
    Mfn { found: i32 },
    Mfrl { found: u16 },
    PastEnd { mfrl: u16, left: usize },
    Base { found: u16, nvf: u16 },
    BasePastMfrl { base: u16, mfrl: u16 },
    Directory(DirectoryFault),
    Status { found: u16, wanted: u16 },
    Back(BackFault),
}

/// A rule of the record test, so that tests can say that each was broken.
#[derive(Clone, Copy, Debug, PartialEq, Eq, PartialOrd, Ord, Hash)]
pub enum Rule {
    /// There are 18 bytes.
    Bytes,
    /// The MFN field.
    Mfn,
    /// MFRL is in range.
    Mfrl,
    /// The record stops at or before the end.
    BeforeEnd,
    /// BASE = 18 + 6 × NVF.
    Base,
    /// BASE is at most MFRL.
    BaseWithin,
    /// STATUS.
    Status,
    /// An entry's tag.
    Tag,
    /// An entry's POS.
    Pos,
    /// The sum of the lengths up to an entry.
    Sum,
}

impl Rule {
    /// Those of the leader.
    pub const OF_LEADER: [Rule; 7] = [
        Rule::Bytes,
        Rule::Mfn,
        Rule::Mfrl,
        Rule::BeforeEnd,
        Rule::Base,
        Rule::BaseWithin,
        Rule::Status,
    ];

    /// Those of an entry.
    pub const OF_ENTRY: [Rule; 3] = [Rule::Tag, Rule::Pos, Rule::Sum];
}

impl RecordFault {
    /// The rule of the record test that is broken; the back pointer is no part of that.
    pub fn rule(self) -> Option<Rule> {
        Some(match self {
            Self::Short { .. } => Rule::Bytes,
            Self::Mfn { .. } => Rule::Mfn,
            Self::Mfrl { .. } => Rule::Mfrl,
            Self::PastEnd { .. } => Rule::BeforeEnd,
            Self::Base { .. } => Rule::Base,
            Self::BasePastMfrl { .. } => Rule::BaseWithin,
            Self::Status { .. } => Rule::Status,
            Self::Directory(DirectoryFault::Tag { .. }) => Rule::Tag,
            Self::Directory(DirectoryFault::Pos { .. }) => Rule::Pos,
            Self::Directory(DirectoryFault::Sum { .. }) => Rule::Sum,
            Self::Back(_) => return None,
        })
    }

    /// The number of the directory's entry that breaks a rule, from 1; 0 for any other fault.
    pub fn entry(self) -> usize {
        match self {
            Self::Directory(
                DirectoryFault::Tag { item, .. }
                | DirectoryFault::Pos { item, .. }
                | DirectoryFault::Sum { item, .. },
            ) => item,
            _ => 0,
        }
    }
}

impl fmt::Display for RecordFault {
    fn fmt(&self, f: &mut fmt::Formatter<'_>) -> fmt::Result {
        match self {
            Self::Short { found } => write!(f, "it has {found} bytes, and a leader has 18"),
            Self::Mfn { found } => write!(f, "its MFN field is {found}"),
            Self::Mfrl { found } => {
                write!(
                    f,
                    "its MFRL is {found}, not an even number from 18 to 32766"
                )
            }
            Self::PastEnd { mfrl, left } => write!(
                f,
                "with its MFRL of {mfrl} it runs past the end: {left} bytes are left"
            ),
            Self::Base { found, nvf } => {
                write!(f, "its BASE is {found}, not 18 + 6 times its NVF of {nvf}")
            }
            Self::BasePastMfrl { base, mfrl } => {
                write!(f, "its BASE of {base} is more than its MFRL of {mfrl}")
            }
            Self::Directory(fault) => fault.fmt(f),
            Self::Status { found, wanted } => {
                write!(f, "its STATUS is {found}, but it must be {wanted}")
            }
            Self::Back(fault) => fault.fmt(f),
        }
    }
}

/// What is wrong with an MFN below NXTMFN: its entry, its record, its settled version.
#[derive(Clone, Copy, Debug, PartialEq, Eq)]
#[allow(missing_docs)]
pub enum MfnFault {
    Entry { at: usize, fault: EntryFault },
    NotStep { at: usize },
    Record { at: usize, fault: RecordFault },
    BackNotStep { at: usize },
    Settled { at: usize, fault: RecordFault },
}

impl fmt::Display for MfnFault {
    fn fmt(&self, f: &mut fmt::Formatter<'_>) -> fmt::Result {
        match self {
            Self::Entry { at, fault } => write!(f, "XRF byte {at}: {fault}"),
            Self::NotStep { at } => write!(
                f,
                "record: its entry names MST byte {at}, where stepping from 64 finds none"
            ),
            Self::Record { at, fault } => write!(f, "record at MST byte {at}: {fault}"),
            Self::BackNotStep { at } => write!(
                f,
                "settled version: its back pointer names MST byte {at}, where stepping from 64 \
                 finds none"
            ),
            Self::Settled { at, fault } => {
                write!(f, "settled version at MST byte {at}: {fault}")
            }
        }
    }
}

/// Where stepping from address 64 goes wrong.
#[derive(Clone, Copy, Debug, PartialEq, Eq)]
#[allow(missing_docs)]
pub enum StepFault {
    Length { mfrl: u16 },
    PastEnd { mfrl: u16, end: usize },
}

impl fmt::Display for StepFault {
    fn fmt(&self, f: &mut fmt::Formatter<'_>) -> fmt::Result {
        match self {
            Self::Length { mfrl } => {
                write!(f, "has MFRL {mfrl}, not an even number from 18 to 32766")
            }
            Self::PastEnd { mfrl, end } => {
                write!(f, "with its MFRL of {mfrl} runs past the end, {end}")
            }
        }
    }
}

/// What is wrong with a card.
#[derive(Clone, Copy, Debug, PartialEq, Eq)]
#[allow(missing_docs)]
pub enum Fault {
    Lengths {
        mst_len: usize,
        xrf_len: usize,
    },
    Control(ControlFault),
    FirstInteger {
        block: usize,
        found: i32,
        wanted: i32,
    },
    SlotUsed {
        mfn: usize,
        at: usize,
        found: i32,
    },
    Step {
        at: usize,
        fault: StepFault,
    },
    Mfn {
        mfn: usize,
        fault: MfnFault,
    },
    Count {
        found: i32,
        live: usize,
    },
}

impl fmt::Display for Fault {
    fn fmt(&self, f: &mut fmt::Formatter<'_>) -> fmt::Result {
        match self {
            Self::Lengths { mst_len, xrf_len } => write!(
                f,
                "the MST has {mst_len} bytes and the XRF {xrf_len}; permitted are 1 to \
                 1048575 and 1 to 4096 blocks of 512 bytes"
            ),
            Self::Control(fault) => write!(f, "control record: {fault}"),
            Self::FirstInteger {
                block,
                found,
                wanted,
            } => write!(
                f,
                "XRF block {block} (byte {}): its first integer is {found}, not {wanted}",
                (block - 1) * 512
            ),
            Self::SlotUsed { mfn, at, found } => write!(
                f,
                "XRF byte {at}: MFN {mfn} was never given out, but its slot holds {found}, not 0"
            ),
            Self::Step { at, fault } => write!(f, "MST byte {at}: the record met there {fault}"),
            Self::Mfn { mfn, fault } => write!(f, "MFN {mfn}, {fault}"),
            Self::Count { found, live } => write!(
                f,
                "RECCNT (MST byte 16) is {found}, and {live} entries are neither deleted nor gone"
            ),
        }
    }
}
