//! The calls on postings, and what the model's reader says of them.

use crate::search::Search;
use differential::postings::{Element, Given, given_by};
use model::Call;
use model::ask::RUBBISH;
use model::postings::Place;
use model::postings::fault::Why;
use model::postings::posting::{self, Posting};
use model::postings::read::{Merge, Request, merged_by, postings_by};

/// A call on postings.
#[derive(Clone, Debug, PartialEq, Eq)]
#[allow(missing_docs)]
pub enum Posted {
    Postings {
        from: Place,
        room: usize,
    },
    Merged {
        merge: Merge,
        from: [Place; 2],
        room: usize,
    },
    Read(Vec<u8>),
    Write {
        numbers: [u32; 4],
        room: usize,
    },
    Compare([u64; 2]),
}

/// What a call must give: its answer, every output that some call has, and the list, whole.
#[derive(Clone, Debug)]
#[allow(missing_docs)]
pub struct Outputs {
    pub answer: u32,
    pub count: u64,
    pub numbers: [u32; 4],
    pub list: Vec<u8>,
}

impl Outputs {
    /// An answer alone: the runner fills all outputs with rubbish.
    fn none(answer: u32) -> Outputs {
        Outputs {
            answer,
            count: u64::from_ne_bytes([RUBBISH; 8]),
            numbers: [u32::from_ne_bytes([RUBBISH; 4]); 4],
            list: Vec::new(),
        }
    }

    /// An answer with a count and a list.
    fn listed<T: Element>(given: Given<T>, bytes: impl Fn(T) -> Vec<u8>) -> Outputs {
        Outputs {
            count: given.count as u64,
            list: given.list.into_iter().flat_map(bytes).collect(),
            ..Outputs::none(given.number)
        }
    }
}

impl Posted {
    /// What the calls are called.
    pub const NAMES: [&str; 6] = [
        "postings",
        "common",
        "joined",
        "posting read",
        "posting write",
        "posting compare",
    ];

    /// The number by which the runner knows the call: behind those on an index.
    pub fn kind(&self) -> usize {
        let own = match self {
            Posted::Postings { .. } => 0,
            Posted::Merged { merge, .. } => 1 + usize::from(*merge == Merge::Joined),
            Posted::Read(_) => 3,
            Posted::Write { .. } => 4,
            Posted::Compare(_) => 5,
        };
        Call::NAMES.len() + Search::NAMES.len() + own
    }

    /// Its four numbers.
    pub fn numbers(&self) -> [u32; 4] {
        match *self {
            Posted::Postings { from, .. } => [from.block as u32, from.word as u32, 0, 0],
            Posted::Merged { from, .. } => {
                let [[a, b], [c, d]] = from.map(|at| [at.block as u32, at.word as u32]);
                [a, b, c, d]
            }
            Posted::Read(_) => [0; 4],
            Posted::Write { numbers, .. } => numbers,
            Posted::Compare([a, b]) => [a as u32, (a >> 32) as u32, b as u32, (b >> 32) as u32],
        }
    }

    /// How many elements of the list it is lent.
    pub fn room(&self) -> usize {
        match *self {
            Posted::Postings { room, .. }
            | Posted::Merged { room, .. }
            | Posted::Write { room, .. } => room,
            Posted::Read(_) | Posted::Compare(_) => 0,
        }
    }

    /// The bytes that it reads a posting from.
    pub fn bytes(&self) -> &[u8] {
        match self {
            Posted::Read(bytes) => bytes,
            _ => &[],
        }
    }

    /// What the model's reader gives; of a call on lists, why it is refused if it is.
    pub fn on(&self, file: &[u8]) -> (Outputs, Result<(), Why>) {
        match *self {
            Posted::Postings { from, room } => {
                let answer = postings_by(&Request, file, from, room);
                let outputs =
                    Outputs::listed(given_by(&answer, room), |n| n.to_le_bytes().to_vec());
                (outputs, answer.map(drop))
            }
            Posted::Merged { merge, from, room } => {
                let answer = merged_by(&Request, merge, file, from, room);
                let outputs =
                    Outputs::listed(given_by(&answer, room), |n| n.to_le_bytes().to_vec());
                (outputs, answer.map(drop))
            }
            Posted::Read(ref bytes) => (read(bytes), Ok(())),
            Posted::Write { numbers, room } => (write(numbers, room), Ok(())),
            Posted::Compare([a, b]) => (Outputs::none(posting::compare(a, b)), Ok(())),
        }
    }
}

fn read(bytes: &[u8]) -> Outputs {
    let read = posting::read(bytes);
    Outputs {
        numbers: read.map_or([0; 4], Posting::numbers),
        ..Outputs::none(model::answer::number(&read))
    }
}

fn write([mfn, tag, occurrence, sequence]: [u32; 4], room: usize) -> Outputs {
    let mut list = vec![RUBBISH; room];
    let wrote = posting::write(Posting::of(mfn, tag, occurrence, sequence), &mut list);
    Outputs {
        list,
        ..Outputs::none(model::answer::number(&wrote))
    }
}
