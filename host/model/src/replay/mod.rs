//! What a replay of a list of calls says, by the ledger alone.
//!
//! A list is two buffer lengths, five numbers for each call, a list from which the lists
//! that are settled take their MFNs, and three from which creates and updates take their
//! drafts, one after the other. A replay
//! formats the buffers, runs the calls in order and stops at the end of the list, at
//! what is no call, or at the first call whose outcome has no room. [`lists`] has the
//! lists that the program `replay_run` is given, and [`text`] what it reads and prints.

pub mod catalogue;
pub mod lists;
pub mod text;

use crate::call::{Call, Outcome, OwnedDraft, on_ledger};
use crate::ledger::Ledger;
use crate::store::lists_right;

/// Numbers that a call takes.
pub const CALL: usize = 5;
/// Numbers that a call reports: answer, MFN, length shown, number of occurrences, how many
/// answers are listed. Those answers follow them.
pub const REPORT: usize = 5;

/// A list of calls as numbers, with the buffers and the room that it is given.
#[derive(Clone, Debug, PartialEq, Eq, Default)]
pub struct List {
    /// What the list is for, in words without digits.
    pub title: &'static str,
    /// The length of the MST.
    pub mst_len: usize,
    /// The length of the XRF.
    pub xrf_len: usize,
    /// Room for numbers reported.
    pub answer_room: usize,
    /// Room for bytes shown.
    pub shown_room: usize,
    /// Five numbers for each call.
    pub numbers: Vec<u32>,
    /// The MFNs of all lists that are settled.
    pub mfns: Vec<u32>,
    /// The tags of all drafts.
    pub tags: Vec<u16>,
    /// The lengths of all drafts.
    pub lens: Vec<u16>,
    /// The bytes of all drafts.
    pub bytes: Vec<u8>,
}

/// Why a replay stopped.
#[derive(Clone, Copy, Debug, PartialEq, Eq, PartialOrd, Ord)]
pub enum Stop {
    /// At the end of the list.
    Ended,
    /// At numbers that are no call.
    Malformed,
    /// At a call whose outcome has no room; it is not run.
    NoRoom,
    /// Before the first call: a buffer length is not permitted.
    BadLength,
}

/// The calls that were run, each with its outcome.
pub type Turns = Vec<(Call, Outcome)>;

/// What a replay says.
#[derive(Clone, Debug, PartialEq, Eq)]
pub struct Replay {
    /// Why it stopped.
    pub stop: Stop,
    /// What was run.
    pub turns: Turns,
    /// The next MFN and the end; `None` if the buffers could not be formatted.
    pub kept: Option<(usize, usize)>,
}

/// The replay of a list as the ledger has it.
pub fn by_ledger(list: &List) -> Replay {
    let Some(mut ledger) = Ledger::new(list.mst_len, list.xrf_len) else {
        return Replay {
            stop: Stop::BadLength,
            turns: Vec::new(),
            kept: None,
        };
    };
    let (stop, turns) = list.run(|call| on_ledger(&mut ledger, call));
    Replay {
        stop,
        turns,
        kept: Some((ledger.next_mfn(), ledger.end())),
    }
}

impl List {
    /// The list of some calls, with no room yet.
    pub fn of(title: &'static str, lengths: (usize, usize), calls: &[Call]) -> List {
        let mut list = List {
            title,
            mst_len: lengths.0,
            xrf_len: lengths.1,
            ..List::default()
        };
        calls.iter().for_each(|call| list.push(call));
        list
    }

    /// The same list with room for so many numbers and so many bytes.
    pub fn room(self, answer_room: usize, shown_room: usize) -> List {
        List {
            answer_room,
            shown_room,
            ..self
        }
    }

    /// The same list with exactly the room that all its calls take.
    pub fn exact_room(self) -> List {
        let all = self.room(usize::MAX, usize::MAX);
        let turns = by_ledger(&all).turns;
        let shown = turns.iter().map(|(_, outcome)| outcome.field.len()).sum();
        let listed = turns.iter().map(|(_, outcome)| outcome.answers.len());
        let numbers = REPORT * turns.len() + listed.sum::<usize>();
        all.room(numbers, shown)
    }

    /// Adds a call at the end.
    fn push(&mut self, call: &Call) {
        let numbers = match *call {
            Call::Format => [0, 0, 0, 0, 0],
            Call::View {
                mfn,
                tag,
                occurrence,
            } => [1, mfn, u32::from(tag), occurrence, 0],
            Call::ViewSettled {
                mfn,
                tag,
                occurrence,
            } => [2, mfn, u32::from(tag), occurrence, 0],
            Call::Create(ref draft) => self.push_draft(3, 0, draft),
            Call::Update(mfn, ref draft) => self.push_draft(4, mfn, draft),
            Call::Delete(mfn) => [5, mfn, 0, 0, 0],
            Call::Settle(mfn) => [6, mfn, 0, 0, 0],
            Call::Revert(mfn) => [7, mfn, 0, 0, 0],
            Call::Check => [8, 0, 0, 0, 0],
            Call::Migrate => [9, 0, 0, 0, 0],
            Call::SettleList { ref mfns, room } => {
                self.mfns.extend(mfns);
                [10, 0, mfns.len() as u32, room as u32, 0]
            }
            Call::Recount => [11, 0, 0, 0, 0],
            _ => panic!("a list has the calls of demand 3 only"),
        };
        self.numbers.extend(numbers);
    }

    /// Adds a draft to the three lists; gives the numbers of its call.
    fn push_draft(&mut self, call: u32, mfn: u32, draft: &OwnedDraft) -> [u32; CALL] {
        let OwnedDraft { tags, lens, data } = draft;
        self.tags.extend(tags);
        self.lens.extend(lens);
        self.bytes.extend(data);
        let [tags, lens, data] = [tags.len(), lens.len(), data.len()].map(|count| count as u32);
        [call, mfn, tags, lens, data]
    }

    /// Runs the calls on whatever answers them, up to the stop. A list that has no room for
    /// its answers is not settled. That a view without room is asked here makes no
    /// difference: a view changes nothing.
    pub fn run(&self, mut answer: impl FnMut(&Call) -> Outcome) -> (Stop, Turns) {
        let mut left = Left::of(self);
        let (mut answer_room, mut shown_room) = (self.answer_room, self.shown_room);
        let mut turns = Vec::new();
        while !left.numbers.is_empty() {
            let Some(call) = left.next_call() else {
                return (Stop::Malformed, turns);
            };
            let numbers = REPORT + answers_of(&call);
            if answer_room < numbers {
                return (Stop::NoRoom, turns);
            }
            let outcome = answer(&call);
            if outcome.field.len() > shown_room {
                return (Stop::NoRoom, turns);
            }
            answer_room -= numbers;
            shown_room -= outcome.field.len();
            turns.push((call, outcome));
        }
        (Stop::Ended, turns)
    }
}

/// How many answers a call lists.
fn answers_of(call: &Call) -> usize {
    match call {
        Call::SettleList { mfns, room } if lists_right(mfns.len(), *room) => mfns.len(),
        _ => 0,
    }
}

/// What is left of a list's five lists of numbers.
struct Left<'a> {
    numbers: &'a [u32],
    mfns: &'a [u32],
    tags: &'a [u16],
    lens: &'a [u16],
    bytes: &'a [u8],
}

impl<'a> Left<'a> {
    fn of(list: &'a List) -> Left<'a> {
        Left {
            numbers: &list.numbers,
            mfns: &list.mfns,
            tags: &list.tags,
            lens: &list.lens,
            bytes: &list.bytes,
        }
    }

    /// Takes the next call; `None` if what is left is none.
    fn next_call(&mut self) -> Option<Call> {
        let (&[call, mfn, second, third, fourth], rest) = self.numbers.split_first_chunk()?;
        let call = match call {
            0 => Call::Format,
            1 => Call::view(mfn, u16::try_from(second).ok()?, third),
            2 => Call::view_settled(mfn, u16::try_from(second).ok()?, third),
            3 => Call::Create(self.next_draft(second, third, fourth)?),
            4 => Call::Update(mfn, self.next_draft(second, third, fourth)?),
            5 => Call::Delete(mfn),
            6 => Call::Settle(mfn),
            7 => Call::Revert(mfn),
            8 => Call::Check,
            9 => Call::Migrate,
            10 => Call::SettleList {
                mfns: take(&mut self.mfns, second)?,
                room: third as usize,
            },
            11 => Call::Recount,
            _ => return None,
        };
        self.numbers = rest;
        Some(call)
    }

    /// Takes the next draft, of so many tags, lengths and bytes.
    fn next_draft(&mut self, tags: u32, lens: u32, bytes: u32) -> Option<OwnedDraft> {
        Some(OwnedDraft {
            tags: take(&mut self.tags, tags)?,
            lens: take(&mut self.lens, lens)?,
            data: take(&mut self.bytes, bytes)?,
        })
    }
}

/// Takes so many elements from the front; `None` if there are fewer.
fn take<T: Copy>(list: &mut &[T], count: u32) -> Option<Vec<T>> {
    let (taken, left) = list.split_at_checked(count as usize)?;
    *list = left;
    Some(taken.to_vec())
}
