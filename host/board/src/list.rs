//! A list of steps as the 32-bit words that `c/runner.c` reads: how many steps, and for
//! each where the card stands, its two lengths, what somebody else changed, the call,
//! what it must give, and what it must change. A step on an index has the files' five
//! lengths, what changed in them since the last such step, the call, its term, and what
//! it must give; a step on postings has the same of one file, and the list that the call
//! must leave; a step on a record has the record, and what it is held to.

use crate::core::LIST_ROOM;
use crate::posted::{Outputs as OfPostings, Posted};
use crate::search::{Found, Search};
use crate::tested::Tested;
use differential::archive::Given;
use differential::records;
use model::Refusal;
use model::ask::{Lists, RUBBISH};
use model::call::{Call, OwnedDraft};
use model::index::Files;
use model::lists::Taste;
use std::ops::Range;

/// Both files of a card.
pub type Card = (Vec<u8>, Vec<u8>);

/// So many steps in a row find the card in one place.
const STEPS_IN_A_PLACE: usize = 50;
/// The card stands with the MST last, with the XRF last, or in the middle.
const PLACES: usize = 3;
/// What stands there for a step on an index; the runner finds places for its files.
const ON_AN_INDEX: usize = PLACES;
/// And for a step on postings.
const ON_POSTINGS: usize = PLACES + 1;
/// And for a step on a record.
const ON_A_RECORD: usize = PLACES + 2;
/// More bytes than a step takes: a draft, and a card before and after.
const LONGEST_STEP: usize = 1 << 20;
/// Equal bytes between two changes that are written down all the same.
const GAP: usize = 16;
/// The longest file of an index, list of postings, and record, as the runner has them.
pub const SLICE_MAX: usize = 32 * 1024;
/// The longest list that is lent for fields, as the runner has it.
const LENT: usize = Taste::LONG.fields + 1;

/// Every argument that some call takes, in the runner's order.
#[derive(Clone, Debug, Default)]
struct Arguments {
    kind: usize,
    mfn: u32,
    tag: u16,
    occurrence: u32,
    index: usize,
    draft: OwnedDraft,
    mfns: Vec<u32>,
}

impl Arguments {
    fn of(call: &Call) -> Arguments {
        let mut of = Arguments {
            kind: call.kind(),
            ..Arguments::default()
        };
        match call {
            Call::Format | Call::Check | Call::Migrate | Call::Recount | Call::Next => {}
            Call::Create(draft) => of.draft = draft.clone(),
            Call::Update(mfn, draft) => (of.mfn, of.draft) = (*mfn, draft.clone()),
            Call::Delete(mfn) | Call::Settle(mfn) | Call::Revert(mfn) | Call::State(mfn) => {
                of.mfn = *mfn;
            }
            Call::View {
                mfn,
                tag,
                occurrence,
            }
            | Call::ViewSettled {
                mfn,
                tag,
                occurrence,
            } => {
                (of.mfn, of.tag, of.occurrence) = (*mfn, *tag, *occurrence);
            }
            Call::Field { mfn, index } | Call::FieldSettled { mfn, index } => {
                (of.mfn, of.index) = (*mfn, *index);
            }
            // The length of the list for answers stands where other calls have an index.
            Call::SettleList { mfns, room } => (of.mfns, of.index) = (mfns.clone(), *room),
            // The lengths of the lists stand where other calls have tag, occurrence and index.
            Call::Fields { mfn, room } | Call::FieldsSettled { mfn, room } => {
                (of.mfn, of.tag) = (*mfn, room[0] as u16);
                (of.occurrence, of.index) = (room[1] as u32, room[2]);
            }
        }
        of
    }
}

/// The answer, and every output that some call has, in the runner's order.
#[derive(Clone, Debug)]
struct Outputs {
    answer: u32,
    mfn: u64,
    tag: u64,
    start: u64,
    len: u64,
    occurrences: u64,
    next: u64,
    end: u64,
    mark: u64,
    deleted: u64,
    count: u64,
    fields: [[u64; 3]; LENT + 1],
    answers: Vec<u32>,
}

impl Outputs {
    /// An answer alone: the runner fills all outputs with rubbish, and a call that does
    /// not have an output leaves it so.
    fn none(answer: u32) -> Outputs {
        let rubbish = u64::from_ne_bytes([RUBBISH; 8]);
        let (word, tag) = (rubbish >> 32, rubbish >> 48);
        Outputs {
            answer,
            mfn: word,
            tag,
            start: rubbish,
            len: rubbish,
            occurrences: word,
            next: word,
            end: rubbish,
            mark: word,
            deleted: word,
            count: rubbish,
            fields: [[tag, rubbish, rubbish]; LENT + 1],
            answers: Vec::new(),
        }
    }

    fn of(call: &Call, given: &Given) -> Outputs {
        let mut of = Outputs::none(given.number);
        match call {
            Call::Create(_) => of.mfn = u64::from(given.mfn),
            Call::View { .. } | Call::ViewSettled { .. } => {
                of.occurrences = u64::from(given.occurrences);
                of.part(given);
            }
            Call::Field { .. } | Call::FieldSettled { .. } => {
                of.tag = u64::from(given.tag);
                of.part(given);
            }
            Call::Next => (of.next, of.end) = (u64::from(given.mfn), given.end as u64),
            Call::State(_) => {
                (of.mark, of.deleted) = (u64::from(given.mark), u64::from(given.deleted));
            }
            Call::Fields { .. } | Call::FieldsSettled { .. } => of.lists(given),
            Call::SettleList { .. } => of.answers = given.answers.clone(),
            _ => {}
        }
        of
    }

    fn part(&mut self, given: &Given) {
        (self.start, self.len) = (given.part.start as u64, given.part.len() as u64);
    }

    fn lists(&mut self, given: &Given) {
        self.count = given.count as u64;
        let Lists { tags, starts, lens } = &given.lists;
        let most = tags.len().max(starts.len()).max(lens.len());
        assert!(
            most <= LENT,
            "a list of {most} elements is longer than the runner's"
        );
        for (i, tag) in tags.iter().enumerate() {
            self.fields[i][0] = u64::from(*tag);
        }
        for (i, start) in starts.iter().enumerate() {
            self.fields[i][1] = *start as u64;
        }
        for (i, len) in lens.iter().enumerate() {
            self.fields[i][2] = *len as u64;
        }
    }
}

/// A list as it grows.
#[derive(Clone, Debug, Default)]
pub struct List {
    words: Vec<u32>,
    steps: usize,
    card: Card,
    index: Files,
    ifp: Vec<u8>,
}

impl List {
    /// How many steps it has.
    pub fn steps(&self) -> usize {
        self.steps
    }

    /// Whether another step, however long, has room in a board's memory.
    pub fn has_room(&self) -> bool {
        4 * self.words.len() + LONGEST_STEP <= LIST_ROOM
    }

    /// The list as it stands in the board's memory.
    pub fn bytes(&self) -> Vec<u8> {
        let count = [self.steps as u32];
        let words = count.iter().chain(&self.words);
        words.flat_map(|word| word.to_le_bytes()).collect()
    }

    /// Adds a step: a call on a card, what it must give, and the card that it must leave.
    pub fn push(&mut self, before: &Card, call: &Call, wanted: &Given, after: &Card) {
        let place = self.steps / STEPS_IN_A_PLACE % PLACES;
        self.steps += 1;
        self.put_all([place, before.0.len(), before.1.len()]);
        self.put_changes_to(before);
        self.put_arguments(&Arguments::of(call));
        self.put_outputs(&Outputs::of(call, wanted));
        self.put_changes_to(after);
    }

    /// Adds a step on an index: a call, and what it must give.
    pub fn push_search(&mut self, index: &Files, search: &Search, found: Found) {
        let longest = index.all().map(<[u8]>::len).into_iter().max();
        assert!(
            longest <= Some(SLICE_MAX),
            "a file is longer than the runner's"
        );
        let number = found.map_or_else(|why| Refusal::from(why).number(), |_| 0);
        let (block, word) = found.unwrap_or_default();
        let rubbish = u32::from_ne_bytes([RUBBISH; 4]);
        let outputs = match search {
            Search::Lookup(_) => [block as u32, word as u32],
            Search::Check => [rubbish; 2],
        };
        self.steps += 1;
        self.put_all([ON_AN_INDEX]);
        self.put_all(index.all().map(<[u8]>::len));
        let old = std::mem::replace(&mut self.index, index.clone());
        self.put_changes(old.all(), index.all());
        self.put_all([search.kind(), search.term().len()]);
        self.put_bytes(search.term());
        for output in [number, outputs[0], outputs[1]] {
            self.put_long(u64::from(output));
        }
    }

    /// Adds a step on postings: a call, and what it must give.
    pub fn push_posted(&mut self, ifp: &[u8], posted: &Posted, wanted: &OfPostings) {
        let longest = ifp.len().max(wanted.list.len());
        assert!(longest <= SLICE_MAX, "a slice is longer than the runner's");
        self.steps += 1;
        self.put_all([ON_POSTINGS, ifp.len()]);
        let old = std::mem::replace(&mut self.ifp, ifp.to_vec());
        self.put_changes([&old], [ifp]);
        self.put_all([posted.kind()]);
        self.words.extend(posted.numbers());
        self.put_all([posted.room(), posted.bytes().len()]);
        self.put_bytes(posted.bytes());
        self.put_all([wanted.list.len()]);
        let numbers = wanted.numbers.map(u64::from);
        for output in [u64::from(wanted.answer), wanted.count]
            .iter()
            .chain(&numbers)
        {
            self.put_long(*output);
        }
        self.put_bytes(&wanted.list);
    }

    /// Adds a step on a record: what it is held to, and what its test must give.
    pub fn push_tested(&mut self, tested: Tested, wanted: records::Given) {
        let Tested {
            record,
            mfn,
            deleted,
        } = tested;
        let longest = record.len();
        assert!(longest <= SLICE_MAX, "a record is longer than the runner's");
        self.steps += 1;
        self.put_all([ON_A_RECORD, longest]);
        self.words.extend([mfn, deleted]);
        self.put_bytes(record);
        for output in [wanted.0, wanted.1] {
            self.put_long(u64::from(output));
        }
    }

    /// What changes from the card as it was, which is this one then.
    fn put_changes_to(&mut self, card: &Card) {
        let old = std::mem::replace(&mut self.card, card.clone());
        self.put_changes([&old.0, &old.1], [&card.0, &card.1]);
    }

    /// What changes in some files.
    fn put_changes<const N: usize>(&mut self, old: [&[u8]; N], new: [&[u8]; N]) {
        let changes: [_; N] = std::array::from_fn(|file| changes(old[file], new[file]));
        self.put_all([changes.iter().map(Vec::len).sum()]);
        for (file, changes) in changes.iter().enumerate() {
            for change in changes {
                self.put_all([file, change.start, change.len()]);
                self.put_bytes(&new[file][change.clone()]);
            }
        }
    }

    fn put_arguments(&mut self, of: &Arguments) {
        let OwnedDraft { tags, lens, data } = &of.draft;
        self.words
            .extend([of.kind as u32, of.mfn, u32::from(of.tag), of.occurrence]);
        self.put_long(of.index as u64);
        self.put_all([tags.len(), lens.len(), data.len()]);
        for numbers in [tags, lens] {
            let bytes: Vec<u8> = numbers.iter().flat_map(|n| n.to_le_bytes()).collect();
            self.put_bytes(&bytes);
        }
        self.put_bytes(data);
        self.put_words(&of.mfns);
    }

    fn put_outputs(&mut self, of: &Outputs) {
        let one_by_one = [
            u64::from(of.answer),
            of.mfn,
            of.tag,
            of.start,
            of.len,
            of.occurrences,
            of.next,
            of.end,
            of.mark,
            of.deleted,
            of.count,
        ];
        for output in one_by_one.iter().chain(of.fields.as_flattened()) {
            self.put_long(*output);
        }
        self.put_words(&of.answers);
    }

    fn put_all<const N: usize>(&mut self, numbers: [usize; N]) {
        self.words.extend(numbers.map(|number| number as u32));
    }

    /// A list of words, behind their number.
    fn put_words(&mut self, words: &[u32]) {
        self.put_all([words.len()]);
        self.words.extend(words);
    }

    fn put_long(&mut self, number: u64) {
        self.words.extend([number as u32, (number >> 32) as u32]);
    }

    /// Bytes, up to a whole word.
    fn put_bytes(&mut self, bytes: &[u8]) {
        self.words.extend(bytes.chunks(4).map(|chunk| {
            let mut word = [0; 4];
            word[..chunk.len()].copy_from_slice(chunk);
            u32::from_le_bytes(word)
        }));
    }
}

/// Where two files differ; all of the second if they are not equally long.
fn changes(old: &[u8], new: &[u8]) -> Vec<Range<usize>> {
    if old.len() != new.len() {
        return std::iter::once(0..new.len()).collect();
    }
    let mut changes: Vec<Range<usize>> = Vec::new();
    for at in (0..new.len()).filter(|&at| old[at] != new[at]) {
        match changes.last_mut() {
            Some(last) if at < last.end + GAP => last.end = at + 1,
            _ => changes.push(at..at + 1),
        }
    }
    changes
}
