//! The comparison of postings is itself tried: readers that are wrong in one sentence of the
//! request must be found by it.

use differential::guarded::Side;
use differential::postings::compare::{Family, drive_reader, drive_singles};
use differential::postings::{Element, Given, Reader, cases, given_by};
use model::postings::fault::{Broken, Why};
use model::postings::posting::{self, Posting};
use model::postings::read::{Header, Merge, Request, Rules, Segments, merged_by, postings_by};
use model::postings::{Place, place};
use std::cell::RefCell;

/// How two lists are merged.
type Merged = fn(&Fake, Merge, [Place; 2], usize) -> Result<Vec<u32>, Why>;
/// How a posting is read and written.
type Read = fn(&[u8]) -> (u32, [u32; 4]);
type Write = fn([u32; 4], &mut [u8]) -> u32;

/// A wrong reader: the model's with other rules, on a file that is changed before it looks at
/// it, and with its answers spoiled.
struct Fake {
    rules: Box<dyn Rules>,
    mend: fn(&mut Vec<u8>),
    spoil: fn(&mut Given<u64>),
    spoil_mfns: fn(&mut Given<u32>),
    merged: Merged,
    read: Read,
    write: Write,
    compare: fn(u64, u64) -> u32,
    file: Vec<u8>,
}

impl Fake {
    fn new(rules: impl Rules + 'static) -> Fake {
        Fake {
            rules: Box::new(rules),
            mend: |_| (),
            spoil: |_| (),
            spoil_mfns: |_| (),
            merged: right_merged,
            read: right_read,
            write: right_write,
            compare: posting::compare,
            file: Vec::new(),
        }
    }
}

fn right_merged(fake: &Fake, merge: Merge, from: [Place; 2], room: usize) -> Result<Vec<u32>, Why> {
    merged_by(&*fake.rules, merge, &fake.file, from, room)
}

fn right_read(bytes: &[u8]) -> (u32, [u32; 4]) {
    let read = posting::read(bytes);
    let numbers = read.map_or([0; 4], Posting::numbers);
    (model::answer::number(&read), numbers)
}

fn right_write([mfn, tag, occurrence, sequence]: [u32; 4], out: &mut [u8]) -> u32 {
    let posting = Posting::of(mfn, tag, occurrence, sequence);
    model::answer::number(&posting::write(posting, out))
}

impl Reader for Fake {
    fn lend(&mut self, file: &[u8], _: Side) {
        self.file = file.to_vec();
        (self.mend)(&mut self.file);
    }

    fn postings(&mut self, from: Place, room: usize, _: Side) -> Given<u64> {
        let answer = postings_by(&*self.rules, &self.file, from, room);
        let mut given = given_by(&answer, room);
        (self.spoil)(&mut given);
        given
    }

    fn merged(&mut self, merge: Merge, from: [Place; 2], room: usize, _: Side) -> Given<u32> {
        let mut given = given_by(&(self.merged)(self, merge, from, room), room);
        (self.spoil_mfns)(&mut given);
        given
    }

    fn read(&mut self, bytes: &[u8], _: Side) -> (u32, [u32; 4]) {
        (self.read)(bytes)
    }

    fn write(&mut self, numbers: [u32; 4], room: usize, _: Side) -> (u32, Vec<u8>) {
        let mut out = vec![u8::RUBBISH; room];
        ((self.write)(numbers, &mut out), out)
    }

    fn compare(&mut self, a: u64, b: u64) -> u32 {
        (self.compare)(a, b)
    }
}

/// The fake is found by a family within its cases, in a call.
fn found(family: Family, call: &str, mut fake: Fake) {
    let found = drive_reader(&mut fake, family, 5_000, 1);
    let words = found.expect_err("the fake was not found");
    assert!(words.starts_with("seed "), "{words}");
    assert!(words.contains(&format!(": {call}")), "{words}");
}

fn found_single(call: &str, mut fake: Fake) {
    let words = drive_singles(&mut fake, 5_000, 1).expect_err("the fake was not found");
    assert!(words.contains(&format!(": {call}")), "{words}");
}

/// A set of rules with one of them in other words, and the test that finds it.
macro_rules! wrong {
    ($test:ident, $family:ident, $call:literal, $($rule:tt)*) => {
        #[test]
        fn $test() {
            struct Wrong;
            impl Rules for Wrong {
                $($rule)*
            }
            found(cases::$family, $call, Fake::new(Wrong));
        }
    };
}

wrong!(
    mfn_and_tag_exchanged,
    built,
    "postings",
    fn posting(&self, bytes: [u8; 8]) -> Posting {
        let [a, b, c, d, e, rest @ ..] = bytes;
        let [f, g, h] = rest;
        Posting::of_bytes([c, d, e, a, b, f, g, h])
    }
);
wrong!(
    occurrence_and_sequence_exchanged,
    built,
    "postings",
    fn posting(&self, bytes: [u8; 8]) -> Posting {
        let right = Posting::of_bytes(bytes);
        let (occurrence, sequence) = (right.sequence % 256, right.occurrence);
        Posting {
            occurrence,
            sequence,
            ..right
        }
    }
);
wrong!(
    least_significant_first,
    built,
    "postings",
    fn posting(&self, mut bytes: [u8; 8]) -> Posting {
        bytes.reverse();
        Posting::of_bytes(bytes)
    }
);
wrong!(
    a_split_posting,
    built,
    "postings",
    fn stands(&self, at: Place) -> Place {
        match at.word {
            126 => at,
            _ => Request.stands(at),
        }
    }
);
wrong!(
    a_posting_behind_the_block_s_last_word,
    built,
    "postings",
    fn stands(&self, at: Place) -> Place {
        match at.word {
            126 => place(at.block + 1, 1),
            _ => Request.stands(at),
        }
    }
);
wrong!(
    ascent_only_inside_a_segment,
    damaged,
    "postings",
    fn ascend(&self, segments: &Segments) -> bool {
        let mut segments = segments.iter();
        segments.all(|list| list.windows(2).all(|two| two[0] < two[1]))
    }
);
wrong!(
    ascent_only_from_segment_to_segment,
    damaged,
    "postings",
    fn ascend(&self, segments: &Segments) -> bool {
        let full: Vec<_> = segments.iter().filter(|list| !list.is_empty()).collect();
        let ends = |two: &[&Vec<u64>]| two[0].last() < two[1].first();
        full.windows(2).all(ends)
    }
);
wrong!(
    ascent_not_asked_behind_an_empty_segment,
    damaged,
    "postings",
    fn ascend(&self, segments: &Segments) -> bool {
        let mut between = segments.split(Vec::is_empty);
        between.all(|full| Request.ascend(full))
    }
);
wrong!(
    equal_postings_accepted,
    damaged,
    "postings",
    fn ascend(&self, segments: &Segments) -> bool {
        segments.concat().is_sorted()
    }
);
wrong!(
    only_mfns_ascend,
    built,
    "postings",
    fn ascend(&self, segments: &Segments) -> bool {
        let all: Vec<u64> = segments.concat();
        all.windows(2).all(|two| two[0] >> 40 < two[1] >> 40)
    }
);
wrong!(
    total_not_compared,
    damaged,
    "postings",
    fn total_right(&self, _: i32, _: &Segments) -> bool {
        true
    }
);
wrong!(
    total_of_the_first_segment_alone,
    built,
    "postings",
    fn total_right(&self, total: i32, segments: &Segments) -> bool {
        segments[0].len() as i64 == i64::from(total)
    }
);
wrong!(
    total_that_may_be_larger,
    damaged,
    "postings",
    fn total_right(&self, total: i32, segments: &Segments) -> bool {
        segments.concat().len() as i64 <= i64::from(total)
    }
);
wrong!(
    totals_of_later_segments_asked,
    built,
    "postings",
    fn counts_right(&self, header: Header) -> Result<(), Broken> {
        match header.total < 0 {
            true => Err(Broken::NegativeTotal),
            false => Request.counts_right(header),
        }
    }
);
wrong!(
    counts_below_0_are_0,
    damaged,
    "postings",
    fn counts_right(&self, header: Header) -> Result<(), Broken> {
        match header.count < 0 {
            true => Ok(()),
            false => Request.counts_right(header),
        }
    }
);
wrong!(
    capacity_not_compared,
    damaged,
    "postings",
    fn counts_right(&self, header: Header) -> Result<(), Broken> {
        match Request.counts_right(header) {
            Err(Broken::PastCapacity) => Ok(()),
            other => other,
        }
    }
);
wrong!(
    capacity_of_an_empty_segment_unasked,
    damaged,
    "postings",
    fn counts_right(&self, header: Header) -> Result<(), Broken> {
        match header.count {
            0 => Ok(()),
            _ => Request.counts_right(header),
        }
    }
);
wrong!(
    a_capacity_past_the_file_refused,
    damaged,
    "postings",
    fn counts_right(&self, header: Header) -> Result<(), Broken> {
        match header.capacity {
            0..1_000_000 => Request.counts_right(header),
            _ => Err(Broken::PostingOutside),
        }
    }
);
wrong!(
    a_full_segment_refused,
    built,
    "postings",
    fn counts_right(&self, header: Header) -> Result<(), Broken> {
        match header.count >= header.capacity {
            true => Err(Broken::PastCapacity),
            false => Ok(()),
        }
    }
);
wrong!(
    a_segment_twice_ends_the_list,
    damaged,
    "postings",
    fn met_again(&self) -> Result<(), Broken> {
        Ok(())
    }
);
wrong!(
    block_0_ends_the_list,
    damaged,
    "postings",
    fn ends(&self, next: Place) -> bool {
        next.block == 0
    }
);
wrong!(
    word_below_0_ends_the_list,
    damaged,
    "postings",
    fn ends(&self, next: Place) -> bool {
        next == place(0, 0) || next.word == -1
    }
);
wrong!(
    a_header_at_word_121,
    poked,
    "postings",
    fn header_may_stand(&self, at: Place) -> bool {
        at.block >= 1 && (0..=121).contains(&at.word)
    }
);
wrong!(
    no_header_at_word_120,
    built,
    "postings",
    fn header_may_stand(&self, at: Place) -> bool {
        at.block >= 1 && (0..120).contains(&at.word)
    }
);
wrong!(
    an_mfn_twice_in_common,
    built,
    "Common",
    fn common(&self, a: &[u32], b: &[u32]) -> Vec<u32> {
        a.iter().copied().filter(|mfn| b.contains(mfn)).collect()
    }
);
wrong!(
    an_mfn_twice_joined,
    built,
    "Joined",
    fn joined(&self, a: &[u32], b: &[u32]) -> Vec<u32> {
        let mut all = [a, b].concat();
        all.sort_unstable();
        all
    }
);
wrong!(
    mfns_of_both_left_out_of_the_joined,
    built,
    "Joined",
    fn joined(&self, a: &[u32], b: &[u32]) -> Vec<u32> {
        let common = Request.common(a, b);
        let all = Request.joined(a, b).into_iter();
        all.filter(|mfn| !common.contains(mfn)).collect()
    }
);
wrong!(
    mfn_0_left_out,
    built,
    "Joined",
    fn joined(&self, a: &[u32], b: &[u32]) -> Vec<u32> {
        let all = Request.joined(a, b).into_iter();
        all.filter(|mfn| *mfn != 0).collect()
    }
);
wrong!(
    the_highest_mfn_taken_for_the_end,
    built,
    "Common",
    fn common(&self, a: &[u32], b: &[u32]) -> Vec<u32> {
        let all = Request.common(a, b).into_iter();
        all.filter(|mfn| *mfn != 0xFF_FFFF).collect()
    }
);
wrong!(
    joined_for_common,
    built,
    "Common",
    fn common(&self, a: &[u32], b: &[u32]) -> Vec<u32> {
        Request.joined(a, b)
    }
);
wrong!(
    room_for_one_more_wanted,
    built,
    "postings",
    fn too_small(&self, items: usize, room: usize) -> bool {
        items >= room
    }
);
wrong!(
    no_room_before_a_broken_rule,
    damaged,
    "postings",
    fn before_reading(&self, file: &[u8], from: Place, room: usize) -> Result<(), Why> {
        let at = |from: Place| {
            let block = usize::try_from(from.block).ok()?.checked_sub(1)?;
            let word = usize::try_from(from.word).ok()?;
            let total = file
                .get(block.checked_mul(512)? + 12 + 4 * word..)?
                .first_chunk()?;
            Some(i32::from_le_bytes(*total))
        };
        match at(from).is_some_and(|total| total > room as i32) {
            true => Err(Why::NoRoom),
            false => Ok(()),
        }
    }
);

/// The ascent is asked of all postings but the first of a block that a segment runs on in.
struct BlockByBlock(RefCell<Vec<bool>>);

impl Rules for BlockByBlock {
    fn total_is_a_count(&self, total: i32) -> bool {
        self.0.borrow_mut().clear();
        Request.total_is_a_count(total)
    }

    fn stands(&self, at: Place) -> Place {
        let stands = Request.stands(at);
        self.0.borrow_mut().push(stands != at);
        stands
    }

    fn ascend(&self, segments: &Segments) -> bool {
        let (all, runs_on) = (segments.concat(), self.0.borrow());
        let mut asked = all.windows(2).zip(runs_on.iter().skip(1));
        asked.all(|(two, runs_on)| two[0] < two[1] || *runs_on)
    }
}

#[test]
fn ascent_not_asked_from_block_to_block() {
    let fake = Fake::new(BlockByBlock(RefCell::default()));
    found(cases::damaged, "postings", fake);
}

#[test]
fn one_of_two_lists_unasked() {
    let merges: [Merged; 2] = [
        |fake, merge, [first, _], room| right_merged(fake, merge, [first; 2], room),
        |fake, merge, [_, second], room| right_merged(fake, merge, [second; 2], room),
    ];
    for merged in merges {
        for family in [cases::built, cases::damaged] {
            let fake = Fake::new(Request);
            found(family, "", Fake { merged, ..fake });
        }
    }
}

/// Joins two lists, but asks before whether one of them alone has room.
fn hasty(
    fake: &Fake,
    merge: Merge,
    from: [Place; 2],
    one: Place,
    room: usize,
) -> Result<Vec<u32>, Why> {
    if merge == Merge::Joined {
        right_merged(fake, merge, [one; 2], room)?;
    }
    right_merged(fake, merge, from, room)
}

#[test]
fn no_room_for_one_list_before_the_other_is_read() {
    let merges: [Merged; 2] = [
        |fake, merge, from, room| hasty(fake, merge, from, from[0], room),
        |fake, merge, from, room| hasty(fake, merge, from, from[1], room),
    ];
    for merged in merges {
        let fake = Fake::new(Request);
        found(cases::damaged, "Joined", Fake { merged, ..fake });
    }
}

#[test]
fn numbers_of_blocks_compared() {
    let mend: fn(&mut Vec<u8>) = |file| {
        let right = |(number, block): (u32, &[u8])| block.starts_with(&number.to_le_bytes());
        if !(1..).zip(file.chunks(512)).all(right) {
            file.clear();
        }
    };
    let fake = Fake {
        mend,
        ..Fake::new(Request)
    };
    found(cases::poked, "postings", fake);
}

#[test]
fn a_file_that_must_have_whole_blocks() {
    let mend: fn(&mut Vec<u8>) = |file| file.truncate(file.len() / 512 * 512);
    let fake = Fake {
        mend,
        ..Fake::new(Request)
    };
    found(cases::built, "postings", fake);
}

/// Counts one more where a number is answered.
fn count_on<const NUMBER: u32, T>(given: &mut Given<T>) {
    given.count += usize::from(given.number == NUMBER);
}

/// Writes into a list of so much room or more where a number is answered.
fn write_on<const NUMBER: u32, const ROOM: usize, T: Default>(given: &mut Given<T>) {
    if given.number == NUMBER && given.list.len() >= ROOM {
        given.list[0] = T::default();
    }
}

/// Writes behind what is given.
fn write_behind<T: Default>(given: &mut Given<T>) {
    if let Some(behind) = given.list.get_mut(given.count) {
        *behind = T::default();
    }
}

/// An answer spoiled, that of a list and that of two, and the family that finds it.
type Spoiled = (fn(&mut Given<u64>), fn(&mut Given<u32>), Family);

#[test]
fn a_count_or_a_list_that_is_not_kept() {
    let all: [Spoiled; 6] = [
        (count_on::<17, _>, count_on::<17, _>, cases::built),
        (count_on::<23, _>, count_on::<23, _>, cases::damaged),
        (write_on::<17, 1, _>, write_on::<17, 1, _>, cases::built),
        (write_on::<23, 1, _>, write_on::<23, 1, _>, cases::damaged),
        (
            write_on::<23, 100, _>,
            write_on::<23, 100, _>,
            cases::damaged,
        ),
        (write_behind, write_behind, cases::built),
    ];
    for (spoil, spoil_mfns, family) in all {
        let fake = || Fake::new(Request);
        found(family, "postings", Fake { spoil, ..fake() });
        found(
            family,
            "",
            Fake {
                spoil_mfns,
                ..fake()
            },
        );
    }
}

#[test]
fn wrong_single_postings() {
    let reads: [Read; 2] = [
        |bytes| match right_read(bytes) {
            (23, _) if bytes.len() == 7 => (0, [0; 4]),
            right => right,
        },
        |bytes| {
            let (number, [mfn, tag, occurrence, sequence]) = right_read(bytes);
            (number, [mfn, tag, sequence, occurrence])
        },
    ];
    for read in reads {
        let fake = Fake::new(Request);
        found_single("read", Fake { read, ..fake });
    }
    let writes: [Write; 3] = [
        |[mfn, tag, occurrence, sequence], out| {
            right_write([mfn, tag, occurrence % 256, sequence], out)
        },
        |numbers, out| match out.len() {
            0..8 => 17,
            _ => right_write(numbers, out),
        },
        |numbers, out| {
            let number = right_write(numbers, out);
            if number == 23 {
                out.fill(0);
            }
            number
        },
    ];
    for write in writes {
        let fake = Fake::new(Request);
        found_single("write", Fake { write, ..fake });
    }
    let compares: [fn(u64, u64) -> u32; 2] = [
        |a, b| posting::compare(a ^ 1 << 63, b ^ 1 << 63),
        |a, b| posting::compare(a & !1, b & !1),
    ];
    for compare in compares {
        let fake = Fake::new(Request);
        found_single("compare", Fake { compare, ..fake });
    }
}

#[test]
fn a_right_reader_passes() {
    let families: [Family; 5] = [
        cases::built,
        cases::damaged,
        cases::poked,
        cases::chance,
        cases::rubbish,
    ];
    for family in families {
        let passed = drive_reader(&mut Fake::new(Request), family, 200, 1);
        assert!(passed.is_ok(), "{passed:?}");
    }
    assert_eq!(drive_singles(&mut Fake::new(Request), 2_000, 1), Ok(()));
}
