//! Lists of postings: every answer of the six calls, 23 by each of its rules, and 23 before
//! 17.
//!
//! The file has two blocks. One list has segments at 1/60, 1/120 and 1/11 with MFNs 1 2, 3 4
//! and 5 6, of which the posting of 4 stands in block 2; another at 1/80 has 2, twice, and 6.

use crate::subject as store;
use model::answer::number;
use model::postings::build::Segment;
use model::postings::{Ifp, Place, Posting, place};
use std::fmt::{UpperHex, Write};

/// The segments by meaning, the file that they give, and the lines so far.
struct Lists {
    ifp: Ifp,
    file: Vec<u8>,
    lines: String,
}

const LONG: Place = Place { block: 1, word: 60 };
const SHORT: Place = Place { block: 1, word: 80 };

/// All lines of the section.
pub fn lines() -> String {
    let mut lists = Lists::new();
    single(&mut lists.lines);
    rooms(&mut lists);
    places(&mut lists);
    headers(&mut lists);
    ascent(&mut lists);
    lengths(&mut lists);
    lists.lines
}

fn segment(at: Place, next: Place, total: i32, postings: &[(u32, u32)]) -> Segment {
    let bits = |&(mfn, tag): &(u32, u32)| Posting::of(mfn, tag, 1, 7).bits();
    Segment::full(at, next, total, postings.iter().map(bits).collect())
}

impl Lists {
    fn new() -> Lists {
        let end = place(0, 0);
        let segments = vec![
            segment(LONG, place(1, 120), 6, &[(1, 24), (2, 24)]),
            segment(place(1, 120), place(1, 11), -1, &[(3, 24), (4, 24)]),
            segment(place(1, 11), end, 0, &[(5, 24), (6, 24)]),
            segment(SHORT, end, 3, &[(2, 24), (2, 70), (6, 1)]),
        ];
        let ifp = Ifp {
            segments,
            lists: vec![vec![0, 1, 2], vec![3]],
            ..Ifp::default()
        };
        Lists {
            file: ifp.bytes(&mut |_| ()),
            ifp,
            lines: String::new(),
        }
    }

    /// The file as it was, with something changed in a segment.
    fn with(&mut self, at: usize, change: impl FnOnce(&mut Segment)) -> &mut Lists {
        let mut ifp = self.ifp.clone();
        change(&mut ifp.segments[at]);
        self.file = ifp.bytes(&mut |_| ());
        self
    }

    fn read(&mut self, what: &str, from: Place, room: usize) -> &mut Lists {
        let mut out = vec![9; room];
        let result = store::postings(&self.file, from, &mut out);
        let (answer, count) = (number(&result), result.unwrap_or(0));
        let given = shown(&out, count);
        writeln!(self.lines, "{what}: postings {answer} {given}").unwrap();
        self
    }

    fn merge(&mut self, what: &str, from: [Place; 2], room: usize) -> &mut Lists {
        let (mut both, mut either) = (vec![9; room], vec![9; room]);
        let results = [
            ("common", store::common(&self.file, from, &mut both), both),
            (
                "joined",
                store::joined(&self.file, from, &mut either),
                either,
            ),
        ];
        for (call, result, mfns) in results {
            let (answer, count) = (number(&result), result.unwrap_or(0));
            let given = shown(&mfns, count);
            writeln!(self.lines, "{what}: {call} {answer} {given}").unwrap();
        }
        self
    }

    /// The long list into a list that is long enough, and both into none.
    fn all(&mut self, what: &str) {
        self.read(what, LONG, 8);
        self.merge(&format!("{what}, no room"), [SHORT, LONG], 0);
    }
}

/// What a call gave, and that it kept what stands behind.
fn shown<T: UpperHex + PartialEq + From<u8>>(list: &[T], count: usize) -> String {
    let (given, behind) = list.split_at(count);
    let kept = behind.iter().all(|item| *item == T::from(9));
    let items: String = given.iter().map(|item| format!("{item:X} ")).collect();
    items + if kept { "kept" } else { "written behind" }
}

/// A posting read, written and compared.
fn single(lines: &mut String) {
    for bytes in [&[1, 2, 3, 4, 5, 6, 7, 8][..], &[0xFF; 9], &[1; 7], &[]] {
        let result = store::posting_read(bytes);
        let answer = number(&result);
        let Posting {
            mfn,
            tag,
            occurrence,
            sequence,
        } = result.unwrap_or_default();
        writeln!(
            lines,
            "{bytes:02X?}: posting read {answer} {mfn}/{tag}/{occurrence}/{sequence}"
        )
        .unwrap();
    }
    for room in [9, 8, 7, 0] {
        for [mfn, tag, occurrence, sequence] in [
            [0x01_0203, 0x0405, 6, 0x0708],
            [0xFF_FFFF, 0xFFFF, 0xFF, 0xFFFF],
            [1 << 24, 0, 0, 0],
            [0, 1 << 16, 0, 0],
            [0, 0, 1 << 8, 0],
            [0, 0, 0, 1 << 16],
        ] {
            let mut out = vec![9; room];
            let posting = Posting::of(mfn, tag, occurrence, sequence);
            let answer = number(&store::posting_write(posting, &mut out));
            let what = format!("{mfn}/{tag}/{occurrence}/{sequence} into {room} bytes");
            writeln!(lines, "{what}: posting write {answer} {out:02X?}").unwrap();
        }
    }
    for (a, b) in [(0, 0), (0, 1), (1, 0), (1 << 63, 1), (u64::MAX, u64::MAX)] {
        let compared = store::posting_compare(a, b);
        writeln!(lines, "{a:X} and {b:X}: posting compare {compared}").unwrap();
    }
}

/// 17: every room around the number of items.
fn rooms(lists: &mut Lists) {
    for room in [7, 6, 5, 3, 2, 1, 0] {
        let what = format!("room for {room}");
        lists.read(&what, LONG, room);
        lists.merge(&what, [LONG, SHORT], room);
    }
    lists.merge("a list and itself", [SHORT, SHORT], 2);
    lists.merge("a list and itself, no room", [SHORT, SHORT], 1);
}

/// 23: places outside the file or its blocks.
fn places(lists: &mut Lists) {
    let nowhere = [
        (0, 0),
        (0, 60),
        (1, -1),
        (1, 121),
        (1, 127),
        (3, 0),
        (-1, 60),
        (i32::MAX, i32::MIN),
    ];
    for (block, word) in nowhere {
        let (what, at) = (format!("from {block}/{word}"), place(block, word));
        lists.read(&what, at, 8);
        lists.merge(&what, [SHORT, at], 8);
    }
    for (block, word) in [
        (0, 1),
        (0, -1),
        (1, -1),
        (1, 121),
        (3, 11),
        (0, 0),
        (1, 60),
        (1, 120),
    ] {
        lists.with(1, |segment| segment.next = place(block, word));
        lists.all(&format!("next place {block}/{word}"));
    }
}

/// 23: totals, counts and capacities.
fn headers(lists: &mut Lists) {
    for total in [5, 7, -1, i32::MIN, i32::MAX] {
        lists.with(0, |segment| segment.total = total);
        lists.all(&format!("total {total}"));
    }
    for count in [1, 3, -1, i32::MAX] {
        lists.with(2, |segment| segment.count = count);
        lists.all(&format!("count {count}"));
    }
    for capacity in [1, -1, 3, i32::MAX] {
        lists.with(2, |segment| segment.capacity = capacity);
        lists.all(&format!("capacity {capacity}"));
    }
    lists.with(2, |segment| {
        (segment.count, segment.capacity) = (9_000, 9_000)
    });
    lists.all("count 9000 of 9000");
    lists.with(2, |segment| {
        (segment.count, segment.next) = (0, place(1, 60));
    });
    lists.all("back to the first segment");
}

/// 23: postings that are equal or fall, inside a segment and from one to the next.
fn ascent(lists: &mut Lists) {
    for (at, place, mfn, tag) in [
        (0, 1, 1, 24),
        (0, 1, 1, 23),
        (1, 0, 2, 24),
        (1, 0, 2, 23),
        (1, 0, 2, 25),
        (2, 0, 4, 24),
    ] {
        lists.with(at, |segment| {
            segment.postings[place] = Posting::of(mfn, tag, 1, 7).bits();
        });
        lists.all(&format!("posting {place} of segment {at} is {mfn}/{tag}"));
    }
}

/// 23: files that end before, in and behind what is read. Block 2 has one posting, at bytes
/// 516 to 523.
fn lengths(lists: &mut Lists) {
    for len in [
        0, 4, 243, 263, 264, 279, 280, 511, 512, 523, 524, 1_024, 1_025,
    ] {
        lists.with(0, |_| ()).file.resize(len, 0);
        lists.all(&format!("{len} bytes"));
    }
}
