//! Damage by meaning: a next place, a total, a count, a capacity or a posting of a file is
//! made wrong, in such a way as an attacker or a faulty program would. Each damages one list.

use model::postings::build::{Ifp, Segment};
use model::postings::{HEADER, Place, WORDS, place};
use model::random::Random;

/// A damage to a list, and its name.
pub type Damage = (&'static str, fn(&mut Ifp, usize, &mut Random));

/// All of them.
pub const ALL: [Damage; 17] = [
    ("ring", |ifp, list, random| {
        let to = random.pick(&ifp.lists[list]);
        last(ifp, list).next = ifp.segments[to].at;
    }),
    ("ring of empty segments", |ifp, list, random| {
        for at in ifp.lists[list].clone() {
            let segment = &mut ifp.segments[at];
            (segment.count, segment.total) = (0, 0);
        }
        let to = random.pick(&ifp.lists[list]);
        last(ifp, list).next = ifp.segments[to].at;
    }),
    ("tail into another list", |ifp, list, random| {
        let to = random.below(ifp.segments.len());
        last(ifp, list).next = ifp.segments[to].at;
    }),
    ("tail into a ring", |ifp, list, random| {
        let other = random.below(ifp.lists.len());
        let (to, back) = (
            random.pick(&ifp.lists[other]),
            random.pick(&ifp.lists[other]),
        );
        last(ifp, list).next = ifp.segments[to].at;
        last(ifp, other).next = ifp.segments[back].at;
    }),
    ("next place outside", |ifp, list, random| {
        let here = any(ifp, list, random).at;
        any(ifp, list, random).next = outside(here, random);
    }),
    ("next place 0 and a word", |ifp, list, random| {
        let word = random.pick(&[1, 2, 120, -1, i32::MAX]);
        any(ifp, list, random).next = place(0, word);
    }),
    ("next place a block and -1", |ifp, list, random| {
        let block = any(ifp, list, random).at.block;
        any(ifp, list, random).next = place(block, -1);
    }),
    ("list cut off", |ifp, list, random| {
        any(ifp, list, random).next = place(0, 0);
    }),
    ("total", |ifp, list, random| {
        let total = &mut first(ifp, list).total;
        *total = random.pick(&[*total - 1, *total + 1, 0, -1, i32::MIN, i32::MAX]);
    }),
    ("negative count", |ifp, list, random| {
        any(ifp, list, random).count = random.pick(&[-1, -2, i32::MIN]);
    }),
    ("negative capacity", |ifp, list, random| {
        any(ifp, list, random).capacity = random.pick(&[-1, i32::MIN]);
    }),
    ("count past the capacity", |ifp, list, random| {
        let segment = any(ifp, list, random);
        match random.below(3) {
            0 => segment.count = segment.capacity.saturating_add(random.pick(&[1, i32::MAX])),
            _ => segment.capacity = (segment.count - 1).max(0),
        }
    }),
    ("count another", |ifp, list, random| {
        let segment = any(ifp, list, random);
        segment.count = random.pick(&[segment.count + 1, segment.count - 1, 1_000_000]);
        segment.capacity = segment.capacity.max(segment.count);
    }),
    ("capacity past the file", |ifp, list, random| {
        any(ifp, list, random).capacity = i32::MAX;
    }),
    ("postings inside a segment", |ifp, list, random| {
        let postings = &mut any(ifp, list, random).postings;
        if let Some(at) = postings.len().checked_sub(2) {
            let at = random.below(at + 1);
            postings[at + 1] = postings[at].saturating_sub(random.below(2) as u64);
        }
    }),
    ("postings from block to block", |ifp, list, random| {
        let segment = any(ifp, list, random);
        let behind_header = (WORDS - HEADER - segment.at.word) as usize / 2;
        if let Some([.., before, next]) = segment.postings.get_mut(..=behind_header) {
            *next = before.saturating_sub(random.below(2) as u64);
        }
    }),
    ("postings from segment to segment", |ifp, list, random| {
        let full = |at: &usize| !ifp.segments[*at].postings.is_empty();
        let full: Vec<usize> = ifp.lists[list].iter().copied().filter(full).collect();
        if let Some(at) = full.len().checked_sub(2) {
            let at = random.below(at + 1);
            let before = *ifp.segments[full[at]].postings.last().expect("it has some");
            let equal = before.saturating_sub(random.below(2) as u64);
            ifp.segments[full[at + 1]].postings[0] = equal;
        }
    }),
];

fn first(ifp: &mut Ifp, list: usize) -> &mut Segment {
    &mut ifp.segments[ifp.lists[list][0]]
}

fn last(ifp: &mut Ifp, list: usize) -> &mut Segment {
    let at = *ifp.lists[list].last().expect("a list has a segment");
    &mut ifp.segments[at]
}

fn any<'a>(ifp: &'a mut Ifp, list: usize, random: &mut Random) -> &'a mut Segment {
    &mut ifp.segments[random.pick(&ifp.lists[list])]
}

/// A place at which no header stands whole in one block of the file.
fn outside(here: Place, random: &mut Random) -> Place {
    let block = random.pick(&[here.block, 1]);
    match random.below(5) {
        0 => place(block, random.between(121, 127) as i32),
        1 => place(block + 1_000, here.word),
        2 => place(-block, here.word),
        3 => place(block, random.pick(&[-1, i32::MIN, i32::MAX, 128])),
        _ => place(random.pick(&[i32::MIN, i32::MAX]), here.word),
    }
}
