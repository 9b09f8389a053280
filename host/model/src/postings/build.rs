//! Files of lists: as an indexing program leaves them, and in any shape that the rules
//! permit. Segments stand here by meaning, with every number as it will stand in the file,
//! so that any of them can be made wrong.

use super::{BLOCK, HEADER, LAST_HEADER, Place, WORDS, place};
use crate::bytes::put_i32;
use crate::random::Random;

/// A segment and where it stands. The numbers of its header may say other than what it has.
#[derive(Clone, Debug, PartialEq, Eq)]
#[allow(missing_docs)]
pub struct Segment {
    pub at: Place,
    pub next: Place,
    pub total: i32,
    pub count: i32,
    pub capacity: i32,
    pub postings: Vec<u64>,
}

/// A postings file by meaning.
#[derive(Clone, Debug, PartialEq, Eq, Default)]
pub struct Ifp {
    /// All segments, in the order of their places.
    pub segments: Vec<Segment>,
    /// For each list the indexes of its segments, in its own order.
    pub lists: Vec<Vec<usize>>,
    /// IFPREC\[1\] and IFPREC\[2\] of the first block, where they are kept free.
    pub free: Option<Place>,
    /// Bytes that are left off the end of the last block that is needed.
    pub cut: usize,
}

/// What fills the bytes that nothing says.
pub type Filler<'a> = &'a mut dyn FnMut(&mut [u8]);

/// Where the next thing of a file is put.
#[derive(Clone, Copy, Debug)]
struct Pen(Place);

impl Pen {
    /// On to the next block.
    fn turn(&mut self) {
        self.0 = place(self.0.block + 1, 0);
    }

    /// Takes so many words that stand in one block; gives the first.
    fn take(&mut self, words: i32) -> Place {
        if self.0.word > WORDS - words {
            self.turn();
        }
        let taken = self.0;
        self.0.word += words;
        taken
    }

    /// Takes a header, which stands in one block with the first posting.
    fn header(&mut self) -> Place {
        if self.0.word > LAST_HEADER {
            self.turn();
        }
        self.take(HEADER)
    }
}

/// The file of these lists as a full load leaves it: a segment each, full, one behind the
/// other from word 2 of block 1 on, where the pointer to the next free place ends.
pub fn plain(lists: &[Vec<u64>]) -> Ifp {
    let mut pen = Pen(place(1, 2));
    let segments: Vec<Segment> = lists
        .iter()
        .map(|list| full(&mut pen, list.len() as i32, list))
        .collect();
    Ifp {
        lists: (0..segments.len()).map(|at| vec![at]).collect(),
        segments,
        free: Some(pen.0),
        cut: 0,
    }
}

/// The file of these lists in full segments of so many postings, which stand in turn, as a
/// program leaves them that adds to all lists at once.
pub fn in_turn(lists: &[Vec<u64>], size: usize) -> Ifp {
    let mut ifp = Ifp {
        lists: vec![Vec::new(); lists.len()],
        ..Ifp::default()
    };
    let (mut pen, mut rest) = (
        Pen(place(1, 0)),
        Vec::from_iter(lists.iter().map(|l| &l[..])),
    );
    while rest.iter().any(|rest| !rest.is_empty()) {
        for (list, rest) in rest.iter_mut().enumerate() {
            let part;
            (part, *rest) = rest.split_at(size.min(rest.len()));
            let total = lists[list].len() as i32;
            ifp.lists[list].push(ifp.segments.len());
            ifp.segments.push(full(&mut pen, total, part));
        }
    }
    ifp.link();
    ifp
}

/// Puts a segment without room to spare behind the last one.
fn full(pen: &mut Pen, total: i32, postings: &[u64]) -> Segment {
    let at = pen.header();
    for _ in postings {
        pen.take(2);
    }
    Segment::full(at, place(0, 0), total, postings.to_vec())
}

/// A file of these lists in any shape: lists taken apart into segments, also empty ones, that
/// stand in any order, with words left out between them, headers at word 120, capacities
/// above counts and totals that say nothing in later segments. The file may end with its last
/// posting.
pub fn shuffled(lists: &[Vec<u64>], random: &mut Random) -> Ifp {
    let parts: Vec<Vec<Vec<u64>>> = lists.iter().map(|list| parts(list, random)).collect();
    let which = (0..)
        .zip(&parts)
        .flat_map(|(list, parts)| (0..parts.len()).map(move |part| (list, part)));
    let mut order: Vec<(usize, usize)> = which.collect();
    for at in (1..order.len()).rev() {
        order.swap(at, random.below(at + 1));
    }
    let mut pen = Pen(place(1, random.below(6) as i32));
    let segments = order.iter().map(|&(list, part)| {
        let total = match part {
            0 => lists[list].len() as i32,
            _ => random.next() as i32,
        };
        placed(&mut pen, total, parts[list][part].clone(), random)
    });
    let mut ifp = Ifp {
        segments: segments.collect(),
        lists: parts.iter().map(|parts| vec![0; parts.len()]).collect(),
        ..Ifp::default()
    };
    for (at, (list, part)) in order.into_iter().enumerate() {
        ifp.lists[list][part] = at;
    }
    ifp.link();
    if random.one_in(2) {
        let end = ifp.end();
        ifp.cut = end.next_multiple_of(BLOCK) - end;
    }
    ifp
}

/// Puts a segment behind the last one, not always directly.
fn placed(pen: &mut Pen, total: i32, postings: Vec<u64>, random: &mut Random) -> Segment {
    match random.below(6) {
        0 if pen.0.word <= LAST_HEADER => pen.0.word = LAST_HEADER,
        1 => pen.turn(),
        _ => {
            pen.take(random.below(4) as i32);
        }
    }
    let mut segment = Segment::full(pen.header(), place(0, 0), total, postings);
    segment.capacity += random.pick(&[0, 0, 1, 3, 40]);
    for _ in 0..segment.capacity {
        pen.take(2);
    }
    segment
}

/// Takes a list apart into one part or more, of which some may be empty.
fn parts(list: &[u64], random: &mut Random) -> Vec<Vec<u64>> {
    let most = random.pick(&[1, 2, 9, 80, 2_000]);
    let (mut rest, mut parts) = (list, Vec::new());
    while !rest.is_empty() || parts.is_empty() || random.one_in(6) {
        let part;
        (part, rest) = rest.split_at(random.below(most + 1).min(rest.len()));
        parts.push(part.to_vec());
    }
    parts
}

impl Ifp {
    /// Where each list begins.
    pub fn starts(&self) -> Vec<Place> {
        let firsts = self.lists.iter().map(|list| self.segments[list[0]].at);
        firsts.collect()
    }

    /// Links the segments of each list; the last one's next place is 0/0.
    pub fn link(&mut self) {
        for list in &self.lists {
            for (at, &segment) in list.iter().enumerate() {
                let next = list.get(at + 1).map(|&next| self.segments[next].at);
                self.segments[segment].next = next.unwrap_or_default();
            }
        }
    }

    /// The byte behind all headers and postings.
    fn end(&self) -> usize {
        let ends = self.segments.iter().map(Segment::end);
        ends.max().unwrap_or_default()
    }

    /// The bytes of the file.
    pub fn bytes(&self, fill: Filler) -> Vec<u8> {
        let mut file = vec![0; self.end().next_multiple_of(BLOCK).max(BLOCK)];
        fill(&mut file);
        for (number, block) in (1..).zip(file.chunks_mut(BLOCK)) {
            put_i32(block, 0, number);
        }
        if let Some(free) = self.free {
            put_i32(&mut file, 4, free.block);
            put_i32(&mut file, 8, free.word);
        }
        for segment in &self.segments {
            segment.write(&mut file);
        }
        file.truncate(file.len() - self.cut.min(file.len()));
        file
    }
}

/// The byte at which a place of a block begins.
pub fn byte_at(at: Place) -> usize {
    (at.block as usize - 1) * BLOCK + 4 + 4 * at.word as usize
}

impl Segment {
    /// A segment without room to spare.
    pub fn full(at: Place, next: Place, total: i32, postings: Vec<u64>) -> Segment {
        let count = postings.len() as i32;
        Segment {
            at,
            next,
            total,
            count,
            capacity: count,
            postings,
        }
    }

    /// Where its postings stand.
    fn places(&self) -> impl Iterator<Item = usize> {
        let mut pen = Pen(self.at);
        pen.header();
        self.postings.iter().map(move |_| byte_at(pen.take(2)))
    }

    /// The byte behind all of it.
    fn end(&self) -> usize {
        let header = byte_at(self.at) + 4 * HEADER as usize;
        self.places().last().map_or(header, |last| last + 8)
    }

    fn write(&self, file: &mut [u8]) {
        let header = byte_at(self.at);
        let numbers = [
            self.next.block,
            self.next.word,
            self.total,
            self.count,
            self.capacity,
        ];
        for (at, number) in numbers.into_iter().enumerate() {
            put_i32(file, header + 4 * at, number);
        }
        for (at, posting) in self.places().zip(&self.postings) {
            file[at..at + 8].copy_from_slice(&posting.to_be_bytes());
        }
    }
}
