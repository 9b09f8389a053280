//! Posting lists: the postings of one, and the MFNs of two. A list is gone through by runs, the
//! postings of a segment that stand in one block, so that nothing but the ascent is asked of each
//! posting. A first pass asks the rules; a second one gives.

use super::i32_at;

/// A block and a word of it.
type Place = (i32, i32);

/// A posting's eight bytes, most significant first.
type Posting = [u8; 8];

/// No MFN has this number.
const NONE: u32 = 1 << 24;

/// What a segment's header says.
struct Segment {
    next: Place,
    total: i32,
    count: usize,
    first: usize,
}

impl Segment {
    #[inline(always)]
    fn read(ifp: &[u8], (block, word): Place) -> Option<Segment> {
        let block = usize::try_from(block).ok()?.checked_sub(1)?;
        let word = usize::try_from(word).ok().filter(|word| *word <= 120)?;
        let at = block * 512 + 4 + 4 * word;
        let header: &[u8; 20] = ifp.get(at..)?.first_chunk()?;
        let (count, capacity) = (i32_at(header, 12), i32_at(header, 16));
        (0 <= count && count <= capacity).then_some(Segment {
            next: (i32_at(header, 0), i32_at(header, 4)),
            total: i32_at(header, 8),
            count: count as usize,
            first: at + 20,
        })
    }
}

/// The runs of a list that are still to come.
#[derive(Clone, Copy)]
struct Runs<'a> {
    ifp: &'a [u8],
    at: usize,
    left: usize,
    next: Place,
    fuel: usize,
}

impl<'a> Runs<'a> {
    /// The runs of the list at a place, and its total.
    #[inline(always)]
    fn open(ifp: &'a [u8], place: Place) -> Option<(Runs<'a>, usize)> {
        let segment = Segment::read(ifp, place)?;
        let runs = Runs {
            ifp,
            at: segment.first,
            left: segment.count,
            next: segment.next,
            fuel: ifp.len() / 4 - 1,
        };
        Some((runs, usize::try_from(segment.total).ok()?))
    }

    /// The next run; none at the list's end; an error where a rule is broken.
    #[inline(always)]
    fn run(&mut self) -> Result<Option<&'a [Posting]>, ()> {
        while self.left == 0 {
            if self.next == (0, 0) {
                return Ok(None);
            }
            self.fuel = self.fuel.checked_sub(1).ok_or(())?;
            let segment = Segment::read(self.ifp, self.next).ok_or(())?;
            self.at = segment.first;
            self.left = segment.count;
            self.next = segment.next;
        }
        let count = self.left.min((512 - self.at % 512) / 8);
        let run = self.ifp.get(self.at..self.at + 8 * count).ok_or(())?;
        self.left -= count;
        self.at = self.at / 512 * 512 + 516;
        Ok(Some(run.as_chunks().0))
    }

    /// Asks all rules of the list, which is to have so many postings.
    #[inline(always)]
    fn ask(mut self, total: usize) -> Result<(), ()> {
        let mut due = total;
        let mut last = None;
        while let Some(run) = self.run()? {
            due = due.checked_sub(run.len()).ok_or(())?;
            let first = u64::from_be_bytes(run[0]);
            if last.is_some_and(|last| last >= first) {
                return Err(());
            }
            last = Some(climbed(first, &run[1..])?);
        }
        if due == 0 { Ok(()) } else { Err(()) }
    }
}

/// The last of some postings, which ascend strictly from above one on. Four are asked at once,
/// so that there are fewer branches.
#[inline(always)]
fn climbed(mut last: u64, postings: &[Posting]) -> Result<u64, ()> {
    let (fours, rest) = postings.as_chunks();
    for four in fours {
        let [a, b, c, d] = four.map(u64::from_be_bytes);
        if !((last < a) & (a < b) & (b < c) & (c < d)) {
            return Err(());
        }
        last = d;
    }
    for posting in rest {
        let posting = u64::from_be_bytes(*posting);
        if posting <= last {
            return Err(());
        }
        last = posting;
    }
    Ok(last)
}

/// The runs of the list at a place, which keeps the rules, and its total.
#[inline(always)]
fn asked(ifp: &[u8], place: Place) -> Result<(Runs<'_>, usize), u32> {
    let (runs, total) = Runs::open(ifp, place).ok_or(23u32)?;
    runs.ask(total).map_err(|()| 23u32)?;
    Ok((runs, total))
}

/// The postings of a list: the answer, and how many.
#[inline(always)]
pub fn postings(ifp: &[u8], from: Place, out: &mut [u64]) -> (u32, usize) {
    answered(read(ifp, from, out))
}

#[inline(always)]
fn read(ifp: &[u8], from: Place, out: &mut [u64]) -> Result<usize, u32> {
    let (mut runs, total) = asked(ifp, from)?;
    let mut rest = out.get_mut(..total).ok_or(17u32)?;
    while let Ok(Some(run)) = runs.run() {
        let front;
        (front, rest) = rest.split_at_mut(run.len());
        for (out, posting) in front.iter_mut().zip(run) {
            *out = u64::from_be_bytes(*posting);
        }
    }
    Ok(total)
}

/// The MFN of a posting.
#[inline(always)]
fn mfn([a, b, c, d, ..]: &Posting) -> u32 {
    u32::from_be_bytes([*a, *b, *c, *d]) >> 8
}

/// What is left of a list: the rest of a run, and the runs behind it.
#[derive(Clone, Copy)]
struct Rest<'a> {
    run: &'a [Posting],
    runs: Runs<'a>,
}

impl<'a> Rest<'a> {
    #[inline(always)]
    fn of(runs: Runs<'a>) -> Rest<'a> {
        Rest { run: &[], runs }
    }

    /// Whether anything is left; then the run has a posting.
    #[inline(always)]
    fn more(&mut self) -> bool {
        while self.run.is_empty() {
            let Ok(Some(run)) = self.runs.run() else {
                return false;
            };
            self.run = run;
        }
        true
    }
}

/// Hands on the MFNs of both of two lists, or of either, and whether each is another than the
/// last. Which list has the lower MFN cannot be predicted, so nothing branches on it, and the
/// MFN that comes next in a run is read before it is known whether it is needed.
#[inline(always)]
fn merge<const BOTH: bool>(mut x: Rest, mut y: Rest, mut give: impl FnMut(u32, bool)) {
    let mut last = NONE;
    while x.more() && y.more() {
        let (mut i, mut j) = (0, 0);
        let (mut a, mut b) = (mfn(&x.run[0]), mfn(&y.run[0]));
        while i < x.run.len() && j < y.run.len() {
            let behind_a = x.run.get(i + 1).map_or(NONE, mfn);
            let behind_b = y.run.get(j + 1).map_or(NONE, mfn);
            let low = a.min(b);
            let wanted = !BOTH || a == b;
            give(low, wanted && low != last);
            last = if wanted { low } else { last };
            // A selection by "below" is one step of a processor, one by "below or equal" may be two.
            let (not_in_x, not_in_y) = (b < a, a < b);
            i += usize::from(!not_in_x);
            j += usize::from(!not_in_y);
            a = if not_in_x { a } else { behind_a };
            b = if not_in_y { b } else { behind_b };
        }
        (x.run, y.run) = (&x.run[i..], &y.run[j..]);
    }
    if !BOTH {
        for mut rest in [x, y] {
            while rest.more() {
                for posting in rest.run {
                    let low = mfn(posting);
                    give(low, low != last);
                    last = low;
                }
                rest.run = &[];
            }
        }
    }
}

#[inline(always)]
fn merged<const BOTH: bool>(ifp: &[u8], a: Place, b: Place, out: &mut [u32]) -> Result<usize, u32> {
    let ((x, of_x), (y, of_y)) = (asked(ifp, a)?, asked(ifp, b)?);
    let (x, y) = (Rest::of(x), Rest::of(y));
    let most = if BOTH { of_x.min(of_y) } else { of_x + of_y };
    if out.len() < most {
        let mut count = 0;
        merge::<BOTH>(x, y, |_, new| count += usize::from(new));
        if out.len() < count {
            return Err(17);
        }
    }
    let mut count = 0;
    merge::<BOTH>(x, y, |mfn, new| {
        // Of either list an MFN that is not new is the one that stands there.
        if !BOTH || new {
            count += usize::from(new);
            out[count - 1] = mfn;
        }
    });
    Ok(count)
}

/// The MFNs in both of two lists: the answer, and how many.
#[inline(always)]
pub fn common(ifp: &[u8], a: Place, b: Place, out: &mut [u32]) -> (u32, usize) {
    answered(merged::<true>(ifp, a, b, out))
}

/// The MFNs in either of two lists: the answer, and how many.
#[inline(always)]
pub fn joined(ifp: &[u8], a: Place, b: Place, out: &mut [u32]) -> (u32, usize) {
    answered(merged::<false>(ifp, a, b, out))
}

#[inline(always)]
fn answered(given: Result<usize, u32>) -> (u32, usize) {
    given.map_or_else(|refusal| (refusal, 0), |count| (0, count))
}
