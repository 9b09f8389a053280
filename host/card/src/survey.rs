//! What stands where on a card: the records counted, and the MST walked step by step
//! from address 64, each step with the part that it plays. Nothing is changed, and
//! nothing is taken for granted: where stepping fails, the rest is unreadable.

use crate::layout::{Entry, FIRST, Place, Store, step_over};
use isis::{Mark, Refusal, State};

/// The part that some bytes of the MST play.
#[derive(Clone, Copy, Debug, PartialEq, Eq)]
pub enum Part {
    /// The current version of a record.
    Current(Place),
    /// The settled version of a record under a pending change.
    Kept,
    /// No entry leads here any more.
    Lost,
    /// Stepping fails here.
    Unreadable,
}

/// A step of the MST, or what is left below the end where stepping fails.
#[derive(Clone, Copy, Debug)]
pub struct Span {
    /// Its address.
    pub at: usize,
    /// Its length, without a gap behind it.
    pub len: usize,
    /// The MFN in its leader.
    pub mfn: i32,
    /// The part that it plays.
    pub part: Part,
}

/// How many records are of which kind.
#[derive(Clone, Copy, Debug, Default, PartialEq, Eq)]
#[allow(missing_docs)]
pub struct Counts {
    pub live: usize,
    pub deleted: usize,
    pub changed: usize,
    pub new: usize,
    pub gone: usize,
    pub malformed: usize,
}

/// Counts the records, by the states that the library tells.
pub fn count(store: &Store) -> Counts {
    let mut counts = Counts::default();
    for mfn in 1..store.next as u32 {
        match store.card().state(mfn) {
            Ok(State { mark, deleted }) => {
                counts.live += usize::from(!deleted);
                counts.deleted += usize::from(deleted);
                counts.changed += usize::from(mark == Mark::Changed);
                counts.new += usize::from(mark == Mark::New);
            }
            Err(Refusal::Gone) => counts.gone += 1,
            Err(_) => counts.malformed += 1,
        }
    }
    counts
}

/// The steps of the MST, in order.
pub fn spans(store: &Store) -> Vec<Span> {
    let mut spans = Vec::new();
    let mut at = FIRST;
    while at < store.end {
        let record = store.record(at);
        let mfn = record.mfn();
        let (len, part) = match record.bytes() {
            Ok(bytes) if bytes.end <= store.end => (bytes.len(), part_of(store, at, mfn)),
            _ => (store.end - at, Part::Unreadable),
        };
        spans.push(Span { at, len, mfn, part });
        at = step_over(at + len);
    }
    spans
}

/// The part that the step at an address plays for the MFN in its leader.
fn part_of(store: &Store, at: usize, mfn: i32) -> Part {
    let given_out = 1..store.next as i64;
    if !given_out.contains(&mfn.into()) {
        return Part::Lost;
    }
    match store.entry(mfn as usize) {
        Entry::At(place) if place.at == at => Part::Current(place),
        Entry::At(place) if place.mark == Mark::Changed => {
            match store.record(place.at).back_at(store.end) {
                Some(back) if back == at => Part::Kept,
                _ => Part::Lost,
            }
        }
        _ => Part::Lost,
    }
}

/// What the bytes of the MST are used for; the four sum to its length.
#[derive(Clone, Copy, Debug, Default, PartialEq, Eq)]
pub struct Space {
    /// The control record and the current versions.
    pub used: usize,
    /// The settled versions under pending changes.
    pub kept: usize,
    /// All else below the end.
    pub lost: usize,
    /// From the end on.
    pub free: usize,
}

/// Sums up the space.
pub fn space(store: &Store, spans: &[Span]) -> Space {
    let sum = |part: fn(&Part) -> bool| -> usize {
        let spans = spans.iter().filter(|span| part(&span.part));
        spans.map(|span| span.len).sum()
    };
    let used = FIRST + sum(|part| matches!(part, Part::Current(_)));
    let kept = sum(|part| matches!(part, Part::Kept));
    Space {
        used,
        kept,
        lost: store.end - used - kept,
        free: store.mst.len() - store.end,
    }
}

#[cfg(test)]
mod tests {
    use super::*;
    use crate::trials::{Dice, damaged};
    use isis::CardRef;

    #[test]
    fn any_card_is_surveyed_and_its_space_adds_up() {
        let mut dice = Dice(7);
        for _ in 0..5_000 {
            let (mst, xrf) = damaged(&mut dice);
            let Ok(store) = Store::open(CardRef::over(&mst, &xrf)) else {
                continue;
            };
            let space = space(&store, &spans(&store));
            let sum = space.used + space.kept + space.lost + space.free;
            assert_eq!(sum, mst.len());
            let counts = count(&store);
            let all = counts.live + counts.deleted + counts.gone + counts.malformed;
            assert_eq!(all, store.next - 1);
        }
    }
}
