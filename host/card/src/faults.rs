//! What keeps a store from being sound: every cause once, in words, and nothing that only
//! follows from one. The library has answered before that the store is not sound; here the
//! bytes are read a second time to say why.

use crate::count;
use crate::layout::{BLOCK, Entry, Place, Store, long, slot_at, slots};
use crate::record::{About, Flaw};
use crate::steps::{Anchors, wrong_steps};
use isis::Mark;
use std::collections::BTreeMap;

/// Every cause; RECCNT is one where there is no other, since only then it is known what it
/// should be.
pub fn causes(store: &Store) -> Vec<String> {
    let mut found = apart(store);
    if found.is_empty() {
        found.extend(count::fault(store));
    }
    found
}

/// Every cause apart from RECCNT: of the XRF's blocks and free slots, of the MST by address, of
/// the entries by MFN.
fn apart(store: &Store) -> Vec<String> {
    let blocks = 1..=store.xrf.len() / BLOCK;
    let mut found: Vec<String> = blocks
        .filter_map(|block| block_fault(store, block))
        .collect();
    found.extend(used_slots(store));
    let mut versions = Versions::default();
    let mut entries = Vec::new();
    let mut past = Vec::new();
    for mfn in 1..store.next {
        match store.entry(mfn) {
            Entry::Gone => {}
            Entry::At(place) => versions.add(store, mfn, place),
            Entry::PastEnd => past.push(mfn),
            Entry::Unused if mfn > 1 && store.entry(mfn - 1) == Entry::Unused => {}
            Entry::Unused => entries.push(unused(store, mfn)),
            Entry::Wrong(words) => entries.push(entry_fault(mfn, &words)),
        }
    }
    let mut faults = versions.faults(store);
    if !past.is_empty() {
        // Then it is the end that is wrong.
        faults.retain(|fault| fault.about != About::End);
    }
    found.extend(faults.into_iter().map(|fault| fault.words));
    found.extend(past_end(store, &past));
    found.extend(entries);
    found
}

/// What is wrong with one MFN alone, as the answers 6 and 8 see it.
pub fn of_mfn(store: &Store, mfn: usize) -> Option<String> {
    if let Some(fault) = block_fault(store, slot_at(mfn) / BLOCK + 1) {
        return Some(fault);
    }
    match store.entry(mfn) {
        Entry::Gone => None,
        Entry::Unused => Some(unused(store, mfn)),
        Entry::PastEnd => past_end(store, &[mfn]),
        Entry::Wrong(words) => Some(entry_fault(mfn, &words)),
        Entry::At(place) => {
            let mut versions = Versions::default();
            versions.add(store, mfn, place);
            versions.flaws.pop().map(|(_, fault)| fault.words)
        }
    }
}

/// What keeps the next MFN from being given out.
pub fn of_next(store: &Store) -> Option<String> {
    let (mfn, at) = (store.next, slot_at(store.next));
    block_fault(store, at / BLOCK + 1).or_else(|| match store.slot(mfn) {
        0 => None,
        value => Some(format!(
            "XRF byte {at}: the slot of the next MFN, {mfn}, holds {value}, not 0"
        )),
    })
}

/// That an XRF block's first integer is wrong: its number, the last block's negated.
fn block_fault(store: &Store, block: usize) -> Option<String> {
    let at = (block - 1) * BLOCK;
    let number = block as i32;
    let last = at + BLOCK == store.xrf.len();
    let (found, wanted) = (long(store.xrf, at), if last { -number } else { number });
    (found != wanted).then(|| {
        format!("XRF block {block} (byte {at}): its first integer is {found}, not {wanted}")
    })
}

/// So many others, in words.
fn more(count: usize, words: &str) -> String {
    match count {
        0 => String::new(),
        count => format!("; {words} {count} more"),
    }
}

/// Slots from NXTMFN on that are not 0.
fn used_slots(store: &Store) -> Option<String> {
    let mut used = (store.next..=slots(store.xrf)).filter(|&mfn| store.slot(mfn) != 0);
    let first = used.next()?;
    let (at, value, next) = (slot_at(first), store.slot(first), store.next);
    Some(format!(
        "XRF byte {at}: MFN {first} was never given out, since NXTMFN is {next}, but its slot holds \
         {value}, not 0{}",
        more(used.count(), "so it is with")
    ))
}

/// An entry's fault.
fn entry_fault(mfn: usize, words: &str) -> String {
    format!("MFN {mfn}, XRF byte {}: {words}", slot_at(mfn))
}

/// Entries that are 0, from the first of them up to another.
fn unused(store: &Store, first: usize) -> String {
    let unused = |mfn: &usize| store.entry(*mfn) == Entry::Unused;
    let others = (first + 1..store.next).take_while(unused).count();
    let words = format!(
        "the entry is 0 (never used), but the MFN is below NXTMFN, {}{}",
        store.next,
        more(others, "so it is with")
    );
    entry_fault(first, &words)
}

/// Entries that lead past the end.
fn past_end(store: &Store, mfns: &[usize]) -> Option<String> {
    let (&first, others) = mfns.split_first()?;
    let words = format!(
        "the entry {} names a place that has not 18 bytes before the end, {}{}",
        store.slot(first),
        store.end,
        more(others.len(), "so do")
    );
    Some(entry_fault(first, &words))
}

/// A flaw with the name of the version that has it, and its address.
fn of(name: &str, at: usize, flaw: Flaw) -> Flaw {
    let words = format!("{name}: {} (record at MST byte {at})", flaw.words);
    Flaw { words, ..flaw }
}

/// The versions that entries lead to.
#[derive(Default)]
struct Versions {
    /// Those that are well formed.
    anchors: Anchors,
    /// What every address is called.
    names: BTreeMap<usize, String>,
    /// What is wrong with the others, by address.
    flaws: Vec<(usize, Flaw)>,
}

impl Versions {
    /// The record of an MFN and, under a pending change, its settled version.
    fn add(&mut self, store: &Store, mfn: usize, place: Place) {
        let back = self.version(store, mfn, place, format!("MFN {mfn}"));
        if let (Some(back), Mark::Changed) = (back, place.mark) {
            self.version(store, mfn, back, format!("MFN {mfn}, settled version"));
        }
    }

    /// One version, by its name; gives the place of the settled one.
    fn version(&mut self, store: &Store, mfn: usize, place: Place, name: String) -> Option<Place> {
        let at = place.at;
        match store.flaw(mfn, place) {
            Ok(back) => {
                self.anchors.insert(at, mfn);
                self.names.insert(at, name);
                back
            }
            Err(flaw) => {
                self.flaws.push((at, of(&name, at, flaw)));
                self.names.entry(at).or_insert(name);
                None
            }
        }
    }

    /// What is wrong in the MST, by address. A length that breaks the steps is told once.
    fn faults(mut self, store: &Store) -> Vec<Flaw> {
        let steps = wrong_steps(store, &self.anchors);
        let other = |flaw: &Flaw| flaw.about == About::Other;
        self.flaws
            .retain(|(at, flaw)| other(flaw) || !steps.contains_key(at));
        for (at, flaw) in steps {
            let name = self.names.remove(&at);
            let name = name.unwrap_or_else(|| "a record to which no entry leads".into());
            self.flaws.push((at, of(&name, at, flaw)));
        }
        self.flaws.sort_by_key(|(at, _)| *at);
        self.flaws.into_iter().map(|(_, flaw)| flaw).collect()
    }
}

#[cfg(test)]
mod tests {
    use super::*;
    use crate::trials::{Dice, damaged};
    use isis::{Card, CardRef, Refusal};

    /// A cause is named exactly where the library finds the store not sound, one apart from
    /// RECCNT exactly where it refuses to recount, and a fault of an MFN exactly where it
    /// answers 6 or 8.
    #[test]
    fn words_agree_with_the_answers() {
        let mut dice = Dice(12);
        let (mut sound, mut not_sound, mut uncounted, mut refused) = (0, 0, 0, 0);
        for _ in 0..20_000 {
            let (mst, xrf) = damaged(&mut dice);
            let card = CardRef::over(&mst, &xrf);
            match card.check() {
                Ok(()) => sound += 1,
                Err(Refusal::NotSound) => not_sound += 1,
                Err(_) => continue,
            }
            let store = Store::open(card).unwrap();
            let causes = causes(&store);
            assert_eq!(causes.is_empty(), card.check().is_ok(), "{causes:?}");
            let (mut counted, mut same) = (mst.clone(), xrf.clone());
            let recounted = Card::over(&mut counted, &mut same).recount();
            assert_eq!(apart(&store).is_empty(), recounted.is_ok(), "{causes:?}");
            uncounted += usize::from(recounted.is_ok() && counted != mst);
            for mfn in 1..store.next {
                let answer = card.fields_settled(mfn as u32).map(|_| ());
                let wrong = matches!(answer, Err(Refusal::BadEntry | Refusal::BadRecord));
                assert_eq!(of_mfn(&store, mfn).is_some(), wrong, "{mfn}: {answer:?}");
                refused += usize::from(wrong);
            }
        }
        assert!(sound > 1_000 && not_sound > 1_000 && uncounted > 300 && refused > 1_000);
    }
}
