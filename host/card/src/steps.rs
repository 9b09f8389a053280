//! Stepping through the MST from address 64 on, to name each place where it goes wrong by
//! itself. Records that an entry leads to and that are well formed are held on to: no step
//! may lead over one of them, and where stepping fails it goes on from the next of them, so
//! that one bad length hides nothing behind it.

use crate::layout::{FIRST, Store, step_over};
use crate::record::{About, Flaw, of_length};
use std::collections::BTreeMap;

/// Well-formed versions by their address, with their MFN.
pub type Anchors = BTreeMap<usize, usize>;

/// What goes wrong, by the address of the record that is the cause.
pub fn wrong_steps(store: &Store, anchors: &Anchors) -> BTreeMap<usize, Flaw> {
    let mut found = BTreeMap::new();
    let mut suspect = None;
    let mut at = FIRST;
    while at < store.end {
        let ahead = anchors.range(at + 1..).next();
        if anchors.contains_key(&at) {
            suspect = None;
        }
        match step(store, at, ahead) {
            Ok(next) => {
                suspect = suspect.or_else(|| misfit(store, anchors, at));
                at = next;
            }
            Err(flaw) => {
                let (cause, flaw) = suspect.take().unwrap_or((at, flaw));
                found.insert(cause, flaw);
                match ahead {
                    Some((&anchor, _)) => at = anchor,
                    None => break,
                }
            }
        }
    }
    found
}

/// The step behind the one at an address, with the anchor ahead.
fn step(store: &Store, at: usize, ahead: Option<(&usize, &usize)>) -> Result<usize, Flaw> {
    let record = store.record(at);
    let next = step_over(record.bytes()?.end);
    if let Some((anchor, mfn)) = ahead.filter(|(anchor, _)| next > **anchor) {
        let length = record.length();
        return Err(of_length(format!(
            "with its MFRL of {length} it runs over the record of MFN {mfn} at MST byte {anchor}"
        )));
    }
    if next > store.end {
        return Err(record.past(store.end));
    }
    Ok(next)
}

/// A step whose length does not fit what it holds, so that it may lead astray.
fn misfit(store: &Store, anchors: &Anchors, at: usize) -> Option<(usize, Flaw)> {
    if anchors.contains_key(&at) {
        return None;
    }
    let flaw = store.flaw_alone(at).err()?;
    (flaw.about != About::Other).then_some((at, flaw))
}
