//! Makes a failing list small, as long as what is left still shows a difference:
//! takes away runs of steps, halving their length, empties drafts and shortens lists. Where creates
//! are taken away, the MFNs after them are lowered, so that later calls still name
//! the same records.

use crate::archive::Subject;
use crate::trial::{Difference, Step, Trial};
use model::call::{Call, OwnedDraft};

/// At most so many trials are made for one list.
const TRIES: usize = 4_000;

/// The smallest failing trial so far.
struct Search<'s> {
    subject: &'s mut dyn Subject,
    best: Trial,
    difference: Difference,
    tries: usize,
}

impl Search<'_> {
    /// Takes other steps if they still show a difference.
    fn take(&mut self, steps: Vec<Step>) -> bool {
        if self.tries >= TRIES {
            return false;
        }
        self.tries += 1;
        let mut candidate = Trial {
            steps,
            ..self.best.clone()
        };
        let Err(found) = candidate.run(self.subject) else {
            return false;
        };
        candidate.steps.truncate(found.step + 1);
        (self.best, self.difference) = (candidate, found);
        true
    }

    /// Takes away runs of `length` steps; says whether any could be.
    fn remove(&mut self, length: usize) -> bool {
        let mut from = 0;
        let mut shorter = false;
        while from < self.best.steps.len() && self.tries < TRIES {
            let to = (from + length).min(self.best.steps.len());
            let steps = &self.best.steps;
            let (lowered, plain) = (
                without(steps, from, to, true),
                without(steps, from, to, false),
            );
            if self.take(lowered) || self.take(plain) {
                shorter = true;
            } else {
                from = to;
            }
        }
        shorter
    }

    /// Halves the lists of MFNs as long as it can be.
    fn shorten_lists(&mut self) {
        for i in 0..self.best.steps.len() {
            while let Some(Step::Call(call)) = self.best.steps.get(i)
                && let Some(shorter) = halved(call)
            {
                let mut steps = self.best.steps.clone();
                steps[i] = Step::Call(shorter);
                if !self.take(steps) {
                    break;
                }
            }
        }
    }

    /// Empties the drafts that need no fields.
    fn empty_drafts(&mut self) {
        for i in 0..self.best.steps.len() {
            let mut steps = self.best.steps.clone();
            if let Some(Step::Call(Call::Create(draft) | Call::Update(_, draft))) = steps.get_mut(i)
                && *draft != OwnedDraft::default()
            {
                *draft = OwnedDraft::default();
                self.take(steps);
            }
        }
    }
}

/// A list of MFNs without its last half, and the list for its answers shorter by as many.
fn halved(call: &Call) -> Option<Call> {
    let Call::SettleList { mfns, room } = call else {
        return None;
    };
    let less = mfns.len().div_ceil(2);
    let room = room.checked_sub(less)?;
    let mfns = mfns[..mfns.len() - less].to_vec();
    (less > 0).then_some(Call::SettleList { mfns, room })
}

/// The steps without some of them; with the MFNs of what follows lowered, if wished,
/// by the creates that are missing now.
fn without(steps: &[Step], from: usize, to: usize, lower: bool) -> Vec<Step> {
    let creates = |steps: &[Step]| {
        let create = |step: &&Step| matches!(step, Step::Call(Call::Create(_)));
        steps.iter().filter(create).count() as u32
    };
    let last_format = steps[..from]
        .iter()
        .rposition(|step| *step == Step::Call(Call::Format))
        .unwrap_or(0);
    let before = creates(&steps[last_format..from]);
    let removed = creates(&steps[from..to]);
    let mut left = [&steps[..from], &steps[to..]].concat();
    if lower && removed > 0 {
        for step in &mut left[from..] {
            let Step::Call(call) = step else { continue };
            if *call == Call::Format {
                break;
            }
            for mfn in call.mfns_mut() {
                if *mfn > before + removed {
                    *mfn -= removed;
                }
            }
        }
    }
    left
}

/// A smaller trial that still fails, with its difference; `None` if this one passes.
pub fn shrink(trial: &Trial, subject: &mut dyn Subject) -> Option<(Trial, Difference)> {
    let difference = trial.run(subject).err()?;
    let mut best = trial.clone();
    best.steps.truncate(difference.step + 1);
    let mut length = best.steps.len().div_ceil(2).max(1);
    let mut search = Search {
        subject,
        best,
        difference,
        tries: 0,
    };
    loop {
        let shorter = search.remove(length);
        if length == 1 && !shorter || search.tries >= TRIES {
            search.empty_drafts();
            search.shorten_lists();
            return Some((search.best, search.difference));
        }
        length = length.div_ceil(2);
    }
}

/// A failing trial in words.
pub fn report(trial: &Trial, difference: &Difference) -> String {
    let mut words = format!(
        "seed {}: MST of {} bytes, XRF of {} bytes, {:?} side; shrunk to {} steps:\n",
        trial.seed,
        trial.mst.len(),
        trial.xrf.len(),
        trial.side,
        trial.steps.len()
    );
    for (i, step) in trial.steps.iter().enumerate() {
        words += &format!("  {i}: {step}\n");
    }
    words + &format!("after step {}: {}\n", difference.step, difference.what)
}
