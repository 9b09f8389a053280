//! A trial: a card, a list of steps, and the first difference between a subject and
//! the model, if there is one.

use crate::archive::{Given, Subject};
use crate::guarded::{Area, Side, at_work};
use crate::tally::Tally;
use model::call::{Call, on_bytes, on_ledger};
use model::history::History;
use model::layout::{Control, reccnt};
use model::{Ledger, Outcome};
use std::fmt;

/// One step of a trial.
#[derive(Clone, Debug, PartialEq, Eq)]
pub enum Step {
    /// A call.
    Call(Call),
    /// Bytes changed by somebody else, in the XRF or in the MST.
    Poke {
        /// In the XRF, not in the MST.
        xrf: bool,
        /// From this byte on.
        at: usize,
        /// To these bytes; what stands outside of the file is left away.
        bytes: Vec<u8>,
    },
}

impl fmt::Display for Step {
    fn fmt(&self, f: &mut fmt::Formatter<'_>) -> fmt::Result {
        let brief = |draft: &model::OwnedDraft| {
            let model::OwnedDraft { tags, lens, data } = draft;
            if tags.len().max(lens.len()).max(data.len()) <= 64 {
                format!("tags {tags:?}, lens {lens:?}, data {data:02X?}")
            } else {
                let (tags, lens) = (tags.len(), lens.len());
                format!("{tags} tags, {lens} lens, {} data bytes", data.len())
            }
        };
        match self {
            Step::Poke { xrf, at, bytes } => {
                let file = if *xrf { "XRF" } else { "MST" };
                write!(f, "poke {file} byte {at}: {bytes:02X?}")
            }
            Step::Call(Call::Create(draft)) => write!(f, "create {}", brief(draft)),
            Step::Call(Call::Update(mfn, draft)) => write!(f, "update {mfn}: {}", brief(draft)),
            Step::Call(call) => write!(f, "{call:?}"),
        }
    }
}

/// A card and what is done to it.
#[derive(Clone, Debug)]
pub struct Trial {
    /// The seed that the trial was made from.
    pub seed: u64,
    /// The MST at the start.
    pub mst: Vec<u8>,
    /// The XRF at the start.
    pub xrf: Vec<u8>,
    /// Against which guard page the buffers and the drafts stand.
    pub side: Side,
    /// What is done, in order.
    pub steps: Vec<Step>,
}

impl Trial {
    /// A card from no seed; what is done to it comes step by step.
    pub fn on(mst: &[u8], xrf: &[u8], side: Side) -> Trial {
        Trial {
            seed: 0,
            mst: mst.to_vec(),
            xrf: xrf.to_vec(),
            side,
            steps: Vec::new(),
        }
    }
}

/// The first difference that a trial met.
#[derive(Clone, Debug)]
pub struct Difference {
    /// After which step, from 0.
    pub step: usize,
    /// What was different.
    pub what: String,
}

/// A trial as it runs: the subject's buffers, the model's, and from a format on the ledger and
/// the history.
pub struct Run<'s> {
    subject: &'s mut dyn Subject,
    seed: u64,
    side: Side,
    areas: (Area, Area),
    mst: Vec<u8>,
    xrf: Vec<u8>,
    ledger: Option<(Ledger, History)>,
    step: usize,
}

impl<'s> Run<'s> {
    /// Starts a trial; its steps are not run yet.
    pub fn new(subject: &'s mut dyn Subject, trial: &Trial) -> Run<'s> {
        let (mst, xrf) = (trial.mst.clone(), trial.xrf.clone());
        let mut areas = (Area::new(mst.len()), Area::new(xrf.len()));
        areas.0.bytes(&mst, trial.side);
        areas.1.bytes(&xrf, trial.side);
        Run {
            subject,
            seed: trial.seed,
            side: trial.side,
            areas,
            mst,
            xrf,
            ledger: None,
            step: 0,
        }
    }

    /// The next MFN that the model's card would give out, for making good arguments.
    pub fn next_mfn(&self) -> usize {
        let lengths_right = model::layout::lengths_permitted(self.mst.len(), self.xrf.len());
        if !lengths_right {
            return 1;
        }
        Control::read(&self.mst, self.xrf.len()).map_or(1, |control| control.next_mfn)
    }

    /// The model's card.
    pub fn card(&self) -> (&[u8], &[u8]) {
        (&self.mst, &self.xrf)
    }

    /// Runs a step on both sides and compares.
    pub fn step(&mut self, step: &Step, tally: &mut Tally) -> Result<(), Difference> {
        let index = self.step;
        self.step += 1;
        match step {
            Step::Poke { xrf, at, bytes } => {
                self.poke(*xrf, *at, bytes);
                Ok(())
            }
            Step::Call(call) => self
                .call(call, tally)
                .map_err(|what| Difference { step: index, what }),
        }
    }

    fn poke(&mut self, xrf: bool, at: usize, bytes: &[u8]) {
        self.ledger = None;
        let (file, area) = if xrf {
            (&mut self.xrf, &mut self.areas.1)
        } else {
            (&mut self.mst, &mut self.areas.0)
        };
        let theirs = area.buffer(file.len(), self.side);
        for (i, &byte) in bytes.iter().enumerate() {
            if at + i < file.len() {
                file[at + i] = byte;
                theirs[at + i] = byte;
            }
        }
    }

    fn call(&mut self, call: &Call, tally: &mut Tally) -> Result<(), String> {
        at_work(self.seed, self.step);
        let given = self.on_subject(call);
        let (outcome, shown) = on_bytes(&mut self.mst, &mut self.xrf, call);
        tally.add(call, outcome.number);
        let wanted = Given::wanted(&outcome, shown);
        if given != wanted {
            return Err(format!("gave {given:?}, wanted {wanted:?}"));
        }
        self.same_bytes()?;
        self.same_ledger(call, &outcome)
    }

    /// Runs a call on the subject. One in sixteen of the calls that only read finds
    /// both buffers shut against writing, which takes longer than the call.
    fn on_subject(&mut self, call: &Call) -> Given {
        let shut = call.only_reads() && self.step.is_multiple_of(16);
        if shut {
            self.areas.0.read_only(true);
            self.areas.1.read_only(true);
        }
        let mst = self.areas.0.buffer(self.mst.len(), self.side);
        let xrf = self.areas.1.buffer(self.xrf.len(), self.side);
        let given = self.subject.run(mst, xrf, call, self.side);
        if shut {
            self.areas.0.read_only(false);
            self.areas.1.read_only(false);
        }
        given
    }

    /// All bytes of both buffers are the model's, and none beside them was written.
    fn same_bytes(&mut self) -> Result<(), String> {
        let pairs = [
            ("MST", &mut self.areas.0, &self.mst),
            ("XRF", &mut self.areas.1, &self.xrf),
        ];
        for (name, area, wanted) in pairs {
            let bytes = area.buffer(wanted.len(), self.side);
            if bytes != &wanted[..] {
                let at = (0..bytes.len())
                    .find(|&i| bytes[i] != wanted[i])
                    .unwrap_or(0);
                let (is, should) = (bytes[at], wanted[at]);
                return Err(format!("{name} byte {at} is {is:02X}, wanted {should:02X}"));
            }
            if !area.slack_kept(wanted.len(), self.side) {
                return Err(format!("a byte beside the {name} was written"));
            }
        }
        Ok(())
    }

    /// From a format on, the ledger gives the same, its end and next MFN are the control
    /// record's, and RECCNT is what the history counts.
    fn same_ledger(&mut self, call: &Call, outcome: &Outcome) -> Result<(), String> {
        if *call == Call::Format {
            let ledger = Ledger::new(self.mst.len(), self.xrf.len());
            self.ledger = ledger.map(|ledger| (ledger, History::default()));
        }
        let Some((ledger, history)) = &mut self.ledger else {
            return Ok(());
        };
        let wanted = on_ledger(ledger, call);
        if *outcome != wanted {
            return Err(format!("gave {outcome:?}, the ledger wants {wanted:?}"));
        }
        let control = Control::read(&self.mst, self.xrf.len());
        let kept = control.map(|control| (control.next_mfn, control.end));
        if kept != Ok((ledger.next_mfn(), ledger.end())) {
            return Err(format!("control record {kept:?} is not the ledger's"));
        }
        history.add(call, outcome);
        let (count, counted) = (i64::from(reccnt(&self.mst)), history.count());
        if count != counted {
            return Err(format!("RECCNT is {count}, the history counts {counted}"));
        }
        Ok(())
    }
}

impl Trial {
    /// Runs all steps; gives the first difference.
    pub fn run(&self, subject: &mut dyn Subject) -> Result<(), Difference> {
        let mut run = Run::new(subject, self);
        let mut tally = Tally::default();
        self.steps
            .iter()
            .try_for_each(|step| run.step(step, &mut tally))
    }
}
