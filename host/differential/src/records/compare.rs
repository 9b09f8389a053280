//! A case, and the first difference between a tester and the model on it; how often each rule was
//! broken, and where; and the driver that runs random cases.

use super::{Archive, Given, Tester};
use crate::guarded::Side;
use crate::seeds;
use model::fault::Rule;
use model::random::Random;
use model::record_test::{Paper, test_by, told};
use std::collections::BTreeMap;
use std::fmt;

/// A record and what it is held to.
#[derive(Clone, Debug)]
pub struct Case {
    /// What it is, in words.
    pub what: String,
    /// From its first byte to the store's end.
    pub record: Vec<u8>,
    /// The MFN that it must have.
    pub mfn: u32,
    /// Whether it must be deleted: 0 or not.
    pub deleted: u32,
    /// What must come of it, where that is known from how it was made.
    pub known: Option<Given>,
}

/// Where in the directory the entry stands that is told.
#[derive(Clone, Copy, Debug, PartialEq, Eq, PartialOrd, Ord)]
pub enum Spot {
    /// None is told.
    Nowhere,
    /// It is the only one.
    Only,
    /// The first of several.
    First,
    /// Between others.
    Middle,
    /// The last of several.
    Last,
}

impl Spot {
    /// Where an entry stands among several.
    pub const OF_SEVERAL: [Spot; 3] = [Spot::First, Spot::Middle, Spot::Last];

    fn of(record: &[u8], entry: u32) -> Spot {
        if entry == 0 {
            return Spot::Nowhere;
        }
        let fields = u32::from(u16::from_le_bytes([record[14], record[15]]));
        match entry {
            1 if fields == 1 => Spot::Only,
            1 => Spot::First,
            last if last == fields => Spot::Last,
            _ => Spot::Middle,
        }
    }
}

/// A rule that is broken, `None` where a record passes, and where.
pub type Outcome = (Option<Rule>, Spot);

/// How often each outcome came.
#[derive(Clone, Debug, Default)]
pub struct Tally(pub BTreeMap<Outcome, usize>);

impl Tally {
    /// All tests counted.
    pub fn calls(&self) -> usize {
        self.0.values().sum()
    }

    /// How often an outcome came.
    pub fn times(&self, outcome: Outcome) -> usize {
        self.0.get(&outcome).copied().unwrap_or(0)
    }
}

impl fmt::Display for Tally {
    fn fmt(&self, f: &mut fmt::Formatter<'_>) -> fmt::Result {
        for ((rule, spot), count) in &self.0 {
            let rule = rule.map_or("passes".to_string(), |rule| format!("{rule:?}"));
            writeln!(f, "{rule:<12}{:<10}{count:>10}", format!("{spot:?}"))?;
        }
        write!(f, "{} calls", self.calls())
    }
}

impl Case {
    /// What the model tells of it, by the rule that is broken.
    pub fn wanted(&self) -> (Given, Outcome) {
        let result = test_by(&Paper, &self.record, self.mfn, self.deleted);
        let rule = result.err().and_then(|fault| fault.rule());
        let given = told(result);
        (given, (rule, Spot::of(&self.record, given.1)))
    }

    /// Tests it on both sides; gives the difference.
    pub fn compare(
        &self,
        tester: &mut dyn Tester,
        random: &mut Random,
        tally: &mut Tally,
    ) -> Result<(), String> {
        let (wanted, outcome) = self.wanted();
        *tally.0.entry(outcome).or_default() += 1;
        let words = |who: &str, given: Given, wanted: Given| {
            let (what, mfn, deleted) = (&self.what, self.mfn, self.deleted);
            let len = self.record.len();
            let to = format!("{len} bytes as MFN {mfn}, deleted {deleted}");
            format!("{what}: test of {to}: {who} gave {given:?}, wanted {wanted:?}")
        };
        if let Some(known) = self.known.filter(|known| *known != wanted) {
            return Err(words("the model", wanted, known));
        }
        let side = random.pick(&[Side::Front, Side::Back]);
        let given = tester.test(&self.record, self.mfn, self.deleted, side);
        match given == wanted {
            true => Ok(()),
            false => Err(words("the tester", given, wanted)),
        }
    }
}

/// A way to make cases.
pub type Family = fn(&mut Random) -> Case;

/// Runs so many cases of a family on the archive; panics at the first difference.
pub fn drive(name: &str, family: Family, cases: usize) -> Tally {
    let run = |first| drive_tester(&mut Archive::new(), family, cases, first);
    seeds::drive(name, cases, run, Tally::calls)
}

/// The same on any tester; gives the tally, or the seed and the difference.
pub fn drive_tester(
    tester: &mut dyn Tester,
    family: Family,
    cases: usize,
    first: u64,
) -> Result<Tally, String> {
    seeds::each(cases, first, |random, tally| {
        family(random).compare(tester, random, tally)
    })
}
