//! A case, and the first difference between a reader and the model on it; how often each
//! answer came, by its reason; and the driver that runs random cases.

use super::{Archive, Given, Reader};
use crate::guarded::Side;
use crate::seeds;
use model::Refusal;
use model::index::fault::{Broken, Why};
use model::index::read::{self, Held, Request, Rules};
use model::index::{Entry, Files};
use model::random::Random;
use std::collections::BTreeMap;
use std::fmt;

/// An index and terms to look up in it.
#[derive(Clone, Debug)]
pub struct Case {
    /// What it is, in words.
    pub what: String,
    /// The five files.
    pub files: Files,
    /// What it was built from, if it was not damaged: it must pass and hold just this.
    pub built: Option<Vec<Entry>>,
    /// What is looked up.
    pub terms: Vec<Vec<u8>>,
}

/// How often a lookup and the check gave each answer, by its reason; `None` is 0.
#[derive(Clone, Debug, Default)]
#[allow(missing_docs)]
pub struct Tally {
    pub lookups: BTreeMap<Option<Why>, usize>,
    pub checks: BTreeMap<Option<Broken>, usize>,
}

impl Tally {
    /// All calls counted.
    pub fn calls(&self) -> usize {
        self.lookups.values().sum::<usize>() + self.checks.values().sum::<usize>()
    }
}

impl fmt::Display for Tally {
    fn fmt(&self, f: &mut fmt::Formatter<'_>) -> fmt::Result {
        for (why, count) in &self.lookups {
            let why = why.map_or("done".to_string(), |why| format!("{why:?}"));
            writeln!(f, "lookup {why:<24}{count:>10}")?;
        }
        for (rule, count) in &self.checks {
            let rule = rule.map_or("done".to_string(), |rule| format!("{rule:?}"));
            writeln!(f, "check  {rule:<24}{count:>10}")?;
        }
        write!(f, "{} calls", self.calls())
    }
}

impl Case {
    /// Runs the check and every lookup on both sides; gives the first difference.
    pub fn compare(
        &self,
        reader: &mut dyn Reader,
        random: &mut Random,
        tally: &mut Tally,
    ) -> Result<(), String> {
        let mut side = || random.pick(&[Side::Front, Side::Back]);
        reader.lend(&self.files, [(); 5].map(|()| side()));
        let passed = self.check(reader, tally)?;
        let held = passed.then(|| read::held(&self.files).expect("it passed"));
        self.as_built(held.as_ref())?;
        for term in &self.terms {
            let given = reader.lookup(term, side());
            self.lookup(term, given, held.as_ref(), tally)
                .map_err(|words| format!("{}: lookup of {term:02X?} {words}", self.what))?;
        }
        Ok(())
    }

    /// The check gives what the model's gives: whether the index passes.
    fn check(&self, reader: &mut dyn Reader, tally: &mut Tally) -> Result<bool, String> {
        let given = reader.check();
        let wanted = read::check_by(&Request, &self.files);
        *tally.checks.entry(wanted.err()).or_default() += 1;
        let number = wanted.map_or(Refusal::Index.number(), |()| 0);
        if given != number {
            let what = &self.what;
            return Err(format!("{what}: check gave {given}, wanted {wanted:?}"));
        }
        Ok(number == 0)
    }

    /// What was built passes and holds just what it was built from.
    fn as_built(&self, held: Option<&[Held; 2]>) -> Result<(), String> {
        let Some(entries) = &self.built else {
            return Ok(());
        };
        let mut wanted: [Held; 2] = Default::default();
        for entry in entries {
            let (tree, key) = key(&entry.term);
            let place = (entry.block, entry.word);
            wanted[tree].entry(key).or_insert(place);
        }
        match held {
            Some(held) if *held == wanted => Ok(()),
            _ => Err(format!(
                "{}: does not hold what it was built from",
                self.what
            )),
        }
    }

    /// A lookup gave what the model's gives and, on an index that passes, what the plain
    /// list of its terms says.
    fn lookup(
        &self,
        term: &[u8],
        given: Given,
        held: Option<&[Held; 2]>,
        tally: &mut Tally,
    ) -> Result<(), String> {
        let wanted = read::lookup_by(&Request, &self.files, term);
        *tally.lookups.entry(wanted.err()).or_default() += 1;
        let answer = given_for(wanted.map_err(Refusal::from));
        if given != answer {
            return Err(format!("gave {given:?}, wanted {wanted:?}"));
        }
        let Some(held) = held.filter(|_| Request.is_term(term)) else {
            return Ok(());
        };
        let (tree, key) = key(term);
        let listed = held[tree].get(&key).copied().ok_or(Refusal::NoTerm);
        match given == given_for(listed) {
            true => Ok(()),
            false => Err(format!("gave {given:?}, the list has {listed:?}")),
        }
    }
}

/// The tree of a term, 0 or 1, and its key there.
fn key(term: &[u8]) -> (usize, Vec<u8>) {
    let tree = usize::from(term.len() > 10);
    let mut key = term.to_vec();
    key.resize([10, 30][tree], b' ');
    (tree, key)
}

/// What a reader must give for an answer: a refusal comes with 0 and 0.
pub fn given_for(answer: Result<(i32, i32), Refusal>) -> Given {
    let (block, word) = answer.unwrap_or((0, 0));
    Given {
        number: model::answer::number(&answer),
        block,
        word,
    }
}

/// A way to make cases.
pub type Family = fn(&mut Random) -> Case;

/// Runs so many cases of a family on the archive; panics at the first difference.
pub fn drive(name: &str, family: Family, cases: usize) -> Tally {
    let run = |first| drive_reader(&mut Archive::new(), family, cases, first);
    seeds::drive(name, cases, run, Tally::calls)
}

/// The same on any reader; gives the tally, or the seed and the difference.
pub fn drive_reader(
    reader: &mut dyn Reader,
    family: Family,
    cases: usize,
    first: u64,
) -> Result<Tally, String> {
    seeds::each(cases, first, |random, tally| {
        family(random).compare(reader, random, tally)
    })
}
