//! A case, and the first difference between a reader and the model on it; how often each
//! answer came, by its reason; and the driver that runs random cases.

use super::{Archive, Element, Given, Reader, given_by};
use crate::guarded::Side;
use crate::seeds;
use model::postings::fault::{Broken, Why};
use model::postings::posting::{self, Posting};
use model::postings::read::{Merge, Request, list_by, merged_by, postings_by};
use model::postings::{Ifp, Place};
use model::random::Random;
use std::collections::{BTreeMap, BTreeSet};
use std::fmt;

/// A postings file and places to read lists from.
#[derive(Clone, Debug)]
pub struct Case {
    /// What it is, in words.
    pub what: String,
    /// The file.
    pub file: Vec<u8>,
    /// Where lists are read.
    pub places: Vec<Place>,
    /// What stands at these places, if it was not damaged: it must be read so.
    pub built: Option<Vec<Vec<u64>>>,
}

/// A call of a tally.
#[derive(Clone, Copy, Debug, PartialEq, Eq, PartialOrd, Ord)]
pub enum Kind {
    /// The postings of a list.
    Postings,
    /// The MFNs of two.
    Merged(Merge),
}

/// All kinds.
pub const KINDS: [Kind; 3] = [
    Kind::Postings,
    Kind::Merged(Merge::Common),
    Kind::Merged(Merge::Joined),
];

/// How often each call gave each answer, by its reason; `None` is 0.
#[derive(Clone, Debug, Default)]
pub struct Tally(pub BTreeMap<(Kind, Option<Why>), usize>);

impl Tally {
    /// All calls counted.
    pub fn calls(&self) -> usize {
        self.0.values().sum()
    }

    /// How often a call gave an answer.
    pub fn times(&self, kind: Kind, why: Option<Why>) -> usize {
        self.0.get(&(kind, why)).copied().unwrap_or(0)
    }

    fn add<T>(&mut self, kind: Kind, answer: &Result<T, Why>) {
        let why = answer.as_ref().err().copied();
        *self.0.entry((kind, why)).or_default() += 1;
    }
}

impl fmt::Display for Tally {
    fn fmt(&self, f: &mut fmt::Formatter<'_>) -> fmt::Result {
        for ((kind, why), count) in &self.0 {
            let why = why.map_or("done".to_string(), |why| format!("{why:?}"));
            writeln!(f, "{:<16}{why:<28}{count:>10}", format!("{kind:?}"))?;
        }
        write!(f, "{} calls", self.calls())
    }
}

impl Case {
    /// A file that is read as what it was built from.
    pub fn built(what: String, ifp: &Ifp, lists: Vec<Vec<u64>>, random: &mut Random) -> Case {
        Case {
            what,
            file: ifp.bytes(&mut |bytes| random.fill(bytes)),
            places: ifp.starts(),
            built: Some(lists),
        }
    }

    /// Reads every list, and the MFNs of every two of some, on both sides; gives the first
    /// difference.
    pub fn compare(
        &self,
        reader: &mut dyn Reader,
        random: &mut Random,
        tally: &mut Tally,
    ) -> Result<(), String> {
        let mut side = || random.pick(&[Side::Front, Side::Back]);
        reader.lend(&self.file, side());
        self.as_built()?;
        for &from in &self.places {
            self.postings(reader, from, side(), tally)
                .map_err(|words| format!("{}: postings from {from:?} {words}", self.what))?;
        }
        for _ in 0..self.places.len().min(6) {
            let from = [(); 2].map(|()| random.pick(&self.places));
            for merge in [Merge::Common, Merge::Joined] {
                let side = random.pick(&[Side::Front, Side::Back]);
                self.merged(reader, merge, from, side, tally)
                    .map_err(|words| format!("{}: {merge:?} from {from:?} {words}", self.what))?;
            }
        }
        Ok(())
    }

    /// What was built is read as what it was built from, and its MFNs are those of plain sets.
    fn as_built(&self) -> Result<(), String> {
        let Some(lists) = &self.built else {
            return Ok(());
        };
        let sets: Vec<BTreeSet<u32>> = lists.iter().map(|list| mfns(list)).collect();
        for (n, (list, &from)) in lists.iter().zip(&self.places).enumerate() {
            let other = (n + 1) % lists.len();
            let pair = [from, self.places[other]];
            let of = |merge| merged_by(&Request, merge, &self.file, pair, usize::MAX);
            let common = sets[n].intersection(&sets[other]).copied().collect();
            let joined = sets[n].union(&sets[other]).copied().collect();
            let right = list_by(&Request, &self.file, from).as_ref() == Ok(list)
                && of(Merge::Common) == Ok(common)
                && of(Merge::Joined) == Ok(joined);
            if !right {
                let what = &self.what;
                return Err(format!("{what}: list {n} is not what it was built from"));
            }
        }
        Ok(())
    }

    fn postings(
        &self,
        reader: &mut dyn Reader,
        from: Place,
        side: Side,
        tally: &mut Tally,
    ) -> Result<(), String> {
        let all = list_by(&Request, &self.file, from);
        for room in self.rooms(&all, all.as_ref().map_or(0, Vec::len)) {
            let wanted = postings_by(&Request, &self.file, from, room);
            tally.add(Kind::Postings, &wanted);
            let given = reader.postings(from, room, side);
            equal(given, &wanted, room)?;
        }
        Ok(())
    }

    fn merged(
        &self,
        reader: &mut dyn Reader,
        merge: Merge,
        from: [Place; 2],
        side: Side,
        tally: &mut Tally,
    ) -> Result<(), String> {
        let wanted = |room| merged_by(&Request, merge, &self.file, from, room);
        let lens = from.map(|at| list_by(&Request, &self.file, at).map_or(0, |list| list.len()));
        let most = match merge {
            Merge::Common => lens[0].min(lens[1]),
            Merge::Joined => lens[0] + lens[1],
        };
        for room in self.rooms(&wanted(usize::MAX), most) {
            let wanted = wanted(room);
            tally.add(Kind::Merged(merge), &wanted);
            let given = reader.merged(merge, from, room, side);
            equal(given, &wanted, room)?;
        }
        Ok(())
    }

    /// Every room around the number of items: none, one less, just enough, one more; and around
    /// the most that the lists could give, where a reader may stop to count. Where the call is
    /// refused: none, some, and as much as the file has words.
    fn rooms<T, W>(&self, items: &Result<Vec<T>, W>, most: usize) -> BTreeSet<usize> {
        match items.as_ref().map(Vec::len) {
            Err(_) => BTreeSet::from([0, 3, self.file.len() / 4]),
            Ok(n) => BTreeSet::from([
                0,
                n.saturating_sub(1),
                n,
                n + 1,
                most.saturating_sub(1),
                most,
            ]),
        }
    }
}

fn mfns(list: &[u64]) -> BTreeSet<u32> {
    list.iter()
        .map(|&bits| Posting::of_bits(bits).mfn)
        .collect()
}

/// A call gave what the model's gives.
fn equal<T: Element>(
    given: Given<T>,
    wanted: &Result<Vec<T>, Why>,
    room: usize,
) -> Result<(), String> {
    match given == given_by(wanted, room) {
        true => Ok(()),
        false => {
            let (number, count) = (given.number, given.count);
            let wanted = wanted.as_ref().map(Vec::len);
            Err(format!(
                "into {room} gave {number} and {count}, wanted {wanted:?}"
            ))
        }
    }
}

/// A posting's numbers and bytes, and two postings to compare.
#[derive(Clone, Debug)]
pub struct Single {
    /// What is written.
    pub numbers: [u32; 4],
    /// Into so many bytes.
    pub room: usize,
    /// What is read.
    pub bytes: Vec<u8>,
    /// What is compared.
    pub two: [u64; 2],
}

impl Single {
    /// Numbers around the widths of their fields, bytes around the length of a posting, and
    /// postings that differ in one number or in none.
    pub fn any(random: &mut Random) -> Single {
        let wide = random.one_in(3);
        let numbers = [24, 16, 8, 16].map(|bits| match random.below(4) {
            0 => (1 << bits) - 1,
            1 if wide => random.pick(&[1 << bits, u32::MAX]),
            _ => random.next() as u32 % (1 << bits),
        });
        let len = random.pick(&[0, 1, 7, 8, 8, 8, 9, 20]);
        let mut bytes = vec![0; len];
        random.fill(&mut bytes);
        let first = random.next();
        let other = [first, first ^ 1 << random.below(64), random.next()];
        Single {
            numbers,
            room: random.pick(&[0, 7, 8, 8, 9, 20]),
            bytes,
            two: [first, random.pick(&other)],
        }
    }

    /// Reads, writes and compares on both sides; gives the first difference.
    pub fn compare(&self, reader: &mut dyn Reader, side: Side) -> Result<(), String> {
        let read = posting::read(&self.bytes);
        let given = reader.read(&self.bytes, side);
        let wanted = read.map_or([0; 4], Posting::numbers);
        if given != (model::answer::number(&read), wanted) {
            return Err(format!("read of {:02X?} gave {given:X?}", self.bytes));
        }
        let ([mfn, tag, occurrence, sequence], room) = (self.numbers, self.room);
        let mut out = vec![u8::RUBBISH; room];
        let wrote = posting::write(Posting::of(mfn, tag, occurrence, sequence), &mut out);
        let given = reader.write(self.numbers, room, side);
        if given != (model::answer::number(&wrote), out) {
            let numbers = self.numbers;
            return Err(format!(
                "write of {numbers:X?} into {room} gave {given:02X?}"
            ));
        }
        let given = reader.compare(self.two[0], self.two[1]);
        match given == posting::compare(self.two[0], self.two[1]) {
            true => Ok(()),
            false => Err(format!("compare of {:X?} gave {given}", self.two)),
        }
    }
}

/// Runs so many random postings on a reader; gives the seed and the first difference.
pub fn drive_singles(reader: &mut dyn Reader, cases: usize, first: u64) -> Result<(), String> {
    seeds::each(cases, first, |random, ()| {
        let side = random.pick(&[Side::Front, Side::Back]);
        Single::any(random).compare(reader, side)
    })
}

/// A way to make cases.
pub type Family = fn(&mut Random) -> Case;

/// Runs so many cases of a family on the archive; panics at the first difference.
pub fn drive(name: &str, family: Family, cases: usize) -> Tally {
    let run = |first| drive_reader(&mut Archive::new(), family, cases, first);
    seeds::drive(name, cases, run, Tally::calls)
}

/// The same on any reader; gives the tally, or the seed and the difference.
pub fn drive_reader(
    reader: &mut dyn Reader,
    family: Family,
    cases: usize,
    first: u64,
) -> Result<Tally, String> {
    seeds::each(cases, first, |random, tally| {
        family(random).compare(reader, random, tally)
    })
}

/// A rule that is broken, as an answer's reason.
pub fn broken(rule: Broken) -> Option<Why> {
    Some(Why::Broken(rule))
}
