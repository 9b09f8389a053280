//! What keeps an index from being right: the first rule that is broken, in words. The library
//! has answered before that it is not right; here the bytes are read a second time to say why.
//!
//! A walk takes no longer than its tree: below every node there is a leaf, and the walk stops
//! where it comes to a leaf again.

use crate::index::IndexFiles;
use crate::tree::{Fault, KEYS, Record, Tree, Way};

/// What a lookup of a term meets that is not right.
pub fn of_lookup(files: &IndexFiles, term: &[u8]) -> Option<Fault> {
    let kind = if term.len() <= KEYS[0] { 1 } else { 2 };
    let mut key = term.to_vec();
    key.resize(KEYS[kind - 1], b' ');
    let tree = Tree::open(files, kind);
    tree.and_then(|tree| descend(tree, &key)).err()
}

/// Goes down to a leaf, or to a node that has no key up to the one that is looked for.
fn descend(tree: Tree, key: &[u8]) -> Result<(), Fault> {
    let mut way = Way::TO_ROOT;
    loop {
        let record = tree.follow(way)?;
        match record.entries().rfind(|entry| entry.key() <= key) {
            Some(entry) if !record.is_leaf() => way = way.on(entry),
            _ => return Ok(()),
        }
    }
}

/// The number of terms of each tree, or what is not right with the first that is not.
pub fn of_index(files: &IndexFiles) -> Result<[usize; 2], Fault> {
    Ok([terms(files, 1)?, terms(files, 2)?])
}

/// The number of terms of a tree, or what is not right with it.
fn terms(files: &IndexFiles, kind: usize) -> Result<usize, Fault> {
    let tree = Tree::open(files, kind)?;
    let mut walk = Walk {
        tree,
        met: vec![false; tree.leaves.count()],
        last: None,
        terms: 0,
    };
    walk.on(Way::TO_ROOT)?;
    match walk.last {
        Some(leaf) if leaf.successor() != 0 => Err(format!(
            "{}: its PS is {}, not 0, but no leaf comes next",
            leaf.name(),
            leaf.successor()
        )),
        _ => Ok(walk.terms),
    }
}

/// A walk from the root through every node and leaf.
struct Walk<'a> {
    tree: Tree<'a>,
    /// Whether a leaf was met, by its number from 0 on.
    met: Vec<bool>,
    /// The leaf that was met last.
    last: Option<Record<'a>>,
    /// Terms so far.
    terms: usize,
}

impl<'a> Walk<'a> {
    /// Goes on to what a way leads to, and to all that is below.
    fn on(&mut self, way: Way<'a>) -> Result<(), Fault> {
        let record = self.tree.follow(way)?;
        if record.is_leaf() {
            self.is_new(way, record)?;
        }
        is_first(way, record)?;
        is_ascending(record)?;
        if record.is_leaf() {
            self.is_next(record)?;
            self.last = Some(record);
            self.terms += record.active();
            return Ok(());
        }
        record
            .entries()
            .try_for_each(|entry| self.on(way.on(entry)))
    }

    /// That a leaf was not met before.
    fn is_new(&mut self, way: Way, leaf: Record) -> Result<(), Fault> {
        let met = std::mem::replace(&mut self.met[leaf.number - 1], true);
        match way.from {
            Some(entry) if met => Err(format!(
                "{}: it leads to leaf {} a second time",
                entry.name(),
                leaf.number
            )),
            _ => Ok(()),
        }
    }

    /// That a leaf is the successor of the last one, and that its keys are above.
    fn is_next(&self, leaf: Record) -> Result<(), Fault> {
        let Some(last) = self.last else {
            return Ok(());
        };
        let (number, successor) = (leaf.number, last.successor());
        if i64::from(successor) != number as i64 {
            let name = last.name();
            let words = format!("{name}: its PS is {successor}, but leaf {number} comes next");
            return Err(words);
        }
        let (before, first) = (last.last(), leaf.first());
        if before.key() >= first.key() {
            return Err(format!(
                "{}: its key {} is not above {}, the last of leaf {}",
                first.name(),
                first.shown(),
                before.shown(),
                last.number
            ));
        }
        Ok(())
    }
}

/// That the key of an entry is the first of what it points to.
fn is_first(way: Way, record: Record) -> Result<(), Fault> {
    match way.from {
        Some(entry) if entry.key() != record.first().key() => Err(format!(
            "{}: its key is {}, but {} begins with {}",
            entry.name(),
            entry.shown(),
            record.name(),
            record.first().shown()
        )),
        _ => Ok(()),
    }
}

/// That the keys of a record ascend.
fn is_ascending(record: Record) -> Result<(), Fault> {
    let mut pairs = record.entries().zip(record.entries().skip(1));
    match pairs.find(|(before, entry)| before.key() >= entry.key()) {
        None => Ok(()),
        Some((before, entry)) => Err(format!(
            "{}: its key {} is not above the one before, {}",
            entry.name(),
            entry.shown(),
            before.shown()
        )),
    }
}

#[cfg(test)]
mod tests {
    use super::*;
    use crate::trials::{Dice, damage_index, index, seed};
    use isis::Refusal;

    /// A rule is named exactly where the library finds it broken, by the check or by a lookup;
    /// and where none is, the terms are those that the index was made from.
    #[test]
    fn words_agree_with_the_answers() {
        let mut dice = Dice(seed());
        let (mut sound, mut not_sound, mut refused) = (0, 0, 0);
        for _ in 0..20_000 {
            let (mut files, terms) = index(&mut dice);
            assert_eq!(
                of_index(&files).as_ref().map(|n| n.iter().sum()),
                Ok(terms.len())
            );
            damage_index(&mut dice, &mut files);
            let (found, answer) = (of_index(&files), files.index().check());
            assert_eq!(found.is_ok(), answer.is_ok(), "{found:?}");
            *(if found.is_ok() {
                &mut sound
            } else {
                &mut not_sound
            }) += 1;
            let others = [&b"@"[..], b"BBB", b"ZZZ", b"@@@@@@@@@@@", b"BBBBBBBBBBBB"];
            for term in terms.iter().map(Vec::as_slice).chain(others) {
                let (found, answer) = (of_lookup(&files, term), files.index().lookup(term));
                let wrong = answer == Err(Refusal::BadIndex);
                assert_eq!(found.is_some(), wrong, "{term:?}: {found:?} {answer:?}");
                refused += usize::from(wrong);
            }
        }
        println!("{sound} sound, {not_sound} not, {refused} lookups refused");
        assert!(sound > 1_000 && not_sound > 1_000 && refused > 1_000);
    }
}
