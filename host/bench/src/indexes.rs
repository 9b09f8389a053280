//! The indexes that are measured on, made by the model. Half of the terms are words and
//! half are phrases, many of which begin with the same word, as subject headings do.

use model::index::build::{plain, plain_trees};
use model::index::{DEEPEST, Entry, Files, LONGEST, WIDTHS};
use model::random::Random;
use std::collections::HashSet;

/// The orders of both trees, as the manual has them.
const ORDER: u16 = 5;
/// Words that phrases are made of.
const WORDS: usize = 5_000;

/// So many different terms in any order, words and phrases in turn.
pub fn terms(count: usize) -> Vec<Entry> {
    let mut random = Random::new(1);
    let words: Vec<Vec<u8>> = (0..WORDS).map(|_| word(&mut random)).collect();
    let mut seen = HashSet::new();
    let mut terms = Vec::new();
    while terms.len() < count {
        let term = match terms.len() % 2 {
            0 => word(&mut random),
            _ => phrase(&words, &mut random),
        };
        if seen.insert(term.clone()) {
            let (block, word) = (terms.len() as i32 / 20 + 1, terms.len() as i32 % 20);
            terms.push(Entry { term, block, word });
        }
    }
    terms
}

/// A word of the first tree.
fn word(random: &mut Random) -> Vec<u8> {
    let len = random.between(3, WIDTHS[0]);
    let letters = [&b"BCDFGHKLMNPRSTVZ"[..], b"AEIOU"].into_iter().cycle();
    letters.take(len).map(|of| random.pick(of)).collect()
}

/// Words of the second tree, cut off where a key ends.
fn phrase(words: &[Vec<u8>], random: &mut Random) -> Vec<u8> {
    let len = random.between(WIDTHS[0] + 1, LONGEST);
    let mut phrase = words[random.below(WORDS)].clone();
    while phrase.len() < len {
        phrase.push(b' ');
        phrase.extend(&words[random.below(WORDS)]);
    }
    phrase.truncate(LONGEST);
    phrase.truncate(phrase.trim_ascii_end().len());
    phrase
}

/// The index of some terms.
pub fn index(terms: &[Entry]) -> Files {
    plain(terms, ORDER, ORDER)
}

/// Two terms, one for each tree, on the longest ways that are permitted: each node has one pointer.
pub fn deepest() -> (Files, [Vec<u8>; 2]) {
    let terms = [b"KITE".to_vec(), b"KITE RUNNER".to_vec()];
    let entries = terms.clone().map(|term| Entry {
        term,
        block: 1,
        word: 0,
    });
    let mut trees = plain_trees(&entries, 1, 1);
    for tree in &mut trees {
        let lowest = tree.nodes[0].clone().expect("a root");
        let node = |pos| {
            let mut node = lowest.clone();
            node.pos = pos;
            node.entries[0].punt = if pos == 1 { -1 } else { pos - 1 };
            Some(node)
        };
        tree.nodes = (1..=DEEPEST as i32).map(node).collect();
        tree.posrx = DEEPEST as i32;
    }
    (Files::of(&trees, &mut |_| ()), terms)
}
