//! Terms to look up: those that an index holds, such as stand beside them, and others.

use model::index::Entry;
use model::random::Random;

/// A list of terms for an index, of which neither tree stays empty; many of them begin
/// alike, some are equal.
pub fn list(random: &mut Random, most: usize) -> Vec<Entry> {
    let letters = random.pick(&[1, 2, 4, 26]);
    let lengths = random.pick(&[(1, 30), (8, 13), (1, 3), (9, 30)]);
    let mut list = vec![entry(b"K".to_vec(), random), entry(vec![b'K'; 11], random)];
    for _ in 0..random.below(most) {
        let mut term: Vec<u8> = (0..random.between(lengths.0, lengths.1))
            .map(|_| byte(random, letters))
            .collect();
        if term.ends_with(b" ") {
            *term.last_mut().expect("it has a space") = b'.';
        }
        list.push(entry(term, random));
    }
    list
}

fn entry(term: Vec<u8>, random: &mut Random) -> Entry {
    let (block, word) = (random.next() as i32, random.next() as i32);
    Entry { term, block, word }
}

fn byte(random: &mut Random, letters: usize) -> u8 {
    match random.below(12) {
        0 => b' ',
        1 => random.pick(&[0, 0x1F, 0x7F, 0x80, 0xFF]),
        _ => b'J' + random.below(letters) as u8,
    }
}

/// The term, and its neighbours: a byte up or down, cut, longer.
pub fn around(term: &[u8]) -> Vec<Vec<u8>> {
    let last = term.len() - 1;
    let stepped = |at: usize, by: u8| {
        let mut near = term.to_vec();
        near[at] = near[at].wrapping_add(by);
        near
    };
    vec![
        term.to_vec(),
        stepped(last, 1),
        stepped(last, 255),
        stepped(0, 1),
        stepped(0, 255),
        term[..last].to_vec(),
        [term, &[0]].concat(),
        [term, b" ."].concat(),
        [term, &[255]].concat(),
    ]
}

/// Bad terms and such as may be anything.
pub fn others(random: &mut Random) -> Vec<Vec<u8>> {
    let len = random.pick(&[1, 2, 9, 10, 11, 12, 29, 30]);
    let mut any = vec![0; len];
    random.fill(&mut any);
    let letters: Vec<u8> = (0..len).map(|_| byte(random, 3)).collect();
    let bad = random.pick(&[&b""[..], b" ", b"K ", &[b'K'; 31], &[0; 64], &[b' '; 30]]);
    vec![
        any,
        letters,
        bad.to_vec(),
        [&vec![b'K'; len][..], b" "].concat(),
    ]
}

/// What is looked up in an index of these entries: all of them, the neighbours of so many,
/// and others.
pub fn wanted(entries: &[Entry], most: usize, random: &mut Random) -> Vec<Vec<u8>> {
    let mut terms = others(random);
    terms.extend(entries.iter().map(|entry| entry.term.clone()));
    for _ in 0..most.min(entries.len()) {
        let entry = &entries[random.below(entries.len())];
        terms.extend(around(&entry.term));
    }
    terms
}
