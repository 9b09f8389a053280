//! Damage by bytes: bits flipped, numbers written over, files cut short or made longer, and
//! files that change places.

use model::index::Files;
use model::index::tree::{leaf_len, node_len};
use model::random::Random;

/// Damages the files; says how.
pub fn poke(files: &mut Files, random: &mut Random) -> String {
    match random.below(6) {
        0 | 1 => flip(files, random),
        2 => number(files, random),
        3 => cut(files, random),
        4 => swap(files, random),
        _ => control(files, random),
    }
}

/// A file that is not empty, by its place in the list of the five.
fn some(files: &Files, random: &mut Random) -> usize {
    let is_some = |at: &usize| !files.all()[*at].is_empty();
    let some: Vec<usize> = (0..5).filter(is_some).collect();
    random.pick(&some)
}

fn flip(files: &mut Files, random: &mut Random) -> String {
    for _ in 0..random.between(1, 3) {
        let at = some(files, random);
        let file = &mut files.all_mut()[at];
        let byte = random.below(file.len());
        file[byte] ^= 1 << random.below(8);
    }
    "bits flipped".to_string()
}

/// A number at the head of a record, or anywhere.
fn number(files: &mut Files, random: &mut Random) -> String {
    let at = some(files, random);
    let len = record_len(files, at);
    let file = &mut files.all_mut()[at];
    let record = random.below(file.len().div_ceil(len)) * len;
    let from = match random.below(2) {
        0 => record + random.pick(&[0, 4, 6, 8, 12]),
        _ => random.below(file.len()),
    };
    let value = random.pick(&[0, 1, 2, 16, 17, -1, -2, 255, 256, i32::MAX, i32::MIN]);
    for (byte, new) in file.iter_mut().skip(from).zip(value.to_le_bytes()) {
        *byte = new;
    }
    format!("file {at} byte {from} is {value}")
}

/// Bytes of the records of a file, as its CNT says, or 1.
fn record_len(files: &Files, at: usize) -> usize {
    let order = |at: usize| {
        files
            .cnt
            .get(at)
            .map_or(1, |order| u16::from(*order).max(1))
    };
    match at {
        1 => node_len(10, order(2)),
        2 => leaf_len(10, order(4)),
        3 => node_len(30, order(28)),
        4 => leaf_len(30, order(30)),
        _ => 26,
    }
}

/// Cut at the end of a record or a byte beside, or anywhere; or longer.
fn cut(files: &mut Files, random: &mut Random) -> String {
    let at = random.below(5);
    let len = record_len(files, at);
    let file = &mut files.all_mut()[at];
    let ends = random.below(file.len() / len + 2) * len;
    let to = match random.below(4) {
        0 => random.below(file.len() + 1),
        1 => ends + 1,
        2 => ends.saturating_sub(1),
        _ => ends,
    };
    file.resize(to, random.next() as u8);
    format!("file {at} has {to} bytes")
}

fn swap(files: &mut Files, random: &mut Random) -> String {
    let (way, words) = random.pick(&[
        (0, "parts of CNT swapped"),
        (1, "nodes swapped"),
        (2, "leaves swapped"),
        (3, "trees swapped"),
        (4, "nodes and leaves swapped"),
        (5, "all of both trees swapped"),
    ]);
    if way == 0 || way == 5 {
        let middle = files.cnt.len() / 2;
        files.cnt.rotate_left(middle);
    }
    if way == 1 || way == 3 || way == 5 {
        std::mem::swap(&mut files.n01, &mut files.n02);
    }
    if way == 2 || way == 3 || way == 5 {
        std::mem::swap(&mut files.l01, &mut files.l02);
    }
    if way == 4 {
        std::mem::swap(&mut files.n01, &mut files.l01);
    }
    words.to_string()
}

/// A number of CNT, in one of its parts, with the files laid out as before.
fn control(files: &mut Files, random: &mut Random) -> String {
    let at = random.pick(&[0, 26]) + random.pick(&[0, 2, 4, 6, 8, 10, 12, 16, 20, 24]);
    let value: u16 = random.pick(&[0, 1, 2, 3, 5, 15, 16, 17, 255, 256, 257, 0xFFFF]);
    for (byte, new) in files.cnt.iter_mut().skip(at).zip(value.to_le_bytes()) {
        *byte = new;
    }
    format!("CNT byte {at} is {value}")
}
