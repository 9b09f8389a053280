//! Families of random cases: files as they are built, damaged by meaning or by bytes, headers
//! that point anywhere, and rubbish.

use super::compare::Case;
use super::damage;
use model::bytes::put_i32;
use model::postings::build::byte_at;
use model::postings::{Ifp, Posting, place, plain, shuffled};
use model::random::Random;

/// Ascending postings: few MFNs, so that lists share some, or any; the lowest and the highest
/// posting come too.
pub fn list(random: &mut Random, most: usize) -> Vec<u64> {
    let count = match random.below(4) {
        0 => random.below(3),
        _ => random.below(most + 1),
    };
    let mfns = random.pick(&[2, 12, 300, 1 << 24]);
    let tags = random.pick(&[1, 3, 1 << 16]);
    let mut posting = || {
        let numbers = [mfns, tags, 256, 1 << 16].map(|below| random.below(below) as u32);
        let [mfn, tag, occurrence, sequence] = numbers;
        Posting::of(mfn, tag, occurrence, sequence).bits()
    };
    let mut list: Vec<u64> = (0..count).map(|_| posting()).collect();
    for edge in [0, u64::MAX] {
        if random.one_in(6) {
            list.push(edge);
        }
    }
    list.sort_unstable();
    list.dedup();
    list
}

fn lists(random: &mut Random, most: usize) -> Vec<Vec<u64>> {
    let count = random.between(1, 5);
    (0..count).map(|_| list(random, most)).collect()
}

/// A file as a full load leaves it, or in any shape.
fn file(lists: &[Vec<u64>], random: &mut Random) -> (&'static str, Ifp) {
    match random.below(4) {
        0 => ("plain", plain(lists)),
        _ => ("shuffled", shuffled(lists, random)),
    }
}

/// A file that is right.
pub fn built(random: &mut Random) -> Case {
    let most = random.pick(&[4, 40, 400]);
    let lists = lists(random, most);
    let (what, ifp) = file(&lists, random);
    Case::built(what.to_string(), &ifp, lists, random)
}

/// A file with one or two things wrong, by meaning.
pub fn damaged(random: &mut Random) -> Case {
    let lists = lists(random, 60);
    let (_, mut ifp) = file(&lists, random);
    let mut names = Vec::new();
    for _ in 0..random.pick(&[1, 1, 2]) {
        let (name, spoil) = random.pick(&damage::ALL);
        let list = random.below(ifp.lists.len());
        names.push(format!("{name} of list {list}"));
        spoil(&mut ifp, list, random);
    }
    let mut places = ifp.starts();
    places.push(random.pick(&ifp.segments.iter().map(|s| s.at).collect::<Vec<_>>()));
    Case {
        what: names.join(", "),
        file: ifp.bytes(&mut |bytes| random.fill(bytes)),
        places,
        built: None,
    }
}

/// A file with bytes changed, or cut at any length, or with its blocks exchanged; and places
/// near those of its lists.
pub fn poked(random: &mut Random) -> Case {
    let lists = lists(random, 60);
    let (_, ifp) = file(&lists, random);
    let mut file = ifp.bytes(&mut |bytes| random.fill(bytes));
    let what = match random.below(4) {
        0 => {
            file.truncate(random.below(file.len() + 1));
            format!("cut to {} bytes", file.len())
        }
        1 => {
            let blocks = file.len() / 512;
            if blocks > 1 {
                let (front, back) = file.split_at_mut(512 * (blocks / 2));
                front[..512].swap_with_slice(&mut back[..512]);
            }
            "blocks exchanged".to_string()
        }
        _ => poke(&mut file, &ifp, random),
    };
    let mut places = ifp.starts();
    let near = random.pick(&places);
    places.push(place(near.block, near.word + random.pick(&[-1, 1, 2, 5])));
    Case {
        what,
        file,
        places,
        built: None,
    }
}

/// Changes a bit, a byte or a word of a header or of anything.
fn poke(file: &mut [u8], ifp: &Ifp, random: &mut Random) -> String {
    if file.len() < 4 {
        return "too short".to_string();
    }
    let header = random.pick(&ifp.segments.iter().map(|s| s.at).collect::<Vec<_>>());
    let at = match random.below(3) {
        0 => random.below(file.len()),
        _ => byte_at(header) + random.below(40),
    };
    let at = at.min(file.len() - 4);
    match random.below(3) {
        0 => file[at] ^= 1 << random.below(8),
        1 => file[at] = random.next() as u8,
        _ => put_i32(file, at, random.pick(&[-1, 0, 1, 2, i32::MIN, i32::MAX])),
    }
    format!("byte {at} changed")
}

/// Blocks full of headers that name each other: small numbers, so that lists are long, and
/// postings that are whatever stands there.
pub fn chance(random: &mut Random) -> Case {
    let (blocks, spacing) = (random.between(1, 3), random.pick(&[1, 5, 7, 9]));
    let words: Vec<i32> = (0..=120).step_by(spacing).collect();
    let any = |random: &mut Random| {
        let block = random.between(1, blocks) as i32;
        place(block, random.pick(&words))
    };
    let mut file = vec![0; blocks * 512];
    for block in 1..=blocks as i32 {
        for &word in &words {
            let next = match random.below(4) {
                0 => place(0, 0),
                _ => any(random),
            };
            let count = i32::from(random.one_in(8));
            let (total, capacity) = (random.below(3) as i32, count + random.below(2) as i32);
            let numbers = [next.block, next.word, total, count, capacity];
            for (at, number) in (byte_at(place(block, word))..).step_by(4).zip(numbers) {
                put_i32(&mut file, at, number);
            }
        }
    }
    Case {
        what: format!("headers by chance, every {spacing} words"),
        file,
        places: (0..8).map(|_| any(random)).collect(),
        built: None,
    }
}

/// Random bytes, also none, and places anywhere; most words are small numbers.
pub fn rubbish(random: &mut Random) -> Case {
    let len = random.pick(&[0, 3, 4, 23, 24, 31, 32, 100, 512, 1_000, 1_536]);
    let mut file = vec![0; len];
    random.fill(&mut file);
    let small = random.pick(&[1, 2, 3, 300]);
    for at in (0..len.saturating_sub(3)).step_by(4) {
        if !random.one_in(30) {
            put_i32(&mut file, at, random.below(small) as i32);
        }
    }
    let edge = [-1, 0, 1, 2, 3, 119, 120, 121, 126, 127, i32::MIN, i32::MAX];
    let places = (0..8)
        .map(|_| match random.below(3) {
            0 => place(random.pick(&edge), random.pick(&edge)),
            _ => place(random.between(1, 3) as i32, random.below(127) as i32),
        })
        .collect();
    Case {
        what: format!("rubbish of {len} bytes"),
        file,
        places,
        built: None,
    }
}
