//! The six calls on postings through the archive, against the model: built, damaged and random
//! files, every bit and every length of a small one, rings through a whole file, long lists,
//! and postings of any numbers.

use differential::families::{calls, first_seed, said};
use differential::guarded::{Side, report_hits};
use differential::postings::compare::{Case, Family, KINDS, Tally, broken, drive, drive_singles};
use differential::postings::{Archive, Given, Reader, cases, given_for};
use model::bytes::put_i32;
use model::postings::build::{Segment, byte_at, in_turn};
use model::postings::fault::{Broken, Why};
use model::postings::read::Merge;
use model::postings::{Ifp, Place, Posting, place, plain, shuffled};
use model::random::Random;

/// Each of these reasons came at least so often in each call, unless the seeds are somebody's
/// own.
fn came(tally: &Tally, reasons: &[Option<Why>], times: usize) {
    if std::env::var_os("ISIS_SEED").is_some() {
        return;
    }
    for kind in KINDS {
        for why in reasons {
            let count = tally.times(kind, *why);
            assert!(count >= times, "{kind:?} gave {why:?} {count} times");
        }
    }
}

fn run(name: &str, family: Family, wanted: usize) -> Tally {
    drive(name, family, calls(wanted))
}

const ROOM: [Option<Why>; 2] = [None, Some(Why::NoRoom)];

#[test]
fn built_files() {
    let tally = run("built postings", cases::built, 4_000);
    came(&tally, &ROOM, calls(4_000));
    assert!(
        tally.0.keys().all(|(_, why)| ROOM.contains(why)),
        "all are right"
    );
}

#[test]
fn files_damaged_by_meaning() {
    let tally = run("postings damaged by meaning", cases::damaged, 20_000);
    came(&tally, &ROOM, calls(2_000));
    came(&tally, &Broken::ALL.map(broken), calls(300));
}

#[test]
fn files_damaged_by_bytes() {
    let tally = run("postings damaged by bytes", cases::poked, 10_000);
    came(&tally, &ROOM, calls(1_000));
    came(&tally, &Broken::ALL.map(broken)[..6], calls(40));
}

#[test]
fn headers_by_chance() {
    let tally = run("headers by chance", cases::chance, 6_000);
    came(&tally, &ROOM[..1], calls(300));
    came(
        &tally,
        &[Broken::SegmentTwice, Broken::Total].map(broken),
        calls(1_000),
    );
}

#[test]
fn rubbish() {
    let tally = run("rubbish for postings", cases::rubbish, 10_000);
    came(&tally, &[broken(Broken::HeaderOutside)], calls(1_000));
}

#[test]
fn single_postings() {
    report_hits();
    let (first, cases) = (first_seed(), calls(200_000));
    let right = drive_singles(&mut Archive::new(), cases, first);
    right.unwrap_or_else(|words| panic!("{words}"));
    said(&format!("single postings: {} calls, all equal", 3 * cases));
}

/// A posting of each of these MFNs, in field 24.
fn of_mfns(list: &[u32]) -> Vec<u64> {
    let postings = list.iter().map(|&mfn| Posting::of(mfn, 24, 1, 7).bits());
    postings.collect()
}

/// Two lists in a file of three blocks that ends with a posting. One has three segments that
/// stand out of order: the second at word 120 of block 2, whose second posting is in block 3;
/// the third at word 117 of block 1, whose postings leave word 126 out and go on in block 2.
fn small() -> Ifp {
    let segment = |at, next, total, list: &[u32], more| Segment {
        at,
        next,
        total,
        count: list.len() as i32,
        capacity: list.len() as i32 + more,
        postings: of_mfns(list),
    };
    let end = place(0, 0);
    Ifp {
        segments: vec![
            segment(place(1, 60), place(2, 120), 8, &[1, 2], 3),
            segment(place(2, 120), place(1, 117), 0, &[3, 4], 0),
            segment(place(1, 117), end, -1, &[5, 6, 7, 8], 0),
            segment(place(1, 30), end, 4, &[2, 3, 6, 9], 0),
        ],
        lists: vec![vec![0, 1, 2], vec![3]],
        free: None,
        cut: 512 - 12,
    }
}

/// Holds the small file, changed, to the model.
struct Small {
    archive: Archive,
    random: Random,
    tally: Tally,
}

impl Small {
    fn new() -> Small {
        report_hits();
        Small {
            archive: Archive::new(),
            random: Random::new(1),
            tally: Tally::default(),
        }
    }

    fn hold(&mut self, what: String, file: Vec<u8>) {
        let case = Case {
            what,
            file,
            places: small().starts(),
            built: None,
        };
        let held = case.compare(&mut self.archive, &mut self.random, &mut self.tally);
        held.unwrap_or_else(|words| panic!("{words}"));
    }

    fn done(&self, name: &str) {
        said(&format!("{name}: {} calls, all equal", self.tally.calls()));
        println!("{}", self.tally);
    }
}

#[test]
fn every_bit_of_a_small_file() {
    let file = small().bytes(&mut |_| ());
    assert_eq!(file.len(), 1_036);
    let mut held = Small::new();
    for bit in 0..8 * file.len() {
        let mut flipped = file.clone();
        flipped[bit / 8] ^= 1 << (bit % 8);
        held.hold(format!("bit {bit}"), flipped);
    }
    held.done("every bit of a small postings file");
    came(&held.tally, &ROOM, 500);
    came(
        &held.tally,
        &[Broken::HeaderOutside, Broken::NotAscending, Broken::Total].map(broken),
        50,
    );
}

#[test]
fn every_length_of_a_small_file() {
    let file = small().bytes(&mut |_| ());
    let mut held = Small::new();
    for len in 0..=file.len() + 1 {
        let mut cut = file.clone();
        cut.resize(len, 0);
        held.hold(format!("{len} bytes"), cut);
    }
    held.done("every length of a small postings file");
    came(&held.tally, &ROOM, 10);
    came(
        &held.tally,
        &[Broken::HeaderOutside, Broken::PostingOutside].map(broken),
        50,
    );
}

fn read(archive: &mut Archive, from: Place, room: usize) -> Given<u64> {
    archive.postings(from, room, Side::Back)
}

/// Answers on the small file that are known without the model.
#[test]
fn answers_known_by_hand() {
    let mut archive = Archive::new();
    let file = small().bytes(&mut |_| ());
    archive.lend(&file, Side::Back);
    let [long, short] = [place(1, 60), place(1, 30)];
    let number = |mfn: u64| (mfn << 40) + (24 << 24) + (1 << 16) + 7;
    let numbers = [1, 2, 3, 4, 5, 6, 7, 8].map(number);
    assert_eq!(read(&mut archive, long, 9), given_for(Ok(&numbers), 9));
    assert_eq!(read(&mut archive, long, 7), given_for(Err(17), 7));
    let mut merged = |merge, room| archive.merged(merge, [long, short], room, Side::Front);
    assert_eq!(merged(Merge::Common, 3), given_for(Ok(&[2, 3, 6]), 3));
    assert_eq!(merged(Merge::Common, 2), given_for(Err(17), 2));
    let all = [1, 2, 3, 4, 5, 6, 7, 8, 9];
    assert_eq!(merged(Merge::Joined, 10), given_for(Ok(&all), 10));
    assert_eq!(merged(Merge::Joined, 8), given_for(Err(17), 8));
    let nowhere = [
        (0, 0),
        (0, 60),
        (1, -1),
        (1, 121),
        (3, 0),
        (-1, 60),
        (i32::MIN, i32::MAX),
    ];
    let later = [(2, 120), (1, 117)];
    for (block, word) in nowhere.into_iter().chain(later) {
        refused(&mut archive, [long, place(block, word)]);
    }
}

/// 23 from every call on the second list, beside one that is right, whatever the room.
fn refused(archive: &mut Archive, [right, wrong]: [Place; 2]) {
    for room in [0, 20] {
        let given = read(archive, wrong, room);
        assert_eq!(given, given_for(Err(23), room), "{wrong:?}");
        for merge in [Merge::Common, Merge::Joined] {
            for from in [[right, wrong], [wrong, right], [wrong, wrong]] {
                let given = archive.merged(merge, from, room, Side::Front);
                assert_eq!(given, given_for(Err(23), room), "{merge:?} {from:?}");
            }
        }
    }
}

/// MFNs known without the model: of a list beside itself and beside one without postings, the
/// lowest and the highest, and one of 200 postings, spread over segments and blocks.
#[test]
fn mfns_known_by_hand() {
    const HIGHEST: u32 = (1 << 24) - 1;
    let mut many = of_mfns(&[0]);
    many.extend((0..200).map(|n| Posting::of(5, 24, 1, n).bits()));
    many.extend(of_mfns(&[7, HIGHEST]));
    let lists = [many, vec![], of_mfns(&[0, 5, HIGHEST]), of_mfns(&[6])];
    let rows: [([usize; 2], &[u32], &[u32]); 7] = [
        ([0, 0], &[0, 5, 7, HIGHEST], &[0, 5, 7, HIGHEST]),
        ([0, 1], &[], &[0, 5, 7, HIGHEST]),
        ([1, 0], &[], &[0, 5, 7, HIGHEST]),
        ([1, 1], &[], &[]),
        ([0, 2], &[0, 5, HIGHEST], &[0, 5, 7, HIGHEST]),
        ([3, 0], &[], &[0, 5, 6, 7, HIGHEST]),
        ([2, 3], &[], &[0, 5, 6, HIGHEST]),
    ];
    let mut archive = Archive::new();
    for ifp in [plain(&lists), in_turn(&lists, 3), in_turn(&lists, 70)] {
        archive.lend(&ifp.bytes(&mut |_| ()), Side::Back);
        let starts = ifp.starts();
        for (pair, common, joined) in rows {
            let from = pair.map(|list| starts[list]);
            for (merge, wanted) in [(Merge::Common, common), (Merge::Joined, joined)] {
                for room in [0, wanted.len(), 300] {
                    let answer = if room < wanted.len() {
                        Err(17)
                    } else {
                        Ok(wanted)
                    };
                    let given = archive.merged(merge, from, room, Side::Back);
                    assert_eq!(given, given_for(answer, room), "{merge:?} {pair:?}");
                }
            }
        }
    }
}

/// An empty file, list and posting at the front guard page are all lent as NULL.
#[test]
fn nothing_is_lent_as_null() {
    let mut archive = Archive::new();
    for side in [Side::Front, Side::Back] {
        archive.lend(&[], side);
        let refused = archive.postings(place(1, 0), 0, side);
        assert_eq!(refused, given_for(Err(23), 0));
        for merge in [Merge::Common, Merge::Joined] {
            let refused = archive.merged(merge, [place(1, 0); 2], 0, side);
            assert_eq!(refused, given_for(Err(23), 0));
        }
        assert_eq!(archive.read(&[], side), (23, [0; 4]));
        assert_eq!(archive.write([0; 4], 0, side), (17, vec![]));
        assert_eq!(archive.write([1 << 24, 0, 0, 0], 0, side), (23, vec![]));
        archive.lend(&[0; 24], side);
        assert_eq!(
            archive.postings(place(1, 0), 0, side),
            given_for(Ok(&[]), 0)
        );
    }
}

/// Segments without postings, one behind the other in any order, as many as so many blocks
/// hold; the last one's next place is given.
fn chain(blocks: usize, random: &mut Random) -> (Vec<u8>, Vec<Place>) {
    let mut places: Vec<Place> = (1..=blocks as i32)
        .flat_map(|block| (0..=120).step_by(5).map(move |word| place(block, word)))
        .collect();
    for at in (1..places.len()).rev() {
        places.swap(at, random.below(at + 1));
    }
    let mut file = vec![0; blocks * 512];
    for two in places.windows(2) {
        link(&mut file, two[0], two[1]);
    }
    (file, places)
}

/// Sets a segment's next place.
fn link(file: &mut [u8], from: Place, to: Place) {
    let at = byte_at(from);
    put_i32(file, at, to.block);
    put_i32(file, at + 4, to.word);
}

/// A chain that ends is an empty list; one that comes back to any of its segments is refused.
#[test]
fn rings_through_a_whole_file() {
    let mut random = Random::new(7);
    let (mut file, places) = chain(40, &mut random);
    let last = places[places.len() - 1];
    let mut held = Tally::default();
    for to in [
        None,
        Some(0),
        Some(1),
        Some(500),
        Some(places.len() - 2),
        Some(places.len() - 1),
    ] {
        link(&mut file, last, to.map_or(place(0, 0), |at| places[at]));
        let case = Case {
            what: format!("back to {to:?}"),
            file: file.clone(),
            places: vec![places[0], places[3], last],
            built: to.is_none().then(|| vec![vec![]; 3]),
        };
        let compared = case.compare(&mut Archive::new(), &mut random, &mut held);
        compared.unwrap_or_else(|words| panic!("{words}"));
    }
    came(&held, &[broken(Broken::SegmentTwice)], 10);
}

/// A walk that looked through all that it met before, at each of these segments, would take
/// hours over the ring.
#[test]
fn a_ring_of_800_000_segments_is_refused() {
    let (mut file, places) = chain(32_000, &mut Random::new(8));
    link(&mut file, places[places.len() - 1], places[0]);
    let mut archive = Archive::new();
    archive.lend(&file, Side::Front);
    assert_eq!(read(&mut archive, places[1], 0), given_for(Err(23), 0));
    for merge in [Merge::Common, Merge::Joined] {
        let refused = archive.merged(merge, [places[2]; 2], 0, Side::Back);
        assert_eq!(refused, given_for(Err(23), 0));
    }
}

/// Lists of 100,000 postings in one segment and in many.
#[test]
fn long_lists() {
    report_hits();
    let mut random = Random::new(9);
    let of = |from: u64, step: u64| -> Vec<u64> {
        (0..100_000).map(|n| from + ((step * n) << 38)).collect()
    };
    let lists = vec![of(0, 3), of(1, 5)];
    for ifp in [plain(&lists), shuffled(&lists, &mut random)] {
        let case = Case::built("long lists".to_string(), &ifp, lists.clone(), &mut random);
        let compared = case.compare(&mut Archive::new(), &mut random, &mut Tally::default());
        compared.unwrap_or_else(|words| panic!("{words}"));
    }
}
