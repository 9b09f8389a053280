//! A card written by the library and read by Biblio::Isis, field for field. It reads the
//! live records; deleted ones it leaves out, and asked for them it looks in a wrong place.

use differential::biblio::{Asked, Fields, lines, read};
use isis::Card;
use model::random::Random;
use std::collections::BTreeMap;

const RECORDS: u32 = 600;

/// Random fields, from none to some of several blocks.
fn fields(random: &mut Random) -> Fields {
    let most = random.pick(&[10, 40, 700, 3_000]);
    (0..random.below(9))
        .map(|_| {
            let mut bytes = vec![0; random.below(most)];
            random.fill(&mut bytes);
            (random.pick(&[1, 24, 70, 70, 245, 32_767]), bytes)
        })
        .collect()
}

/// Writes a catalogue with changes of every kind; gives what its live records hold.
fn write(card: &mut Card) -> BTreeMap<u32, Fields> {
    let mut random = Random::new(1985);
    let mut wanted = BTreeMap::new();
    card.format().unwrap();
    for mfn in 1..=RECORDS {
        let first = fields(&mut random);
        assert_eq!(card.create(first.clone()), Ok(mfn));
        wanted.insert(mfn, first);
    }
    for mfn in 1..=RECORDS {
        if !random.one_in(3) {
            card.settle(mfn).unwrap();
        }
        let second = fields(&mut random);
        match random.below(5) {
            0 => {
                card.update(mfn, second.clone()).unwrap();
                wanted.insert(mfn, second);
            }
            1 => {
                card.delete(mfn).unwrap();
                wanted.remove(&mfn);
            }
            2 => {
                let updated = card.update(mfn, second.clone());
                assert_eq!(updated, Ok(()));
                if card.revert(mfn).is_err() {
                    wanted.insert(mfn, second);
                }
            }
            _ => {}
        }
    }
    assert_eq!(card.check(), Ok(()));
    wanted
}

/// A card with changes of every kind, and what its live records hold.
fn card() -> (Vec<u8>, Vec<u8>, BTreeMap<u32, Fields>) {
    let (mut mst, mut xrf) = (vec![0; 30_000 * 512], vec![0; 5 * 512]);
    let wanted = write(&mut Card::over(&mut mst, &mut xrf));
    (mst, xrf, wanted)
}

#[test]
fn another_reader_finds_every_field() {
    let (mst, xrf, wanted) = card();
    let read = read(&mst, &xrf, Asked::Live);
    let wanted: String = wanted
        .iter()
        .map(|(mfn, fields)| lines(*mfn, fields))
        .collect();
    let fields = wanted.lines().count();
    let first = read.lines().zip(wanted.lines()).position(|(a, b)| a != b);
    assert!(first.is_none(), "line {first:?} is different");
    assert_eq!(read.lines().count(), fields);
    println!("{fields} fields of {RECORDS} records read by Biblio::Isis, all equal");
}

/// It negates the whole entry of a deleted record, where only the block is negated.
#[test]
fn the_other_reader_does_not_find_deleted_records() {
    let (mst, xrf, wanted) = card();
    let read = read(&mst, &xrf, Asked::Deleted);
    let mfn_of = |line: &str| {
        line.split(' ')
            .next()
            .and_then(|mfn| mfn.parse::<u32>().ok())
    };
    let deleted = |mfn: &u32| !wanted.contains_key(mfn);
    assert!(
        (1..=RECORDS).filter(deleted).count() > 50,
        "too few are deleted"
    );
    let found: Vec<u32> = read.lines().filter_map(mfn_of).filter(deleted).collect();
    assert!(found.is_empty(), "read: {found:?}");
}
