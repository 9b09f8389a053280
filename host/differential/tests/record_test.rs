//! The record test through the archive, against the model: right records, each rule of the leader
//! and of an entry broken, every entry of records of many lengths in each of the three ways, every
//! bit and every length of a small record, any arguments, and the records of damaged cards.

use differential::archive::Subject as _;
use differential::families::{calls, said};
use differential::guarded::{Side, report_hits};
use differential::records::compare::{Case, Family, Spot, Tally, drive};
use differential::records::{Archive, Parts, Tester, cases};
use model::bytes::i32_at;
use model::call::{Call, OwnedDraft, on_bytes};
use model::fault::{RecordFault, Rule};
use model::layout::{Control, Entry, Place, slot_at};
use model::random::Random;
use model::record::well_formed;

/// Each of these outcomes came at least so often, unless the seeds are somebody's own.
fn came(tally: &Tally, rule: Option<Rule>, spot: Spot, times: usize) {
    let count = tally.times((rule, spot));
    assert!(
        count >= times || std::env::var_os("ISIS_SEED").is_some(),
        "{rule:?} {spot:?} came {count} times"
    );
}

/// Each rule of an entry was broken at the first, between others, and at the last.
fn every_entry_rule_came(tally: &Tally, times: usize) {
    for rule in Rule::OF_ENTRY {
        for spot in Spot::OF_SEVERAL {
            came(tally, Some(rule), spot, times);
        }
    }
}

fn run(name: &str, family: Family, wanted: usize) -> Tally {
    drive(name, family, calls(wanted))
}

#[test]
fn right_records() {
    let tally = run("right records", cases::right, 100_000);
    assert_eq!(tally.times((None, Spot::Nowhere)), tally.calls());
}

#[test]
fn broken_leaders() {
    let tally = run("broken leaders", cases::leaders, 100_000);
    for rule in &Rule::OF_LEADER[1..] {
        came(&tally, Some(*rule), Spot::Nowhere, calls(2_000));
    }
}

#[test]
fn broken_entries() {
    let tally = run("broken entries", cases::entries, 200_000);
    every_entry_rule_came(&tally, calls(5_000));
    for rule in Rule::OF_ENTRY {
        came(&tally, Some(rule), Spot::Only, calls(2_000));
    }
}

#[test]
fn any_arguments() {
    let tally = run("any MFN, deleted or not", cases::arguments, 100_000);
    came(&tally, None, Spot::Nowhere, calls(5_000));
    for rule in [Rule::Mfn, Rule::Status] {
        came(&tally, Some(rule), Spot::Nowhere, calls(5_000));
    }
}

#[test]
fn poked_records() {
    let tally = run("poked records", cases::poked, 200_000);
    came(&tally, None, Spot::Nowhere, calls(2_000));
    for rule in Rule::OF_LEADER {
        came(&tally, Some(rule), Spot::Nowhere, calls(500));
    }
    every_entry_rule_came(&tally, calls(200));
}

#[test]
fn directories_by_chance() {
    let tally = run("directories by chance", cases::chance, 100_000);
    every_entry_rule_came(&tally, calls(300));
}

#[test]
fn rubbish() {
    let tally = run("rubbish for a record", cases::rubbish, 100_000);
    came(&tally, None, Spot::Nowhere, calls(1_000));
    came(&tally, Some(Rule::Bytes), Spot::Nowhere, calls(10_000));
}

/// The archive on both sides of a guard page: what it gave is the same.
fn tested(archive: &mut Archive, record: &[u8], mfn: u32, deleted: u32) -> (u32, u32) {
    let [front, back] = [Side::Front, Side::Back];
    let given = archive.test(record, mfn, deleted, front);
    assert_eq!(archive.test(record, mfn, deleted, back), given);
    given
}

/// What is known without the model: a record of so many fields of three bytes, with four to
/// spare, is told by the entry that was broken, whichever way it was.
#[test]
fn every_entry_in_every_way() {
    report_hits();
    let (mut archive, mut random) = (Archive::new(), Random::new(1));
    let mut calls = 0;
    for count in (1..=12).chain([39, 40, 41, 127, 128, 255, 256, 300]) {
        let fields: Vec<(u16, u16)> = (1..=count).map(|tag| (tag, 3)).collect();
        let right = Parts::of(&fields, 4, 2);
        let room = right.room() as u16;
        assert_eq!(
            tested(&mut archive, &right.bytes(&mut random), 7, 0),
            (0, 0)
        );
        for entry in 1..=count {
            let before = 3 * (entry - 1);
            let tags = [0, 0x8000, 0xFFFF].map(|tag| (tag, before, 3));
            let positions = [before + 1, before + 256, before ^ 0x8000];
            let positions = positions.map(|pos| (24, pos, 3));
            let lens = [room - before + 1, 0x8000, 0xFFFF].map(|len| (24, before, len));
            for (tag, pos, len) in [tags, positions, lens].concat() {
                let mut parts = right.clone();
                let item = &mut parts.items[usize::from(entry) - 1];
                (item.tag, item.pos, item.len) = (tag, pos, len);
                let record = parts.bytes(&mut random);
                let given = tested(&mut archive, &record, 7, 0);
                assert_eq!(given, (8, entry.into()), "{count}: {tag} {pos} {len}");
                calls += 2;
            }
        }
    }
    said(&format!(
        "every entry in every way: {calls} calls, as known"
    ));
}

/// The longest directory: 5,458 fields without data, and 4,678 of one byte.
#[test]
fn the_longest_directories() {
    report_hits();
    let (mut archive, mut random) = (Archive::new(), Random::new(2));
    for (count, len) in [(5_458, 0), (4_678, 1)] {
        let right = Parts::of(&vec![(32_767, len); count], 0, 0);
        assert_eq!(
            tested(&mut archive, &right.bytes(&mut random), 7, 0),
            (0, 0)
        );
        for entry in [1, 2, count / 2, count - 1, count] {
            for way in 0..3 {
                let mut parts = right.clone();
                let item = &mut parts.items[entry - 1];
                match way {
                    0 => item.tag = 0,
                    1 => item.pos += 1,
                    _ => item.len = 32_767,
                }
                let record = parts.bytes(&mut random);
                let given = tested(&mut archive, &record, 7, 0);
                assert_eq!(given, (8, entry as u32), "{way}");
            }
        }
    }
}

/// A record of three fields, deleted, with two bytes to spare and three behind.
fn small() -> (Parts, Vec<u8>) {
    let mut parts = Parts::of(&[(24, 4), (70, 0), (69, 6)], 2, 3);
    parts.status = 1;
    let bytes = parts.bytes(&mut Random::new(3));
    (parts, bytes)
}

/// Holds a record to the model.
fn hold(archive: &mut Archive, tally: &mut Tally, what: String, record: Vec<u8>, held: (u32, u32)) {
    let (mfn, deleted) = held;
    let case = Case {
        what,
        record,
        mfn,
        deleted,
        known: None,
    };
    for seed in 0..2 {
        let compared = case.compare(archive, &mut Random::new(seed), tally);
        compared.unwrap_or_else(|words| panic!("{words}"));
    }
}

#[test]
fn every_byte_of_a_small_record() {
    report_hits();
    let ((_, bytes), mut archive, mut tally) = (small(), Archive::new(), Tally::default());
    for at in 0..bytes.len() {
        for value in 0..=255 {
            let mut changed = bytes.clone();
            changed[at] = value;
            let what = format!("byte {at} is {value}");
            hold(&mut archive, &mut tally, what, changed, (7, 1));
        }
    }
    println!("{tally}");
    every_entry_rule_came(&tally, 100);
    for rule in &Rule::OF_LEADER[1..] {
        if *rule != Rule::BaseWithin {
            came(&tally, Some(*rule), Spot::Nowhere, 10);
        }
    }
}

#[test]
fn every_length_of_a_small_record() {
    report_hits();
    let ((parts, bytes), mut archive, mut tally) = (small(), Archive::new(), Tally::default());
    for len in 0..=bytes.len() {
        let cut = bytes[..len].to_vec();
        let passes = len >= usize::from(parts.mfrl);
        let wanted = if passes { (0, 0) } else { (8, 0) };
        assert_eq!(tested(&mut archive, &cut, 7, 1), wanted, "{len} bytes");
        hold(
            &mut archive,
            &mut tally,
            format!("{len} bytes"),
            cut,
            (7, 1),
        );
    }
    came(&tally, None, Spot::Nowhere, 4);
    came(&tally, Some(Rule::Bytes), Spot::Nowhere, 36);
    came(&tally, Some(Rule::BeforeEnd), Spot::Nowhere, 30);
}

/// The MFN is compared as 32 bits, and anything but 0 asks for a deleted record.
#[test]
fn every_bit_of_the_arguments() {
    report_hits();
    let ((parts, bytes), mut archive) = (small(), Archive::new());
    let mut live = bytes.clone();
    live[16] = 0;
    for bit in 0..32 {
        let other = parts.mfn ^ 1 << bit;
        assert_eq!(tested(&mut archive, &bytes, other, 1), (8, 0));
        let mut own = bytes.clone();
        own[..4].copy_from_slice(&other.to_le_bytes());
        assert_eq!(tested(&mut archive, &own, other, 1), (0, 0));
        assert_eq!(tested(&mut archive, &bytes, 7, 1 << bit), (0, 0));
        assert_eq!(tested(&mut archive, &live, 7, 1 << bit), (8, 0));
    }
    assert_eq!(tested(&mut archive, &bytes, 7, 0), (8, 0));
    assert_eq!(tested(&mut archive, &live, 7, 0), (0, 0));
}

/// Nothing at the front guard page is lent as NULL.
#[test]
fn nothing_is_lent_as_null() {
    let mut archive = Archive::new();
    for (mfn, deleted) in [(0, 0), (7, 0), (u32::MAX, u32::MAX)] {
        assert_eq!(tested(&mut archive, &[], mfn, deleted), (8, 0));
    }
}

/// A card with records of every kind.
fn card() -> (Vec<u8>, Vec<u8>) {
    let draft = |text: &str| OwnedDraft::of(&[(24, text.as_bytes()), (70, b""), (69, b"xy")]);
    let (mut mst, mut xrf) = (vec![0; 512], vec![0; 512]);
    let mut calls = vec![Call::Format];
    calls.extend((0..4).map(|_| Call::Create(draft("a"))));
    calls.extend([1, 2, 3].map(Call::Settle));
    calls.extend([Call::Update(2, draft("b")), Call::Delete(3)]);
    for call in &calls {
        assert_eq!(on_bytes(&mut mst, &mut xrf, call).0.number, 0, "{call:?}");
    }
    (mst, xrf)
}

/// The places that the entries of a card name, with their MFNs, and the end.
fn places(mst: &[u8], xrf: &[u8]) -> (usize, Vec<(u32, Place)>) {
    let control = Control::read(mst, xrf.len()).expect("it is not damaged there");
    let place = |mfn: u32| match Entry::decode(i32_at(xrf, slot_at(mfn as usize)), control.end) {
        Ok(Entry::Place(place)) => Some((mfn, place)),
        _ => None,
    };
    let all = (1..control.next_mfn as u32).filter_map(place);
    (control.end, all.collect())
}

/// On a card with any byte of its records changed: the state of a record is refused by 8 exactly
/// where the test refuses its bytes, or its back pointer is wrong.
#[test]
fn the_calls_refuse_what_the_test_refuses() {
    report_hits();
    let (mst, xrf) = card();
    let (mut archive, mut calls) = (Archive::new(), differential::archive::Archive::new());
    let (end, places) = places(&mst, &xrf);
    assert_eq!(places.len(), 4);
    let (mut refused, mut back) = (0, 0);
    for at in 64..end {
        for bit in 0..8 {
            let (mut mst, mut xrf) = (mst.clone(), xrf.clone());
            mst[at] ^= 1 << bit;
            for &(mfn, place) in &places {
                let record = &mst[place.address()..end];
                let (number, _) = tested(&mut archive, record, mfn, place.deleted.into());
                let fault = well_formed(&mst, end, mfn as usize, place).err();
                let wrong_back = matches!(fault, Some(RecordFault::Back(_)));
                let given = calls.run(&mut mst, &mut xrf, &Call::State(mfn), Side::Back);
                let wanted = if wrong_back { 8 } else { number };
                assert_eq!(given.number, wanted, "byte {at}, bit {bit}, MFN {mfn}");
                refused += usize::from(number == 8);
                back += usize::from(wrong_back);
            }
        }
    }
    assert!(refused > 500 && back > 100, "{refused} refused, {back}");
}
