//! The whole-store check: each sentence of "A sound store" broken alone, with the
//! fault it must name, and stores that look odd but are sound.

mod common;
use common::Card;
use model::Refusal::NotSound;
use model::fault::{Fault, MfnFault, RecordFault, StepFault};
use model::sound::faults;

/// MFN 1 changed ("Kite" at 64, "Kites" at 92), MFN 2 new at 122; end 150.
fn card() -> Card {
    let mut card = Card::with_changed_kite(2, 2);
    card.create(&[(24, b"Wind")]).unwrap();
    assert_eq!(card.u16(12), 151);
    assert_eq!(card.check(), Ok(()));
    card
}

fn unsound(change: impl FnOnce(&mut Card) -> &mut Card) -> Fault {
    let mut card = card();
    change(&mut card);
    assert_eq!(card.check(), Err(NotSound));
    faults(&card.mst, &card.xrf, 9)[0]
}

#[test]
fn first_integers_of_all_blocks() {
    let fault = unsound(|card| card.put_entry(512, 2));
    let wanted = Fault::FirstInteger {
        block: 2,
        found: 2,
        wanted: -2,
    };
    assert_eq!(fault, wanted);
    unsound(|card| card.put_entry(0, -1));
}

#[test]
fn free_slots_are_0_up_to_the_last() {
    for (mfn, at) in [(3, 12), (127, 508), (128, 516), (254, 1020)] {
        let fault = unsound(|card| card.put_entry(at, 7));
        assert_eq!(fault, Fault::SlotUsed { mfn, at, found: 7 });
    }
}

#[test]
fn steps_arrive_exactly_at_the_end() {
    // The last record made longer by 2, the end left: past it.
    let fault = unsound(|card| card.put_u16(126, 30));
    let wanted = Fault::Step {
        at: 122,
        fault: StepFault::PastEnd { mfrl: 30, end: 150 },
    };
    assert_eq!(fault, wanted);
    // The end moved on: the bytes behind, MFRL 0, are no step.
    let fault = unsound(|card| card.put_end(1, 152));
    let wanted = Fault::Step {
        at: 150,
        fault: StepFault::Length { mfrl: 0 },
    };
    assert_eq!(fault, wanted);
    for mfrl in [0, 17, 29, 16, 32_768] {
        unsound(|card| card.put_u16(126, mfrl));
    }
    // A step of 32,768 bytes that does arrive at the end, behind a gone MFN.
    let mut card = Card::formatted(130, 1);
    card.create(&[]).unwrap();
    card.put_entry(4, -2048).put_count(0).put_u16(68, 32_766);
    card.put_end(65, 62);
    assert_eq!(card.check(), Ok(()));
    card.put_u16(68, 32_768).put_end(65, 64);
    assert_eq!(card.check(), Err(NotSound));
}

#[test]
fn entries_name_steps() {
    // A well-formed record of MFN 2 inside the data of a step is no step.
    let mut card = Card::formatted(2, 1);
    let mut data = vec![0; 20];
    data.extend([2, 0, 0, 0, 18, 0, 0, 0, 0, 0, 0, 0, 18, 0, 0, 0, 0, 0]);
    card.create(&[(24, &data)]).unwrap();
    card.create(&[]).unwrap();
    assert_eq!(card.check(), Ok(()));
    let inside = 64 + 24 + 20;
    card.put_entry(8, 2048 + inside);
    assert!(card.view(2, 24, 1) == Err(model::Refusal::NoField));
    assert_eq!(card.check(), Err(NotSound));
    let wanted = Fault::Mfn {
        mfn: 2,
        fault: MfnFault::NotStep {
            at: inside as usize,
        },
    };
    assert_eq!(faults(&card.mst, &card.xrf, 9), [wanted]);
}

#[test]
fn back_places_are_steps_with_a_settled_version() {
    // A settled version of MFN 1 inside the data of MFN 1's own settled version.
    let mut card = Card::formatted(2, 1);
    let inner = [1, 0, 0, 0, 18, 0, 0, 0, 0, 0, 0, 0, 18, 0, 0, 0, 0, 0];
    card.create(&[(24, &inner)]).unwrap();
    card.settle(1).unwrap();
    card.update(1, &[(24, b"Kites")]).unwrap();
    assert_eq!(card.check(), Ok(()));
    card.put_u16(106 + 10, 88);
    assert_eq!(card.view_settled(1, 24, 1), Err(model::Refusal::NoField));
    assert_eq!(card.check(), Err(NotSound));
    let wanted = Fault::Mfn {
        mfn: 1,
        fault: MfnFault::BackNotStep { at: 88 },
    };
    assert_eq!(faults(&card.mst, &card.xrf, 9), [wanted]);
    let fault = unsound(|card| card.put_u16(80, 1));
    let wanted = Fault::Mfn {
        mfn: 1,
        fault: MfnFault::Settled {
            at: 64,
            fault: RecordFault::Status {
                found: 1,
                wanted: 0,
            },
        },
    };
    assert_eq!(fault, wanted);
}

#[test]
fn entry_0_below_nxtmfn_is_not_sound_and_gone_is() {
    unsound(|card| card.put_entry(8, 0));
    let mut card = card();
    card.put_entry(8, -2048).put_count(1);
    assert_eq!(card.check(), Ok(()));
    card.put_entry(4, -2048).put_count(0);
    assert_eq!(card.check(), Ok(()));
}

#[test]
fn a_step_that_no_entry_names_may_hold_anything_but_its_length() {
    let mut card = card();
    card.put_entry(8, -2048).put_count(1);
    card.mst[122..126].fill(0xFF);
    card.mst[128..150].fill(0xFF);
    assert_eq!(card.check(), Ok(()));
    card.put_u16(126, 27);
    assert_eq!(card.check(), Err(NotSound));
}

#[test]
fn steps_go_over_500_to_510() {
    for length in (434..=448).step_by(2) {
        let mut card = Card::formatted(2, 1);
        let bytes = vec![b'x'; length - 24];
        card.create(&[(24, &bytes)]).unwrap();
        card.create(&[(24, b"Kite")]).unwrap();
        let at = if length == 434 { 498 } else { 512 };
        assert_eq!(card.u16(at + 4), 28, "{length}");
        assert_eq!(card.check(), Ok(()));
        assert_eq!(card.view(2, 24, 1), Ok(&b"Kite"[..]));
    }
}

#[test]
fn control_bytes_and_gaps_do_not_count() {
    let mut card = card();
    card.mst[20..64].fill(0xFF);
    card.mst[150..].fill(0xFF);
    assert_eq!(card.check(), Ok(()));
}

#[test]
fn reccnt_is_the_number_of_entries_neither_deleted_nor_gone() {
    for found in [-1, 0, 1, 3, i32::MAX - 1, i32::MAX, i32::MIN, 2 + 65_536] {
        let fault = unsound(|card| card.put_count(found));
        assert_eq!(fault, Fault::Count { found, live: 2 });
    }
    let mut card = card();
    card.delete(2).unwrap();
    assert_eq!((card.count(), card.check()), (1, Ok(())));
    card.put_count(2);
    assert_eq!(card.check(), Err(NotSound));
    // What is gone does not count either.
    card.put_entry(8, -2048).put_count(1);
    assert_eq!(card.check(), Ok(()));
    // Where something else is wrong, that is told.
    let fault = unsound(|card| card.put_count(9).put_entry(8, 0));
    assert!(matches!(fault, Fault::Mfn { mfn: 2, .. }));
}

#[test]
fn faults_are_told_in_words_and_up_to_the_limit() {
    let mut card = card();
    card.put_entry(4, 0).put_entry(8, 3648).put_entry(12, 9);
    let found = faults(&card.mst, &card.xrf, 9);
    assert_eq!(found.len(), 3);
    assert_eq!(faults(&card.mst, &card.xrf, 2).len(), 2);
    let words: Vec<String> = found.iter().map(Fault::to_string).collect();
    assert!(words[0].contains("MFN 3") && words[0].contains("XRF byte 12"));
    assert!(words[1].contains("MFN 1") && words[1].contains("never used"));
    assert!(words[2].contains("MFN 2") && words[2].contains("both changed and new"));
    let words = unsound(|card| card.put_count(-1)).to_string();
    assert!(words.contains("RECCNT (MST byte 16) is -1, and 2 entries"));
}
