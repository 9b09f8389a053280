//! Request C-13, from its words: one call takes a list of MFNs and a lent list of answers, and
//! leaves the same bytes and answers as settling each in order.

mod common;

use common::Card;
use model::answer::number;
use model::call::{Call, on_ledger};
use model::store::{settle, settle_list};
use model::{Ledger, OwnedDraft, Refusal};

/// A card with records 1 to 4: new, settled, changed, deleted.
fn card() -> Card {
    let mut card = Card::formatted(4, 1);
    for title in [b"Kite", b"Kits", b"Keys", b"Knot"] {
        card.create(&[(24, title)]).unwrap();
    }
    for mfn in [2, 3, 4] {
        settle(&mut card.mst, &mut card.xrf, mfn).unwrap();
    }
    let draft = OwnedDraft::of(&[(24, b"Key")]);
    model::store::update(&mut card.mst, &mut card.xrf, 3, &draft.lent()).unwrap();
    model::store::delete(&mut card.mst, &mut card.xrf, 4).unwrap();
    card
}

#[test]
fn each_in_order_and_the_same_mfn_again_gets_10() {
    let mut card = card();
    let mut answers = [99; 9];
    let mfns = [4, 1, 1, 2, 3, 0, 5, 3, 4];
    let result = settle_list(&mut card.mst, &mut card.xrf, &mfns, &mut answers);
    assert_eq!((result, answers), (Ok(()), [0, 0, 10, 10, 0, 4, 4, 10, 10]));
}

#[test]
fn the_same_bytes_as_single_calls() {
    let (mut list, mut single) = (card(), card());
    let mfns: Vec<u32> = (0..4_096).map(|i| i * 7 % 6).collect();
    let mut answers = vec![99; mfns.len()];
    settle_list(&mut list.mst, &mut list.xrf, &mfns, &mut answers).unwrap();
    let each = |&mfn: &u32| number(&settle(&mut single.mst, &mut single.xrf, mfn));
    assert_eq!(answers, mfns.iter().map(each).collect::<Vec<_>>());
    assert_eq!(list, single);
}

#[test]
fn unequal_and_over_long_lists_change_nothing() {
    for (mfns, room) in [
        (1, 0),
        (0, 1),
        (3, 2),
        (2, 3),
        (4_097, 4_097),
        (4_096, 4_097),
    ] {
        let mut card = card();
        let (before, mut answers) = (card.clone(), vec![99; room]);
        let result = settle_list(&mut card.mst, &mut card.xrf, &vec![1; mfns], &mut answers);
        assert_eq!(result, Err(Refusal::NoRoomInList), "{mfns} {room}");
        assert_eq!((card, answers), (before, vec![99; room]));
    }
}

#[test]
fn the_ledger_lists_the_answers_of_its_settles() {
    let mut ledger = Ledger::new(2_048, 512).unwrap();
    let create = Call::Create(OwnedDraft::of(&[(24, b"Kite")]));
    on_ledger(&mut ledger, &create);
    on_ledger(&mut ledger, &create);
    let mut single = ledger.clone();
    let outcome = on_ledger(&mut ledger, &Call::settle_list([2, 0, 2, 1]));
    assert_eq!((outcome.number, outcome.answers), (0, vec![0, 4, 10, 0]));
    for mfn in [2, 1] {
        on_ledger(&mut single, &Call::Settle(mfn));
    }
    assert_eq!(ledger, single);
}
