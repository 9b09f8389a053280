//! Request C-17: RECCNT is 0 after a format, one more after a create, one less after a delete
//! and one more after a revert that brings a deleted record back; no other call changes it, and
//! a refused one changes nothing. At its two ends create, revert and delete are answer 2, each
//! in its order. A recount writes it on a store that is sound apart from it.

mod common;

use common::Card;
use model::Refusal::*;
use model::call::{Call, on_bytes};
use model::history::History;
use model::layout::reccnt;
use model::lists::{self, PLANTED, Taste};
use model::random::Random;
use model::store;

/// The bytes of both files that differ.
fn changed(before: &Card, after: &Card) -> Vec<(&'static str, usize)> {
    let differ = |a: &[u8], b: &[u8], name| {
        let at = (0..a.len()).filter(|&at| a[at] != b[at]);
        at.map(|at| (name, at)).collect::<Vec<_>>()
    };
    let mut changed = differ(&before.mst, &after.mst, "MST");
    changed.extend(differ(&before.xrf, &after.xrf, "XRF"));
    changed
}

#[test]
fn each_call_counts_as_the_request_says() {
    let mut card = Card::formatted(4, 1);
    assert_eq!(card.count(), 0);
    card.create(&[(24, b"Kite")]).unwrap();
    card.create(&[(24, b"Wind")]).unwrap();
    card.create(&[]).unwrap();
    assert_eq!(card.count(), 3);
    card.settle(1).unwrap();
    card.update(1, &[(24, b"Kites")]).unwrap();
    card.update(2, &[(24, b"Winds")]).unwrap();
    assert_eq!(card.count(), 3);
    // A revert of a live record: the entry alone.
    let before = card.mst.clone();
    card.revert(1).unwrap();
    assert_eq!((&card.mst, card.count()), (&before, 3));
    // A settled record deleted by a copy, a new one in place.
    card.delete(1).unwrap();
    assert_eq!(card.count(), 2);
    card.delete(2).unwrap();
    assert_eq!(card.count(), 1);
    card.settle(2).unwrap();
    // The revert of a deletion: RECCNT alone in the MST.
    let before = card.clone();
    card.revert(1).unwrap();
    assert_eq!(card.count(), 2);
    assert!(
        changed(&before, &card)
            .iter()
            .all(|&(file, at)| match file {
                "MST" => (16..20).contains(&at),
                _ => (4..8).contains(&at),
            })
    );
    assert_eq!(card.check(), Ok(()));
}

#[test]
fn the_revert_of_a_deletion_carries_into_every_byte_of_reccnt() {
    for (before, after) in [
        (0xFF, 0x100),
        (0xFFFF, 0x1_0000),
        (0xFF_FFFF, 0x100_0000),
        (-1, 0),
    ] {
        let mut card = Card::with_settled_kite(2, 1);
        card.delete(1).unwrap();
        card.put_count(before);
        let mut wanted = card.clone();
        wanted.put_count(after).put_entry(4, 2048 + 64);
        card.revert(1).unwrap();
        assert_eq!(card, wanted);
        let mut card = Card::with_kite(2, 1);
        card.put_count(before);
        card.create(&[]).unwrap();
        assert_eq!(card.count(), after);
    }
    for (before, after) in [(0x100, 0xFF), (0x100_0000, 0xFF_FFFF), (1, 0)] {
        let mut card = Card::with_kite(2, 1);
        card.put_count(before).delete(1).unwrap();
        assert_eq!(card.count(), after);
    }
}

#[test]
fn any_create_and_any_revert_at_the_greatest_number_is_2() {
    let mut card = Card::with_changed_kite(2, 1);
    card.put_count(i32::MAX);
    // 2 comes before every number behind it that either gives: 3, 5, 6 and 13, and 4, 6, 7, 8,
    // 10 and 11.
    assert_eq!(card.create(&[(24, b"Wind")]), Err(Control));
    assert_eq!(card.create_draft(&[0], &[], &[]), Err(Control));
    assert_eq!(card.revert(1), Err(Control));
    assert_eq!(card.revert(0), Err(Control));
    assert_eq!(card.revert(9), Err(Control));
    card.settle(1).unwrap();
    assert_eq!(card.revert(1), Err(Control));
    card.put_entry(4, 0).put_i32(4, 128).put_end(3, 0);
    assert_eq!(card.create(&[]), Err(Control));
    assert_eq!(card.revert(1), Err(Control));
    for (count, at_most) in [(0, false), (i32::MAX, true)] {
        let number = |refusal| Err(if at_most { Control } else { refusal });
        let mut card = Card::with_kite(2, 1);
        card.put_count(count);
        assert_eq!(card.revert(1), number(New));
        card.put_entry(8, 1);
        assert_eq!(card.create(&[]), number(Entry).map(|()| 0));
        card.put_entry(8, 0).put_end(3, 0);
        assert_eq!(card.create(&[]), number(NoRoom).map(|()| 0));
        let mut card = Card::with_changed_kite(2, 1);
        card.put_count(count).put_u16(64 + 12, 23);
        assert_eq!(card.revert(1), number(Record));
        card.put_entry(4, -2048);
        assert_eq!(card.revert(1), number(Gone));
        card.put_entry(4, 0);
        assert_eq!(card.revert(1), number(Entry));
    }
    // 1 comes first.
    let (mut mst, mut xrf) = (card.mst[..1023].to_vec(), card.xrf.clone());
    let draft = model::OwnedDraft::default();
    assert_eq!(
        store::create(&mut mst, &mut xrf, &draft.lent()),
        Err(Length)
    );
    assert_eq!(store::revert(&mut mst, &mut xrf, 1), Err(Length));
    // One below it they are done.
    let mut card = Card::with_changed_kite(2, 1);
    card.delete(1).unwrap();
    card.put_count(i32::MAX - 1);
    assert_eq!(card.revert(1), Ok(()));
    assert_eq!(card.count(), i32::MAX);
    // A revert of a live record would not change the number, and is 2 all the same.
    let mut card = Card::with_changed_kite(2, 1);
    card.put_count(i32::MAX);
    assert_eq!(card.revert(1), Err(Control));
    card.put_count(i32::MAX - 1);
    assert_eq!(card.revert(1), Ok(()));
    assert_eq!(card.count(), i32::MAX - 1);
}

#[test]
fn a_delete_at_0_or_below_is_2_behind_4_to_9_and_before_13() {
    for count in [0, -1, -2, i32::MIN, i32::MIN + 1] {
        let mut card = Card::with_kite(1, 1);
        card.create(&[(24, b"Wind")]).unwrap();
        card.delete(2).unwrap();
        card.put_count(count);
        assert_eq!(card.delete(1), Err(Control));
        assert_eq!(card.delete(0), Err(Mfn));
        assert_eq!(card.delete(3), Err(Mfn));
        assert_eq!(card.delete(2), Err(Deleted));
        // A settled record and no room for its copy.
        card.settle(1).unwrap();
        card.put_end(2, 0);
        assert_eq!(card.delete(1), Err(Control));
        card.put_count(1);
        assert_eq!(card.delete(1), Err(NoRoom));
        assert_eq!(card.count(), 1);
        card.put_count(count).put_u16(64 + 12, 23);
        assert_eq!(card.delete(1), Err(Record));
        card.put_entry(4, -2048);
        assert_eq!(card.delete(1), Err(Gone));
        card.put_entry(4, 0);
        assert_eq!(card.delete(1), Err(Entry));
        card.put_u16(14, 1);
        assert_eq!(card.delete(1), Err(Control));
    }
    let mut card = Card::with_kite(1, 1);
    card.put_count(1);
    assert_eq!(card.delete(1), Ok(()));
    assert_eq!(card.count(), 0);
}

#[test]
fn no_other_call_looks_at_it() {
    for count in PLANTED {
        let mut card = Card::with_changed_kite(4, 1);
        card.put_count(count);
        assert_eq!(card.view(1, 24, 1), Ok(&b"Kites"[..]));
        assert_eq!(card.view_settled(1, 24, 1), Ok(&b"Kite"[..]));
        assert_eq!(card.update(1, &[(24, b"Kit")]), Ok(()));
        assert_eq!(card.update(1, &[(24, b"Kite strings")]), Ok(()));
        let mut answers = [9; 2];
        store::settle_list(&mut card.mst, &mut card.xrf, &[1, 1], &mut answers).unwrap();
        assert_eq!(answers, [0, 10]);
        assert_eq!(card.migrate(), Err(Control));
        assert_eq!(card.count(), count);
    }
}

#[test]
fn a_recount_writes_the_number_and_nothing_else() {
    let mut card = Card::with_changed_kite(4, 1);
    card.create(&[(24, b"Wind")]).unwrap();
    card.create(&[(24, b"Rain")]).unwrap();
    card.delete(2).unwrap();
    card.put_entry(12, -2048).put_count(1);
    assert_eq!(card.check(), Ok(()));
    for count in PLANTED {
        let mut old = card.clone();
        old.put_count(count);
        let sound = count == 1;
        assert_eq!(old.check().is_ok(), sound, "{count}");
        assert_eq!(old.recount(), Ok(()), "{count}");
        assert_eq!(old, card, "{count}");
    }
}

#[test]
fn a_recount_is_refused_only_apart_from_reccnt() {
    for count in PLANTED {
        let card = || {
            let mut card = Card::with_changed_kite(2, 1);
            card.put_count(count);
            card
        };
        assert_eq!(card().recount(), Ok(()), "{count}");
        assert_eq!(card().put_u16(14, 1).recount(), Err(Control), "{count}");
        for damaged in [
            card().put_entry(0, 1),
            card().put_entry(8, 7),
            card().put_entry(4, 0),
            card().put_entry(4, 2048 + 104),
            card().put_u16(96, 28),
            card().put_u16(80, 1),
            card().put_end(1, 124),
        ] {
            assert_eq!(damaged.recount(), Err(NotSound), "{count}");
            assert_eq!(damaged.count(), count);
        }
        let mut short = card();
        short.mst.pop();
        assert_eq!(short.recount(), Err(Length), "{count}");
        short.mst.clear();
        assert_eq!(short.recount(), Err(Length), "{count}");
    }
}

#[test]
fn a_migration_is_not_refused_for_it_and_keeps_it() {
    for count in PLANTED {
        let mut card = Card::with_changed_kite(2, 1);
        card.put_end(1, 121).put_count(count);
        assert_eq!(card.recount(), Err(Control));
        assert_eq!(card.migrate(), Ok(()));
        assert_eq!(card.count(), count);
        assert_eq!(card.check().is_ok(), count == 1);
        assert_eq!(card.recount(), Ok(()));
        assert_eq!((card.count(), card.check()), (1, Ok(())));
    }
}

/// The count from the calls and their answers alone, over lists that delete and revert much.
#[test]
fn the_number_is_what_the_history_counts() {
    let (mut back, mut kept) = (0, 0);
    for seed in 0..120 {
        let mut random = Random::new(seed);
        let mut card = Card::formatted(30, 1);
        let mut history = History::default();
        for i in 0..400 {
            let next = card.i32(4) as usize;
            let mfn = lists::mfn(&mut random, next.min(6));
            let call = match random.below(8) {
                0 => Call::Delete(mfn),
                1 => Call::Revert(mfn),
                2 => Call::Settle(mfn),
                _ => lists::call(&mut random, Taste::SHORT, next),
            };
            let before = history.count();
            let (outcome, _) = on_bytes(&mut card.mst, &mut card.xrf, &call);
            history.add(&call, &outcome);
            if matches!(call, Call::Revert(_)) && outcome.number == 0 {
                back += history.count() - before;
                kept += i64::from(history.count() == before);
            }
            let count = i64::from(reccnt(&card.mst));
            assert_eq!(count, history.count(), "seed {seed}, call {i}: {call:?}");
        }
        assert_eq!(card.check(), Ok(()), "seed {seed}");
    }
    assert!(back > 100 && kept > 100, "{back} and {kept}");
}
