//! Request C-12: a card of the old rule is refused by every call with 2; a migration makes
//! NXTMFP one more and changes nothing else, and then the card is what it was before it was
//! made old; a second one answers 2.

mod common;

use common::Card;
use model::call::{Call, on_bytes};
use model::lists::{self, Taste};
use model::random::Random;
use model::{Refusal, store};

/// Two files that some calls have left.
fn used(seed: u64) -> Card {
    let mut random = Random::new(seed);
    let mut card = Card::formatted(random.between(1, 40), 1);
    for _ in 0..random.below(120) {
        let next = card.i32(4) as usize;
        let call = lists::call(&mut random, Taste::SHORT, next);
        on_bytes(&mut card.mst, &mut card.xrf, &call);
    }
    card
}

/// The same card as the old rule has it.
fn made_old(card: &Card) -> Card {
    let mut old = card.clone();
    old.put_u16(12, card.u16(12) - 1);
    old
}

#[test]
fn an_old_card_is_refused_until_it_is_migrated_once() {
    for seed in 0..300 {
        let card = used(seed);
        let mut old = made_old(&card);
        let mut random = Random::new(seed + 1000);
        for _ in 0..20 {
            let call = lists::any_call(&mut random, Taste::SHORT, 4);
            if matches!(call, Call::Format | Call::Migrate) {
                continue;
            }
            let before = old.clone();
            let (outcome, _) = on_bytes(&mut old.mst, &mut old.xrf, &call);
            if let Call::SettleList { mfns, .. } = &call {
                let refused = outcome.number == 17 && outcome.answers.is_empty();
                let each = outcome.number == 0 && outcome.answers == vec![2; mfns.len()];
                assert!(refused || each, "seed {seed}: {call:?}");
            } else {
                assert_eq!(outcome.number, 2, "seed {seed}: {call:?}");
            }
            assert_eq!(old, before, "seed {seed}: {call:?}");
        }
        assert_eq!(old.migrate(), Ok(()), "seed {seed}");
        assert_eq!(old, card, "seed {seed}");
        assert_eq!(old.migrate(), Err(Refusal::Control), "seed {seed}");
    }
}

/// The card of the paper's worked run, with the numbers of the request: 64 becomes 65.
#[test]
fn an_empty_card_has_64_before_and_65_after() {
    let mut card = Card::formatted(1, 1);
    card.put_u16(12, 64);
    let before = card.clone();
    assert_eq!(card.migrate(), Ok(()));
    assert_eq!(card.u16(12), 65);
    assert_eq!(card.xrf, before.xrf);
    for at in (0..512).filter(|at| !(12..14).contains(at)) {
        assert_eq!(card.mst[at], before.mst[at], "byte {at}");
    }
}

/// 1 comes before 2, whatever the control record is.
#[test]
fn lengths_come_first() {
    let mut card = made_old(&Card::formatted(2, 1));
    let (mst, xrf) = (card.mst.clone(), card.xrf.clone());
    for (mst_len, xrf_len) in [(511, 512), (1023, 512), (1024, 511), (0, 512), (1024, 0)] {
        let mut short = mst[..mst_len].to_vec();
        let given = store::migrate(&mut short, &xrf[..xrf_len]);
        assert_eq!(given, Err(Refusal::Length), "{mst_len} and {xrf_len}");
        assert_eq!(short, mst[..mst_len]);
    }
    assert_eq!(card.migrate(), Ok(()));
}
