//! After random lists from format, all fields of both versions of every MFN, its state, and
//! what the next create is given, through the wrapper: they are the ledger's.

use isis::{Answer, Card, Fields, Lists, Mark};
use model::call::{Call, OwnedDraft, on_ledger};
use model::ledger::{Ledger, Standing};
use model::lists::{self, Taste};
use model::random::Random;

/// A version as the ledger keeps it, or the answer that stands for none.
type Version = Result<Vec<(u16, Vec<u8>)>, u32>;

/// What the wrapper hands out.
fn handed_out(fields: Answer<Fields>) -> Version {
    let pair = |field: isis::Field| (field.tag, field.bytes.to_vec());
    fields
        .map(|fields| fields.map(pair).collect())
        .map_err(isis::Refusal::number)
}

/// The current and the settled version of an MFN that was given out, by the ledger.
fn kept(ledger: &Ledger, mfn: u32) -> (Version, Version) {
    let item = ledger.item(mfn as usize).expect("an MFN given out");
    let live = || match item.deleted {
        true => Err(9),
        false => Ok(item.fields.clone()),
    };
    let settled = match &item.standing {
        Standing::Changed { settled, .. } => Ok(settled.clone()),
        Standing::Settled => live(),
        Standing::New { .. } => Err(11),
    };
    (live(), settled)
}

/// The state of an MFN that was given out, by the ledger.
fn state(ledger: &Ledger, mfn: u32) -> (Mark, bool) {
    let item = ledger.item(mfn as usize).expect("an MFN given out");
    let mark = match item.standing {
        Standing::Settled => Mark::Settled,
        Standing::Changed { .. } => Mark::Changed,
        Standing::New { .. } => Mark::New,
    };
    (mark, item.deleted)
}

/// A draft as the wrapper takes it.
fn lent(draft: &OwnedDraft) -> Lists<'_> {
    Lists {
        tags: &draft.tags,
        lens: &draft.lens,
        data: &draft.data,
    }
}

/// Makes a call that may write; gives its answer.
fn make(card: &mut Card, call: &Call) -> Answer<()> {
    match call {
        Call::Format => card.format(),
        Call::Create(draft) => card.create_from(lent(draft)).map(drop),
        Call::Update(mfn, draft) => card.update_from(*mfn, lent(draft)),
        Call::Delete(mfn) => card.delete(*mfn),
        Call::Settle(mfn) => card.settle(*mfn),
        Call::Revert(mfn) => card.revert(*mfn),
        Call::Migrate => card.migrate(),
        Call::Recount => card.recount(),
        Call::SettleList { mfns, room } => card.settle_list(mfns, &mut vec![0; *room]),
        _ => Ok(()),
    }
}

/// Runs a list and compares every version of every MFN; gives how many were there.
fn run(seed: u64, taste: Taste, blocks: usize) -> usize {
    let mut random = Random::new(seed);
    let (mut mst, mut xrf) = (vec![0; blocks * 512], vec![0; 512]);
    let mut ledger = Ledger::new(mst.len(), xrf.len()).expect("whole blocks");
    let mut card = Card::over(&mut mst, &mut xrf);
    card.format().unwrap();
    for _ in 0..300 {
        let call = lists::call(&mut random, taste, ledger.next_mfn());
        let number = make(&mut card, &call).map_or_else(isis::Refusal::number, |()| 0);
        let wanted = on_ledger(&mut ledger, &call).number;
        let reads = matches!(call, Call::View { .. } | Call::ViewSettled { .. });
        assert!(reads || number == wanted, "seed {seed}: {call:?}");
    }
    let next = card.next().map(|next| (next.mfn as usize, next.end));
    assert_eq!(next, Ok((ledger.next_mfn(), ledger.end())), "seed {seed}");
    let mut there = 0;
    for mfn in 1..ledger.next_mfn() as u32 {
        let (current, settled) = kept(&ledger, mfn);
        there += usize::from(current.is_ok()) + usize::from(settled.is_ok());
        let told = card.state(mfn).map(|state| (state.mark, state.deleted));
        assert_eq!(told, Ok(state(&ledger, mfn)), "seed {seed}");
        assert_eq!(handed_out(card.fields(mfn)), current, "seed {seed}");
        assert_eq!(handed_out(card.fields_settled(mfn)), settled, "seed {seed}");
    }
    there
}

#[test]
fn all_fields_of_all_versions_and_all_states_are_the_ledgers() {
    let seeds = 1..=100;
    let short: usize = seeds.clone().map(|seed| run(seed, Taste::SHORT, 12)).sum();
    let long: usize = seeds.map(|seed| run(seed, Taste::LONG, 200)).sum();
    assert!(short > 2_000 && long > 2_000, "{short} and {long} versions");
}
