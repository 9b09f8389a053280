//! The lists that `replay_run` is given: the worked run of document 01, two long ones,
//! what is missing, lists that are settled, records that are counted, the ends that rows P9 to
//! P12 name, and short ones for every stop.

use super::{CALL, List, REPORT, catalogue};
use crate::call::{Call, OwnedDraft, on_ledger};
use crate::layout::BLOCK;
use crate::ledger::Ledger;
use crate::lists::{self, Taste};
use crate::random::Random;
use crate::store::MOST_SETTLED;

/// All lists, in the order of the text.
pub fn all() -> Vec<List> {
    let mut all = vec![worked_run(), catalogue(), random(1989), missing()];
    all.extend(settled_lists());
    all.extend(counted());
    all.extend(ends());
    all.extend(stops());
    all.extend(malformed());
    all.extend(rooms());
    all.extend(bad_lengths());
    all
}

/// The draft of one field of tag 24.
fn title(text: &str) -> OwnedDraft {
    OwnedDraft::of(&[(24, text.as_bytes())])
}

/// A list on a store of one block and one block.
fn small(title: &'static str, calls: &[Call]) -> List {
    List::of(title, (BLOCK, BLOCK), calls).room(50, 30)
}

/// "One run, one-block XRF", with both views in between.
pub fn worked_run() -> List {
    let calls = [
        Call::Create(title("Kite")),
        Call::Update(1, title("Kit")),
        Call::Settle(1),
        Call::Update(1, title("Kites")),
        Call::view(1, 24, 1),
        Call::view_settled(1, 24, 1),
        Call::Revert(1),
        Call::view(1, 24, 1),
        Call::Check,
    ];
    small("the worked run", &calls)
}

/// The long list that goes through a whole catalogue.
pub fn catalogue() -> List {
    let lengths = (20 * BLOCK, BLOCK);
    List::of("a whole catalogue", lengths, &catalogue::calls()).exact_room()
}

/// A long list of the model's generator. The fields are made of letters, so that they
/// can be printed, and drafts that are too long for the program are left out.
fn random(seed: u64) -> List {
    let lengths = (6 * BLOCK, BLOCK);
    let taste = Taste {
        format_in: 250,
        ..Taste::SHORT
    };
    let mut random = Random::new(seed);
    let mut ledger = Ledger::new(lengths.0, lengths.1).expect("whole blocks");
    let mut calls = Vec::new();
    while calls.len() < 500 {
        let mut call = lists::call(&mut random, taste, ledger.next_mfn());
        if let Call::Create(draft) | Call::Update(_, draft) = &mut call {
            if draft.tags.len().max(draft.lens.len()).max(draft.data.len()) > 100 {
                continue;
            }
            let letter = |byte: &mut u8| *byte = b'a' + *byte % 26;
            draft.data.iter_mut().for_each(letter);
        }
        if matches!(&call, Call::SettleList { mfns, .. } if mfns.len() > 100) {
            continue;
        }
        on_ledger(&mut ledger, &call);
        calls.push(call);
    }
    List::of("a random list", lengths, &calls).exact_room()
}

/// Occurrences about the number that there is, 0 and the highest, and a tag that does not occur,
/// in both versions: the settled one has two fields of tag 70, the current one has one.
fn missing() -> List {
    let two = OwnedDraft::of(&[(70, b"one"), (24, b"title"), (70, b"two")]);
    let one = OwnedDraft::of(&[(24, b"title"), (70, b"only")]);
    let asked = [0, 1, 2, 3, 4, u32::MAX];
    let current = asked.map(|occurrence| Call::view(1, 70, occurrence));
    let settled = asked.map(|occurrence| Call::view_settled(1, 70, occurrence));
    let absent = [Call::view(1, 71, 1), Call::view_settled(1, 71, 2)];
    let looks = [&current[..], &settled, &absent].concat();
    let calls = [
        vec![Call::Create(two)],
        looks.clone(),
        vec![Call::Settle(1), Call::Update(1, one)],
        looks.clone(),
        vec![Call::Delete(1)],
        looks,
    ];
    List::of("fewer than asked", (BLOCK, BLOCK), &calls.concat()).exact_room()
}

/// Ends at offset 498, moved on from 500, and at the length of the MST; MFNs 127 and 128.
fn ends() -> Vec<List> {
    let long = |need: usize| Call::Create(title(&"k".repeat(need - 24)));
    let empty = || Call::Create(OwnedDraft::default());
    let mut two_blocks: Vec<Call> = (0..129).map(|_| empty()).collect();
    for mfn in [127, 128, 129] {
        two_blocks.extend([
            Call::Settle(mfn),
            Call::Update(mfn, title("Kite")),
            Call::view(mfn, 24, 1),
            Call::view_settled(mfn, 24, 1),
            Call::Revert(mfn),
        ]);
    }
    two_blocks.push(Call::Check);
    vec![
        small("an end at the last offset", &[long(434), Call::Check]),
        small("an end moved on to the next block", &[long(436), empty()]),
        small(
            "an end at the last byte",
            &[long(448), empty(), Call::Check],
        ),
        List::of(
            "one offset too long",
            (2 * BLOCK, BLOCK),
            &[long(436), long(514)],
        )
        .room(10, 0),
        List::of(
            "two blocks, one record each",
            (2 * BLOCK, BLOCK),
            &[long(436), long(512)],
        )
        .room(10, 0),
        List::of("two blocks of entries", (8 * BLOCK, 2 * BLOCK), &two_blocks).exact_room(),
    ]
}

/// Lists of MFNs: empty, with every answer that a settle has in a list, the same MFN again,
/// lists that are not equally long, the longest and one that is longer, and rooms that are
/// just large enough for the answers and one too small.
fn settled_lists() -> Vec<List> {
    let records = [
        Call::Create(title("Kite")),
        Call::Create(title("Kit")),
        Call::Create(title("Key")),
        Call::Delete(2),
        Call::Settle(3),
        Call::Update(3, title("Keys")),
    ];
    let with = |calls: &[Call]| [&records[..], calls, &[Call::Check]].concat();
    let mixed = [0, 3, 1, 1, 4, 2, 3, u32::MAX, 2];
    let shown = [
        Call::settle_list([]),
        Call::settle_list(mixed),
        Call::settle_list(mixed),
        Call::view_settled(1, 24, 1),
        Call::view(2, 24, 1),
        Call::view_settled(3, 24, 1),
        Call::Revert(3),
    ];
    let unequal = [(2, 1), (1, 2), (0, 1), (1, 0)].map(|(mfns, room)| Call::SettleList {
        mfns: vec![1; mfns],
        room,
    });
    let repeated = |count: usize| Call::settle_list((0..count as u32).map(|i| i % 4));
    let long = with(&[repeated(MOST_SETTLED + 1), repeated(MOST_SETTLED)]);
    let (lengths, list) = ((BLOCK, BLOCK), with(&[Call::settle_list([1, 2, 1])]));
    let all = List::of("a list whose answers just fit", lengths, &list).exact_room();
    let (numbers, bytes) = (all.answer_room, all.shown_room);
    let short = List::of("a list without room for its answers", lengths, &list);
    vec![
        List::of("lists of MFNs", lengths, &with(&shown)).exact_room(),
        List::of("unequal lists", lengths, &with(&unequal)).exact_room(),
        List::of("the longest list and one too long", lengths, &long).exact_room(),
        short.room(numbers - REPORT - 1, bytes),
        all,
    ]
}

/// A recount at every turn of RECCNT: on an empty card, behind creates, deletions of a settled
/// and of a new record, reverts of a live and of a deleted one, and behind a second format. It
/// answers 0 and changes nothing, so the same list without it reports the same of the others;
/// and what its other numbers are makes no difference.
fn counted() -> Vec<List> {
    let turns = [
        Call::Create(title("Kite")),
        Call::Create(title("Kit")),
        Call::Settle(1),
        Call::Update(1, title("Kites")),
        Call::Revert(1),
        Call::Delete(1),
        Call::Delete(1),
        Call::Delete(2),
        Call::Revert(1),
        Call::view(1, 24, 1),
        Call::Delete(1),
        Call::Settle(1),
        Call::Revert(1),
        Call::Format,
        Call::Create(title("Key")),
        Call::Check,
    ];
    let with = turns.iter().flat_map(|call| [Call::Recount, call.clone()]);
    let with: Vec<Call> = with.chain([Call::Recount]).collect();
    let lengths = (BLOCK, BLOCK);
    let other = [11, 1, 24, 1, 9, 11, u32::MAX, u32::MAX, u32::MAX, u32::MAX];
    vec![
        List::of("a recount before every call", lengths, &with).exact_room(),
        List::of("the same calls without", lengths, &turns).exact_room(),
        small("recounts with other numbers", &turns[..1]).with_numbers(CALL, &other),
    ]
}

/// Ends of short lists, and what comes with a draft that is refused.
fn stops() -> Vec<List> {
    let bad = OwnedDraft {
        tags: vec![24, 70],
        lens: vec![3],
        data: b"Bad".to_vec(),
    };
    let taken = [
        Call::Create(bad.clone()),
        Call::Create(title("Kite")),
        Call::Update(1, bad),
        Call::Update(7, title("Seven")),
        Call::view(1, 24, 1),
        Call::Update(1, title("Kit")),
        Call::view(1, 24, 1),
    ];
    let again = [
        Call::Create(title("Kite")),
        Call::Format,
        Call::view(1, 24, 1),
        Call::Create(title("Kit")),
        Call::view(1, 24, 1),
    ];
    vec![
        small("an empty list", &[]).room(0, 0),
        small("a refused draft is taken all the same", &taken),
        small("format again", &again),
        small("drafts left over", &taken[1..]).without_calls(5),
        small(
            "the highest tag of a view",
            &[Call::view(1, 65535, 1), Call::view_settled(1, 65535, 1)],
        ),
    ]
}

impl List {
    /// The same list without its last calls; their drafts stay.
    fn without_calls(mut self, calls: usize) -> List {
        self.numbers.truncate(self.numbers.len() - CALL * calls);
        self
    }

    /// The same list with other numbers from some number on.
    fn with_numbers(mut self, at: usize, numbers: &[u32]) -> List {
        self.numbers.truncate(at);
        self.numbers.extend(numbers);
        self
    }
}

/// What is no call, first and after a call.
fn malformed() -> Vec<List> {
    let one = |title_of_list, numbers: &[u32]| {
        small(title_of_list, &[Call::Create(title("Kite"))]).with_numbers(CALL, numbers)
    };
    let mut spare = one("one byte too many asked for", &[3, 0, 1, 1, 5]);
    spare.tags.push(24);
    spare.lens.push(4);
    spare.bytes.extend(b"Kite");
    vec![
        small("one number alone", &[]).with_numbers(0, &[8]),
        one("four numbers left", &[8, 0, 0, 0]),
        one("a call of no name", &[12, 0, 0, 0, 0]),
        one("a list with an MFN too many", &[10, 0, 1, 1, 0]),
        one("a call of no name, far off", &[u32::MAX, 1, 24, 1, 0]),
        one("view of a tag too large", &[1, 1, 65536, 1, 0]),
        one("settled view of a tag too large", &[2, 1, 65536 + 24, 1, 0]),
        one("create with a tag too many", &[3, 0, 1, 0, 0]),
        one("create with a length too many", &[3, 0, 0, 1, 0]),
        one("create with a byte too many", &[3, 0, 0, 0, 1]),
        one("update with a tag too many", &[4, 1, 1, 0, 0]),
        one("update with a length too many", &[4, 1, 0, 1, 0]),
        one("update with a byte too many", &[4, 1, 0, 0, 1]),
        one(
            "create with far too many of all",
            &[3, 0, u32::MAX, u32::MAX, u32::MAX],
        ),
        spare,
    ]
}

/// Rooms that are too small, and just large enough.
fn rooms() -> Vec<List> {
    let calls = [
        Call::Create(title("Kite")),
        Call::view(1, 24, 1),
        Call::view(1, 70, 1),
        Call::Create(title("Kites")),
        Call::view(2, 24, 1),
        Call::Create(title("")),
        Call::view(3, 24, 1),
    ];
    let list = |title_of_list, answers, shown| small(title_of_list, &calls).room(answers, shown);
    vec![
        list("no number of room", 0, 9),
        list("room for four numbers", 4, 9),
        list("room for one call", 5, 9),
        list("room for one call and four numbers", 9, 9),
        list("room for three calls, the next a create", 15, 9),
        list("room for all calls but the last", 34, 9),
        list("room for all calls", 35, 9),
        list("no byte of room", 35, 0),
        list("a byte short at the first view", 35, 3),
        list("enough for the first view only", 35, 4),
        list("a byte short at the second view", 35, 8),
    ]
}

/// Lengths that are not permitted, with a call that is then not run.
fn bad_lengths() -> Vec<List> {
    let calls = [Call::Create(title("Kite"))];
    let list = |title_of_list, lengths| List::of(title_of_list, lengths, &calls).room(3, 0);
    vec![
        list("MST empty", (0, BLOCK)),
        list("MST a byte short", (BLOCK - 1, BLOCK)),
        list("MST a byte long", (BLOCK + 1, BLOCK)),
        list("XRF empty", (BLOCK, 0)),
        list("XRF a byte short", (BLOCK, BLOCK - 1)),
        list("XRF a byte long", (BLOCK, BLOCK + 1)),
        list("the smallest lengths", (BLOCK, BLOCK)),
    ]
}
