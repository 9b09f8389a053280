//! The calls that tell something, by their words: the next MFN and the end, the state of a
//! record under each mark, and all its fields, with lists of each length about their number.

mod common;

use common::Card;
use model::Refusal;
use model::answer::number;
use model::ask::{Lists, Room, State, fields, fields_settled, next, state};
use model::store::Answer;

/// The mark and the deletion, as numbers.
fn told(card: &Card, mfn: u32) -> Answer<State> {
    state(&card.mst, &card.xrf, mfn)
}

/// Both versions' fields in lists of these lengths: answers, and the lists afterwards.
fn both(card: &Card, mfn: u32, room: Room) -> [(Answer<usize>, Lists); 2] {
    [fields, fields_settled].map(|call| {
        let mut lists = Lists::lent(room);
        (call(&card.mst, &card.xrf, mfn, &mut lists), lists)
    })
}

/// The numbers that the four answer: next, state, fields, settled fields.
fn numbers(card: &Card, mfn: u32, room: Room) -> [u32; 4] {
    let [current, settled] = both(card, mfn, room).map(|(answer, _)| number(&answer));
    let next = number(&next(&card.mst, &card.xrf));
    [next, number(&told(card, mfn)), current, settled]
}

#[test]
fn next_is_what_create_gives_and_where_its_record_begins() {
    let mut card = Card::formatted(1, 1);
    assert_eq!(next(&card.mst, &card.xrf), Ok((1, 64)));
    card.create(&[(24, b"Kite")]).unwrap();
    assert_eq!(next(&card.mst, &card.xrf), Ok((2, 92)));
    // 92 + 18 + 6 + 384 = 500, from which the end moves on.
    card.create(&[(24, &[b'x'; 384])]).unwrap();
    assert_eq!(next(&card.mst, &card.xrf), Ok((3, 512)));
}

#[test]
fn the_state_under_each_mark() {
    let mut card = Card::with_kite(1, 1);
    assert_eq!(told(&card, 1), Ok((2, 0)));
    card.delete(1).unwrap();
    assert_eq!(told(&card, 1), Ok((2, 1)));
    card.settle(1).unwrap();
    assert_eq!(told(&card, 1), Ok((0, 1)));
    let mut card = Card::with_settled_kite(1, 1);
    assert_eq!(told(&card, 1), Ok((0, 0)));
    card.update(1, &[]).unwrap();
    assert_eq!(told(&card, 1), Ok((1, 0)));
    card.delete(1).unwrap();
    assert_eq!(told(&card, 1), Ok((1, 1)));
    card.revert(1).unwrap();
    assert_eq!(told(&card, 1), Ok((0, 0)));
}

/// The data of the record at 64 begin at 64 + 18 + 6 for each field.
#[test]
fn the_fields_stand_in_directory_order_and_what_follows_them_is_kept() {
    let mut card = Card::formatted(1, 1);
    card.create(&[(24, b"Kite"), (24, b""), (70, b"s")])
        .unwrap();
    let rubbish = Lists::lent([1, 1, 1]);
    let (tag, size) = (rubbish.tags[0], rubbish.starts[0]);
    for (room, kept) in [([3, 3, 3], [0, 0, 0]), ([4, 6, 5], [1, 3, 2])] {
        let (answer, lists) = both(&card, 1, room)[0].clone();
        assert_eq!(answer, Ok(3));
        assert_eq!(
            lists.tags,
            [&[24, 24, 70][..], &vec![tag; kept[0]]].concat()
        );
        let starts = [&[100, 104, 104][..], &vec![size; kept[1]]].concat();
        assert_eq!(lists.starts, starts);
        assert_eq!(lists.lens, [&[4, 0, 1][..], &vec![size; kept[2]]].concat());
    }
}

#[test]
fn one_short_list_is_17_and_all_three_are_kept() {
    let mut card = Card::formatted(1, 1);
    card.create(&[(24, b"Kite"), (70, b"s")]).unwrap();
    for room in [[1, 2, 2], [2, 1, 2], [2, 2, 1], [0, 9, 9], [0; 3]] {
        let (answer, lists) = both(&card, 1, room)[0].clone();
        assert_eq!(answer, Err(Refusal::NoRoomInList));
        assert_eq!(lists, Lists::lent(room));
    }
    card.update(1, &[]).unwrap();
    assert_eq!(both(&card, 1, [0; 3])[0].0, Ok(0));
}

#[test]
fn the_two_versions_have_their_own_fields() {
    let mut card = Card::with_changed_kite(1, 1);
    let of = |card: &Card| {
        both(card, 1, [1; 3])
            .map(|(answer, lists)| answer.map(|_| (lists.starts[0], lists.lens[0])))
    };
    assert_eq!(of(&card), [Ok((116, 5)), Ok((88, 4))]);
    card.delete(1).unwrap();
    assert_eq!(of(&card), [Err(Refusal::Deleted), Ok((88, 4))]);
    card.settle(1).unwrap();
    assert_eq!(of(&card), [Err(Refusal::Deleted); 2]);
    card = Card::with_kite(1, 1);
    assert_eq!(of(&card), [Ok((88, 4)), Err(Refusal::New)]);
}

/// 17 is the last number, so every other refusal is given before it.
#[test]
fn the_lowest_refusal_is_given() {
    for room in [[0; 3], [1; 3]] {
        let mut card = Card::with_changed_kite(1, 1);
        assert_eq!(numbers(&card, 0, room), [0, 4, 4, 4]);
        assert_eq!(numbers(&card, 2, room), [0, 4, 4, 4]);
        // The settled version at 64, its tag; then the record at 92, its MFN.
        card.put_u16(64 + 18, 0);
        assert_eq!(numbers(&card, 1, room)[3], 8);
        assert_eq!(told(&card, 1), Ok((1, 0)));
        card.put_i32(92, 2);
        assert_eq!(numbers(&card, 1, room), [0, 8, 8, 8]);
        card.put_entry(4, -2048);
        assert_eq!(numbers(&card, 1, room), [0, 7, 7, 7]);
        card.put_entry(4, 0);
        assert_eq!(numbers(&card, 1, room), [0, 6, 6, 6]);
        card.put_u16(14, 1);
        assert_eq!(numbers(&card, 1, room), [2; 4]);
        card.mst.pop();
        assert_eq!(numbers(&card, 1, room), [1; 4]);
    }
    let mut card = Card::with_kite(1, 1);
    assert_eq!(numbers(&card, 1, [0; 3]), [0, 0, 17, 11]);
    card.delete(1).unwrap();
    assert_eq!(numbers(&card, 1, [0; 3]), [0, 0, 9, 11]);
}
