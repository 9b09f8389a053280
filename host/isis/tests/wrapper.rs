//! The wrapper hands everything through: the worked run of document 01 by way of the
//! archive, each answer as its number, and drafts from iterators.

use isis::raw::View;
use isis::{Answer, Card, CardRef, Draft, Field, Fields, Lists, Mark, Next, Refusal, State, raw};

#[test]
fn the_worked_run_through_the_archive() {
    let (mut mst, mut xrf) = (vec![0xAA; 512], vec![0xAA; 512]);
    let mut card = Card::over(&mut mst, &mut xrf);
    card.format().unwrap();
    assert_eq!(card.xrf()[..8], [0xFF, 0xFF, 0xFF, 0xFF, 0, 0, 0, 0]);
    assert_eq!(card.create([(24, "Kite")]), Ok(1));
    let bytes = [
        0x01, 0x00, 0x00, 0x00, 0x1C, 0x00, 0x00, 0x00, 0x00, 0x00, 0x00, 0x00, 0x18, 0x00, 0x01,
        0x00, 0x00, 0x00, 0x18, 0x00, 0x00, 0x00, 0x04, 0x00, 0x4B, 0x69, 0x74, 0x65,
    ];
    assert_eq!(card.mst()[64..92], bytes);
    assert_eq!(card.xrf()[4..8], 3136i32.to_le_bytes());
    card.update(1, [(24, "Kit")]).unwrap();
    assert_eq!(card.mst()[68], 28);
    card.settle(1).unwrap();
    assert_eq!(card.xrf()[4..8], 2112i32.to_le_bytes());
    card.update(1, [(24, "Kites")]).unwrap();
    assert_eq!(card.xrf()[4..8], 2652i32.to_le_bytes());
    assert_eq!(card.mst()[12..14], [123, 0]);
    assert_eq!(card.view(1, 24, 1), Ok(&b"Kites"[..]));
    assert_eq!(card.view_part(1, 24, 1), Ok(116..121));
    assert_eq!(card.view_settled(1, 24, 1), Ok(&b"Kit"[..]));
    card.revert(1).unwrap();
    assert_eq!(card.xrf()[4..8], 2112i32.to_le_bytes());
    assert_eq!(card.mst()[12..14], [123, 0]);
    assert_eq!(card.check(), Ok(()));
}

#[test]
fn an_old_card_is_migrated_once() {
    let (mut mst, mut xrf) = (vec![0; 512], vec![0; 512]);
    let mut card = Card::over(&mut mst, &mut xrf);
    assert_eq!(card.migrate(), Err(Refusal::BadControl));
    card.format().unwrap();
    assert_eq!(card.create([(24, "Kite")]), Ok(1));
    assert_eq!(card.migrate(), Err(Refusal::BadControl));
    assert_eq!(mst[12..14], [93, 0]);
    mst[12] = 92;
    let mut card = Card::over(&mut mst, &mut xrf);
    assert_eq!(card.view(1, 24, 1), Err(Refusal::BadControl));
    assert_eq!(card.migrate(), Ok(()));
    assert_eq!(card.view(1, 24, 1), Ok(&b"Kite"[..]));
    assert_eq!(card.migrate(), Err(Refusal::BadControl));
    assert_eq!(card.check(), Ok(()));
    assert_eq!(mst[12..14], [93, 0]);
    let mut short = Card::over(&mut mst[..511], &mut xrf);
    assert_eq!(short.migrate(), Err(Refusal::BadLength));
}

/// RECCNT, MST bytes 16 to 19.
fn reccnt(mst: &[u8]) -> i32 {
    i32::from_le_bytes(mst[16..20].try_into().unwrap())
}

#[test]
fn reccnt_follows_create_delete_and_the_revert_of_a_deletion() {
    let (mut mst, mut xrf) = (vec![0xAA; 512 * 2], vec![0xAA; 512]);
    let mut card = Card::over(&mut mst, &mut xrf);
    card.format().unwrap();
    assert_eq!(reccnt(card.mst()), 0);
    for count in 1..=3 {
        card.create([(24, "Kite")]).unwrap();
        assert_eq!(reccnt(card.mst()), count);
    }
    card.settle(1).unwrap();
    card.update(1, [(24, "Kites")]).unwrap();
    card.revert(1).unwrap();
    assert_eq!(reccnt(card.mst()), 3);
    card.delete(1).unwrap();
    assert_eq!(reccnt(card.mst()), 2);
    assert_eq!(card.delete(1), Err(Refusal::Deleted));
    card.revert(1).unwrap();
    assert_eq!(reccnt(card.mst()), 3);
    card.delete(2).unwrap();
    card.settle(2).unwrap();
    assert_eq!(reccnt(card.mst()), 2);
    assert_eq!(card.check(), Ok(()));
}

#[test]
fn a_card_that_did_not_keep_reccnt_is_recounted() {
    let (mut mst, mut xrf) = (vec![0; 512], vec![0; 512]);
    let mut card = Card::over(&mut mst, &mut xrf);
    assert_eq!(card.recount(), Err(Refusal::BadControl));
    card.format().unwrap();
    for title in ["Kite", "Kit"] {
        card.create([(24, title)]).unwrap();
    }
    card.delete(2).unwrap();
    assert_eq!(card.recount(), Ok(()));
    let (sound, entries) = (mst.clone(), xrf.clone());
    for count in [-1, 0, 2, i32::MAX - 1, i32::MAX, i32::MIN] {
        mst[16..20].copy_from_slice(&count.to_le_bytes());
        let mut card = Card::over(&mut mst, &mut xrf);
        assert_eq!(card.check(), Err(Refusal::NotSound));
        assert_eq!(card.recount(), Ok(()));
        assert_eq!(card.check(), Ok(()));
        assert_eq!((card.mst(), card.xrf()), (&sound[..], &entries[..]));
    }
    mst[64] = 9;
    let damaged = mst.clone();
    let mut card = Card::over(&mut mst, &mut xrf);
    assert_eq!(card.recount(), Err(Refusal::NotSound));
    assert_eq!(card.mst(), damaged);
    let mut short = Card::over(&mut mst[..511], &mut xrf);
    assert_eq!(short.recount(), Err(Refusal::BadLength));
}

#[test]
fn the_ends_of_reccnt_bar_create_revert_and_delete() {
    let (mut mst, mut xrf) = (vec![0; 512], vec![0; 512]);
    let mut card = Card::over(&mut mst, &mut xrf);
    card.format().unwrap();
    card.create([(24, "Kite")]).unwrap();
    mst[16..20].copy_from_slice(&i32::MAX.to_le_bytes());
    let mut card = Card::over(&mut mst, &mut xrf);
    assert_eq!(card.create([(0, "no tag")]), Err(Refusal::BadControl));
    assert_eq!(card.revert(9), Err(Refusal::BadControl));
    assert_eq!(card.settle(1), Ok(()));
    for count in [0, -1, i32::MIN] {
        mst[16..20].copy_from_slice(&count.to_le_bytes());
        let mut card = Card::over(&mut mst, &mut xrf);
        assert_eq!(card.delete(1), Err(Refusal::BadControl));
        assert_eq!(card.delete(2), Err(Refusal::NoMfn));
        assert_eq!(reccnt(card.mst()), count);
    }
}

#[test]
fn a_whole_list_is_settled() {
    let (mut mst, mut xrf) = (vec![0; 512 * 2], vec![0; 512]);
    let mut card = Card::over(&mut mst, &mut xrf);
    card.format().unwrap();
    for title in ["Kite", "Kit", "Key"] {
        card.create([(24, title)]).unwrap();
    }
    let again = Err(Refusal::NotPending);
    let answers = card.settle_all(&[3, 1, 3, 0]);
    assert_eq!(answers, [Ok(()), Ok(()), again, Err(Refusal::NoMfn)]);
    assert_eq!(card.settle_all(&[]), []);
    let mut numbers = [9; 2];
    let refused = card.settle_list(&[2], &mut numbers);
    assert_eq!((refused, numbers), (Err(Refusal::NoRoomInList), [9; 2]));
    assert_eq!(card.state(2).unwrap().mark, isis::Mark::New);
    let mut numbers = vec![9; isis::SETTLE_MOST + 1];
    let refused = card.settle_list(&vec![2; numbers.len()], &mut numbers);
    assert_eq!(refused, Err(Refusal::NoRoomInList));
    let many = card.settle_all(&vec![2; 2 * isis::SETTLE_MOST + 1]);
    assert_eq!(many[0], Ok(()));
    assert!(many[1..].iter().all(|answer| *answer == again));
    assert_eq!(card.settle_list(&[2; 2], &mut [0; 2]), Ok(()));
}

#[test]
fn refusals_have_the_papers_numbers() {
    let all: &[Refusal] = Refusal::ALL;
    let numbers = all.iter().map(|refusal| refusal.number());
    assert!(numbers.eq((1..=15).chain([17]).chain(20..=23)));
    for &refusal in all {
        assert_eq!(Refusal::answer(refusal.number()), Some(Err(refusal)));
    }
    assert_eq!(Refusal::answer(0), Some(Ok(())));
    for number in [16, 18, 19, 24, 99, u32::MAX] {
        assert_eq!(Refusal::answer(number), None);
    }
    for occurrences in [1, 12, 16, u32::MAX] {
        assert_eq!(Refusal::FewerFields(occurrences).number(), 15);
    }
}

#[test]
fn refusals_have_words() {
    for refusal in Refusal::ALL {
        assert!(refusal.to_string().starts_with(refusal.words()));
    }
    let words = Refusal::FewerFields(3).to_string();
    assert_eq!(words, "the tag occurs fewer times than asked for: 3");
    assert_eq!(Refusal::NoField.to_string(), Refusal::NoField.words());
}

#[test]
fn refusals_come_through() {
    let (mut mst, mut xrf) = (vec![0; 512], vec![0; 512]);
    let mut card = Card::over(&mut mst, &mut xrf);
    assert_eq!(card.check(), Err(Refusal::BadControl));
    card.format().unwrap();
    assert_eq!(card.settle(1), Err(Refusal::NoMfn));
    assert_eq!(card.create([(0, "")]), Err(Refusal::BadDraft));
    assert_eq!(card.create([(1, vec![0; 600])]), Err(Refusal::NoRoom));
    assert_eq!(card.create([(1, "a"), (1, "b")]), Ok(1));
    assert_eq!(card.view(1, 1, 2), Ok(&b"b"[..]));
    assert_eq!(card.view(1, 1, 3), Err(Refusal::FewerFields(2)));
    assert_eq!(card.revert(1), Err(Refusal::NeverSettled));
    card.delete(1).unwrap();
    assert_eq!(card.view(1, 1, 1), Err(Refusal::Deleted));
    card.settle(1).unwrap();
    assert_eq!(card.settle(1), Err(Refusal::NotPending));
    let mut short = vec![0; 511];
    let mut xrf = vec![0; 512];
    assert_eq!(
        Card::over(&mut short, &mut xrf).format(),
        Err(Refusal::BadLength)
    );
}

/// Which kind of missing: no field of the tag, or fewer than asked for, in both versions.
#[test]
fn the_number_of_occurrences_comes_through() {
    let (mut mst, mut xrf) = (vec![0; 512], vec![0; 512]);
    let mut card = Card::over(&mut mst, &mut xrf);
    card.format().unwrap();
    assert_eq!(card.create([(70, "a"), (24, "b"), (70, "c")]), Ok(1));
    card.settle(1).unwrap();
    card.update(1, [(70, "d")]).unwrap();
    let fewer = |occurrences| Err(Refusal::FewerFields(occurrences));
    let none = Err(Refusal::NoField);
    for (tag, occurrence, current, settled) in [
        (70, 1, Ok(&b"d"[..]), Ok(&b"a"[..])),
        (70, 2, fewer(1), Ok(b"c")),
        (70, 3, fewer(1), fewer(2)),
        (70, u32::MAX, fewer(1), fewer(2)),
        (70, 0, none, none),
        (24, 2, none, fewer(1)),
        (25, 1, none, none),
    ] {
        assert_eq!(card.view(1, tag, occurrence), current);
        assert_eq!(card.view_settled(1, tag, occurrence), settled);
        let part = card.view_part(1, tag, occurrence);
        assert_eq!(part.map(|part| &card.mst()[part]), current);
    }
    assert_eq!(card.field(1, 1), Err(Refusal::NoField));
}

/// The last output is set by every call, to 0 but for answer 15.
#[test]
fn the_number_of_occurrences_is_0_with_every_other_answer() {
    let (mut mst, mut xrf) = (vec![0; 512], vec![0; 512]);
    let mut card = Card::over(&mut mst, &mut xrf);
    card.format().unwrap();
    assert_eq!(card.create([(70, "a"), (70, "c")]), Ok(1));
    card.settle(1).unwrap();
    assert_eq!(card.create([(70, "new")]), Ok(2));
    let call = |view: View, mfn, tag, occurrence| {
        let (mut start, mut len, mut occurrences) = (9, 9, 9);
        let (mst_len, xrf_len) = (mst.len(), xrf.len());
        let (mst, xrf) = (mst.as_ptr(), xrf.as_ptr());
        let out = (&raw mut start, &raw mut len, &raw mut occurrences);
        // SAFETY: the buffers have these lengths, and the outputs are three variables.
        let number = unsafe {
            view(
                mst, mst_len, xrf, xrf_len, mfn, tag, occurrence, out.0, out.1, out.2,
            )
        };
        (number, start, len, occurrences)
    };
    for view in [raw::isis_view as View, raw::isis_view_settled] {
        assert_eq!(call(view, 1, 70, 2), (0, 95, 1, 0));
        assert_eq!(call(view, 1, 70, 3), (15, 0, 0, 2));
        assert_eq!(call(view, 1, 70, 0), (12, 0, 0, 0));
        assert_eq!(call(view, 1, 24, 1), (12, 0, 0, 0));
        assert_eq!(call(view, 3, 70, 3), (4, 0, 0, 0));
    }
    assert_eq!(call(raw::isis_view_settled, 2, 70, 2), (11, 0, 0, 0));
}

#[test]
fn drafts_gather_fields() {
    let draft = Draft::gather([(24, &b"Kite"[..]), (70, b""), (24, b"s")]);
    let Lists { tags, lens, data } = draft.lists();
    assert_eq!(
        (tags, lens, data),
        (&[24, 70, 24][..], &[4, 0, 1][..], &b"Kites"[..])
    );
}

/// A field that has no length in a draft is the library's to refuse, so that a lower
/// refusal is given where one applies.
#[test]
fn an_over_long_field_gets_the_lowest_refusal() {
    for len in [32_743, 65_535, 65_536, 70_000, 131_072] {
        let long = [(24, vec![b'x'; len])];
        let (mut mst, mut xrf) = (vec![0; 512], vec![0; 511]);
        let mut card = Card::over(&mut mst, &mut xrf);
        assert_eq!(card.create(long.clone()), Err(Refusal::BadLength), "{len}");
        assert_eq!(
            card.update(1, long.clone()),
            Err(Refusal::BadLength),
            "{len}"
        );
        let mut xrf = vec![0; 512];
        let mut card = Card::over(&mut mst, &mut xrf);
        assert_eq!(card.create(long.clone()), Err(Refusal::BadControl), "{len}");
        card.format().unwrap();
        assert_eq!(card.create(long.clone()), Err(Refusal::BadDraft), "{len}");
        assert_eq!(card.update(1, long), Err(Refusal::BadDraft), "{len}");
    }
}

#[test]
fn no_fields_at_all_are_a_record() {
    let (mut mst, mut xrf) = (vec![0; 512], vec![0; 512]);
    let mut card = Card::over(&mut mst, &mut xrf);
    card.format().unwrap();
    assert_eq!(card.create::<&[u8]>([]), Ok(1));
    assert_eq!(card.mst()[68], 18);
    assert_eq!(card.check(), Ok(()));
}

/// Fields with their tags, as a caller gathers them.
fn all(fields: Answer<Fields<'_>>) -> Answer<Vec<(u16, &[u8])>> {
    let pair = |Field { tag, bytes }| (tag, bytes);
    fields.map(|fields| fields.map(pair).collect())
}

#[test]
fn fields_come_in_directory_order() {
    let (mut mst, mut xrf) = (vec![0; 1024], vec![0; 512]);
    let mut card = Card::over(&mut mst, &mut xrf);
    card.format().unwrap();
    let four = [(24, &b"one"[..]), (70, b""), (24, b"two"), (32_767, b"x")];
    assert_eq!(card.create(four), Ok(1));
    assert_eq!(all(card.fields(1)), Ok(four.to_vec()));
    assert_eq!(all(card.fields_settled(1)), Err(Refusal::NeverSettled));
    let third = Field {
        tag: 24,
        bytes: b"two",
    };
    assert_eq!(card.field(1, 2), Ok(third));
    assert_eq!(card.field(1, 4), Err(Refusal::NoField));
    assert_eq!(card.field(1, usize::MAX), Err(Refusal::NoField));
    card.settle(1).unwrap();
    card.update(1, [(70, "later")]).unwrap();
    assert_eq!(all(card.fields(1)), Ok(vec![(70, &b"later"[..])]));
    assert_eq!(all(card.fields_settled(1)), Ok(four.to_vec()));
    assert_eq!(card.field_settled(1, 2), Ok(third));
    card.delete(1).unwrap();
    assert_eq!(all(card.fields(1)), Err(Refusal::Deleted));
    assert_eq!(all(card.fields_settled(1)), Ok(four.to_vec()));
}

#[test]
fn a_record_without_fields_has_none_to_hand_out() {
    let (mut mst, mut xrf) = (vec![0; 512], vec![0; 512]);
    let mut card = Card::over(&mut mst, &mut xrf);
    card.format().unwrap();
    assert_eq!(all(card.fields(1)), Err(Refusal::NoMfn));
    assert_eq!(card.create::<&[u8]>([]), Ok(1));
    assert_eq!(all(card.fields(1)), Ok(Vec::new()));
    assert_eq!(card.field(1, 0), Err(Refusal::NoField));
}

/// The fields of a damaged record are refused as a whole, before the first.
#[test]
fn a_damaged_record_hands_out_no_field() {
    let (mut mst, mut xrf) = (vec![0; 512], vec![0; 512]);
    let mut card = Card::over(&mut mst, &mut xrf);
    card.format().unwrap();
    assert_eq!(card.create([(24, "Kite"), (70, "x")]), Ok(1));
    // The second tag of the record at 64.
    mst[64 + 18 + 6] = 0;
    let card = Card::over(&mut mst, &mut xrf);
    assert_eq!(all(card.fields(1)), Err(Refusal::BadRecord));
    assert_eq!(card.field(1, 0), Err(Refusal::BadRecord));
}

/// When an iterator has ended it stays so.
#[test]
fn past_the_last_field_there_is_none() {
    let (mut mst, mut xrf) = (vec![0; 512], vec![0; 512]);
    let mut card = Card::over(&mut mst, &mut xrf);
    card.format().unwrap();
    assert_eq!(card.create([(24, "Kite")]), Ok(1));
    let mut fields = card.fields(1).unwrap();
    assert!(fields.next().is_some());
    assert!(fields.next().is_none() && fields.next().is_none());
}

/// A card is read where its bytes may not be written, and what is read outlives the
/// handle.
#[test]
fn a_card_is_read_from_shared_bytes() {
    let (mut mst, mut xrf) = (vec![0; 1024], vec![0; 512]);
    let mut card = Card::over(&mut mst, &mut xrf);
    card.format().unwrap();
    assert_eq!(card.create([(24, "Kite"), (70, "x")]), Ok(1));
    card.settle(1).unwrap();
    card.update(1, [(24, "Kites")]).unwrap();
    assert_eq!(card.reader().view(1, 24, 1), Ok(&b"Kites"[..]));
    let (mst, xrf): (&[u8], &[u8]) = (&mst, &xrf);
    let text = CardRef::over(mst, xrf).view(1, 24, 1);
    let settled = CardRef::over(mst, xrf).view_settled(1, 70, 1);
    assert_eq!((text, settled), (Ok(&b"Kites"[..]), Ok(&b"x"[..])));
    let card = CardRef::over(mst, xrf);
    assert_eq!(all(card.fields(1)), Ok(vec![(24, &b"Kites"[..])]));
    assert_eq!(card.field_settled(1, 1).map(|field| field.tag), Ok(70));
    assert_eq!(card.view_part(1, 24, 1).map(|part| part.len()), Ok(5));
    assert_eq!((card.check(), card.mst(), card.xrf()), (Ok(()), mst, xrf));
    assert_eq!(
        CardRef::over(&mst[1..], xrf).check(),
        Err(Refusal::BadLength)
    );
}

#[test]
fn what_comes_next_and_the_state_of_a_record() {
    let (mut mst, mut xrf) = (vec![0; 1024], vec![0; 512]);
    let mut card = Card::over(&mut mst, &mut xrf);
    assert_eq!(card.next(), Err(Refusal::BadControl));
    assert_eq!(card.state(1), Err(Refusal::BadControl));
    card.format().unwrap();
    assert_eq!(card.next(), Ok(Next { mfn: 1, end: 64 }));
    assert_eq!(card.state(1), Err(Refusal::NoMfn));
    assert_eq!(card.create([(24, "Kite")]), Ok(1));
    assert_eq!(card.next(), Ok(Next { mfn: 2, end: 92 }));
    let state = |mark, deleted| Ok(State { mark, deleted });
    assert_eq!(card.state(1), state(Mark::New, false));
    card.settle(1).unwrap();
    assert_eq!(card.state(1), state(Mark::Settled, false));
    card.delete(1).unwrap();
    assert_eq!(card.state(1), state(Mark::Changed, true));
    card.revert(1).unwrap();
    assert_eq!(card.state(1), state(Mark::Settled, false));
    xrf[4..8].copy_from_slice(&(-2048i32).to_le_bytes());
    let card = CardRef::over(&mst, &xrf);
    assert_eq!(card.state(1), Err(Refusal::Gone));
    assert_eq!(
        CardRef::over(&mst, &xrf[1..]).next(),
        Err(Refusal::BadLength)
    );
}

/// A record of as many fields as there can be is handed out whole.
#[test]
fn many_fields_come_in_directory_order() {
    let (mut mst, mut xrf) = (vec![0; 80 * 512], vec![0; 512]);
    let mut card = Card::over(&mut mst, &mut xrf);
    card.format().unwrap();
    for count in [63, 64, 65, 5_457, 5_458] {
        let fields: Vec<(u16, &[u8])> = (1..=count).map(|tag| (tag, &b""[..])).collect();
        card.format().unwrap();
        assert_eq!(card.create(fields.clone()), Ok(1));
        assert_eq!(card.fields(1).map(|fields| fields.len()), Ok(fields.len()));
        assert_eq!(all(card.fields(1)), Ok(fields));
    }
}

/// A list that is too short is refused last, and no list is written then.
#[test]
fn a_short_list_is_refused() {
    let (mut mst, mut xrf) = (vec![0; 512], vec![0; 512]);
    let mut card = Card::over(&mut mst, &mut xrf);
    card.format().unwrap();
    assert_eq!(card.create([(24, "Kite"), (70, "x")]), Ok(1));
    let call = |mfn, room: [usize; 3]| {
        let (mut tags, mut starts, mut lens) = ([9; 3], [9; 3], [9; 3]);
        let mut count = 9;
        // SAFETY: no list has less room than is said.
        let number = unsafe {
            raw::isis_fields(
                mst.as_ptr(),
                mst.len(),
                xrf.as_ptr(),
                xrf.len(),
                mfn,
                tags.as_mut_ptr(),
                room[0],
                starts.as_mut_ptr(),
                room[1],
                lens.as_mut_ptr(),
                room[2],
                &mut count,
            )
        };
        (number, tags, starts, lens, count)
    };
    for room in [[1, 2, 2], [2, 1, 2], [2, 2, 1], [0, 0, 0]] {
        assert_eq!(call(1, room), (17, [9; 3], [9; 3], [9; 3], 0));
        assert_eq!(call(2, room), (4, [9; 3], [9; 3], [9; 3], 0));
    }
    let done = (0, [24, 70, 9], [94, 98, 9], [4, 1, 9], 2);
    assert_eq!(call(1, [2, 2, 2]), done);
    assert_eq!(call(1, [3, 3, 3]), done);
}
