//! What a store can hold: fields (12), occurrences of a tag (15), bytes of the MST (13) and
//! MFNs (5); and what lists can hold (17).

use super::card::Card;
use model::OwnedDraft;
use model::ask::Room;

pub fn run(card: &mut Card) {
    fields(card);
    settled_fields(card);
    occurrences(card);
    room(card);
    ends(card);
}

/// 12 and 15: MFN 1 is of five fields.
fn fields(card: &mut Card) {
    let five: [(u16, &[u8]); 5] = [
        (24, b"Kite"),
        (24, b""),
        (1, b"Wind"),
        (32_767, b"Cloud"),
        (24, b"Kit"),
    ];
    card.formatted();
    card.create_of("five fields", &OwnedDraft::of(&five).lent());
    card.state("five fields", 64..128);
    for occurrence in [1, 2, 3, 4, 0] {
        card.view_of(
            &format!("tag 24, occurrence {occurrence}"),
            1,
            24,
            occurrence,
        );
    }
    for tag in [1, 32_767, 25, 65_535] {
        card.view_of(&format!("tag {tag}"), 1, tag, 1);
    }
    for index in [0, 1, 2, 3, 4, 5, usize::MAX] {
        card.field(&format!("index {index}"), 1, index);
    }
    for room in ROOMS {
        card.fields(&format!("five fields in {room:?}"), 1, room);
    }
}

/// 17: lengths of lists about five fields.
const ROOMS: [Room; 7] = [
    [5, 5, 5],
    [6, 7, 8],
    [4, 5, 5],
    [5, 4, 5],
    [5, 5, 4],
    [4, 4, 4],
    [0, 0, 0],
];

/// 12 and 15: the settled version of MFN 1, and MFN 2 of no fields.
fn settled_fields(card: &mut Card) {
    card.settle("five fields", 1);
    card.update("one field", 1, b"Rain");
    card.settled_view_of("tag 24, occurrence 3", 1, 24, 3);
    card.settled_view_of("tag 24, occurrence 4", 1, 24, 4);
    card.settled_view_of("tag 25", 1, 25, 1);
    card.view_of("one field, occurrence 1", 1, 24, 1);
    card.view_of("one field, occurrence 2", 1, 24, 2);
    for index in [0, 1, 2, 3, 4, 5, usize::MAX] {
        let what = format!("one field over five, index {index}");
        card.field(&what, 1, index);
        card.settled_field(&what, 1, index);
    }
    for room in ROOMS {
        let what = format!("one field over five, in {room:?}");
        card.fields(&what, 1, room);
        card.settled_fields(&what, 1, room);
    }
    card.create_of("no fields", &OwnedDraft::default().lent());
    card.view("no fields", 2);
    card.field("no fields", 2, 0);
    card.fields("no fields in empty lists", 2, [0; 3]);
    card.next("no fields");
    card.check("no fields");
}

/// 15: MFN 1 has two fields of tag 70 and one of tag 24; then, changed, one of tag 70 and two
/// of tag 24; then its deletion is pending.
fn occurrences(card: &mut Card) {
    let two: [(u16, &[u8]); 3] = [(70, b"Blake"), (24, b"Kite"), (70, b"Byron")];
    let one: [(u16, &[u8]); 3] = [(24, b"Kit"), (24, b"Key"), (70, b"Burns")];
    card.formatted();
    card.create_of("two of tag 70", &OwnedDraft::of(&two).lent());
    ask(card, "new");
    card.settle("two of tag 70", 1);
    ask(card, "settled");
    card.update_of("one of tag 70", 1, &OwnedDraft::of(&one).lent());
    ask(card, "changed");
    for index in [2, 3] {
        card.field(&format!("changed, index {index}"), 1, index);
        card.settled_field(&format!("changed, index {index}"), 1, index);
    }
    card.delete("two of tag 24", 1);
    ask(card, "changed, deleted");
}

/// Both views of MFN 1: occurrences that are there, fewer than asked, 0 and the highest, and
/// a tag that does not occur.
fn ask(card: &mut Card, what: &str) {
    let highest = u32::MAX;
    for (tag, asked) in [
        (70, &[1, 2, 3, 5, 0, highest][..]),
        (24, &[2, 3, 0, highest]),
        (71, &[1, 2, 0, highest]),
    ] {
        for &occurrence in asked {
            let what = format!("{what}, tag {tag}, occurrence {occurrence}");
            card.view_of(&what, 1, tag, occurrence);
            card.settled_view_of(&what, 1, tag, occurrence);
        }
    }
}

/// 13: 64 + 420 = 484, so that 28 bytes are left.
fn room(card: &mut Card) {
    card.formatted();
    card.create("420 of 448 bytes", &[b'x'; 420 - 24]);
    card.create("30 of 28 bytes", b"Kites");
    card.create("28 of 28 bytes", b"Kite");
    card.update("no bytes left, in place", 2, b"Kit");
    card.update("no bytes left, longer", 2, b"Kites");
    card.settle("no bytes left", 2);
    card.update("no bytes left, settled", 2, b"Kit");
    card.delete("no bytes left, settled", 2);
    card.delete("no bytes left, new", 1);
    card.check("no bytes left");
}

/// Rows P9 and P10.
fn ends(card: &mut Card) {
    for length in [434, 436] {
        let what = format!("{length} bytes at 64");
        card.formatted();
        card.create(&what, &vec![b'x'; length - 24]);
        card.state(&what, 0..16);
        card.next(&what);
    }
    card.check("436 bytes at 64");
}

/// 5: all 127 MFNs of one XRF block.
pub fn capacity(card: &mut Card) {
    card.formatted();
    for _ in 0..126 {
        card.created(b"");
    }
    card.create("126 records", b"Kite");
    card.view("127 records", 127);
    card.next("127 records");
    card.create("127 records", b"Kite");
    card.check("127 records");
}
