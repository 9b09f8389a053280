//! Request C-13: a whole list is settled in one call. The call answers 0 or 17, and each MFN of
//! the list what its single call would.

use super::card::Card;

pub fn run(card: &mut Card) {
    lengths(card);
    answers(card);
    refused_cards(card);
}

/// No MFN, one, the most and one more; lists that are not equally long.
fn lengths(card: &mut Card) {
    card.new_record().settle_list("no MFN", &[], 0);
    card.new_record().settle_list("one MFN", &[1], 1);
    card.settle_list("one MFN again", &[1], 1);
    for count in [4_095, 4_096, 4_097] {
        let mfns: Vec<u32> = (0..count).map(|i| i % 3).collect();
        card.new_record();
        card.settle_list(&format!("{count} MFNs"), &mfns, mfns.len());
    }
    for (mfns, room) in [
        (0, 1),
        (1, 0),
        (2, 1),
        (1, 2),
        (4_096, 4_097),
        (4_097, 4_096),
    ] {
        card.new_record();
        card.settle_list(
            &format!("{mfns} MFNs, {room} answers"),
            &vec![1; mfns],
            room,
        );
    }
}

/// Every answer that a settle has, in lists; the same MFN again.
fn answers(card: &mut Card) {
    let list = [0, 1, 1, 2, u32::MAX, 1];
    card.new_record().settle_list("new", &list, 6);
    card.settled_record().settle_list("settled", &list, 6);
    card.changed_record().settle_list("changed", &list, 6);
    card.state("changed", 64..72);
    card.view("changed", 1);
    card.settled_view("changed", 1);
    card.changed_record().delete("deleted", 1);
    card.settle_list("deleted", &list, 6);
    card.view("deleted", 1);
    card.new_record()
        .set_entry(-2048)
        .settle_list("gone", &list, 6);
    card.new_record()
        .set_entry(1)
        .settle_list("entry malformed", &list, 6);
    card.new_record()
        .set_mst(80, 9)
        .settle_list("record damaged", &list, 6);
    card.new_record().created(b"Kit");
    card.settle_list("two records", &[2, 1, 2, 1, 2], 5);
    card.check("two records");
}

/// On a card that every single call refuses the call itself answers 0.
fn refused_cards(card: &mut Card) {
    card.new_record()
        .set_mst(0, 1)
        .settle_list("CTLMFN 1", &[1, 0, 1], 3);
    card.new_record()
        .old()
        .settle_list("old card", &[1, 0, 1], 3);
    let xrf = std::mem::take(&mut card.new_record().xrf);
    card.settle_list("no XRF", &[1, 0, 1], 3);
    card.settle_list("no XRF, unequal lists", &[1, 0, 1], 2);
    card.xrf = xrf;
}
