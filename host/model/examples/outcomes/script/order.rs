//! Where several refusals apply, the lowest number is given.

use super::card::Card;
use model::Draft;

pub fn run(card: &mut Card) {
    drafts(card);
    entries(card);
    records(card);
    deletions(card);
}

/// A draft of one field of tag 0, for create and for an update.
fn wrong_draft(card: &mut Card, what: &str, mfn: u32) {
    let draft = Draft {
        tags: &[0],
        lens: &[0],
        data: &[],
    };
    card.create_of(what, &draft);
    card.update_of(what, mfn, &draft);
}

/// Moves the end to that of the MST, block 2, offset 0.
fn no_room(card: &mut Card) {
    card.set_mst(8, 2).set_count(1);
}

fn drafts(card: &mut Card) {
    card.new_record().set_mst(14, 1);
    wrong_draft(card, "2 before 3", 1);
    card.formatted().set_mst(4, 128);
    wrong_draft(card, "3 before 4 and 5", 0);
    no_room(card);
    card.create("5 before 13", b"Kite");
}

fn entries(card: &mut Card) {
    card.settled_record().set_xrf(8, 1);
    no_room(card);
    card.create("6 before 13", b"Kite");
    card.set_xrf(0, 0).view("4 before 6", 2);
    card.set_entry(-2048).view("6 before 7", 1);
}

fn records(card: &mut Card) {
    card.settled_record().set_mst(64, 2);
    card.settle("8 before 10", 1);
    card.revert("8 before 10", 1);
    card.new_record().settled_view_of("11 before 12", 1, 25, 1);
    card.settled_view_of("11 before 15", 1, 24, 2);
    card.settled_fields("11 before 17", 1, [0; 3]);
    card.set_mst(64, 2).settled_view("8 before 11", 1);
    card.view_of("8 before 15", 1, 24, 2);
    card.settled_fields("8 before 11", 1, [0; 3]);
    card.fields("8 before 17", 1, [0; 3]);
    card.revert("8 before 11", 1);
}

fn deletions(card: &mut Card) {
    card.changed_record().delete("changed", 1);
    no_room(card);
    card.view_of("9 before 12", 1, 25, 1);
    card.view_of("9 before 15", 1, 24, 2);
    card.fields("9 before 17", 1, [0; 3]);
    card.update("9 before 13", 1, b"Kites and winds");
    card.set_mst(92 + 16, 0).view("8 before 9", 1);
    card.delete("8 before 9", 1);
}
