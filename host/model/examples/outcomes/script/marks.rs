//! What each kind of record answers: 0, 9, 10 and 11.

use super::card::Card;

pub fn run(card: &mut Card) {
    new(card);
    new_deleted(card);
    settled(card);
    changed(card);
    changed_deleted(card);
}

fn new(card: &mut Card) {
    card.new_record().view("new", 1);
    card.settled_view("new", 1);
    card.field("new", 1, 0);
    card.settled_field("new", 1, 0);
    card.told("new", 1);
    card.revert("new", 1);
    card.update("new, in place", 1, b"Wind");
    card.state("new, in place", 64..92);
    card.update("new, at the end", 1, b"Winds");
    card.state("new, at the end", 92..122);
    card.settle("new, at the end", 1);
    card.check("new, at the end");
}

fn new_deleted(card: &mut Card) {
    card.new_record().delete("new", 1);
    card.state("new, deleted", 64..92);
    card.view("new, deleted", 1);
    card.settled_view("new, deleted", 1);
    card.field("new, deleted", 1, 0);
    card.settled_field("new, deleted", 1, 0);
    card.told("new, deleted", 1);
    card.update("new, deleted", 1, b"Kit");
    card.delete("new, deleted", 1);
    card.revert("new, deleted", 1);
    card.settle("new, deleted", 1);
    card.state("settled, deleted", 64..92);
    card.naming("settled, deleted", 1);
    card.check("settled, deleted");
}

fn settled(card: &mut Card) {
    card.settled_record().view("settled", 1);
    card.settled_view("settled", 1);
    card.told("settled", 1);
    card.settle("settled", 1);
    card.revert("settled", 1);
    card.delete("settled", 1);
    card.state("settled, then deleted", 92..120);
    card.settled_view("settled, then deleted", 1);
    card.field("settled, then deleted", 1, 0);
    card.settled_field("settled, then deleted", 1, 0);
    card.told("settled, then deleted", 1);
    card.settle("settled, then deleted", 1);
    card.state("settled, then deleted", 92..120);
    card.check("settled, then deleted");
}

fn changed(card: &mut Card) {
    card.changed_record()
        .update("changed, in place", 1, b"Kits");
    card.state("changed, in place", 92..122);
    card.update("changed, at the end", 1, b"Kites and winds");
    card.state("changed, at the end", 122..162);
    card.view("changed, at the end", 1);
    card.settled_view("changed, at the end", 1);
    card.field("changed, at the end", 1, 0);
    card.settled_field("changed, at the end", 1, 0);
    card.told("changed, at the end", 1);
    card.settle("changed, at the end", 1);
    card.state("changed, settled", 122..162);
    card.check("changed, settled");
}

fn changed_deleted(card: &mut Card) {
    card.changed_record().delete("changed", 1);
    card.state("changed, deleted", 92..122);
    card.view("changed, deleted", 1);
    card.settled_view("changed, deleted", 1);
    card.told("changed, deleted", 1);
    card.update("changed, deleted", 1, b"Kit");
    card.delete("changed, deleted", 1);
    card.check("changed, deleted");
    card.revert("changed, deleted", 1);
    card.view("changed, reverted", 1);
    card.state("changed, reverted", 64..92);
    card.check("changed, reverted");
}
