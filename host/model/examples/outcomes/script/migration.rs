//! Request C-12: a card of the old rule, whose NXTMFP is the end's offset, is refused by every
//! call with 2, and a migration counts it from one, once.

use super::card::Card;

pub fn run(card: &mut Card) {
    old_cards(card);
    edges(card);
    wrong(card);
}

/// Every call on an old card, the migration last; then what the card holds.
fn old_cards(card: &mut Card) {
    card.changed_record().old();
    card.all_on_one("old card");
    card.state("migrated", 64..72);
    card.view("migrated", 1);
    card.settled_view("migrated", 1);
    card.check("migrated");
    card.migrate("migrated");
    card.formatted().old().migrate("old card, empty");
    card.state("old card, empty", 64..72);
    card.check("old card, empty");
}

/// The least and the highest count, and those beside them.
fn edges(card: &mut Card) {
    for count in [
        0, 62, 63, 64, 66, 92, 93, 497, 498, 499, 500, 65_534, 65_535,
    ] {
        let what = format!("old NXTMFP {count}");
        card.new_record().set_count(count).migrate(&what);
    }
    card.new_record().set_mst(8, 2).set_count(0);
    card.migrate("old end at the last byte");
    card.state("old end at the last byte", 64..72);
    card.new_record().set_mst(8, 2).set_count(2);
    card.migrate("old end past the last byte");
}

/// Old cards that are not right for another reason.
fn wrong(card: &mut Card) {
    for (what, at, value) in [
        ("old card, CTLMFN 1", 0, 1),
        ("old card, NXTMFN 0", 4, 0),
        ("old card, NXTMFN 128", 4, 128),
        ("old card, NXTMFN 129", 4, 129),
        ("old card, NXTMFB 0", 8, 0),
        ("old card, NXTMFB 2", 8, 2),
        ("old card, MFTYPE 1", 14, 1),
    ] {
        card.new_record().old().set_mst(at, value).migrate(what);
    }
    card.new_record().old().set_entry(0);
    card.migrate("old card, an entry malformed");
    card.view("old card, an entry malformed", 1);
    card.check("old card, an entry malformed");
}
