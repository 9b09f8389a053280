//! 14: stores that are not sound, with lengths and control record as they must be.

use super::card::Card;

pub fn run(card: &mut Card) {
    slots(card);
    steps(card);
    entry_within(card);
    back_within(card);
}

fn slots(card: &mut Card) {
    card.new_record().check("sound");
    card.set_xrf(8, 1).check("slot 2 not 0");
    card.new_record().set_xrf(511, 1).check("slot 127 not 0");
    card.new_record().set_mst(4, 3).check("NXTMFN 3");
}

fn steps(card: &mut Card) {
    card.settled_twice().check("version that no entry names");
    card.set_mst(68, 26);
    card.view("version that no entry names, MFRL 26", 1);
    card.check("version that no entry names, MFRL 26");
    card.settled_record().set_count(95);
    card.view("end past the last record", 1);
    card.check("end past the last record");
}

fn entry_within(card: &mut Card) {
    card.record_within().check("bytes of a record in a field");
    card.set_entry(2048 + 88);
    card.view("entry within a field", 1);
    card.check("entry within a field");
}

fn back_within(card: &mut Card) {
    card.record_within_changed();
    card.check("bytes of a record in a settled field");
    card.set_mst(106 + 10, 88);
    card.settled_view("back place within a field", 1);
    card.check("back place within a field");
    card.revert("back place within a field", 1);
    card.check("entry within a field");
    card.changed_record().set_mst(68, 26);
    card.check("settled version with MFRL 26");
}
