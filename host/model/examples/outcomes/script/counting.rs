//! Request C-17: RECCNT. What each call makes of it, its two ends with the order of refusal 2,
//! stores that are not sound by it alone, and the recount.

use super::card::Card;
use model::Draft;
use model::lists::PLANTED;

pub fn run(card: &mut Card) {
    kept(card);
    for count in PLANTED {
        live(card, count);
        deleted(card, count);
        whole(card, count);
    }
    too_many(card);
    none_left(card);
    recounts(card);
    refused_recounts(card);
}

/// Its four bytes, with the entry of MFN 1 and the end.
fn counted(card: &mut Card, what: &str) {
    card.state(&format!("RECCNT, {what}"), 16..20);
}

/// Plus one, minus one, and calls that leave it.
fn kept(card: &mut Card) {
    card.format("counted");
    counted(card, "formatted");
    card.create("counted", b"Kite");
    card.create("counted, again", b"Kit");
    counted(card, "two created");
    card.settle("counted", 1);
    card.update("counted", 1, b"Kites");
    card.revert("counted, live", 1);
    counted(card, "a live record taken back");
    card.delete("counted, settled", 1);
    counted(card, "one deleted");
    card.delete("counted, new", 2);
    counted(card, "both deleted");
    card.revert("counted, deleted", 1);
    counted(card, "a deleted record taken back");
    card.delete("counted, settled again", 1);
    card.settle("counted, deleted", 1);
    card.revert("counted, deletion settled", 1);
    counted(card, "the deletion settled");
    card.check("counted");
    card.recount("counted");
    counted(card, "recounted");
}

/// Each call on a record that is not deleted.
fn live(card: &mut Card, count: i32) {
    let what = format!("RECCNT {count}");
    card.new_record().set_reccnt(count).create(&what, b"Kites");
    let (new, changed) = (format!("{what}, new"), format!("{what}, changed"));
    card.new_record().set_reccnt(count).update(&new, 1, b"Kit");
    card.new_record().set_reccnt(count).delete(&new, 1);
    card.new_record().set_reccnt(count).settle(&new, 1);
    card.changed_record().set_reccnt(count).revert(&changed, 1);
    card.changed_record().set_reccnt(count).delete(&changed, 1);
    card.settled_record().set_reccnt(count);
    card.delete(&format!("{what}, settled"), 1);
    card.new_record()
        .set_reccnt(count)
        .settle_list(&new, &[1, 1], 2);
    card.view(&new, 1);
}

/// Each call on a record whose deletion is pending.
fn deleted(card: &mut Card, count: i32) {
    let what = format!("RECCNT {count}, deleted");
    for call in [Card::revert, Card::delete, Card::settle] {
        card.changed_record().delete("to be counted", 1);
        card.set_reccnt(count);
        call(card, &what, 1);
        counted(card, &format!("{count}, deleted"));
    }
}

/// The calls on the whole card.
fn whole(card: &mut Card, count: i32) {
    let what = format!("RECCNT {count}");
    card.changed_record().set_reccnt(count).check(&what);
    card.recount(&what);
    card.check(&format!("{what}, recounted"));
    card.changed_record().old().set_reccnt(count);
    card.recount(&format!("{what}, old card"));
    card.migrate(&format!("{what}, old card"));
    counted(card, &format!("{count}, migrated"));
    card.recount(&format!("{what}, migrated"));
    card.check(&format!("{what}, migrated and recounted"));
    card.set_reccnt(count).format(&what);
}

/// 2 of a create and of a revert comes before every number but 1.
fn too_many(card: &mut Card) {
    let draft = Draft {
        tags: &[0],
        lens: &[],
        data: &[],
    };
    card.new_record().set_reccnt(i32::MAX);
    card.create_of("2 before 3, RECCNT", &draft);
    card.revert("2 before 4, RECCNT", 2);
    card.revert("2 before 11, RECCNT", 1);
    card.set_mst(8, 2).set_count(1);
    card.create("2 before 13, RECCNT", b"Kites");
    card.settled_record().set_reccnt(i32::MAX);
    card.revert("2 before 10, RECCNT", 1);
    card.set_mst(4, 128).create("2 before 5, RECCNT", b"Kites");
    card.set_xrf(0, 0).revert("2 before 6, RECCNT", 1);
    card.changed_record().set_reccnt(i32::MAX).set_mst(64, 2);
    card.revert("2 before 8, RECCNT", 1);
    card.set_entry(-2048).revert("2 before 7, RECCNT", 1);
    let odd = card.xrf.pop().into_iter();
    card.create("1 before 2, RECCNT", b"Kites");
    card.revert("1 before 2, RECCNT", 1);
    card.xrf.extend(odd);
}

/// 2 of a delete comes behind 4 to 9 and before 13.
fn none_left(card: &mut Card) {
    card.settled_record().set_reccnt(0);
    card.delete("4 and RECCNT 0", 2);
    card.set_mst(8, 2).set_count(1);
    card.delete("2 before 13, RECCNT", 1);
    card.set_reccnt(1).delete("13 and RECCNT 1", 1);
    card.set_reccnt(0).set_mst(64, 2);
    card.delete("8 and RECCNT 0", 1);
    card.set_entry(-2048).delete("7 and RECCNT 0", 1);
    card.set_entry(1).delete("6 and RECCNT 0", 1);
    card.new_record().delete("down to RECCNT 0", 1);
    card.delete("9 and RECCNT 0", 1);
}

/// Two records, of which a deleted, a gone or no one counts.
fn recounts(card: &mut Card) {
    card.new_record().created(b"Kit");
    card.set_reccnt(7).recount("two live");
    counted(card, "two live");
    card.delete("two live", 2);
    card.set_reccnt(7).recount("one live, one deleted");
    counted(card, "one live, one deleted");
    card.settle("one live, one deleted", 2);
    card.set_reccnt(7).recount("one live, one settled deletion");
    counted(card, "one live, one settled deletion");
    card.set_entry(-2048).check("one gone, one deleted");
    card.recount("one gone, one deleted");
    counted(card, "one gone, one deleted");
    card.check("one gone, one deleted");
    card.formatted().set_reccnt(-7).recount("empty");
    counted(card, "empty");
}

/// 14 where something else is wrong, whatever RECCNT is; 2 before.
fn refused_recounts(card: &mut Card) {
    for count in [1, 7] {
        let what = |fault: &str| format!("RECCNT {count}, {fault}");
        card.new_record().set_reccnt(count).set_xrf(8, 1);
        card.recount(&what("slot 2 not 0"));
        card.changed_record().set_reccnt(count).set_mst(68, 26);
        card.recount(&what("settled version with MFRL 26"));
        card.new_record().set_reccnt(count).set_entry(0);
        card.recount(&what("entry 0"));
        card.record_within().set_reccnt(count).set_entry(2048 + 88);
        card.recount(&what("entry within a field"));
        card.settled_twice().set_reccnt(count).set_mst(68, 26);
        card.recount(&what("version that no entry names, MFRL 26"));
        card.new_record().set_reccnt(count).set_mst(14, 1);
        card.recount(&what("MFTYPE 1"));
    }
}
