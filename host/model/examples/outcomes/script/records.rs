//! Refusal 8: a record with one byte changed.

use super::card::Card;

pub fn run(card: &mut Card) {
    record(card);
    back_pointer(card);
    broken(card);
    settled_version(card);
}

/// The leader and the directory of a new record at 64.
fn record(card: &mut Card) {
    for (what, at, value) in [
        ("MFN 2 in the record", 0, 2),
        ("MFRL 16", 4, 16),
        ("MFRL 26", 4, 26),
        ("MFRL 27", 4, 27),
        ("MFRL 30", 4, 30),
        ("MFBWB 1", 6, 1),
        ("MFBWP 64", 10, 64),
        ("BASE 18", 12, 18),
        ("NVF 2", 14, 2),
        ("STATUS 1", 16, 1),
        ("STATUS 2", 16, 2),
        ("TAG 0", 18, 0),
        ("TAG 32792", 19, 128),
        ("POS 1", 20, 1),
        ("LEN 5", 22, 5),
        ("LEN 3", 22, 3),
    ] {
        card.new_record().set_mst(64 + at, value).view(what, 1);
    }
    card.check("LEN 3");
}

/// The back pointer of a changed record at 92.
fn back_pointer(card: &mut Card) {
    for (what, at, value) in [
        ("back place in block 0", 6, 0),
        ("back place at offset 62", 10, 62),
        ("back place at offset 65", 10, 65),
        ("back place at offset 106", 10, 106),
        ("back place the record's own", 10, 92),
    ] {
        card.changed_record().set_mst(92 + at, value).view(what, 1);
    }
}

/// All calls that name an MFN.
fn broken(card: &mut Card) {
    card.changed_record().set_mst(92 + 16, 1);
    card.naming("STATUS 1 under a live entry", 1);
    card.check("STATUS 1 under a live entry");
}

/// The settled version of a changed record, at 64.
fn settled_version(card: &mut Card) {
    for (what, at, value) in [
        ("settled version with MFN 2", 0, 2),
        ("settled version with STATUS 1", 16, 1),
        ("settled version with MFBWP 92", 10, 92),
        ("settled version with TAG 0", 18, 0),
    ] {
        card.changed_record().set_mst(64 + at, value);
        card.view(what, 1);
        card.settled_view(what, 1);
        card.field(what, 1, 0);
        card.settled_field(what, 1, 0);
        card.told(what, 1);
        card.revert(what, 1);
        card.check(what);
    }
    card.update("settled version with TAG 0", 1, b"Kite");
    card.delete("settled version with TAG 0", 1);
    card.settle("settled version with TAG 0", 1);
}
