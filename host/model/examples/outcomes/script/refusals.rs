//! The refusals 1 to 7, which the calls share.

use super::card::Card;
use model::Draft;

pub fn run(card: &mut Card) {
    control(card);
    drafts(card);
    mfns(card);
    entries(card);
    cross_reference(card);
    gone(card);
}

/// 1: a buffer of 511 bytes, as the MST and as the XRF.
pub fn lengths(card: &mut Card) {
    let mut odd = vec![0xA5; 511];
    card.settled_record();
    std::mem::swap(&mut card.mst, &mut odd);
    card.format("MST of 511 bytes");
    card.all_on_one("MST of 511 bytes");
    std::mem::swap(&mut card.mst, &mut odd);
    std::mem::swap(&mut card.xrf, &mut odd);
    card.format("XRF of 511 bytes");
    card.all_on_one("XRF of 511 bytes");
    std::mem::swap(&mut card.xrf, &mut odd);
}

/// 2: each integer of the control record.
fn control(card: &mut Card) {
    for (what, at, value) in [
        ("CTLMFN 1", 0, 1),
        ("NXTMFN 0", 4, 0),
        ("NXTMFN 129", 4, 129),
        ("NXTMFB 0", 8, 0),
        ("NXTMFB 2", 8, 2),
    ] {
        card.new_record().set_mst(at, value).check(what);
    }
    for count in [0, 63, 92, 94, 498, 499, 500, 501, 65_535] {
        let what = format!("NXTMFP {count}");
        card.new_record().set_count(count).check(&what);
    }
    card.new_record().set_mst(14, 1);
    card.all_on_one("MFTYPE 1");
    card.format("MFTYPE 1");
}

/// 3: drafts that are not right, and those at the edges that are.
fn drafts(card: &mut Card) {
    draft(card, "a tag without a length", &[24], &[], b"");
    draft(card, "a length without a tag", &[], &[24], b"");
    for tag in [0, 1, 32_767, 32_768] {
        draft(card, &format!("tag {tag}"), &[tag], &[4], b"Kite");
    }
    for len in [3, 5] {
        let what = format!("length {len} for 4 bytes");
        draft(card, &what, &[24], &[len], b"Kite");
    }
}

/// A draft for create, and for an update of MFN 1.
fn draft(card: &mut Card, what: &str, tags: &[u16], lens: &[u16], data: &[u8]) {
    let draft = Draft { tags, lens, data };
    card.new_record();
    card.create_of(what, &draft);
    card.update_of(what, 1, &draft);
}

/// 4: MFNs below 1 and from NXTMFN on.
fn mfns(card: &mut Card) {
    card.new_record();
    for mfn in [0, 2, 0x8000_0001] {
        card.naming(&format!("MFN {mfn}"), mfn);
    }
}

/// 6: entries. 2152 is well formed, and no record stands there.
fn entries(card: &mut Card) {
    for entry in [0, 64, 2560, 2110, 2113, 2548, 2154, 2152] {
        card.changed_record().set_entry(entry);
        card.view(&format!("entry {entry}"), 1);
    }
    card.changed_record().set_entry(3676);
    card.naming("entry 3676", 1);
    card.check("entry 3676");
}

/// 6: the first integer, and create's slot.
fn cross_reference(card: &mut Card) {
    card.changed_record().set_xrf(0, 1);
    card.all_on_one("first integer -255");
    card.settled_record().set_xrf(8, 1);
    card.create("slot of MFN 2 not 0", b"Kites");
    card.check("slot of MFN 2 not 0");
}

/// 7: physically deleted.
fn gone(card: &mut Card) {
    card.settled_record().set_entry(-2048).set_reccnt(0);
    card.naming("entry -2048", 1);
    card.check("entry -2048");
}
