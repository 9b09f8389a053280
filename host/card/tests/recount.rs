//! `card recount`, and what the other commands say of a RECCNT, MST bytes 16 to 19, that is not
//! the number of records neither deleted nor gone.

mod folder;
use folder::Folder;
use model::lists::PLANTED;

/// MFN 1 settled, then changed; 2 new; 3 new and deleted. So two are live.
fn card(name: &str) -> Folder {
    let folder = Folder::with_card(name);
    for title in ["Kite", "Wind", "Rain"] {
        folder.done(&format!("create a.mst a.xrf 24={title}"));
    }
    folder.done("settle a.mst a.xrf 1");
    folder.done("update a.mst a.xrf 1 24=Kites");
    folder.done("delete a.mst a.xrf 3");
    folder
}

fn plant(folder: &Folder, count: i32) {
    folder.damage("a.mst", 16, &count.to_le_bytes());
}

fn count(folder: &Folder) -> i32 {
    i32::from_le_bytes(folder.read("a.mst")[16..20].try_into().unwrap())
}

#[test]
fn every_command_keeps_the_number() {
    let folder = card("recount-kept");
    assert_eq!(count(&folder), 2);
    assert_eq!(folder.done("check a.mst a.xrf"), "sound\n");
    folder.done("revert a.mst a.xrf 1");
    assert_eq!(count(&folder), 2);
    folder.done("delete a.mst a.xrf 1");
    assert_eq!(count(&folder), 1);
    folder.done("revert a.mst a.xrf 1");
    assert_eq!(count(&folder), 2);
    folder.done("settle a.mst a.xrf all");
    assert_eq!(count(&folder), 2);
    assert_eq!(folder.done("check a.mst a.xrf"), "sound\n");
    let stat = folder.done("stat a.mst a.xrf");
    assert!(stat.contains("  live    2\n"), "{stat}");
    folder.done("format a.mst a.xrf --erase");
    assert_eq!(count(&folder), 0);
}

#[test]
fn a_wrong_number_is_told_and_mended() {
    let folder = card("recount-told");
    let (mst, xrf) = (folder.read("a.mst"), folder.read("a.xrf"));
    for found in PLANTED {
        plant(&folder, found);
        let check = format!(
            "card: refused, answer 14: the store is not sound:\n  \
             RECCNT (MST byte 16) is {found}, and 2 records are live; all else is sound, and \
             'card recount MST XRF' mends it\n"
        );
        folder.refused("check a.mst a.xrf", 14, &check);
        assert_eq!(folder.card("check a.mst a.xrf").err, check);
        let stat = folder.card("stat a.mst a.xrf");
        let both = format!("  live    2, and RECCNT is {found}\n");
        assert!(stat.status == 14 && stat.out.contains(&both), "{stat:?}");
        assert!(stat.err.contains("'card check'"), "{stat:?}");
        assert_eq!(
            folder.done("recount a.mst a.xrf"),
            format!("recounted: RECCNT was {found} and is 2\n")
        );
        assert_eq!(
            (folder.read("a.mst"), folder.read("a.xrf")),
            (mst.clone(), xrf.clone())
        );
        assert_eq!(folder.done("check a.mst a.xrf"), "sound\n");
    }
}

#[test]
fn a_right_number_stays_and_so_do_the_files() {
    let folder = card("recount-right");
    let before = folder.files();
    let said = folder.done("recount a.mst a.xrf");
    assert_eq!(said, "recounted: RECCNT is 2, as it was\n");
    assert!(before == folder.files());
}

/// One record is live, then none.
#[test]
fn one_record_is_live() {
    let folder = card("recount-one");
    folder.done("delete a.mst a.xrf 2");
    plant(&folder, 9);
    folder.refused(
        "check a.mst a.xrf",
        14,
        "is 9, and 1 record is live; all else",
    );
    folder.done("recount a.mst a.xrf");
    folder.done("delete a.mst a.xrf 1");
    plant(&folder, 9);
    folder.refused(
        "check a.mst a.xrf",
        14,
        "is 9, and 0 records are live; all else",
    );
    let said = folder.done("recount a.mst a.xrf");
    assert_eq!(said, "recounted: RECCNT was 9 and is 0\n");
}

/// A record that is physically deleted does not count.
#[test]
fn a_gone_record_is_not_counted() {
    let folder = card("recount-gone");
    folder.damage("a.xrf", 8, &(-2048i32).to_le_bytes());
    folder.refused(
        "check a.mst a.xrf",
        14,
        "is 2, and 1 record is live; all else",
    );
    let said = folder.done("recount a.mst a.xrf");
    assert_eq!(said, "recounted: RECCNT was 2 and is 1\n");
    assert_eq!(folder.done("check a.mst a.xrf"), "sound\n");
}

/// Where something else is wrong too, that is told, by the check and by a recount.
#[test]
fn a_card_that_is_not_sound_is_not_recounted() {
    let folder = card("recount-unsound");
    plant(&folder, 7);
    folder.damage("a.mst", 76, &[25]);
    for words in ["check a.mst a.xrf", "recount a.mst a.xrf"] {
        folder.refused(words, 14, "MFN 1, settled version: leader: BASE is 25");
        let said = folder.card(words).err;
        assert!(!said.contains("RECCNT"), "{words}: {said}");
    }
    folder.damage("a.mst", 76, &[24]);
    folder.damage("a.mst", 14, &[1]);
    folder.refused("recount a.mst a.xrf", 2, "MFTYPE (MST byte 14) is 1, not 0");
    folder.damage("a.mst", 14, &[0]);
    folder.write("short.mst", &folder.read("a.mst")[..4_095]);
    folder.refused("recount short.mst a.xrf", 1, "short.mst has 4095 bytes");
    folder.write("empty.mst", &[]);
    folder.refused("recount empty.mst a.xrf", 1, "empty.mst has 0 bytes");
    folder.refused("recount a.mst", 64, "the name of the XRF file is missing");
    folder.refused("recount a.mst a.xrf 1", 64, "'1' is one word too many");
}

/// The entry of a malformed record is neither deleted nor gone, so it counts in RECCNT, and the
/// statistics show no difference where there is none.
#[test]
fn a_malformed_record_is_counted_in_reccnt() {
    let folder = card("recount-malformed");
    folder.damage("a.mst", 64 + 28 + 12, &[25]);
    for (found, live) in [
        (2, "  live    1\n"),
        (1, "  live    1, and RECCNT is 1, 2 was expected\n"),
    ] {
        plant(&folder, found);
        let stat = folder.card("stat a.mst a.xrf");
        assert!(stat.status == 14 && stat.out.contains(live), "{stat:?}");
        assert!(stat.out.contains("  malformed 1\n"), "{stat:?}");
    }
}

/// An old card is migrated first, whatever RECCNT is; the check then says what is left to do.
#[test]
fn an_old_card_is_migrated_and_then_recounted() {
    for found in PLANTED {
        let folder = card("recount-old");
        let low = folder.read("a.mst")[12];
        folder.damage("a.mst", 12, &[low - 1]);
        plant(&folder, found);
        folder.refused("recount a.mst a.xrf", 2, "'card migrate MST XRF'");
        folder.done("migrate a.mst a.xrf");
        assert_eq!(count(&folder), found);
        folder.refused("check a.mst a.xrf", 14, "'card recount MST XRF'");
        folder.done("recount a.mst a.xrf");
        assert_eq!(folder.done("check a.mst a.xrf"), "sound\n");
    }
}

/// The two ends of the number: create and revert are refused at the greatest, delete at 0 and
/// below; what comes before that is told, and every other command works.
#[test]
fn the_ends_of_the_number_are_told() {
    let folder = card("recount-ends");
    let said = |found: i32, why: &str| {
        format!(
            "card: refused, answer 2: the control record is not right: a.mst: RECCNT (MST byte 16) \
             is {found}, {why}; where all else is sound, 'card recount MST XRF' writes the right one\n"
        )
    };
    plant(&folder, i32::MAX);
    let most = said(i32::MAX, "the greatest number there is");
    for words in [
        "create a.mst a.xrf 24=Sun",
        "revert a.mst a.xrf 1",
        "revert a.mst a.xrf 9",
    ] {
        folder.refused(words, 2, &most);
    }
    for found in [0, -1, i32::MIN] {
        plant(&folder, found);
        let none = said(found, "which leaves no record to delete");
        folder.refused("delete a.mst a.xrf 1", 2, &none);
        folder.refused("delete a.mst a.xrf 3", 9, "answer 9: the record is deleted");
        folder.refused("delete a.mst a.xrf 9", 4, "MFNs 1 to 3 are given out");
    }
    folder.done("update a.mst a.xrf 2 24=Winds");
    folder.done("show a.mst a.xrf");
    folder.done("draw a.mst a.xrf");
    folder.done("settle a.mst a.xrf all");
    folder.done("recount a.mst a.xrf");
    folder.done("delete a.mst a.xrf 1");
    assert_eq!(folder.done("check a.mst a.xrf"), "sound\n");
}
