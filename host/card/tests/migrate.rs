//! `card migrate`, and what the other commands say of an old card: one whose NXTMFP, MST bytes
//! 12 and 13, is the offset of the end and not one more.

mod folder;
use folder::Folder;

/// A card with a changed record, made old; its bytes before.
fn old(name: &str) -> (Folder, Vec<u8>) {
    let folder = Folder::with_card(name);
    folder.done("create a.mst a.xrf 24=Kite");
    folder.done("settle a.mst a.xrf 1");
    folder.done("update a.mst a.xrf 1 24=Kites");
    let today = folder.read("a.mst");
    assert_eq!(today[12..14], [123, 0]);
    folder.damage("a.mst", 12, &[122]);
    (folder, today)
}

/// Every other command on a card, but format.
const OTHERS: [&str; 11] = [
    "show a.mst a.xrf",
    "show a.mst a.xrf 1",
    "create a.mst a.xrf 24=Wind",
    "update a.mst a.xrf 1 24=Wind",
    "delete a.mst a.xrf 1",
    "settle a.mst a.xrf 1",
    "revert a.mst a.xrf 1",
    "check a.mst a.xrf",
    "stat a.mst a.xrf",
    "draw a.mst a.xrf",
    "recount a.mst a.xrf",
];

#[test]
fn an_old_card_is_told_by_every_command_and_migrated_once() {
    let (folder, today) = old("migrate");
    let said = "card: refused, answer 2: a.mst: this is an old card, whose NXTMFP does not count \
                from one; 'card migrate MST XRF' brings it up to date\n";
    for words in OTHERS {
        folder.refused(words, 2, "'card migrate MST XRF'");
        assert_eq!(folder.card(words).err, said, "{words}");
    }
    let xrf = folder.read("a.xrf");
    assert_eq!(
        folder.done("migrate a.mst a.xrf"),
        "migrated: NXTMFP counts from one\n"
    );
    assert_eq!(folder.read("a.mst"), today);
    assert_eq!(folder.read("a.xrf"), xrf);
    assert_eq!(folder.done("check a.mst a.xrf"), "sound\n");
    let shown =
        "MFN 1: live, changed, pending\n     24  Kites\n  settled version:\n       24  Kite\n";
    assert_eq!(folder.done("show a.mst a.xrf"), shown);
    let again = "answer 2: a.mst: this is no old card, and nothing is to be done\n";
    folder.refused("migrate a.mst a.xrf", 2, again);
}

/// An old card that is not sound is migrated too; the check then says what is wrong.
#[test]
fn an_old_card_that_is_not_sound_is_migrated() {
    let (folder, _) = old("migrate-unsound");
    folder.damage("a.mst", 68, &[26]);
    folder.done("migrate a.mst a.xrf");
    folder.refused("check a.mst a.xrf", 14, "answer 14");
}

/// An old card can be emptied as it is.
#[test]
fn an_old_card_is_formatted_as_it_is() {
    let (folder, _) = old("migrate-format");
    folder.done("format a.mst a.xrf --erase");
    assert_eq!(folder.read("a.mst")[12..14], [65, 0]);
    assert_eq!(folder.done("check a.mst a.xrf"), "sound\n");
}

/// What is right by neither rule is no old card, and each command says which rule it asked.
#[test]
fn a_control_record_that_is_right_by_neither_rule() {
    let (folder, _) = old("migrate-neither");
    folder.damage("a.mst", 12, &[62]);
    let end = "the control record is not right: a.mst: the end, NXTMFB 1 and NXTMFP 62 (MST bytes \
               8 and 12), is not an even offset up to 498";
    let place = " at an address from 64 to the file's length\n";
    folder.refused("check a.mst a.xrf", 2, &format!("{end}, plus 1,{place}"));
    folder.refused("migrate a.mst a.xrf", 2, &format!("{end}{place}"));
    folder.damage("a.mst", 12, &[122]);
    folder.damage("a.mst", 14, &[1]);
    for words in ["check a.mst a.xrf", "migrate a.mst a.xrf"] {
        let run = folder.card(words);
        assert!(!run.err.contains("'card migrate"), "{run:?}");
    }
    let kind = "a.mst: MFTYPE (MST byte 14) is 1, not 0\n";
    folder.refused("migrate a.mst a.xrf", 2, kind);
}

#[test]
fn lengths_and_words_come_first() {
    let (folder, mut mst) = old("migrate-lengths");
    mst.pop();
    folder.write("short.mst", &mst);
    folder.refused("migrate short.mst a.xrf", 1, "short.mst has 4095 bytes");
    folder.refused("migrate a.mst a.xrf 1", 64, "1");
    folder.refused("migrate a.mst", 64, "");
}
