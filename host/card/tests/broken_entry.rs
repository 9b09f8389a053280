//! `card check` and `card show` name what of a record is broken: the first entry of its directory
//! that breaks a rule, with what stands there and what was expected, or its leader, without one.

mod folder;

use folder::Folder;

/// A record at 64 with fields 24, 70 and 69 of 4, 8 and 5 bytes: BASE 36, MFRL 54, so that 18 bytes
/// follow the directory. A second one, of one field, stands behind it.
fn card(name: &str) -> Folder {
    let folder = Folder::with_card(name);
    folder.done("create a.mst a.xrf 24=Kite 70=Hosseini 69=novel");
    folder.done("create a.mst a.xrf 24=Wind");
    assert_eq!(folder.done("check a.mst a.xrf"), "sound\n");
    folder
}

/// Where the TAG of an entry of the first record stands, which counts from 1; POS and LEN follow.
fn tag(entry: usize) -> usize {
    64 + 18 + 6 * (entry - 1)
}

fn put(folder: &Folder, at: usize, value: u16) {
    folder.damage("a.mst", at, &value.to_le_bytes());
}

/// With one number changed, `check` has one line and `show` ends with the same words; then the
/// number is put back.
fn says(folder: &Folder, at: usize, value: u16, words: &str) {
    let before = folder.read("a.mst");
    put(folder, at, value);
    let line = format!("MFN 1: {words} (record at MST byte 64)");
    let check = folder.card("check a.mst a.xrf");
    assert_eq!(check.status, 14);
    let unsound = "card: refused, answer 14: the store is not sound:";
    assert_eq!(check.err, format!("{unsound}\n  {line}\n"));
    let show = folder.card("show a.mst a.xrf 1");
    assert_eq!((show.status, show.out.as_str()), (8, ""));
    let bad = "refused, answer 8: the record is not well formed";
    assert_eq!(show.err, format!("card: {bad}: {line}\n"));
    let all = folder.card("show a.mst a.xrf");
    assert_eq!(all.status, 8);
    let lines = format!("MFN 1: {bad}: {line}\nMFN 2: live, new, pending\n");
    assert!(all.out.starts_with(&lines), "{}", all.out);
    folder.write("a.mst", &before);
    assert_eq!(folder.done("check a.mst a.xrf"), "sound\n");
}

#[test]
fn a_tag_outside_its_limits() {
    let folder = card("entry-tag");
    for entry in 1..=3 {
        for value in [0, 32_768, 65_535] {
            let words = format!("directory entry {entry}: TAG is {value}, 1 to 32767 was expected");
            says(&folder, tag(entry), value, &words);
        }
    }
}

#[test]
fn a_pos_that_is_not_the_one_expected() {
    let folder = card("entry-pos");
    for (entry, expected) in [(1, 0), (2, 4), (3, 12)] {
        for value in [expected + 1, 40, 65_535] {
            let words = format!("directory entry {entry}: POS is {value}, {expected} was expected");
            says(&folder, tag(entry) + 2, value, &words);
        }
    }
    says(
        &folder,
        tag(3) + 2,
        0,
        "directory entry 3: POS is 0, 12 was expected",
    );
}

#[test]
fn a_sum_of_lengths_that_runs_past_the_record() {
    let folder = card("entry-sum");
    for (entry, before) in [(1, 0), (2, 4), (3, 12)] {
        for value in [19 - before, 300, 65_535] {
            let sum = u32::from(before) + u32::from(value);
            let words = format!(
                "directory entry {entry}: with its LEN of {value} the lengths sum to {sum}, \
                 at most 18 was expected"
            );
            says(&folder, tag(entry) + 4, value, &words);
        }
    }
}

/// A LEN that still fits is contradicted by the entry behind it.
#[test]
fn a_len_that_the_next_entry_contradicts() {
    let folder = card("entry-next");
    for (entry, value, words) in [
        (1, 5, "directory entry 2: POS is 4, 5 was expected"),
        (1, 18, "directory entry 2: POS is 4, 18 was expected"),
        (2, 0, "directory entry 3: POS is 12, 4 was expected"),
    ] {
        says(&folder, tag(entry) + 4, value, words);
    }
}

/// The leader is named without an entry, also where the directory is broken besides.
#[test]
fn a_leader_that_is_broken() {
    let folder = card("entry-leader");
    let rows = [
        (0, 9, "MFN is 9, 1 was expected"),
        (
            4,
            17,
            "MFRL is 17, an even number from 18 to 32766 was expected",
        ),
        (
            4,
            55,
            "MFRL is 55, an even number from 18 to 32766 was expected",
        ),
        (4, 5000, "with its MFRL of 5000 it runs past the end, 146"),
        (4, 34, "BASE is 36, at most its MFRL of 34 was expected"),
        (
            12,
            40,
            "BASE is 40, 36 was expected, 18 + 6 times its NVF of 3",
        ),
        (
            14,
            2,
            "BASE is 36, 30 was expected, 18 + 6 times its NVF of 2",
        ),
        (16, 1, "STATUS is 1, 0 was expected"),
        (16, 2, "STATUS is 2, 0 was expected"),
    ];
    for directory in [24, 0] {
        for (at, value, words) in rows {
            put(&folder, tag(1), directory);
            put(&folder, 64 + at, value);
            let run = folder.card("show a.mst a.xrf 1");
            assert_eq!(run.status, 8);
            let line = format!("MFN 1: leader: {words} (record at MST byte 64)\n");
            assert!(run.err.ends_with(&line), "{}", run.err);
            assert!(!run.err.contains("entry"), "{}", run.err);
            put(&folder, tag(1), 24);
            for (at, right) in [(0, 1), (4, 54), (12, 36), (14, 3), (16, 0)] {
                put(&folder, 64 + at, right);
            }
            assert_eq!(folder.done("check a.mst a.xrf"), "sound\n");
        }
    }
}

/// The settled version under a pending change, a deleted record, and a second record have their
/// own lines.
#[test]
fn every_version_and_every_record_by_itself() {
    let folder = card("entry-versions");
    folder.done("settle a.mst a.xrf all");
    folder.done("update a.mst a.xrf 1 24=Kites");
    folder.done("delete a.mst a.xrf 2");
    put(&folder, tag(2) + 2, 38);
    let settled = "MFN 1, settled version: directory entry 2: POS is 38, 4 was expected \
                   (record at MST byte 64)";
    folder.refused("show a.mst a.xrf 1", 8, settled);
    folder.refused("show a.mst a.xrf 2", 9, "the record is deleted");
    // Behind the two records, the new version of MFN 1, and behind it the deleted copy of MFN 2.
    let copy = 146 + 30;
    put(&folder, copy + 18, 0);
    let check = folder.card("check a.mst a.xrf");
    let lines: Vec<&str> = check.err.lines().skip(1).map(str::trim).collect();
    let second = format!(
        "MFN 2: directory entry 1: TAG is 0, 1 to 32767 was expected (record at MST byte {copy})"
    );
    assert_eq!(lines, [settled, &second]);
}

/// What names a record that is broken is refused with the same words.
#[test]
fn every_command_that_names_the_record() {
    let folder = card("entry-commands");
    put(&folder, tag(3) + 2, 40);
    let words = "directory entry 3: POS is 40, 12 was expected";
    for command in [
        "update a.mst a.xrf 1 24=Kite",
        "delete a.mst a.xrf 1",
        "settle a.mst a.xrf 1",
        "revert a.mst a.xrf 1",
        "show a.mst a.xrf 1 24",
    ] {
        folder.refused(command, 8, words);
    }
    folder.refused("stat a.mst a.xrf", 14, "not sound");
}
