//! `card show` of one field, as a librarian reads it: the field, or which kind of missing it is;
//! of the settled version too, where a change is pending.

mod folder;

use folder::Folder;

/// A card with one record: two authors (70) and one title (24), not settled.
fn with_two_authors(name: &str) -> Folder {
    let folder = Folder::with_card(name);
    folder.done("create a.mst a.xrf 70=Blake 24=Kite 70=Byron");
    folder
}

/// What is printed and the exit status, of a field of MFN 1; nothing is changed by it.
fn shown(folder: &Folder, words: &str) -> (i32, String, String) {
    let before = folder.files();
    let run = folder.card(&format!("show a.mst a.xrf 1 {words}"));
    assert_eq!(folder.files(), before, "{words}");
    (run.status, run.out, run.err)
}

fn done(lines: &str) -> (i32, String, String) {
    (0, lines.into(), String::new())
}

fn refused(number: i32, lines: &str, words: &str) -> (i32, String, String) {
    let said = format!("card: refused, answer {number}: {words}\n");
    (number, lines.into(), said)
}

#[test]
fn a_field_is_shown_by_its_tag_and_occurrence() {
    let folder = with_two_authors("one-field");
    let state = "MFN 1: live, new, pending\n";
    for (words, text) in [
        ("70", "1 of 2: Blake"),
        ("70 1", "1 of 2: Blake"),
        ("70 2", "2 of 2: Byron"),
    ] {
        let wanted = done(&format!("{state}     70  {text}\n"));
        assert_eq!(shown(&folder, words), wanted, "{words}");
    }
    let wanted = done(&format!("{state}     24  1 of 1: Kite\n"));
    assert_eq!(shown(&folder, "24"), wanted);
    assert_eq!(shown(&folder, "-- 24 1"), wanted);
}

#[test]
fn a_field_that_is_missing_is_none_or_one_too_few() {
    let folder = with_two_authors("missing");
    let state = "MFN 1: live, new, pending\n";
    for (words, number, said) in [
        ("71", 12, "MFN 1: no field 71"),
        ("71 2", 12, "MFN 1: no field 71"),
        ("70 0", 12, "MFN 1: occurrences count from 1"),
        (
            "70 3",
            15,
            "MFN 1: field 70 occurs 2 times, and occurrence 3 was asked for",
        ),
        (
            "70 4294967295",
            15,
            "MFN 1: field 70 occurs 2 times, and occurrence 4294967295 was asked for",
        ),
        (
            "24 2",
            15,
            "MFN 1: field 24 occurs 1 time, and occurrence 2 was asked for",
        ),
    ] {
        assert_eq!(shown(&folder, words), refused(number, state, said));
    }
}

/// The settled version has two authors and a title, the current one an author and a note.
#[test]
fn under_a_pending_change_both_versions_are_told() {
    let folder = with_two_authors("both");
    folder.done("settle a.mst a.xrf 1");
    folder.done("update a.mst a.xrf 1 70=Burns 99=note");
    let lines = |current: &str, settled: &str| {
        format!("MFN 1: live, changed, pending\n{current}  settled version:\n    {settled}\n")
    };
    let burns = lines("     70  1 of 1: Burns\n", "   70  1 of 2: Blake");
    assert_eq!(shown(&folder, "70"), done(&burns));
    let fewer = "MFN 1: field 70 occurs 1 time, and occurrence 2 was asked for";
    let byron = lines("", "   70  2 of 2: Byron");
    assert_eq!(shown(&folder, "70 2"), refused(15, &byron, fewer));
    let none = "MFN 1: no field 24";
    let kite = lines("", "   24  1 of 1: Kite");
    assert_eq!(shown(&folder, "24"), refused(12, &kite, none));
    let note = lines("     99  1 of 1: note\n", "no field 99");
    assert_eq!(shown(&folder, "99"), done(&note));
    let third = "field 70 occurs 2 times, and occurrence 3 was asked for";
    let fewer = "MFN 1: field 70 occurs 1 time, and occurrence 3 was asked for";
    assert_eq!(
        shown(&folder, "70 3"),
        refused(15, &lines("", third), fewer)
    );
    folder.done("delete a.mst a.xrf 1");
    let deleted =
        "MFN 1: deleted, changed, pending\n  settled version:\n       70  2 of 2: Byron\n";
    let said = "the record is deleted";
    assert_eq!(shown(&folder, "70 2"), refused(9, deleted, said));
}

/// What is wrong with the card or the record comes before what is missing of it.
#[test]
fn a_lower_refusal_comes_first() {
    let folder = with_two_authors("lower");
    folder.refused("show a.mst a.xrf 2 70 9", 4, "MFNs 1 to 1 are given out");
    folder.damage("a.mst", 64 + 18, &[0]);
    folder.refused("show a.mst a.xrf 1 70 9", 8, "directory entry 1: TAG is 0");
    folder.damage("a.mst", 12, &[0]);
    folder.refused("show a.mst a.xrf 1 70 9", 2, "NXTMFP");
}

#[test]
fn a_wrong_tag_or_occurrence_is_said() {
    let folder = with_two_authors("wrong-words");
    for (words, said) in [
        ("0", "'0' is no tag: a number from 1 to 32767 is wanted"),
        ("author", "'author' is no tag"),
        ("32768", "'32768' is no tag"),
        ("70 two", "'two' is no occurrence: a whole number is wanted"),
        ("70 4294967296", "'4294967296' is no occurrence"),
        ("70 1 1", "'1' is one word too many"),
        ("--author 1", "'--author' is no flag of 'card show'"),
    ] {
        let (status, out, err) = shown(&folder, words);
        assert_eq!((status, out.as_str()), (64, ""), "{words}");
        assert!(err.contains(said), "{err}");
    }
}
