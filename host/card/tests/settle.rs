//! `card settle` with many MFNs: numbers, ranges and all; a line for each refusal, and both files
//! replaced once.

mod folder;
use folder::Folder;

/// A card of seven new records.
fn seven(name: &str) -> Folder {
    let folder = Folder::with_card(name);
    for text in ["one", "two", "three", "four", "five", "six", "seven"] {
        folder.done(&format!("create a.mst a.xrf 24={text}"));
    }
    folder
}

/// The states that `show` prints.
fn states(folder: &Folder) -> Vec<String> {
    let shown = folder.done("show a.mst a.xrf");
    let states = shown.lines().filter_map(|line| line.split_once(": "));
    let states = states.filter(|(mfn, _)| mfn.starts_with("MFN "));
    states.map(|(_, state)| state.to_string()).collect()
}

#[test]
fn numbers_ranges_and_all() {
    let folder = seven("settle-many");
    let said = folder.done("settle a.mst a.xrf 2 4-5");
    assert_eq!(said, "settled: 3 MFNs\n");
    let (new, settled) = ("live, new, pending", "live, settled");
    let wanted = [new, settled, new, settled, settled, new, new];
    assert_eq!(states(&folder), wanted);
    assert_eq!(folder.done("settle a.mst a.xrf all"), "settled: 4 MFNs\n");
    assert_eq!(states(&folder), [settled; 7]);
    let nothing = "settled: nothing is pending\n";
    assert_eq!(folder.done("settle a.mst a.xrf all"), nothing);
    assert_eq!(folder.done("check a.mst a.xrf"), "sound\n");
}

#[test]
fn a_line_for_each_refusal_and_the_rest_is_settled() {
    let folder = seven("settle-refused");
    folder.done("settle a.mst a.xrf 3");
    let run = folder.card("settle a.mst a.xrf 2-4 8 2 0");
    let lines = "MFN 3: refused, answer 10: nothing is pending\n\
                 MFN 8: refused, answer 4: no record has this MFN\n\
                 MFN 2: refused, answer 10: nothing is pending\n\
                 MFN 0: refused, answer 4: no record has this MFN\n\
                 settled: 2 of 6 MFNs\n";
    assert_eq!((run.status, run.out.as_str()), (10, lines));
    assert_eq!(run.err, "card: refused, answer 10: nothing is pending\n");
    let (new, settled) = ("live, new, pending", "live, settled");
    let wanted = [new, settled, settled, settled, new, new, new];
    assert_eq!(states(&folder), wanted);
}

#[test]
fn a_list_that_is_refused_whole_changes_no_file() {
    let folder = seven("settle-none");
    folder.done("settle a.mst a.xrf all");
    let before = (folder.read("a.mst"), folder.read("a.xrf"));
    let run = folder.card("settle a.mst a.xrf 1-7");
    assert_eq!(run.status, 10);
    assert!(run.out.ends_with("settled: 0 of 7 MFNs\n"), "{}", run.out);
    assert_eq!((folder.read("a.mst"), folder.read("a.xrf")), before);
}

/// Where the card itself is refused, that is said once.
#[test]
fn a_card_that_is_refused_is_refused_once() {
    let folder = seven("settle-card");
    folder.damage("a.mst", 12, &[0]);
    for words in ["settle a.mst a.xrf 1-7", "settle a.mst a.xrf all"] {
        let run = folder.card(words);
        assert_eq!((run.status, run.out.as_str()), (2, ""), "{words}");
        assert_eq!(run.err.lines().count(), 1, "{words}");
    }
}

/// A record that cannot be read is no reason to leave the others pending.
#[test]
fn all_tells_of_records_that_are_not_well_formed() {
    let folder = seven("settle-damaged");
    folder.damage("a.mst", 64 + 16, &[9]);
    let run = folder.card("settle a.mst a.xrf all");
    assert_eq!(run.status, 8);
    let line = "MFN 1: refused, answer 8: ";
    assert!(run.out.starts_with(line), "{}", run.out);
    assert!(run.out.ends_with("settled: 6 of 7 MFNs\n"), "{}", run.out);
}

#[test]
fn words_that_name_no_mfns() {
    let folder = seven("settle-words");
    let before = (folder.read("a.mst"), folder.read("a.xrf"));
    for word in ["7-3", "1-", "1-x", "every", "1,2"] {
        let words = format!("settle a.mst a.xrf 1 {word}");
        folder.refused(&words, 64, &format!("'{word}' is no MFN, range"));
    }
    let most = "more than 520192 MFNs are named";
    folder.refused("settle a.mst a.xrf 1-520193", 64, most);
    folder.refused("settle a.mst a.xrf 1-520192 1", 64, most);
    folder.refused("settle a.mst a.xrf 0-4294967295", 64, most);
    assert_eq!((folder.read("a.mst"), folder.read("a.xrf")), before);
    let run = folder.card("settle a.mst a.xrf 1-520192");
    assert_eq!(run.status, 4);
    assert!(run.out.ends_with("settled: 7 of 520192 MFNs\n"));
}
