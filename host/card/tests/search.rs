//! `card search` as a reader runs it: which records it shows for one term and for several, what
//! it says of records that are not there any more, its exit statuses and what comes first.

mod folder;

use folder::Folder;
use folder::postings::{TITLES, lists, posting};
use std::fs;

/// A search in the folder's files.
fn search(words: &str) -> String {
    format!("search a a.mst a.xrf {words}")
}

/// New records as they are shown.
fn shown(mfns: &[usize]) -> String {
    let record = |&mfn: &usize| {
        let title = TITLES[mfn - 1];
        format!("MFN {mfn}: live, new, pending\n     24  {title}\n")
    };
    mfns.iter().map(record).collect()
}

/// KITE is in 1 to 6, WIND in 2 and 6, SEA in 2 and 5, the long term in 6, and NOTHING in none.
#[test]
fn the_records_of_some_terms_are_shown() {
    let folder = Folder::with_search("search");
    let before = folder.files();
    for (words, mfns) in [
        // One term, with a flag and without.
        ("KITE", &[1, 2, 3, 4, 5, 6][..]),
        ("WIND", &[2, 6]),
        ("WIND --and", &[2, 6]),
        ("--or WIND", &[2, 6]),
        ("WIND,_SAND_AND_STARS", &[6]),
        // Two, in any order, with the flag anywhere.
        ("KITE WIND --and", &[2, 6]),
        ("WIND KITE --and", &[2, 6]),
        ("WIND SEA --and", &[2]),
        ("--or WIND SEA", &[2, 5, 6]),
        ("SEA --or WIND", &[2, 5, 6]),
        ("SEA SEA --and", &[2, 5]),
        ("NOTHING SEA --or", &[2, 5]),
        // More than two.
        ("KITE WIND SEA --and", &[2]),
        ("SEA KITE WIND --and", &[2]),
        ("WIND SEA WIND,_SAND_AND_STARS --or", &[2, 5, 6]),
        ("NOTHING NOTHING WIND,_SAND_AND_STARS SEA --or", &[2, 5, 6]),
        ("KITE WIND KITE WIND,_SAND_AND_STARS --and", &[6]),
    ] {
        assert_eq!(folder.done(&search(words)), shown(mfns), "{words}");
    }
    assert!(before == folder.files());
}

/// That nothing is found is an answer, and no refusal.
#[test]
fn no_record_has_the_terms() {
    let folder = Folder::with_search("search-none");
    for words in [
        "NOTHING",
        "NOTHING NOTHING --or",
        "KITE NOTHING --and",
        "SEA WIND,_SAND_AND_STARS --and",
        "WIND KITE NOTHING --and",
        "WIND SEA WIND,_SAND_AND_STARS --and",
    ] {
        let none = "no record is found\n";
        assert_eq!(folder.done(&search(words)), none, "{words}");
    }
}

/// A record is shown as `card show` has it: a pending change with the settled version, and
/// what is deleted or gone as such. None of this is a refusal.
#[test]
fn records_that_the_index_is_older_than() {
    let folder = Folder::with_search("search-older");
    for call in ["settle 2", "settle 3", "delete 3", "settle 3", "delete 5"] {
        let (verb, mfn) = call.split_once(' ').unwrap();
        folder.done(&format!("{verb} a.mst a.xrf {mfn}"));
    }
    folder.done("update a.mst a.xrf 2 24=second");
    folder.damage("a.xrf", 4 + 4 * 3, &(-2048i32).to_le_bytes());
    let changed = "MFN 2: live, changed, pending\n     24  second\n  \
                   settled version:\n       24  two\n";
    let five = "MFN 5: deleted, new, pending\n";
    let all = [
        &shown(&[1]),
        changed,
        "MFN 3: deleted, settled\nMFN 4: gone (physically deleted)\n",
        five,
        &shown(&[6]),
    ];
    assert_eq!(folder.done(&search("KITE")), all.concat());
    assert_eq!(folder.done("show a.mst a.xrf"), all.concat());
    let both = [changed, five].concat();
    assert_eq!(folder.done(&search("SEA KITE --and")), both);
}

/// A record that was never made, or has MFN 0, has its refusal as a line, and the first gives
/// the status; the others are shown.
#[test]
fn records_that_were_never_made() {
    let folder = Folder::with_search("search-never");
    let mut ifp = lists();
    ifp.segments[3].postings = vec![posting(0, 24), posting(2, 24), posting(16_777_215, 24)];
    folder.put_lists(&ifp);
    let refused = "refused, answer 4: no record has this MFN: MFNs 1 to 6 are given out\n";
    let run = folder.card(&search("WIND SEA --or"));
    let lines = format!("MFN 0: {refused}{}MFN 16777215: {refused}", shown(&[2, 5]));
    assert_eq!((run.status, run.out), (4, lines));
    assert_eq!(run.err, format!("card: {refused}"));
    assert_eq!(folder.done(&search("WIND SEA --and")), shown(&[2]));
    folder.done("format a.mst a.xrf --erase");
    let run = folder.card(&search("SEA"));
    let refused = "refused, answer 4: no record has this MFN: the catalogue is empty\n";
    assert_eq!(run.status, 4);
    assert_eq!(run.out, format!("MFN 2: {refused}MFN 5: {refused}"));
}

/// A damaged record or entry has its refusal as a line too.
#[test]
fn records_that_are_damaged() {
    let folder = Folder::with_search("search-damaged");
    // MFN 2 stands at 92, behind 28 bytes of MFN 1; its first tag is behind the leader's 18.
    folder.damage("a.mst", 92 + 18, &[0, 0]);
    folder.damage("a.xrf", 4 + 4 * 5, &[0; 4]);
    let lines = |run: &folder::Run| -> Vec<String> { run.out.lines().map(String::from).collect() };
    let record = "MFN 2: refused, answer 8: the record is not well formed: ";
    let entry = "MFN 6: refused, answer 6: the cross-reference entry is malformed: ";
    let run = folder.card(&search("WIND SEA --or"));
    let said = lines(&run);
    assert_eq!((run.status, said.len()), (8, 4), "{run:?}");
    assert!(said[0].starts_with(record), "{run:?}");
    assert_eq!(said[1..3].join("\n") + "\n", shown(&[5]));
    assert!(said[3].starts_with(entry), "{run:?}");
    assert_eq!(format!("card: {}\n", &said[0]["MFN 2: ".len()..]), run.err);
    let run = folder.card(&search("WIND,_SAND_AND_STARS"));
    assert_eq!((run.status, lines(&run).len()), (6, 1), "{run:?}");
    assert!(run.out.starts_with(entry), "{run:?}");
}

/// The card's own refusals come where all lists are right, also where no record is found.
#[test]
fn a_card_that_is_not_right() {
    let folder = Folder::with_search("search-card");
    folder.write("bad.xrf", &[0; 100]);
    let (mst, old) = (folder.read("a.mst"), "this is an old card");
    for terms in ["KITE", "WIND SEA --or", "NOTHING"] {
        let length = "answer 1: a file is not";
        folder.refused(&format!("search a a.mst bad.xrf {terms}"), 1, length);
        folder.damage("a.mst", 14, &[1]);
        folder.refused(&search(terms), 2, "MFTYPE (MST byte 14) is 1, not 0");
        folder.write("a.mst", &mst);
        folder.damage("a.mst", 12, &[mst[12] - 1]);
        folder.refused(&search(terms), 2, old);
        folder.write("a.mst", &mst);
    }
    folder.done(&search("KITE"));
}

/// A term that is refused is named, wherever it stands, and nothing is shown: also with --or.
#[test]
fn a_term_that_is_refused() {
    let folder = Folder::with_search("search-terms");
    for (words, status, why) in [
        ("KIT", 22, "the index does not hold this term: 'KIT'\n"),
        ("KITE KIT --or", 22, "this term: 'KIT'\n"),
        ("KITE WIND SEA KIT --and", 22, "this term: 'KIT'\n"),
        ("kite", 22, "most indexes hold capitals"),
        ("KITE_ WIND --or", 20, "'KITE ' ends with a space\n"),
        ("KITE  --and", 20, "this one is empty\n"),
        ("KIT KITE_ --or", 22, "this term: 'KIT'\n"),
        ("KITE_ KIT --or", 20, "'KITE ' ends with a space\n"),
    ] {
        folder.refused(&search(words), status, why);
        assert_eq!(folder.card(&search(words)).out, "", "{words}");
    }
}

/// Files come first, then the terms, then the lists, then the card.
#[test]
fn what_comes_first() {
    let folder = Folder::with_search("search-first");
    let mst = folder.read("a.mst");
    folder.damage("a.mst", 14, &[1]);
    folder.refused(&search("WIND KITE --or"), 2, "MFTYPE");
    let mut ifp = lists();
    (ifp.segments[0].total, ifp.segments[4].total) = (-1, -2);
    folder.put_lists(&ifp);
    let kite = "the list of 'KITE': a.IFP, segment at block 1, word 60: its total is -1\n";
    folder.refused(&search("WIND KITE --or"), 23, kite);
    folder.refused(&search("KITE SEA --or"), 23, kite);
    let sea = "the list of 'SEA': a.IFP, segment at block 1, word 30: its total is -2\n";
    folder.refused(&search("SEA WIND KITE --and"), 23, sea);
    folder.refused(&search("KITE KIT --or"), 22, "'KIT'\n");
    folder.damage("a.CNT", 0, &[7]);
    folder.refused(&search("KITE KIT --or"), 21, "IDTYPE is 7, not 1\n");
    folder.refused(&search("KITE_ KIT --or"), 20, "'KITE ' ends with a space\n");
    fs::remove_file(folder.0.join("a.mst")).unwrap();
    let missing = "a.mst: cannot be read: there is no such file";
    folder.refused(&search("KITE_"), 66, missing);
    fs::remove_file(folder.0.join("a.IFP")).unwrap();
    let missing = "a.IFP: cannot be read: there is no such file, nor a.ifp\n";
    folder.refused(&search("KITE_"), 66, missing);
    folder.refused(&search("KITE WIND"), 64, "--and or --or is missing");
    folder.write("a.mst", &mst);
    folder.put_lists(&lists());
    assert_eq!(folder.done(&search("WIND SEA --and")), shown(&[2]));
}

#[test]
fn words_that_are_none_of_the_command() {
    let folder = Folder::with_search("search-words");
    let both = "--and and --or are both there; see 'card help search'";
    let neither = "--and or --or is missing: it says whether a record has all of several terms \
                   or any; see 'card help search'";
    for (words, why) in [
        ("", "the name of the index is missing"),
        (" a", "the name of the MST file is missing"),
        (" a a.mst", "the name of the XRF file is missing"),
        (" a a.mst a.xrf", "a term is missing"),
        (" a a.mst a.xrf --and", "a term is missing"),
        (" a a.mst a.xrf KITE WIND", neither),
        (" a a.mst a.xrf KITE WIND SEA", neither),
        (" a a.mst a.xrf KITE WIND --and --or", both),
        (" a a.mst a.xrf KITE WIND --or --and", both),
        (" a a.mst a.xrf --or KITE WIND --and", both),
        (" a a.mst a.xrf KITE --and --or", both),
        (
            " a a.mst a.xrf KITE --not WIND",
            "'--not' is no flag of 'card search'",
        ),
        (
            " --and a a.mst a.xrf KITE",
            "'--and' is no flag of 'card search'",
        ),
        (" a a.mst a.mst KITE", "one is named twice"),
        (" a - a.xrf KITE", "'-' is no file"),
    ] {
        folder.refused(&format!("search{words}"), 64, why);
    }
    folder.refused(&search("KITE --and -- --or"), 22, "'--or'");
    assert_eq!(folder.done(&search("--and -- SEA WIND")), shown(&[2]));
}

/// What cannot be printed is 74, behind a refusal's number; a reader that went away is no
/// trouble.
#[test]
fn output_that_is_lost() {
    let folder = Folder::with_search("search-full");
    for words in ["KITE", "NOTHING", "WIND SEA --or"] {
        assert_eq!(folder.unprinted(&search(words)), Some(74), "{words}");
    }
    assert_eq!(folder.unprinted(&search("KIT")), Some(22));
    folder.damage("a.xrf", 4 + 4 * 5, &[0; 4]);
    assert_eq!(folder.unprinted(&search("WIND")), Some(6));
    let (reader, writer) = std::io::pipe().unwrap();
    drop(reader);
    let output = folder.command(&search("SEA")).stdout(writer).output();
    assert_eq!(output.unwrap().status.code(), Some(0));
}
