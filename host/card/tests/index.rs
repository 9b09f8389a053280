//! `card lookup` and `card check-index` as a reader runs them: what they print, their exit
//! statuses, the five files in capitals and small letters, and a sentence for every kind of
//! bad input. They only read.

mod folder;

use folder::Folder;
use folder::index::{ENDINGS, TERMS, files, trees};
use std::fs;
use std::os::unix::fs::symlink;

const SOUND: &str = "sound\n  terms of 1 to 10 bytes   7\n  terms of 11 to 30 bytes  3\n";

/// A term as `Folder::command` takes it.
fn word(term: &str) -> String {
    term.replace(' ', "_")
}

#[test]
fn a_term_is_found_by_its_own_line() {
    let folder = Folder::with_index("lookup");
    let before = folder.files();
    for (n, term) in TERMS.into_iter().enumerate() {
        let line = format!("{term}: block {}, word {}\n", n + 1, 10 * n);
        assert_eq!(folder.done(&format!("lookup a {}", word(term))), line);
    }
    assert_eq!(folder.done("check-index a"), SOUND);
    assert!(before == folder.files());
}

/// Several terms have a line each, in their order, and the first that is refused gives the
/// status and the sentence.
#[test]
fn several_terms_have_a_line_each() {
    let folder = Folder::with_index("lookup-several");
    let both = folder.done("lookup a SEA AFRICA");
    assert_eq!(both, "SEA: block 6, word 50\nAFRICA: block 1, word 0\n");
    let run = folder.card("lookup a KITE KITE_ WINDS SEA");
    assert_eq!(run.status, 20);
    let lines = "KITE: block 4, word 30\n\
                 KITE : refused, answer 20: a term has 1 to 30 bytes and no space at its end\n\
                 WINDS: refused, answer 22: the index does not hold this term\n\
                 SEA: block 6, word 50\n";
    assert_eq!(run.out, lines);
    let said = "card: refused, answer 20: a term has 1 to 30 bytes and no space at its end: \
                'KITE ' ends with a space\n";
    assert_eq!(run.err, said);
}

#[test]
fn blocks_and_words_may_be_negative() {
    let folder = Folder::new("lookup-negative");
    let mut trees = trees();
    let entry = &mut folder::index::leaf(&mut trees[0], 2).entries[1];
    (entry.block, entry.word) = (i32::MIN, -1);
    folder.put_index("a", &files(&trees));
    let line = "KITE: block -2147483648, word -1\n";
    assert_eq!(folder.done("lookup a KITE"), line);
}

#[test]
fn a_bad_term_is_told_what_a_term_is() {
    let folder = Folder::with_index("lookup-bad");
    let what = "answer 20: a term has 1 to 30 bytes and no space at its end: ";
    let refused = |words: &str, why: &str| folder.refused(words, 20, &format!("{what}{why}"));
    refused("lookup a KITE_", "'KITE ' ends with a space");
    refused("lookup a _", "' ' ends with a space");
    refused("lookup a ", "this one is empty");
    let long = "X".repeat(31);
    refused(
        &format!("lookup a {long}"),
        &format!("'{long}' has 31 bytes"),
    );
}

/// Absent: below every key, between two, above all, longer or shorter than a term.
#[test]
fn an_absent_term_is_said_to_be_absent() {
    let folder = Folder::with_index("lookup-absent");
    let what = "answer 22: the index does not hold this term: ";
    for term in [
        "AAA",
        "KIT",
        "KITES",
        "ZZZ",
        "AAAAAAAAAAA",
        "WIND, SAND AND STAR",
        "\\",
    ] {
        let run = folder.card(&format!("lookup a {}", word(term)));
        assert_eq!((run.status, run.out.as_str()), (22, ""), "{run:?}");
        assert!(run.err.contains(what), "{run:?}");
        assert!(!run.err.contains("capitals"), "{run:?}");
    }
    folder.refused("lookup a KIT", 22, &format!("{what}'KIT'\n"));
    for term in ["kite", "Kite", "KITé"] {
        let why = "letters are compared as they stand, and most indexes hold capitals";
        let words = format!("{what}'{term}'; {why}");
        folder.refused(&format!("lookup a {term}"), 22, &words);
    }
}

/// The endings may be in capitals, in small letters, or some so and some so.
#[test]
fn endings_in_capitals_and_in_small_letters() {
    for small in 0..32 {
        let folder = Folder::with_index(&format!("lookup-case-{small}"));
        for (bit, ending) in ENDINGS.into_iter().enumerate() {
            if small & 1 << bit != 0 {
                let from = folder.0.join(format!("a.{ending}"));
                let to = folder.0.join(format!("a.{}", ending.to_lowercase()));
                fs::rename(from, to).unwrap();
            }
        }
        assert_eq!(folder.done("check-index a"), SOUND, "{small}");
        assert_eq!(folder.done("lookup a SEA"), "SEA: block 6, word 50\n");
    }
}

/// Of two files that differ in the case of their ending, CNT is taken in capitals and the
/// others as CNT is.
#[test]
fn of_two_files_the_one_of_cnts_case_is_taken() {
    let folder = Folder::with_index("lookup-both");
    for ending in ENDINGS {
        folder.write(
            &format!("a.{}", ending.to_lowercase()),
            b"no file of an index",
        );
    }
    assert_eq!(folder.done("check-index a"), SOUND);
    let other = "a.cnt has 19 bytes, not 52";
    fs::rename(folder.0.join("a.CNT"), folder.0.join("b.CNT")).unwrap();
    folder.refused("check-index a", 21, other);
    fs::rename(folder.0.join("b.CNT"), folder.0.join("a.cnt")).unwrap();
    folder.refused(
        "check-index a",
        21,
        "a.n01 has 0 nodes and 19 bytes of another",
    );
    for ending in ENDINGS {
        let small = folder.0.join(format!("a.{}", ending.to_lowercase()));
        let capitals = folder.0.join(format!("a.{ending}"));
        if capitals.exists() {
            fs::rename(capitals, small).unwrap();
        }
        folder.write(&format!("a.{ending}"), b"no file of an index");
    }
    folder.refused("check-index a", 21, "a.CNT has 19 bytes, not 52");
    fs::remove_file(folder.0.join("a.CNT")).unwrap();
    assert_eq!(folder.done("check-index a"), SOUND);
}

#[test]
fn missing_files_are_said_in_a_sentence() {
    let folder = Folder::with_index("lookup-missing");
    for words in ["lookup none KITE", "check-index none"] {
        let why = "none.CNT: cannot be read: there is no such file, nor none.cnt\n";
        folder.refused(words, 66, why);
    }
    folder.refused("lookup no/a KITE", 66, "there is no folder no\n");
    folder.refused("lookup a.CNT/a KITE", 66, "a.CNT is no folder");
    for ending in ENDINGS {
        folder.needs(ending, &["lookup a KITE", "check-index a"]);
    }
    fs::rename(folder.0.join("a.CNT"), folder.0.join("a.cnt")).unwrap();
    fs::remove_file(folder.0.join("a.L02")).unwrap();
    let why = "a.l02: cannot be read: there is no such file, nor a.L02";
    folder.refused("check-index a", 66, why);
}

/// Who names a file or a folder is told what to name.
#[test]
fn a_name_that_is_none_of_an_index() {
    let folder = Folder::with_index("lookup-names");
    for name in ["a.CNT", "a.cnt", "a.l02"] {
        let why = "an index is named without an ending";
        folder.refused(&format!("lookup {name} KITE"), 66, why);
    }
    folder.refused("lookup . KITE", 66, "named by its files, not by a folder");
    folder.refused("lookup", 64, "the name of the index is missing");
    folder.refused("check-index", 64, "the name of the index is missing");
    folder.refused("lookup a", 64, "a term is missing; see 'card help lookup'");
    folder.refused("check-index a KITE", 64, "'KITE' is one word too many");
    folder.refused("lookup - KITE", 64, "'-' is no file");
    folder.refused(
        "lookup a KITE --all",
        64,
        "'--all' is no flag of 'card lookup'",
    );
    folder.refused("lookup a -- --all", 22, "'--all'");
    folder.refused("lookup a -1", 22, "'-1'");
}

#[test]
fn files_that_may_not_be_read() {
    let folder = Folder::with_index("lookup-locked");
    for ending in ENDINGS {
        folder.refused_unread(&format!("a.{ending}"), "lookup a KITE");
    }
}

/// Links are followed, and what is no plain file is refused before it is opened.
#[test]
fn links_and_what_is_no_plain_file() {
    let folder = Folder::with_index("lookup-links");
    for ending in ENDINGS {
        symlink(format!("a.{ending}"), folder.0.join(format!("b.{ending}"))).unwrap();
    }
    assert_eq!(folder.done("check-index b"), SOUND);
    fs::remove_file(folder.0.join("b.L01")).unwrap();
    symlink("/dev/zero", folder.0.join("b.L01")).unwrap();
    folder.refused("check-index b", 66, "b.L01: this is not a plain file");
}

/// What is too long for memory is refused unread: one file, or all up to one.
#[test]
fn no_more_than_512_mb_are_read() {
    let folder = Folder::with_index("lookup-huge");
    let is_refused = |why: &str| {
        let run = folder.card("lookup a KITE");
        assert_eq!((run.status, run.out.as_str()), (66, ""), "{run:?}");
        assert!(run.err.contains(why), "{run:?}");
        assert!(
            run.err.contains("the five files may have 536870912 in all"),
            "{run:?}"
        );
    };
    folder.lengthen("a.N02", (1 << 40) + 1);
    is_refused("a.N02: cannot be read: it has 1099511627777 bytes");
    folder.lengthen("a.N02", (1 << 29) - 1);
    is_refused("a.N02: cannot be read: it has 536870911 bytes");
}

/// A result that cannot be printed has a status of its own, behind a refusal's.
#[test]
fn output_that_is_lost() {
    let folder = Folder::with_index("lookup-full");
    for (words, status) in [
        ("lookup a KITE", 74),
        ("check-index a", 74),
        ("lookup a KIT", 22),
        ("lookup a KITE KIT KITE_", 22),
    ] {
        assert_eq!(folder.unprinted(words), Some(status), "{words}");
    }
    let (reader, writer) = std::io::pipe().unwrap();
    drop(reader);
    let output = folder.command("lookup a KITE SEA").stdout(writer).output();
    assert_eq!(output.unwrap().status.code(), Some(0));
}
