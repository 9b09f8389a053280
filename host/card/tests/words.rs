//! The words that a person expects: help for each command, names that are no files, folders
//! that are missing or may not be written, and fields from files.

mod folder;

use folder::{Folder, as_nobody};
use std::fs::{self, OpenOptions};
use std::io::Write;
use std::process::Command;
use std::thread::JoinHandle;

/// Every command, and what it works on.
const VERBS: [(&str, &str); 16] = [
    ("format", "MST XRF"),
    ("show", "MST XRF"),
    ("create", "MST XRF"),
    ("update", "MST XRF"),
    ("delete", "MST XRF"),
    ("settle", "MST XRF"),
    ("revert", "MST XRF"),
    ("migrate", "MST XRF"),
    ("recount", "MST XRF"),
    ("check", "MST XRF"),
    ("stat", "MST XRF"),
    ("draw", "MST XRF"),
    ("lookup", "NAME TERM..."),
    ("check-index", "NAME"),
    ("postings", "NAME TERM"),
    ("search", "NAME MST XRF TERM... --and|--or"),
];

#[test]
fn every_command_has_help() {
    let folder = Folder::new("help");
    let all = folder.done("help");
    for (verb, on) in VERBS {
        let help = folder.done(&format!("help {verb}"));
        assert!(help.starts_with(&format!("card {verb} {on}")), "{help}");
        assert!(help.contains("Exit status"), "{help}");
        for asked in ["--help", "-h", "a.mst a.xrf --help", "--help a.mst"] {
            assert_eq!(
                folder.done(&format!("{verb} {asked}")),
                help,
                "{verb} {asked}"
            );
        }
        assert!(all.contains(&format!("card {verb}")), "{verb}");
    }
    for asked in ["--help", "-h", "help help", "help --help"] {
        assert_eq!(folder.done(asked), all, "{asked}");
    }
    folder.refused("help chekc", 64, "'chekc' is no command");
    folder.refused("help check more", 64, "'more' is one word too many");
    for (verb, word) in [
        ("create", "@@"),
        ("create", "TAG=@FILE"),
        ("draw", "--replace"),
        ("format", "--erase"),
        ("show", "MFN TAG [OCC]"),
        ("show", "12  refused: there is no such field\n"),
        (
            "show",
            "15  refused: the tag occurs fewer times than asked for\n",
        ),
        ("show", "as by 'card check'"),
        ("check", "directory entry 3: POS is 40, 38 was expected "),
        ("lookup", "KITE: block 3, word 12"),
        ("lookup", "NAME.CNT"),
        ("check-index", "small letters"),
        ("postings", "NAME.IFP"),
        ("search", "also with --or"),
    ] {
        assert!(
            folder.done(&format!("help {verb}")).contains(word),
            "{verb} {word}"
        );
    }
    assert!(all.contains("74"), "{all}");
}

#[test]
fn the_version_is_said() {
    let folder = Folder::new("version");
    let version = format!("card {}\n", env!("CARGO_PKG_VERSION"));
    for asked in ["--version", "-V"] {
        assert_eq!(folder.done(asked), version);
    }
}

/// The flag that is advised works; where none would, none is advised.
#[test]
fn format_advises_only_what_works() {
    let folder = Folder::with_card("advice");
    let advises = |words: &str| folder.card(words).err.contains("--erase");
    folder.refused("format a.mst a.xrf 1 1", 66, "--erase");
    folder.refused(
        "format a.mst new.xrf 1 1",
        66,
        "a.mst: the file exists already",
    );
    folder.refused(
        "format new.mst a.xrf 1 1",
        66,
        "a.xrf: the file exists already",
    );
    assert!(!advises("format a.mst new.xrf 1 1") && !advises("format new.mst a.xrf 1 1"));
    folder.write("notes", b"no card");
    folder.refused(
        "format notes a.xrf 1 1",
        66,
        "notes: the file exists already",
    );
    assert!(!advises("format notes a.xrf 1 1"));
    folder.refused(
        "format a.mst new.xrf --erase",
        66,
        "new.xrf: cannot be read: there is no such file",
    );
    folder.refused(
        "format a.mst new.xrf --erase",
        66,
        "numbers of blocks make new files",
    );
    folder.done("format a.mst a.xrf --erase");
}

#[test]
fn words_that_look_like_flags() {
    let folder = Folder::with_card("flags");
    folder.done("create a.mst a.xrf 24=Kite");
    let shown = folder.done("show a.mst a.xrf");
    assert_eq!(folder.done("show -- a.mst a.xrf"), shown);
    assert_eq!(folder.done("-- show a.mst a.xrf"), shown);
    folder.refused("--", 64, "a command is missing");
    folder.refused("show --", 64, "the name of the MST file is missing");
    folder.refused("-", 64, "'-' is no command");
    folder.refused(
        "show - a.xrf",
        64,
        "'-' is no file; './-' names one of that name",
    );
    folder.refused("show a.mst -", 64, "'-' is no file");
    folder.refused(
        "show --all a.mst a.xrf",
        64,
        "'--all' is no flag of 'card show'",
    );
    folder.refused(
        "check a.mst a.xrf --fix",
        64,
        "'--fix' is no flag of 'card check'",
    );
    folder.refused("draw a.mst a.xrf -x", 64, "'-x' is no flag of 'card draw'");
    folder.refused("--nonsense", 64, "'--nonsense' is no command");
    fs::copy(folder.0.join("a.mst"), folder.0.join("-m")).unwrap();
    assert_eq!(folder.done("show -- -m a.xrf"), shown);
    assert_eq!(folder.done("show ./-m a.xrf"), shown);
}

#[test]
fn folders_that_are_missing_or_no_folders() {
    let folder = Folder::with_card("folders");
    folder.refused(
        "format no/such/a.mst no/such/a.xrf 1 1",
        66,
        "there is no folder no/such",
    );
    folder.refused("check no/a.mst no/a.xrf", 66, "there is no folder no");
    folder.refused(
        "check none.mst a.xrf",
        66,
        "none.mst: cannot be read: there is no such file",
    );
    folder.refused("check a.mst/b.mst a.xrf", 66, "a.mst is no folder");
    folder.refused("check . a.xrf", 66, "this is a folder");
    folder.refused("create a.mst a.xrf 24=@.", 66, "this is a folder");
}

/// A folder that may not be written: the files in it cannot be replaced, but read.
#[test]
fn a_folder_that_may_not_be_written() {
    let folder = Folder::with_card("locked");
    folder.done("create a.mst a.xrf 24=Kite");
    folder.permit_all();
    folder.permit(".", 0o555);
    let before = folder.files();
    let run = |words: &str| {
        let mut command = folder.command(words);
        // Root may write everywhere.
        as_nobody(&mut command);
        let output = command.output().unwrap();
        let said = String::from_utf8(output.stderr).unwrap();
        (output.status.code().unwrap(), said)
    };
    for words in [
        "settle a.mst a.xrf 1",
        "format b.mst b.xrf 1 1",
        "draw a.mst a.xrf a.svg",
    ] {
        let (status, said) = run(words);
        assert_eq!(status, 66, "{words}: {said}");
        assert!(
            said.contains("the folder") && said.contains("may not be written"),
            "{words}: {said}"
        );
    }
    assert_eq!(run("check a.mst a.xrf"), (0, String::new()));
    assert!(before == folder.files());
    folder.permit(".", 0o755);
}

/// Feeds a FIFO of the folder for as long as it is read, up to 64 MB; gives the number of
/// bytes that were taken.
fn endless(folder: &Folder) -> JoinHandle<usize> {
    let path = folder.0.join("endless");
    std::thread::spawn(move || {
        let mut fifo = OpenOptions::new().write(true).open(path).unwrap();
        let part = [b'x'; 4096];
        let taken = (0..16_384).take_while(|_| fifo.write_all(&part).is_ok());
        taken.count() * part.len()
    })
}

/// A field's bytes from a file are read no further than a record can hold.
#[test]
fn fields_from_files_stop_at_what_a_record_holds() {
    let folder = Folder::with_card("endless");
    folder.done("format b.mst b.xrf 80 1");
    folder.write("most", &[b'x'; 32_742]);
    folder.write("more", &[b'x'; 32_743]);
    folder.done("create b.mst b.xrf 24=@most");
    let too_long = "more is longer than a record can hold";
    folder.refused("create b.mst b.xrf 24=@more", 3, too_long);
    folder.refused("create b.mst b.xrf 24=@most 70=", 3, "at most 32766");
    let fifo = folder.0.join("endless");
    assert!(Command::new("mkfifo").arg(fifo).status().unwrap().success());
    for words in ["create b.mst b.xrf", "update b.mst b.xrf 1 70=x"] {
        let fed = endless(&folder);
        let too_long = "endless is longer than a record can hold";
        folder.refused(&format!("{words} 24=@endless"), 3, too_long);
        let taken = fed.join().unwrap();
        assert!(taken < 1_000_000, "{words}: {taken} bytes");
    }
}

#[test]
fn a_text_may_begin_with_an_at() {
    let folder = Folder::with_card("at");
    folder.write("@home", b"from the file");
    folder.done("create a.mst a.xrf 24=@@home 24=@./@home 70=@@ 70=@@@x");
    let shown = folder.done("show a.mst a.xrf 1");
    let wanted = "     24  @home\n     24  from the file\n     70  @\n     70  @@x\n";
    assert!(shown.ends_with(wanted), "{shown}");
    folder.refused("create a.mst a.xrf 24=@", 64, "24=@@");
}

/// The lowest refusal is given, also where the draft is too long for any card.
#[test]
fn an_over_long_draft_does_not_hide_a_lower_refusal() {
    let folder = Folder::with_card("lowest");
    folder.write("long", &[b'x'; 70_000]);
    folder.write("bad.xrf", &[0; 100]);
    folder.write("zero.mst", &[0; 512]);
    for call in ["create", "update"] {
        let mfn = if call == "update" { "1 " } else { "" };
        for field in ["24=@long", "24=@long 24=@long"] {
            folder.refused(
                &format!("{call} a.mst bad.xrf {mfn}{field}"),
                1,
                "bad.xrf has 100 bytes",
            );
            folder.refused(&format!("{call} zero.mst a.xrf {mfn}{field}"), 2, "NXTMFN");
            folder.refused(
                &format!("{call} a.mst a.xrf {mfn}{field}"),
                3,
                "longer than a record can hold",
            );
        }
    }
}

/// Marks that turn the direction of a text, or do not show, are shown by their bytes.
#[test]
fn direction_marks_are_shown_by_number() {
    let folder = Folder::with_card("marks");
    folder.write(
        "field",
        "a\u{202E}b\u{2066}c\u{200F}d\u{200B}e\u{9B}f\u{FEFF}g".as_bytes(),
    );
    folder.done("create a.mst a.xrf 24=@field");
    let shown = folder.done("show a.mst a.xrf 1");
    let wanted = "a\\xE2\\x80\\xAEb\\xE2\\x81\\xA6c\\xE2\\x80\\x8Fd\\xE2\\x80\\x8Be\\xC2\\x9Bf\\xEF\\xBB\\xBFg";
    assert!(shown.contains(wanted), "{shown}");
}
