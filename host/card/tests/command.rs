//! `card` as a librarian's engineer runs it: what it prints, what it leaves in the two
//! files, its exit status; and for every kind of bad input one sentence on standard
//! error with nothing changed.

mod folder;

use folder::Folder;
use std::fs;

#[test]
fn the_worked_run_leaves_the_papers_bytes() {
    let folder = Folder::with_card("run");
    assert_eq!(folder.read("a.mst").len(), 4096);
    assert_eq!(folder.read("a.xrf")[..4], [0xFF; 4]);
    assert_eq!(
        folder.done("create a.mst a.xrf 24=Kite"),
        "created: MFN 1, new, pending\n"
    );
    assert_eq!(folder.read("a.mst")[64..92][..6], [1, 0, 0, 0, 28, 0]);
    assert_eq!(folder.read("a.xrf")[4..8], 3136i32.to_le_bytes());
    folder.done("update a.mst a.xrf 1 24=Kit");
    folder.done("settle a.mst a.xrf 1");
    folder.done("update a.mst a.xrf 1 24=Kites");
    assert_eq!(folder.read("a.xrf")[4..8], 2652i32.to_le_bytes());
    let shown = folder.done("show a.mst a.xrf 1");
    let wanted =
        "MFN 1: live, changed, pending\n     24  Kites\n  settled version:\n       24  Kit\n";
    assert_eq!(shown, wanted);
    folder.done("revert a.mst a.xrf 1");
    assert_eq!(folder.read("a.xrf")[4..8], 2112i32.to_le_bytes());
    assert_eq!(folder.read("a.mst")[12..14], [123, 0]);
    assert_eq!(
        folder.done("show a.mst a.xrf 1"),
        "MFN 1: live, settled\n     24  Kit\n"
    );
    assert_eq!(folder.done("check a.mst a.xrf"), "sound\n");
    let names: Vec<_> = folder.files().into_iter().map(|(path, _)| path).collect();
    assert_eq!(names, [folder.0.join("a.mst"), folder.0.join("a.xrf")]);
}

#[test]
fn show_marks_deleted_pending_and_gone() {
    let folder = Folder::with_card("show");
    for field in ["24=one", "24=two", "24=three"] {
        folder.done(&format!("create a.mst a.xrf {field} 70=x"));
    }
    folder.done("settle a.mst a.xrf 1");
    folder.done("settle a.mst a.xrf 2");
    folder.done("delete a.mst a.xrf 2");
    folder.damage("a.xrf", 12, &(-2048i32).to_le_bytes());
    let wanted = "MFN 1: live, settled\n     24  one\n     70  x\n\
                  MFN 2: deleted, changed, pending\n  settled version:\n       24  two\n       70  x\n\
                  MFN 3: gone (physically deleted)\n";
    assert_eq!(folder.done("show a.mst a.xrf"), wanted);
    folder.refused("show a.mst a.xrf 2", 9, "answer 9");
    folder.refused("show a.mst a.xrf 3", 7, "answer 7");
    folder.refused("show a.mst a.xrf 4", 4, "MFNs 1 to 3 are given out");
}

#[test]
fn show_has_every_field_in_directory_order() {
    let folder = Folder::with_card("fields");
    folder.done("create a.mst a.xrf 70=one 24=Kite 70= 1=x 70=two");
    folder.done("create a.mst a.xrf --empty");
    let five = "     70  one\n     24  Kite\n     70  \n      1  x\n     70  two\n";
    let wanted = format!("MFN 1: live, new, pending\n{five}MFN 2: live, new, pending\n");
    assert_eq!(folder.done("show a.mst a.xrf"), wanted);
    folder.done("settle a.mst a.xrf 1");
    folder.done("settle a.mst a.xrf 2");
    folder.done("update a.mst a.xrf 1 --empty");
    folder.done("update a.mst a.xrf 2 70=");
    let settled = five.replace("     ", "       ");
    let wanted = format!(
        "MFN 1: live, changed, pending\n  settled version:\n{settled}\
         MFN 2: live, changed, pending\n     70  \n  settled version:\n"
    );
    assert_eq!(folder.done("show a.mst a.xrf"), wanted);
}

#[test]
fn show_of_a_pending_deletion_has_the_settled_fields() {
    let folder = Folder::with_card("deletion");
    folder.done("create a.mst a.xrf 24=a 24=b 70=");
    folder.done("settle a.mst a.xrf 1");
    folder.done("delete a.mst a.xrf 1");
    let settled = "MFN 1: deleted, changed, pending\n  settled version:\n       24  a\n       24  b\n       70  \n";
    assert_eq!(folder.done("show a.mst a.xrf"), settled);
    let run = folder.card("show a.mst a.xrf 1");
    assert_eq!((run.status, run.out.as_str()), (9, settled));
    folder.done("settle a.mst a.xrf 1");
    let run = folder.card("show a.mst a.xrf 1");
    assert_eq!(
        (run.status, run.out.as_str()),
        (9, "MFN 1: deleted, settled\n")
    );
}

/// A damaged record shows no field; the records beside it are shown all the same.
#[test]
fn show_of_damaged_records() {
    let folder = Folder::with_card("damaged");
    for field in ["24=one", "24=two", "24=three"] {
        folder.done(&format!("create a.mst a.xrf {field} 70=x"));
    }
    // MFN 2 stands at 98: 64 + 18 + 2 x 6 + 4. Its second tag is there 98 + 24.
    folder.damage("a.mst", 98 + 24, &[0, 0]);
    folder.refused("show a.mst a.xrf 2", 8, "directory entry 2: TAG is 0");
    let run = folder.card("show a.mst a.xrf");
    assert_eq!(run.status, 8);
    let lines: Vec<&str> = run.out.lines().collect();
    assert_eq!(
        lines[..3],
        ["MFN 1: live, new, pending", "     24  one", "     70  x"]
    );
    assert!(
        lines[3].starts_with("MFN 2: ") && !lines[3].contains("two"),
        "{}",
        lines[3]
    );
    assert_eq!(
        lines[4..],
        ["MFN 3: live, new, pending", "     24  three", "     70  x"]
    );
}

/// A damaged settled version is refused; the current version is shown before.
#[test]
fn show_of_a_damaged_settled_version() {
    let folder = Folder::with_card("damaged-settled");
    folder.done("create a.mst a.xrf 24=Kite");
    folder.done("settle a.mst a.xrf 1");
    folder.done("update a.mst a.xrf 1 24=Kites");
    folder.damage("a.mst", 64 + 16, &[1]);
    let run = folder.card("show a.mst a.xrf 1");
    assert_eq!(run.status, 8);
    assert_eq!(
        run.out,
        "MFN 1: live, changed, pending\n     24  Kites\n  settled version:\n"
    );
    assert!(run.err.contains("STATUS"), "{run:?}");
}

#[test]
fn stat_counts_records_and_space() {
    let folder = Folder::with_card("stat");
    folder.done("create a.mst a.xrf 24=Kite");
    folder.done("settle a.mst a.xrf 1");
    folder.done("update a.mst a.xrf 1 24=Kites");
    folder.done("create a.mst a.xrf 24=Wind");
    folder.done("delete a.mst a.xrf 2");
    folder.done("settle a.mst a.xrf 1");
    let stat = folder.done("stat a.mst a.xrf");
    for line in [
        "2 of 127 MFNs given out",
        "live    1\n",
        "deleted 1\n",
        "gone    0\n",
        "pending 1 (0 changed, 1 new)",
        "space     4096 bytes",
    ] {
        assert!(stat.contains(line), "{line} in {stat}");
    }
    // 64 + 30 + 28 used, the old version of 28 lost, 4096 - 150 free.
    for (name, bytes) in [("used", "122"), ("lost", "28"), ("free", "3946")] {
        let line = stat.lines().find(|line| line.contains(name)).unwrap();
        assert!(line.split_whitespace().any(|word| word == bytes), "{line}");
    }
    let bar = stat.lines().last().unwrap();
    assert_eq!(bar.matches(['#', 'x', '.']).count(), 60);
}

#[test]
fn check_says_what_is_wrong_and_where() {
    let folder = Folder::with_card("check");
    folder.done("create a.mst a.xrf 24=Kite");
    folder.damage("a.mst", 76, &[25]);
    folder.refused(
        "check a.mst a.xrf",
        14,
        "MFN 1: leader: BASE is 25, 24 was expected, 18 + 6 times its NVF of 1 (record at MST byte 64)",
    );
    folder.refused("show a.mst a.xrf 1", 8, "leader: BASE is 25");
    folder.refused("stat a.mst a.xrf", 14, "not sound");
    folder.damage("a.mst", 76, &[24]);
    folder.damage("a.xrf", 0, &[7]);
    folder.refused("check a.mst a.xrf", 14, "XRF block 1");
    folder.refused("delete a.mst a.xrf 1", 6, "XRF block 1");
    folder.damage("a.mst", 14, &[1]);
    folder.refused("check a.mst a.xrf", 2, "MFTYPE");
    folder.refused("draw a.mst a.xrf", 2, "MFTYPE");
}

#[test]
fn draw_makes_a_picture_of_this_card() {
    let folder = Folder::with_card("draw");
    folder.done("create a.mst a.xrf 24=Kite");
    folder.done("settle a.mst a.xrf 1");
    folder.done("update a.mst a.xrf 1 24=Kites");
    let svg = folder.done("draw a.mst a.xrf");
    assert!(svg.starts_with("<svg ") && svg.ends_with("</svg>\n"));
    // Two units for each byte: "Kites" stands at 92 and has 30 bytes.
    assert!(svg.contains(&format!("class=\"changed\" x=\"{}\"", 90 + 2 * 92)));
    assert!(svg.contains("class=\"kept\"") && svg.contains("class=\"back\""));
    assert!(svg.contains("entry 2652") && svg.contains("block 1, offset 92, changed"));
    folder.done("draw a.mst a.xrf a.svg");
    assert!(folder.read("a.svg") == svg.as_bytes());
    folder.refused("draw a.mst a.xrf a.mst", 64, "a file of the card itself");
    folder.refused(
        "draw a.mst a.xrf no/such/folder.svg",
        66,
        "cannot be written",
    );
}

#[test]
fn every_refusal_of_a_call_is_the_exit_status() {
    let folder = Folder::with_card("refusals");
    folder.done("create a.mst a.xrf 24=Kite");
    folder.refused(
        "revert a.mst a.xrf 1",
        11,
        "answer 11: the record was never settled",
    );
    folder.done("settle a.mst a.xrf 1");
    folder.refused("settle a.mst a.xrf 1", 10, "answer 10: nothing is pending");
    folder.refused("settle a.mst a.xrf 0", 4, "answer 4");
    folder.refused("settle a.mst a.xrf 4294967295", 4, "answer 4");
    folder.write("long", &[b'x'; 4096]);
    folder.refused(
        "create a.mst a.xrf 24=@long",
        13,
        "needs 4120 bytes and 4004 are free",
    );
    folder.write("longer", &[b'x'; 32_768]);
    let too_long = "longer is longer than a record can hold";
    folder.refused("create a.mst a.xrf 24=@longer", 3, too_long);
    folder.refused("update a.mst a.xrf 1 24=@longer", 3, too_long);
    folder.refused("create a.mst a.xrf 24=@long 24=@long", 13, "8222 bytes");
    let long = " 24=@long".repeat(8);
    folder.refused(&format!("create a.mst a.xrf{long}"), 3, "at most 32766");
    folder.done("delete a.mst a.xrf 1");
    folder.refused("update a.mst a.xrf 1 24=x", 9, "answer 9");
}

#[test]
fn bad_words_are_said_in_a_sentence() {
    let folder = Folder::with_card("words");
    folder.refused("settle a.mst a.xrf one", 64, "'one' is no MFN");
    folder.refused("settle a.mst a.xrf -1", 64, "'-1' is no MFN");
    folder.refused("settle a.mst a.xrf 4294967296", 64, "is no MFN");
    folder.refused("settle a.mst a.xrf", 64, "the MFN is missing");
    folder.refused("revert a.mst a.xrf 1 2", 64, "'2' is one word too many");
    folder.refused("create a.mst a.xrf title=Kite", 64, "'title' is no tag");
    folder.refused("create a.mst a.xrf 0=Kite", 64, "'0' is no tag");
    folder.refused("create a.mst a.xrf 32768=Kite", 64, "'32768' is no tag");
    folder.refused("create a.mst a.xrf", 64, "--empty");
    folder.refused("create a.mst a.xrf Kite", 64, "'Kite' is no field");
    folder.refused(
        "create a.mst a.xrf 24=@missing",
        66,
        "missing: cannot be read",
    );
    folder.refused("format b.mst b.xrf", 64, "missing");
    folder.refused("format b.mst b.xrf 0 1", 64, "'0' is no number of blocks");
    folder.refused("format b.mst b.xrf 1 4097", 64, "from 1 to 4096");
    folder.refused("format b.mst b.xrf 1048576 1", 64, "from 1 to 1048575");
    folder.refused("check a.mst", 64, "the name of the XRF file is missing");
    folder.refused("check a.mst a.mst", 64, "one is named twice");
    folder.refused("chekc a.mst a.xrf", 64, "'chekc' is no command");
    let run = folder.card("help");
    assert!(run.status == 0 && run.out.contains("card create"));
}

#[test]
fn bad_files_are_said_in_a_sentence() {
    let folder = Folder::with_card("files");
    folder.done("create a.mst a.xrf 24=Kite");
    folder.refused(
        "check none.mst a.xrf",
        66,
        "none.mst: cannot be read: there is no such file",
    );
    folder.refused("check a.mst none.xrf", 66, "none.xrf");
    folder.refused("check . a.xrf", 66, "this is a folder");
    folder.refused("format a.mst b.xrf 1 1", 66, "exists already");
    folder.write("odd.mst", &[0; 513]);
    folder.write("short.mst", &[0; 40]);
    folder.write("empty.mst", &[]);
    for name in ["odd", "short", "empty"] {
        for command in ["check", "stat", "show", "draw"] {
            let words = format!("{command} {name}.mst a.xrf");
            folder.refused(&words, 1, &format!("{name}.mst has"));
        }
        folder.refused(&format!("create {name}.mst a.xrf 24=x"), 1, "answer 1");
        folder.refused(&format!("format {name}.mst a.xrf --erase"), 1, "answer 1");
    }
    folder.refused("check a.mst odd.mst", 1, "odd.mst has 513 bytes");
}

#[test]
fn a_file_that_may_not_be_written_is_left_alone() {
    let folder = Folder::with_card("readonly");
    folder.done("create a.mst a.xrf 24=Kite");
    for name in ["a.mst", "a.xrf"] {
        let path = folder.0.join(name);
        let before = fs::metadata(&path).unwrap().permissions();
        let mut readonly = before.clone();
        readonly.set_readonly(true);
        fs::set_permissions(&path, readonly).unwrap();
        folder.refused(
            "settle a.mst a.xrf 1",
            66,
            "cannot be written: permission denied",
        );
        fs::set_permissions(&path, before).unwrap();
    }
    folder.done("settle a.mst a.xrf 1");
}

#[test]
fn a_file_longer_than_any_mst_is_refused_unread() {
    let folder = Folder::with_card("huge");
    let file = fs::File::create(folder.0.join("huge.mst")).unwrap();
    file.set_len(1_048_576 * 512).unwrap();
    let run = folder.card("check huge.mst a.xrf");
    assert_eq!(run.status, 1);
    assert!(run.err.contains("huge.mst has 536870912 bytes"), "{run:?}");
}

#[test]
fn names_that_are_links_stay_links() {
    let folder = Folder::with_card("links");
    std::os::unix::fs::symlink("a.mst", folder.0.join("link.mst")).unwrap();
    folder.done("create link.mst a.xrf 24=Kite");
    assert!(
        fs::symlink_metadata(folder.0.join("link.mst"))
            .unwrap()
            .is_symlink()
    );
    assert_eq!(
        folder.done("show a.mst a.xrf"),
        "MFN 1: live, new, pending\n     24  Kite\n"
    );
}
