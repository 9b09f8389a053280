//! `card draw` writes a picture where it is told to and harms nothing: a link is followed, a
//! FIFO is written to and stays one, and what is no picture of a card is only replaced on
//! demand.

mod folder;

use folder::Folder;
use std::fs;
use std::os::unix::fs::{FileTypeExt, symlink};
use std::process::Command;

/// A folder with a card of one record, and its picture.
fn with_picture(name: &str) -> (Folder, String) {
    let folder = Folder::with_card(name);
    folder.done("create a.mst a.xrf 24=Kite");
    let picture = folder.done("draw a.mst a.xrf");
    (folder, picture)
}

/// Another card, or any other file, is not drawn over.
#[test]
fn a_file_that_is_no_picture_is_let_be() {
    let (folder, picture) = with_picture("draw-others");
    folder.done("format b.mst b.xrf 2 1");
    folder.write("notes", b"<svg are nice</svg>\n");
    folder.write("empty", b"");
    folder.write(
        "other.svg",
        b"<svg xmlns=\"http://www.w3.org/2000/svg\"><rect/></svg>\n",
    );
    for name in ["b.mst", "b.xrf", "notes", "empty", "other.svg"] {
        let words = format!("draw a.mst a.xrf {name}");
        folder.refused(&words, 66, "is no picture of a card");
        folder.refused(&words, 66, "--replace");
    }
    folder.done("draw a.mst a.xrf notes --replace");
    folder.done("draw a.mst a.xrf --replace empty");
    assert!(folder.read("notes") == picture.as_bytes());
    assert!(folder.read("empty") == picture.as_bytes());
}

#[test]
fn a_picture_is_drawn_anew() {
    let (folder, first) = with_picture("draw-again");
    folder.done("draw a.mst a.xrf a.svg");
    assert!(folder.read("a.svg") == first.as_bytes());
    folder.done("settle a.mst a.xrf 1");
    folder.done("draw a.mst a.xrf a.svg");
    let second = folder.done("draw a.mst a.xrf -");
    assert!(folder.read("a.svg") == second.as_bytes());
    assert!(first != second);
}

#[test]
fn links_are_followed_and_stay() {
    let (folder, picture) = with_picture("draw-links");
    fs::create_dir(folder.0.join("sub")).unwrap();
    for (link, to) in [
        ("one.svg", "sub/one.svg"),
        ("two.svg", "one.svg"),
        ("three.svg", "two.svg"),
    ] {
        symlink(to, folder.0.join(link)).unwrap();
    }
    for name in ["three.svg", "one.svg"] {
        folder.done(&format!("draw a.mst a.xrf {name}"));
        assert!(folder.read("sub/one.svg") == picture.as_bytes());
        fs::write(folder.0.join("sub/one.svg"), &picture).unwrap();
    }
    for link in ["one.svg", "two.svg", "three.svg"] {
        assert!(
            fs::symlink_metadata(folder.0.join(link))
                .unwrap()
                .is_symlink(),
            "{link}"
        );
    }
    symlink("turn.svg", folder.0.join("turn.svg")).unwrap();
    folder.refused(
        "draw a.mst a.xrf turn.svg",
        66,
        "turn.svg: cannot be written",
    );
    assert_eq!(fs::read_dir(folder.0.join("sub")).unwrap().count(), 1);
}

/// The card's own files under whatever name, also with leave to replace.
#[test]
fn the_card_itself_is_never_drawn_over() {
    let (folder, _) = with_picture("draw-itself");
    symlink("a.mst", folder.0.join("link")).unwrap();
    fs::hard_link(folder.0.join("a.xrf"), folder.0.join("hard")).unwrap();
    for name in [
        "a.mst",
        "a.xrf",
        "./a.mst",
        "link",
        "hard",
        "a.mst.card-intent",
    ] {
        for flag in ["", " --replace"] {
            let words = format!("draw a.mst a.xrf {name}{flag}");
            folder.refused(&words, 64, "a file of the card itself");
        }
    }
    fs::create_dir(folder.0.join("sub")).unwrap();
    folder.refused("draw a.mst a.xrf sub", 66, "a folder");
    folder.refused("draw a.mst a.xrf none/a.svg", 66, "there is no folder none");
}

/// A FIFO is written to, so that its reader has the picture.
#[test]
fn a_fifo_gets_the_picture_and_stays() {
    let (folder, picture) = with_picture("draw-fifo");
    let fifo = folder.0.join("fifo");
    assert!(
        Command::new("mkfifo")
            .arg(&fifo)
            .status()
            .unwrap()
            .success()
    );
    symlink("fifo", folder.0.join("to-fifo")).unwrap();
    for name in ["fifo", "to-fifo"] {
        let reader = {
            let fifo = fifo.clone();
            std::thread::spawn(move || fs::read_to_string(fifo).unwrap())
        };
        let drawn = folder.card(&format!("draw a.mst a.xrf {name}"));
        let still = fs::metadata(&fifo).unwrap().file_type().is_fifo();
        if !still {
            // The reader waits for a writer that never came.
            panic!("{name}: the FIFO was replaced");
        }
        assert_eq!(
            (drawn.status, reader.join().unwrap() == picture),
            (0, true),
            "{name}"
        );
    }
}

/// What cannot be written whole leaves the file as it was.
#[test]
fn a_picture_that_cannot_be_written_leaves_the_old_one() {
    let (folder, _) = with_picture("draw-fails");
    let name = "x".repeat(250);
    folder.refused(&format!("draw a.mst a.xrf {name}"), 66, "cannot be written");
}
