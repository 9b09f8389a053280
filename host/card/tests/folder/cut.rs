//! A write of a card that is cut short after some steps, and the card opened again.

use super::Folder;
use card::replace::{Change, Replacement, STEPS};
use std::fs;
use std::path::{Path, PathBuf};

/// So many steps leave both new files complete; none is renamed.
pub const COMPLETE: usize = 5;

/// So many steps leave the MST replaced and the XRF not.
pub const HALF: usize = 7;

/// Every call that writes, on the card that `worked` makes.
pub const CALLS: [&str; 8] = [
    "create a.mst a.xrf 24=Wind",
    "update a.mst a.xrf 1 24=Kites_and_winds", // at the end
    "update a.mst a.xrf 3 24=Tre",             // in place
    "delete a.mst a.xrf 1",
    "settle a.mst a.xrf 2",
    "settle a.mst a.xrf 3",
    "revert a.mst a.xrf 2",
    "format a.mst a.xrf --erase",
];

/// The bytes of an MST and an XRF.
pub type Card = (Vec<u8>, Vec<u8>);

/// What a cut does to the file that was being written.
pub const TEARS: [fn(&mut Vec<u8>); 4] = [
    |bytes| bytes.clear(),
    |bytes| bytes.truncate(bytes.len() / 2),
    |bytes| bytes.fill(0),
    |bytes| {
        bytes.pop();
    },
];

/// A card with a settled record, a changed one and a new one.
pub fn worked(name: &str) -> Folder {
    let folder = Folder::with_card(name);
    for field in ["24=one", "24=two", "24=three"] {
        folder.done(&format!("create a.mst a.xrf {field} 70=x"));
    }
    folder.done("settle a.mst a.xrf 1");
    folder.done("settle a.mst a.xrf 2");
    folder.done("update a.mst a.xrf 2 24=second");
    folder
}

/// The card in the folder.
pub fn card_in(folder: &Folder) -> Card {
    (folder.read("a.mst"), folder.read("a.xrf"))
}

/// The card before a call and after it; the folder has the one before.
pub fn before_and_after(folder: &Folder, call: &str) -> (Card, Card) {
    let before = card_in(folder);
    folder.done(call);
    let after = card_in(folder);
    put(folder, &before);
    assert!(before != after, "{call}");
    (before, after)
}

/// Puts a card into the folder.
pub fn put(folder: &Folder, card: &Card) {
    folder.write("a.mst", &card.0);
    folder.write("a.xrf", &card.1);
}

/// A write at these places, of which nothing is done yet.
pub fn write<'a>(
    mst: &Path,
    xrf: &Path,
    before: Option<&'a Card>,
    after: &'a Card,
) -> Replacement<'a> {
    let real = |path: &Path| {
        let folder = fs::canonicalize(path.parent().unwrap()).unwrap();
        folder.join(path.file_name().unwrap())
    };
    let mst = Change {
        path: real(mst),
        before: before.map(|card| &card.0[..]),
        after: &after.0,
    };
    let xrf = Change {
        path: real(xrf),
        before: before.map(|card| &card.1[..]),
        after: &after.1,
    };
    Replacement::new(mst, xrf)
}

/// Takes the first steps of a write in the folder; then the power is cut.
pub fn cut(folder: &Folder, before: Option<&Card>, after: &Card, steps: usize) {
    let (mst, xrf) = (folder.0.join("a.mst"), folder.0.join("a.xrf"));
    let mut write = write(&mst, &xrf, before, after);
    for step in &STEPS[..steps] {
        step(&mut write).unwrap();
    }
}

/// The files of the folder beside the card.
pub fn beside(folder: &Folder) -> Vec<PathBuf> {
    let of_card = [folder.0.join("a.mst"), folder.0.join("a.xrf")];
    let files = folder.files().into_iter().map(|(path, _)| path);
    files.filter(|path| !of_card.contains(path)).collect()
}

/// The file beside the card whose name ends so.
pub fn the_one(folder: &Folder, start: &str, end: &str) -> Option<PathBuf> {
    let named = |path: &PathBuf| {
        let name = path.file_name().unwrap().to_str().unwrap();
        name.starts_with(start) && name.ends_with(end)
    };
    beside(folder).into_iter().find(named)
}

/// The file that is being written in a step, if it writes one.
pub fn written_in(folder: &Folder, steps: usize) -> Option<PathBuf> {
    match steps {
        3 => the_one(folder, "a.mst", ".card-intent"),
        4 => the_one(folder, "a.mst", ".new"),
        5 => the_one(folder, "a.xrf", ".new"),
        _ => None,
    }
}

/// Runs `card check`, which must find a sound card, that one, with nothing beside it, and
/// say in a sentence what it did if there was something.
pub fn opens_as(folder: &Folder, card: &Card, done: Option<&str>, what: &str) {
    let run = folder.card("check a.mst a.xrf");
    assert_eq!(
        (run.status, run.out.as_str()),
        (0, "sound\n"),
        "{what}: {run:?}"
    );
    match done {
        None => assert_eq!(run.err, "", "{what}"),
        Some(part) => {
            assert!(
                run.err.starts_with("card: ") && run.err.contains(part),
                "{what}: {run:?}"
            );
            assert_eq!(run.err.lines().count(), 1, "{what}: {run:?}");
        }
    }
    assert!(card_in(folder) == *card, "{what}: other bytes");
    assert!(beside(folder).is_empty(), "{what}: {:?}", beside(folder));
    assert_eq!(folder.done("check a.mst a.xrf"), "sound\n", "{what}");
}
