//! The commands that make one call of the library and write the files back.

use crate::arguments::Arguments;
use crate::check::{About, not_migrated, refused};
use crate::fields::Given;
use crate::files::{Files, two_files};
use crate::layout::{BLOCK, MST_BLOCKS, XRF_BLOCKS};
use crate::say::print;
use crate::trouble::Trouble;
use isis::{Answer, Card, Refusal};
use std::path::PathBuf;

/// Makes a call on the card and, if it was accepted, writes the files back.
pub fn call<T>(
    files: Files,
    about: About,
    call: impl FnOnce(&mut Card) -> Answer<T>,
) -> Result<T, Trouble> {
    made(files, call, |refusal, files| refused(refusal, files, about))
}

/// The same, where a refusal has words of its own.
fn made<T>(
    mut files: Files,
    call: impl FnOnce(&mut Card) -> Answer<T>,
    refused: impl FnOnce(Refusal, &Files) -> Trouble,
) -> Result<T, Trouble> {
    let given = files.change(call, Answer::is_ok)?;
    given.map_err(|refusal| refused(refusal, &files))
}

/// `card format`: two new files, or two emptied ones.
pub fn format(mut arguments: Arguments) -> Result<(), Trouble> {
    let paths = arguments.files()?;
    two_files(&paths)?;
    if arguments.flag("--erase") {
        arguments.none_left()?;
        erase(paths)?;
    } else {
        let mut blocks = |most| {
            let word = arguments.wanted("two numbers of blocks, or --erase,")?;
            arguments.blocks(&word, most)
        };
        let (mst_blocks, xrf_blocks) = (blocks(MST_BLOCKS)?, blocks(XRF_BLOCKS)?);
        arguments.none_left()?;
        make(paths, mst_blocks, xrf_blocks)?;
    }
    print("formatted: an empty catalogue\n")
}

/// Empties the catalogue in two files that exist.
fn erase(paths: (PathBuf, PathBuf)) -> Result<(), Trouble> {
    let missing = |trouble| match (trouble, paths.0.exists() && paths.1.exists()) {
        (Trouble::File(words), false) => Trouble::File(format!(
            "{words}; --erase empties two files that exist, two numbers of blocks make new files"
        )),
        (trouble, _) => trouble,
    };
    let files = Files::read(paths.clone()).map_err(missing)?;
    call(files, About::default(), |card| card.format())
}

/// Makes two files of so many blocks.
fn make(paths: (PathBuf, PathBuf), mst_blocks: usize, xrf_blocks: usize) -> Result<(), Trouble> {
    let mut files = Files {
        mst_path: paths.0,
        xrf_path: paths.1,
        mst: vec![0; mst_blocks * BLOCK],
        xrf: vec![0; xrf_blocks * BLOCK],
    };
    Card::over(&mut files.mst, &mut files.xrf)
        .format()
        .map_err(|refusal| Trouble::Refused(refusal, String::new()))?;
    files.make()
}

/// `card migrate`.
pub fn migrate(mut arguments: Arguments) -> Result<(), Trouble> {
    let paths = arguments.files()?;
    arguments.none_left()?;
    made(Files::read(paths)?, |card| card.migrate(), not_migrated)?;
    print("migrated: NXTMFP counts from one\n")
}

/// `card create`.
pub fn create(mut arguments: Arguments) -> Result<(), Trouble> {
    let paths = arguments.files()?;
    let given = Given::read(&mut arguments)?;
    let about = About {
        mfn: None,
        given: Some(&given),
    };
    let draft = given.draft();
    let mfn = call(Files::read(paths)?, about, |card| {
        card.create_from(draft.lists())
    })?;
    print(&format!("created: MFN {mfn}, new, pending\n"))
}

/// `card update`.
pub fn update(mut arguments: Arguments) -> Result<(), Trouble> {
    let paths = arguments.files()?;
    let mfn = arguments.mfn()?;
    let given = Given::read(&mut arguments)?;
    let about = About {
        mfn: Some(mfn),
        given: Some(&given),
    };
    let draft = given.draft();
    call(Files::read(paths)?, about, |card| {
        card.update_from(mfn, draft.lists())
    })?;
    print(&format!("updated: MFN {mfn}, pending\n"))
}

/// A command that names an MFN and nothing more.
fn named(
    mut arguments: Arguments,
    done: &str,
    act: fn(&mut Card, u32) -> Answer<()>,
) -> Result<(), Trouble> {
    let paths = arguments.files()?;
    let mfn = arguments.mfn()?;
    arguments.none_left()?;
    let about = About {
        mfn: Some(mfn),
        given: None,
    };
    call(Files::read(paths)?, about, |card| act(card, mfn))?;
    print(&(done.replace('#', &mfn.to_string()) + "\n"))
}

/// `card delete`.
pub fn delete(arguments: Arguments) -> Result<(), Trouble> {
    named(arguments, "deleted: MFN #, pending", |card, mfn| {
        card.delete(mfn)
    })
}

/// `card revert`.
pub fn revert(arguments: Arguments) -> Result<(), Trouble> {
    named(
        arguments,
        "reverted: MFN # is its settled version again",
        |card, mfn| card.revert(mfn),
    )
}
