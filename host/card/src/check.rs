//! `card check`, and the words beside a refusal's number: the library answers, and a
//! second reading of the same bytes says what is wrong and where.

use crate::arguments::Arguments;
use crate::count;
use crate::faults;
use crate::fields::Given;
use crate::files::Files;
use crate::layout::{BLOCK, COUNT_FROM, LAST, MST_BLOCKS, Store, XRF_BLOCKS, long, short, slots};
use crate::progress::with_progress;
use crate::say::print;
use crate::trouble::Trouble;
use isis::{Card, Refusal};

/// At most so many faults are listed.
const LISTED: usize = 20;

/// What a refused call was about, for the words beside its number.
#[derive(Clone, Copy, Default)]
pub struct About<'a> {
    /// The MFN that was named.
    pub mfn: Option<u32>,
    /// The fields that were given.
    pub given: Option<&'a Given>,
}

/// `card check`.
pub fn check(mut arguments: Arguments) -> Result<(), Trouble> {
    let paths = arguments.files()?;
    arguments.none_left()?;
    let files = Files::read(paths)?;
    match with_progress("checking", || files.card().check()) {
        Ok(()) => print("sound\n"),
        Err(refusal) => Err(with_progress("looking for what is wrong", || {
            refused(refusal, &files, About::default())
        })),
    }
}

/// The card, if the library lets it through its answers 1 and 2.
pub fn opened(files: &Files) -> Result<Store<'_>, Trouble> {
    files
        .store()
        .map_err(|refusal| refused(refusal, files, About::default()))
}

/// A refusal, with what was found behind it; of an old card, that it is one and what to do.
pub fn refused(refusal: Refusal, files: &Files, about: About) -> Trouble {
    if refusal == Refusal::BadControl && is_old(files) {
        let path = files.mst_path.display();
        let words = format!(
            "{path}: this is an old card, whose NXTMFP does not count from one; \
             'card migrate MST XRF' brings it up to date"
        );
        return Trouble::Instead(refusal, words);
    }
    Trouble::Refused(refusal, reason(refusal, files, about))
}

/// Whether the library would migrate the card.
fn is_old(files: &Files) -> bool {
    let (mut mst, mut xrf) = (files.mst.clone(), files.xrf.clone());
    Card::over(&mut mst, &mut xrf).migrate().is_ok()
}

/// A refusal of a migration: there is nothing to do, or the card is not right by the old rule.
pub fn not_migrated(refusal: Refusal, files: &Files) -> Trouble {
    let path = files.mst_path.display();
    match (refusal, files.store()) {
        (Refusal::BadControl, Ok(_)) => {
            let words = format!("{path}: this is no old card, and nothing is to be done");
            Trouble::Instead(refusal, words)
        }
        (Refusal::BadControl, Err(_)) => {
            let words = control(files, 0).unwrap_or_default();
            Trouble::Refused(refusal, format!("{path}: {words}"))
        }
        _ => refused(refusal, files, About::default()),
    }
}

/// What was found behind a refusal, in words; empty if the number says it all.
fn reason(refusal: Refusal, files: &Files, about: About) -> String {
    match (refusal, files.store()) {
        (Refusal::BadLength, _) => lengths(files),
        (Refusal::BadControl, store) => {
            let path = files.mst_path.display();
            let at_an_end = || store.ok().map(|store| count::at_an_end(&store));
            let words = control(files, COUNT_FROM).or_else(at_an_end);
            words.map_or(String::new(), |words| format!("{path}: {words}"))
        }
        (Refusal::BadDraft, _) => about.given.map(draft).unwrap_or_default(),
        (_, Ok(store)) => in_store(refusal, &store, about),
        (_, Err(_)) => String::new(),
    }
}

/// What was found on a card whose lengths and control record are right.
fn in_store(refusal: Refusal, store: &Store, about: About) -> String {
    match (refusal, about) {
        (Refusal::NoMfn, _) if store.next == 1 => "the catalogue is empty".into(),
        (Refusal::NoMfn, _) => format!("MFNs 1 to {} are given out", store.next - 1),
        (Refusal::BadEntry, About { mfn: None, .. }) => faults::of_next(store).unwrap_or_default(),
        (Refusal::BadEntry | Refusal::BadRecord, About { mfn: Some(mfn), .. }) => {
            faults::of_mfn(store, mfn as usize).unwrap_or_default()
        }
        (Refusal::NoRoom, about) => {
            let free = store.mst.len() - store.end;
            match about.given.map(Given::need) {
                Some(need) => format!("the record needs {need} bytes and {free} are free"),
                None => format!("{free} bytes are free"),
            }
        }
        (Refusal::NotSound, _) => listed(&faults::causes(store)),
        _ => String::new(),
    }
}

/// Why a draft is too long.
fn draft(given: &Given) -> String {
    match &given.too_long {
        Some(name) => format!("{name} is longer than a record can hold"),
        None => {
            let need = given.need();
            format!("it needs {need} bytes, and a record has at most 32766")
        }
    }
}

/// The faults, one on a line.
fn listed(found: &[String]) -> String {
    let lines = found.iter().take(LISTED);
    let mut words: String = lines.map(|fault| format!("\n  {fault}")).collect();
    if found.len() > LISTED {
        words += &format!("\n  and {} more", found.len() - LISTED);
    }
    words
}

/// Which file has a length that is not permitted.
fn lengths(files: &Files) -> String {
    let [mst, xrf] = [
        (&files.mst_path, files.mst.len(), MST_BLOCKS),
        (&files.xrf_path, files.xrf.len(), XRF_BLOCKS),
    ];
    let wrong = |(_, len, most): &(_, usize, usize)| !is_permitted(*len, *most);
    let found = [mst, xrf].into_iter().find(wrong);
    found.map_or(String::new(), |(path, len, _)| {
        format!("{} has {len} bytes", path.display())
    })
}

/// Whether a length is whole blocks, one or more and not too many.
pub fn is_permitted(len: usize, most: usize) -> bool {
    len.is_multiple_of(BLOCK) && (1..=most).contains(&(len / BLOCK))
}

/// What is wrong with the control record of files whose lengths are permitted, where NXTMFP
/// counts the end's offset from a number.
fn control(files: &Files, from: usize) -> Option<String> {
    let (mst, most) = (&files.mst, slots(&files.xrf) as i64 + 1);
    let (ctlmfn, next, kind) = (long(mst, 0), long(mst, 4), short(mst, 14));
    let (block, count) = (long(mst, 8), short(mst, 12));
    let offset = count.checked_sub(from);
    let offset = offset.filter(|offset| offset % 2 == 0 && *offset <= LAST);
    let end = offset.map(|offset| (i64::from(block) - 1) * BLOCK as i64 + offset as i64);
    let in_file = end.is_some_and(|end| (64..=mst.len() as i64).contains(&end));
    if ctlmfn != 0 {
        Some(format!("CTLMFN (MST byte 0) is {ctlmfn}, not 0"))
    } else if !(1..=most).contains(&next.into()) {
        Some(format!("NXTMFN (MST byte 4) is {next}, not in 1 to {most}"))
    } else if !in_file {
        let counted = if from == 0 { "" } else { ", plus 1," };
        Some(format!(
            "the end, NXTMFB {block} and NXTMFP {count} (MST bytes 8 and 12), is not \
             an even offset up to 498{counted} at an address from 64 to the file's length"
        ))
    } else if kind != 0 {
        Some(format!("MFTYPE (MST byte 14) is {kind}, not 0"))
    } else {
        None
    }
}
