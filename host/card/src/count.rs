//! RECCNT, the number of records that are neither deleted nor gone: `card recount`, and the words
//! of the other commands about a number that is wrong or leaves no room.

use crate::arguments::Arguments;
use crate::calls;
use crate::check::About;
use crate::files::Files;
use crate::layout::{Entry, RECCNT, Store, long};
use crate::progress::with_progress;
use crate::say::print;
use crate::trouble::Trouble;
use isis::{Answer, Card};

/// What a person does about it.
const RECOUNT: &str = "'card recount MST XRF'";

/// `card recount`.
pub fn recount(mut arguments: Arguments) -> Result<(), Trouble> {
    let paths = arguments.files()?;
    arguments.none_left()?;
    let (before, after) = calls::call(Files::read(paths)?, About::default(), counted)?;
    print(&if before == after {
        format!("recounted: RECCNT is {after}, as it was\n")
    } else {
        format!("recounted: RECCNT was {before} and is {after}\n")
    })
}

/// Recounts; gives the number before and after. `next` is refused by 1 and 2, so behind it the
/// four bytes are there.
fn counted(card: &mut Card) -> Answer<(i32, i32)> {
    card.next()?;
    let before = long(card.mst(), RECCNT);
    with_progress("counting", || card.recount())?;
    Ok((before, long(card.mst(), RECCNT)))
}

/// RECCNT of a card.
pub fn of(store: &Store) -> i32 {
    long(store.mst, RECCNT)
}

/// How many records have an entry that is neither deleted nor gone: what RECCNT should be.
pub fn live(store: &Store) -> usize {
    let live = |mfn: &usize| matches!(store.entry(*mfn), Entry::At(place) if !place.deleted);
    (1..store.next).filter(live).count()
}

/// That RECCNT is not the number of live records, on a store where all else is right.
pub fn fault(store: &Store) -> Option<String> {
    let (found, live) = (of(store), live(store));
    (i64::from(found) != live as i64).then(|| {
        let are = if live == 1 {
            "record is"
        } else {
            "records are"
        };
        format!(
            "RECCNT (MST byte {RECCNT}) is {found}, and {live} {are} live; all else is sound, and \
             {RECOUNT} mends it"
        )
    })
}

/// Why a call is refused whose control record is right: RECCNT cannot grow or fall.
pub fn at_an_end(store: &Store) -> String {
    let found = of(store);
    let why = match found {
        i32::MAX => "the greatest number there is",
        _ => "which leaves no record to delete",
    };
    format!(
        "RECCNT (MST byte {RECCNT}) is {found}, {why}; where all else is sound, {RECOUNT} writes \
         the right one"
    )
}
