//! `card settle`: all MFNs that are named are settled, and the two files replaced once for all of
//! them. What is refused has a line of its own, and the rest is settled all the same.

use crate::arguments::{Arguments, Named};
use crate::check::{About, opened, refused};
use crate::files::Files;
use crate::layout::{SLOTS, XRF_BLOCKS};
use crate::progress::with_progress;
use crate::say::{Lines, print, tell};
use crate::trouble::Trouble;
use isis::{Answer, Mark, Refusal};

/// The most MFNs that one command settles: as many as a card can have.
const MOST: usize = XRF_BLOCKS * SLOTS;

/// `card settle`.
pub fn settle(mut arguments: Arguments) -> Result<(), Trouble> {
    let paths = arguments.files()?;
    let named = arguments.named()?;
    let mut files = Files::read(paths)?;
    let mfns = mfns(&named, &files)?;
    let what = format!("settling {} MFNs", mfns.len());
    let answers = files.change(
        |card| with_progress(&what, || card.settle_all(&mfns)),
        |answers| answers.iter().any(Answer::is_ok),
    )?;
    let alone = mfns.len() == 1;
    match first_refused(&mfns, &answers, &files) {
        None if alone => print(&format!("settled: MFN {}\n", mfns[0])),
        None => told(&mfns, &answers),
        Some((refusal, trouble)) => {
            let of_card = matches!(refusal, Refusal::BadLength | Refusal::BadControl);
            if !alone && !of_card {
                told(&mfns, &answers).unwrap_or_else(tell);
            }
            Err(trouble)
        }
    }
}

/// The first refusal, with what was found behind it.
fn first_refused(
    mfns: &[u32],
    answers: &[Answer<()>],
    files: &Files,
) -> Option<(Refusal, Trouble)> {
    let mut all = mfns.iter().zip(answers);
    let (&mfn, refusal) = all.find_map(|(mfn, answer)| Some((mfn, answer.err()?)))?;
    let about = About {
        mfn: Some(mfn),
        given: None,
    };
    Some((refusal, refused(refusal, files, about)))
}

/// A line for each refusal, and how many were settled.
fn told(mfns: &[u32], answers: &[Answer<()>]) -> Result<(), Trouble> {
    let mut out = Lines::new();
    for (mfn, answer) in mfns.iter().zip(answers) {
        if let Err(refusal) = answer {
            let refused = Trouble::Refused(*refusal, String::new());
            out.add(format!("MFN {mfn}: {refused}\n"));
        }
    }
    let (done, all) = (answers.iter().flatten().count(), mfns.len());
    out.add(match (done, all) {
        (_, 0) => "settled: nothing is pending\n".into(),
        _ if done == all => format!("settled: {all} MFNs\n"),
        _ => format!("settled: {done} of {all} MFNs\n"),
    });
    out.end()
}

/// All MFNs that are named, in order.
fn mfns(named: &[Named], files: &Files) -> Result<Vec<u32>, Trouble> {
    let mut mfns = Vec::new();
    for named in named {
        match named {
            Named::Mfns(range) => {
                let count = (range.end() - range.start()) as usize;
                if count >= MOST - mfns.len().min(MOST) {
                    let words = format!("more than {MOST} MFNs are named, and no card has so many");
                    return Err(Trouble::Usage(words));
                }
                mfns.extend(range.clone());
            }
            Named::All => mfns.extend(pending(files)?),
        }
    }
    Ok(mfns)
}

/// Every MFN on which something is pending, and those of which that cannot be told.
fn pending(files: &Files) -> Result<Vec<u32>, Trouble> {
    let last = opened(files)?.next - 1;
    let (what, card) = ("looking for what is pending", files.card());
    let open = |mfn: &u32| match card.state(*mfn) {
        Ok(state) => state.mark != Mark::Settled,
        Err(refusal) => refusal != Refusal::Gone,
    };
    let all = 1..=last as u32;
    Ok(with_progress(what, || all.filter(open).collect()))
}
