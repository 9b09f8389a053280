//! Reading all records of a card, against Biblio::Isis (Debian's libbiblio-isis-perl).

use crate::cards::{Kind, card, draft};
use crate::clock::{time, words};
use isis::Card;
use std::fs;
use std::hint::black_box;
use std::process::Command;
use std::time::Duration;

const RECORDS: usize = 5_000;
const FIELDS: u16 = 20;

/// Prints both times and the ratio.
pub fn run() {
    let mut card = card(RECORDS, &draft(FIELDS, 30), Kind::Settled);
    let theirs = perl(&card.mst, &card.xrf);
    let card = Card::over(&mut card.mst, &mut card.xrf);
    let ours = (0..5)
        .map(|_| time(|| read(&card)))
        .min()
        .unwrap_or_default();
    let what = format!("Reading {RECORDS} records of {FIELDS} fields");
    match theirs {
        None => println!(
            "{what}: {}; Biblio::Isis is not installed.",
            words(ours.as_secs_f64())
        ),
        Some(theirs) => println!(
            "{what}: library {}, Biblio::Isis {}, ratio {:.4}.",
            words(ours.as_secs_f64()),
            words(theirs.as_secs_f64()),
            ours.as_secs_f64() / theirs.as_secs_f64()
        ),
    }
}

/// Has every field of every record handed out.
fn read(card: &Card) {
    for mfn in 1..=RECORDS as u32 {
        let fields = card.fields(mfn).expect("the record is there");
        assert_eq!(fields.map(black_box).count(), usize::from(FIELDS));
    }
}

/// The time that Biblio::Isis takes; `None` if it is not installed.
fn perl(mst: &[u8], xrf: &[u8]) -> Option<Duration> {
    let folder = std::env::temp_dir().join(format!("isis-bench-{}", std::process::id()));
    fs::create_dir_all(&folder).ok()?;
    fs::write(folder.join("card.MST"), mst).ok()?;
    fs::write(folder.join("card.XRF"), xrf).ok()?;
    let output = Command::new("perl")
        .arg(concat!(env!("CARGO_MANIFEST_DIR"), "/src/read_all.pl"))
        .arg(folder.join("card"))
        .output();
    let _ = fs::remove_dir_all(&folder);
    let printed = String::from_utf8(output.ok()?.stdout).ok()?;
    let (seconds, fields) = printed.trim().split_once(' ')?;
    assert_eq!(fields.parse(), Ok(RECORDS * usize::from(FIELDS)));
    Some(Duration::from_secs_f64(seconds.parse().ok()?))
}
