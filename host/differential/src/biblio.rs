//! A card as Biblio::Isis reads it (Debian's libbiblio-isis-perl): a reader that was not
//! written here. It leaves out deleted records, unless told, and empty fields.

use std::fs;
use std::process::{Command, Output};
use std::sync::atomic::{AtomicUsize, Ordering};

/// A record's fields in directory order.
pub type Fields = Vec<(u16, Vec<u8>)>;

/// What the reader is asked for.
#[derive(Clone, Copy, PartialEq, Eq)]
pub enum Asked {
    /// The records that are not deleted.
    Live,
    /// Deleted ones too.
    Deleted,
}

/// A line for each field that the reader finds: MFN, tag and the bytes in hexadecimal; by
/// MFN, then by tag, then in their order.
pub fn read(mst: &[u8], xrf: &[u8], asked: Asked) -> String {
    static CARDS: AtomicUsize = AtomicUsize::new(0);
    let card = CARDS.fetch_add(1, Ordering::Relaxed);
    let folder = std::env::temp_dir().join(format!("isis-biblio-{}-{card}", std::process::id()));
    fs::create_dir_all(&folder).unwrap();
    fs::write(folder.join("card.MST"), mst).unwrap();
    fs::write(folder.join("card.XRF"), xrf).unwrap();
    let output = perl(&[
        concat!(env!("CARGO_MANIFEST_DIR"), "/tests/read_all.pl"),
        folder.join("card").to_str().expect("a plain path"),
        if asked == Asked::Deleted { "1" } else { "0" },
    ]);
    fs::remove_dir_all(&folder).unwrap();
    assert!(output.status.success(), "{output:?}");
    String::from_utf8(output.stdout).unwrap()
}

fn perl(words: &[&str]) -> Output {
    let there = Command::new("perl")
        .args(["-MBiblio::Isis", "-e", "1"])
        .output()
        .is_ok_and(|output| output.status.success());
    assert!(
        there,
        "Biblio::Isis is missing, so this test cannot be run: apt-get install libbiblio-isis-perl"
    );
    Command::new("perl").args(words).output().unwrap()
}

/// The lines that the reader must give for a record.
pub fn lines(mfn: u32, fields: &[(u16, Vec<u8>)]) -> String {
    let mut sorted: Vec<_> = fields
        .iter()
        .filter(|(_, bytes)| !bytes.is_empty())
        .collect();
    sorted.sort_by_key(|(tag, _)| *tag);
    let line = |(tag, bytes): &(u16, Vec<u8>)| {
        let hex: String = bytes.iter().map(|byte| format!("{byte:02x}")).collect();
        format!("{mfn} {tag} {hex}\n")
    };
    sorted.into_iter().map(line).collect()
}
