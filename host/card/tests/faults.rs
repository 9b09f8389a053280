//! `card check` names the first cause and then what is independent of it, not what follows
//! from it; and what it names never contradicts the library's answer.

mod folder;

use folder::Folder;

/// Bytes of a record `24=Kite`, and where the record of an MFN stands: the card has one
/// after the other, and an offset past 498 moves on to the next block.
const LENGTH: usize = 28;

fn record_at(mfn: usize) -> usize {
    let mut at = 64;
    for _ in 1..mfn {
        at += LENGTH;
        if at % 512 > 498 {
            at = at.next_multiple_of(512);
        }
    }
    at
}

/// A card of thirty records that is sound.
fn thirty(name: &str) -> Folder {
    let folder = Folder::with_card(name);
    for _ in 0..30 {
        folder.done("create a.mst a.xrf 24=Kite");
    }
    assert_eq!(folder.done("check a.mst a.xrf"), "sound\n");
    folder
}

/// What `card check` finds, a line each.
fn found(folder: &Folder) -> Vec<String> {
    let run = folder.card("check a.mst a.xrf");
    assert_eq!(run.status, 14, "{run:?}");
    let mut lines = run.err.lines().map(str::trim);
    assert_eq!(
        lines.next(),
        Some("card: refused, answer 14: the store is not sound:")
    );
    lines.map(String::from).collect()
}

/// Finds exactly these, each line with its part in it.
fn finds(folder: &Folder, parts: &[String]) {
    let lines = found(folder);
    assert_eq!(lines.len(), parts.len(), "{lines:#?}");
    for (line, part) in lines.iter().zip(parts) {
        assert!(line.contains(part.as_str()), "{part}: {lines:#?}");
    }
}

fn put(folder: &Folder, at: usize, value: u16) {
    folder.damage("a.mst", at, &value.to_le_bytes());
}

fn put_entry(folder: &Folder, mfn: usize, value: i32) {
    folder.damage("a.xrf", 4 * mfn, &value.to_le_bytes());
}

fn entry(folder: &Folder, mfn: usize) -> i32 {
    i32::from_le_bytes(folder.read("a.xrf")[4 * mfn..][..4].try_into().unwrap())
}

/// One bad MFRL, of each kind, and then two faults that have nothing to do with it.
#[test]
fn one_bad_length_is_one_fault() {
    let folder = thirty("faults-length");
    let at = record_at(2);
    for mfrl in [0, 17, 27, 29, 26, 30, 56, 280, 32_766, 65_535] {
        put(&folder, at + 4, mfrl);
        let cause = format!("MST byte {at}");
        finds(&folder, std::slice::from_ref(&cause));
        put(&folder, record_at(25) + 12, 25);
        put_entry(&folder, 28, 1536);
        let others = ["MFN 25: leader".to_string(), "MFN 28, XRF byte".to_string()];
        finds(&folder, &[vec![cause], others.to_vec()].concat());
        put(&folder, record_at(25) + 12, 24);
        put_entry(&folder, 28, entry_of(28));
    }
}

/// The entry of a new record at its place.
fn entry_of(mfn: usize) -> i32 {
    let at = record_at(mfn);
    ((at / 512 + 1) * 2048 + at % 512 + 1024) as i32
}

#[test]
fn two_bad_lengths_are_two_faults() {
    let folder = thirty("faults-two");
    assert_eq!(entry(&folder, 28), entry_of(28));
    for (one, other) in [(0, 0), (30, 0), (0, 30), (26, 26), (56, 32_766)] {
        put(&folder, record_at(3) + 4, one);
        put(&folder, record_at(20) + 4, other);
        let parts = [3, 20].map(|mfn| format!("MST byte {}", record_at(mfn)));
        finds(&folder, &parts);
    }
}

/// A version that no entry leads to any more can break the steps too.
#[test]
fn a_lost_version_with_a_bad_length() {
    let folder = thirty("faults-lost");
    folder.done("settle a.mst a.xrf 4");
    folder.done("update a.mst a.xrf 4 24=Kites");
    folder.done("settle a.mst a.xrf 4");
    assert_eq!(folder.done("check a.mst a.xrf"), "sound\n");
    for mfrl in [0, 29, 30, 56] {
        put(&folder, record_at(4) + 4, mfrl);
        finds(&folder, &[format!("MST byte {}", record_at(4))]);
    }
}

/// Numbers of the control record that are wrong, but not in themselves.
#[test]
fn a_wrong_count_or_end_is_one_fault() {
    let folder = thirty("faults-control");
    folder.damage("a.mst", 4, &[10]);
    finds(&folder, &["MFN 10 was never given out".into()]);
    assert!(found(&folder)[0].contains("20 more"));
    folder.damage("a.mst", 4, &[60]);
    finds(&folder, &["MFN 31".into()]);
    assert!(found(&folder)[0].contains("28 more"));
    folder.damage("a.mst", 4, &[31]);
    let end = record_at(10);
    folder.damage("a.mst", 8, &(end as u32 / 512 + 1).to_le_bytes());
    put(&folder, 12, end as u16 % 512 + 1);
    finds(&folder, &["MFN 10".into()]);
    assert!(found(&folder)[0].contains("20 more"));
}

/// An end in the middle of a record: what runs past it and what leads past it are one.
#[test]
fn an_end_inside_a_record_is_one_fault() {
    let folder = thirty("faults-end");
    let end = record_at(9) + 20;
    folder.damage("a.mst", 8, &(end as u32 / 512 + 1).to_le_bytes());
    put(&folder, 12, end as u16 % 512 + 1);
    finds(&folder, &["MFN 10".into()]);
    folder.done("format a.mst a.xrf --erase");
    folder.done("create a.mst a.xrf 24=Kite");
    put(&folder, 12, 85);
    finds(&folder, &["it runs past the end, 84".into()]);
}

/// A block of the XRF that is misnumbered is one fault, and hides none of its entries'.
#[test]
fn a_misnumbered_block_is_one_fault() {
    let folder = thirty("faults-block");
    folder.damage("a.xrf", 0, &[7]);
    finds(&folder, &["XRF block 1".into()]);
    put(&folder, record_at(9) + 16, 1);
    finds(&folder, &["XRF block 1".into(), "MFN 9: leader".into()]);
}

/// An entry that leads into the middle of a record is the fault of that entry alone.
#[test]
fn an_entry_that_leads_astray() {
    let folder = thirty("faults-entry");
    put_entry(&folder, 5, entry_of(5) + 2);
    finds(&folder, &["MFN 5: ".into()]);
    put_entry(&folder, 5, entry_of(6));
    finds(&folder, &["MFN 5: ".into()]);
}

/// More faults than are listed are counted.
#[test]
fn a_long_list_is_cut() {
    let folder = thirty("faults-many");
    for mfn in 1..=30 {
        put(&folder, record_at(mfn) + 16, 1);
    }
    let lines = found(&folder);
    assert_eq!(lines.len(), 21);
    assert!(lines[20].contains("10 more"), "{}", lines[20]);
}
