//! The record test: 0 and 8, with the first entry of the directory that breaks a rule in each of
//! the three ways, at every entry of a record of three; 0 of a record that passes and of one whose
//! leader fails, whatever its directory is; every length about the leader's.
//!
//! The record has MFN 7, fields 24, 70 and 69 of 4, 0 and 6 bytes, and 2 bytes to spare: MFRL is
//! 48, BASE 36. Behind it stand 4 bytes before the end.

use crate::subject as store;
use std::fmt::Write;

/// The bytes from the record's first to the end, what it is held to, and the lines so far.
struct Tested {
    bytes: Vec<u8>,
    mfn: u32,
    deleted: u32,
    lines: String,
}

const FIELDS: [(u16, u16); 3] = [(24, 4), (70, 0), (69, 6)];
const MFN: u32 = 7;

/// Where numbers of a leader stand.
const MFRL: usize = 4;
const BASE: usize = 12;
const NVF: usize = 14;
const STATUS: usize = 16;

/// Where the numbers of an entry stand, which counts from 1.
fn tag(entry: usize) -> usize {
    12 + 6 * entry
}
fn pos(entry: usize) -> usize {
    tag(entry) + 2
}
fn len(entry: usize) -> usize {
    tag(entry) + 4
}

/// The bytes of a record of fields, with some to spare and some behind.
fn record(fields: &[(u16, u16)], spare: u16, behind: usize) -> Vec<u8> {
    let base = 18 + 6 * fields.len() as u16;
    let data: u16 = fields.iter().map(|(_, len)| len).sum();
    let mut bytes = MFN.to_le_bytes().to_vec();
    let mut put = |number: u16| bytes.extend(number.to_le_bytes());
    let leader = [base + data + spare, 0, 0, 0, base, fields.len() as u16, 0];
    leader.into_iter().for_each(&mut put);
    let mut pos = 0;
    for &(tag, len) in fields {
        [tag, pos, len].into_iter().for_each(&mut put);
        pos += len;
    }
    bytes.resize(usize::from(base + data + spare) + behind, b'x');
    bytes
}

/// All lines of the section.
pub fn lines() -> String {
    let mut tested = Tested {
        bytes: Vec::new(),
        mfn: MFN,
        deleted: 0,
        lines: String::new(),
    };
    passing(&mut tested);
    lengths(&mut tested);
    leaders(&mut tested);
    arguments(&mut tested);
    entries(&mut tested);
    edges(&mut tested);
    several(&mut tested);
    longest(&mut tested);
    tested.lines
}

impl Tested {
    /// The record as it was.
    fn afresh(&mut self) -> &mut Tested {
        self.of(record(&FIELDS, 2, 4))
    }

    fn of(&mut self, bytes: Vec<u8>) -> &mut Tested {
        (self.bytes, self.mfn, self.deleted) = (bytes, MFN, 0);
        self
    }

    /// Changes a number of two bytes.
    fn set(&mut self, at: usize, value: u16) -> &mut Tested {
        self.bytes[at..at + 2].copy_from_slice(&value.to_le_bytes());
        self
    }

    /// Holds it to another MFN, and to being deleted or not.
    fn held_to(&mut self, mfn: u32, deleted: u32) -> &mut Tested {
        (self.mfn, self.deleted) = (mfn, deleted);
        self
    }

    fn test(&mut self, what: &str) -> &mut Tested {
        let (answer, entry) = store::record_test(&self.bytes, self.mfn, self.deleted);
        writeln!(self.lines, "{what}: record test {answer} entry {entry}").unwrap();
        self
    }
}

fn passing(tested: &mut Tested) {
    tested.afresh().test("three fields");
    tested.of(record(&FIELDS, 0, 0)).test("nothing to spare");
    tested.of(record(&[], 0, 0)).test("no fields");
    tested.of(record(&[], 4, 3)).test("no fields, 4 to spare");
    let empty = [(1, 0); 3];
    tested.of(record(&empty, 0, 0)).test("three empty fields");
    let back = [9, 9, 9, 9, 9, 9];
    tested.afresh().bytes[6..12].copy_from_slice(&back);
    tested.test("a back pointer to nowhere");
}

/// Too short for a leader, for the directory, for MFRL.
fn lengths(tested: &mut Tested) {
    for len in (0..=24).chain([35, 36, 47, 48, 49, 52]) {
        tested.afresh().bytes.truncate(len);
        tested.test(&format!("{len} bytes"));
    }
    for len in 17..=24 {
        tested.of(record(&[], 0, 6)).bytes.truncate(len);
        tested.test(&format!("no fields, {len} bytes"));
    }
}

/// Every rule of the leader, each with a directory that is right and with one that is not.
fn leaders(tested: &mut Tested) {
    for (what, at, value) in [
        ("MFN 8", 0, 8),
        ("MFN 65543", 2, 1),
        ("MFRL 0", MFRL, 0),
        ("MFRL 16", MFRL, 16),
        ("MFRL 34", MFRL, 34),
        ("MFRL 45", MFRL, 45),
        ("MFRL 47", MFRL, 47),
        ("MFRL 54", MFRL, 54),
        ("MFRL 65535", MFRL, 65_535),
        ("BASE 0", BASE, 0),
        ("BASE 30", BASE, 30),
        ("BASE 42", BASE, 42),
        ("NVF 2", NVF, 2),
        ("NVF 4", NVF, 4),
        ("NVF 10926", NVF, 10_926),
        ("STATUS 1", STATUS, 1),
        ("STATUS 2", STATUS, 2),
        ("STATUS 256", STATUS, 256),
    ] {
        tested.afresh().set(at, value).test(what);
        tested.set(tag(1), 0).test(&format!("{what}, TAG 0"));
    }
    // 18 + 6 x 10926 is 38 in 16 bits.
    tested.afresh().set(NVF, 10_926).set(BASE, 38);
    tested.test("NVF 10926, BASE 38");
    tested.afresh().set(NVF, 6).set(BASE, 54);
    tested.test("NVF 6, BASE 54 past MFRL");
    tested.afresh().set(NVF, 5).set(BASE, 48);
    tested.test("NVF 5, BASE 48 at MFRL");
}

/// The MFN as 32 bits; deleted by anything but 0.
fn arguments(tested: &mut Tested) {
    for mfn in [0, 6, 8, 0x8000_0007, 0x0001_0007, u32::MAX] {
        tested
            .afresh()
            .held_to(mfn, 0)
            .test(&format!("as MFN {mfn}"));
        tested.bytes[..4].copy_from_slice(&mfn.to_le_bytes());
        tested.test(&format!("MFN {mfn} as such"));
    }
    for deleted in [0, 1, 2, 256, 65_536, u32::MAX] {
        for status in [0, 1, 2, 65_535] {
            tested.afresh().set(STATUS, status).held_to(MFN, deleted);
            tested.test(&format!("STATUS {status}, deleted {deleted}"));
        }
    }
    tested
        .afresh()
        .set(STATUS, 1)
        .set(pos(3), 5)
        .held_to(MFN, 9);
    tested.test("POS 5 of entry 3, deleted");
}

/// Each entry broken in each way.
fn entries(tested: &mut Tested) {
    for entry in 1..=3 {
        for value in [0, 32_768, 65_535] {
            let what = format!("TAG {value} of entry {entry}");
            tested.afresh().set(tag(entry), value).test(&what);
        }
        let right = [0, 4, 4][entry - 1];
        for value in [right + 1, right + 256, 65_535] {
            let what = format!("POS {value} of entry {entry}");
            tested.afresh().set(pos(entry), value).test(&what);
        }
        let most = [12, 8, 8][entry - 1];
        for value in [most + 1, 32_768, 65_535] {
            let what = format!("LEN {value} of entry {entry}");
            tested.afresh().set(len(entry), value).test(&what);
        }
    }
    for (entry, value) in [(2, 0), (2, 3), (3, 3), (3, 0)] {
        let what = format!("POS {value} of entry {entry}");
        tested.afresh().set(pos(entry), value).test(&what);
    }
}

/// What is just right, and a length that only the next entry's POS contradicts.
fn edges(tested: &mut Tested) {
    for entry in 1..=3 {
        for value in [1, 32_767] {
            let what = format!("TAG {value} of entry {entry}");
            tested.afresh().set(tag(entry), value).test(&what);
        }
    }
    tested.afresh().set(len(3), 8).test("LEN 8 of entry 3");
    tested.afresh().set(len(3), 0).test("LEN 0 of entry 3");
    tested.afresh().set(len(1), 5).test("LEN 5 of entry 1");
    tested.afresh().set(len(2), 8).test("LEN 8 of entry 2");
    tested.set(pos(3), 12).set(len(3), 0);
    tested.test("LEN 8 of entry 2, POS 12 and LEN 0 of entry 3");
    tested.set(len(3), 1).test("the same, LEN 1 of entry 3");
}

/// Two entries or two rules at once: the first entry is told.
fn several(tested: &mut Tested) {
    tested.afresh().set(tag(3), 0).set(pos(2), 5);
    tested.test("POS 5 of entry 2, TAG 0 of entry 3");
    tested.afresh().set(tag(2), 0).set(len(1), 13);
    tested.test("LEN 13 of entry 1, TAG 0 of entry 2");
    tested.afresh().set(pos(1), 1).set(tag(2), 0);
    tested.test("POS 1 of entry 1, TAG 0 of entry 2");
    tested
        .afresh()
        .set(tag(2), 0)
        .set(pos(2), 9)
        .set(len(2), 99);
    tested.test("all of entry 2");
    tested
        .afresh()
        .set(tag(1), 0)
        .set(pos(1), 9)
        .set(len(1), 99);
    tested
        .set(tag(2), 0)
        .set(tag(3), 0)
        .test("all of every entry");
    // 4 + 65532 is 0 in 16 bits, and so is POS 0 of entry 3.
    tested.afresh().set(len(2), 65_532).set(pos(3), 0);
    tested.test("LEN 65532 of entry 2, POS 0 of entry 3");
}

/// As many fields as a record can have, broken at the last of them and next to it.
fn longest(tested: &mut Tested) {
    const MOST: usize = 5_458;
    let fields = vec![(1, 0); MOST];
    tested.of(record(&fields, 0, 0)).test("5458 empty fields");
    for entry in [1, 2, MOST / 2, MOST - 1, MOST] {
        for (what, at) in [
            ("TAG 0", tag(entry)),
            ("POS 1", pos(entry)),
            ("LEN 1", len(entry)),
        ] {
            let value = u16::from(what != "TAG 0");
            tested.of(record(&fields, 0, 0)).set(at, value);
            tested.test(&format!("5458 fields, {what} of entry {entry}"));
        }
    }
}
