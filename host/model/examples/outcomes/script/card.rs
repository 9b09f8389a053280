//! Two buffers, the steps on them, and the lines that the steps write.

use crate::subject as store;
use model::answer::number;
use model::{Draft, OwnedDraft, Refusal};
use std::fmt::Write;

/// The buffers and what was written so far.
pub struct Card {
    pub mst: Vec<u8>,
    pub xrf: Vec<u8>,
    pub lines: String,
}

/// The Adler-32 checksum, RFC 1950.
pub fn adler32(bytes: &[u8]) -> u32 {
    let (mut low, mut high) = (1_u32, 0_u32);
    for &byte in bytes {
        low = (low + u32::from(byte)) % 65_521;
        high = (high + low) % 65_521;
    }
    high << 16 | low
}

/// The draft of one field of tag 24.
fn one_field(field: &[u8]) -> OwnedDraft {
    OwnedDraft::of(&[(24, field)])
}

/// The situations. MFN 1 has one field, tag 24, at 64.
impl Card {
    /// Buffers that are not formatted yet, the XRF of one block.
    pub fn new(mst_len: usize) -> Card {
        Card {
            mst: vec![0xA5; mst_len],
            xrf: vec![0x5A; 512],
            lines: String::new(),
        }
    }

    pub fn formatted(&mut self) -> &mut Card {
        store::format(&mut self.mst, &mut self.xrf).unwrap();
        self
    }

    pub fn created(&mut self, field: &[u8]) -> &mut Card {
        store::create(&mut self.mst, &mut self.xrf, &one_field(field).lent()).unwrap();
        self
    }

    fn updated(&mut self, field: &[u8]) -> &mut Card {
        store::update(&mut self.mst, &mut self.xrf, 1, &one_field(field).lent()).unwrap();
        self
    }

    fn settled(&mut self) -> &mut Card {
        store::settle(&mut self.mst, &mut self.xrf, 1).unwrap();
        self
    }

    /// "Kite", new; end 92.
    pub fn new_record(&mut self) -> &mut Card {
        self.formatted().created(b"Kite")
    }

    /// "Kite", settled; end 92.
    pub fn settled_record(&mut self) -> &mut Card {
        self.new_record().settled()
    }

    /// "Kite", changed to "Kites" at 92; end 122.
    pub fn changed_record(&mut self) -> &mut Card {
        self.settled_record().updated(b"Kites")
    }

    /// "Kites" at 92, settled; no entry names the version at 64.
    pub fn settled_twice(&mut self) -> &mut Card {
        self.changed_record().settled()
    }

    /// Settled; its field, at 88, is a record of MFN 1 without fields; end 106.
    pub fn record_within(&mut self) -> &mut Card {
        let inner = [1, 0, 0, 0, 18, 0, 0, 0, 0, 0, 0, 0, 18, 0, 0, 0, 0, 0];
        self.formatted().created(&inner).settled()
    }

    /// The same, changed to "Kites" at 106; end 136.
    pub fn record_within_changed(&mut self) -> &mut Card {
        self.record_within().updated(b"Kites")
    }

    /// Changes a byte of the MST.
    pub fn set_mst(&mut self, at: usize, value: u8) -> &mut Card {
        self.mst[at] = value;
        self
    }

    /// Sets NXTMFP.
    pub fn set_count(&mut self, value: u16) -> &mut Card {
        self.mst[12..14].copy_from_slice(&value.to_le_bytes());
        self
    }

    /// Sets RECCNT.
    pub fn set_reccnt(&mut self, value: i32) -> &mut Card {
        self.mst[16..20].copy_from_slice(&value.to_le_bytes());
        self
    }

    /// Makes it a card of the old rule: NXTMFP is one less.
    pub fn old(&mut self) -> &mut Card {
        let count = u16::from_le_bytes(self.mst[12..14].try_into().unwrap());
        self.set_count(count - 1)
    }

    /// Changes a byte of the XRF.
    pub fn set_xrf(&mut self, at: usize, value: u8) -> &mut Card {
        self.xrf[at] = value;
        self
    }

    /// Changes the entry of MFN 1.
    pub fn set_entry(&mut self, value: i32) -> &mut Card {
        self.xrf[4..8].copy_from_slice(&value.to_le_bytes());
        self
    }
}

/// The steps: one call and its line each.
impl Card {
    /// A call that may write: its answer and, after it, the checksums. A refused one
    /// leaves every byte as it was.
    fn writing<T>(
        &mut self,
        what: &str,
        call: &str,
        run: impl FnOnce(&mut [u8], &mut [u8]) -> Result<T, Refusal>,
        returned: impl FnOnce(Result<T, Refusal>) -> String,
    ) {
        let before = (self.mst.clone(), self.xrf.clone());
        let result = run(&mut self.mst, &mut self.xrf);
        if result.is_err() {
            assert!(before == (self.mst.clone(), self.xrf.clone()), "{what}");
        }
        let (answer, returned) = (number(&result), returned(result));
        let sums = (adler32(&self.mst), adler32(&self.xrf));
        writeln!(
            self.lines,
            "{what}: {call} {answer}{returned}, sums {:08x} {:08x}",
            sums.0, sums.1
        )
        .unwrap();
    }

    /// A call that returns nothing but its answer.
    fn plain(
        &mut self,
        what: &str,
        call: &str,
        run: impl FnOnce(&mut [u8], &mut [u8]) -> Result<(), Refusal>,
    ) {
        self.writing(what, call, run, |_| String::new());
    }

    pub fn format(&mut self, what: &str) {
        self.plain(what, "format", store::format);
    }

    pub fn create_of(&mut self, what: &str, draft: &Draft) {
        let run = |mst: &mut [u8], xrf: &mut [u8]| store::create(mst, xrf, draft);
        self.writing(what, "create", run, |mfn| {
            format!(" MFN {}", mfn.unwrap_or(0))
        });
    }

    pub fn create(&mut self, what: &str, field: &[u8]) {
        self.create_of(what, &one_field(field).lent());
    }

    pub fn update_of(&mut self, what: &str, mfn: u32, draft: &Draft) {
        self.plain(what, "update", |mst, xrf| {
            store::update(mst, xrf, mfn, draft)
        });
    }

    pub fn update(&mut self, what: &str, mfn: u32, field: &[u8]) {
        self.update_of(what, mfn, &one_field(field).lent());
    }

    pub fn delete(&mut self, what: &str, mfn: u32) {
        self.plain(what, "delete", |mst, xrf| store::delete(mst, xrf, mfn));
    }

    pub fn settle(&mut self, what: &str, mfn: u32) {
        self.plain(what, "settle", |mst, xrf| store::settle(mst, xrf, mfn));
    }

    /// A list of MFNs, lent a list of so many answers that is full of rubbish: its answer, and
    /// those of the list where it is done; where it is refused, the list is as it was.
    pub fn settle_list(&mut self, what: &str, mfns: &[u32], room: usize) {
        let mut answers = vec![0xEEEE_EEEE; room];
        let run = |mst: &mut [u8], xrf: &mut [u8]| {
            let result = store::settle_list(mst, xrf, mfns, &mut answers);
            let kept = result.is_ok() || answers.iter().all(|&answer| answer == 0xEEEE_EEEE);
            assert!(kept, "{what}");
            result.map(|()| answers)
        };
        self.writing(what, "settle list", run, |answers| {
            let answers = answers.unwrap_or_default();
            let few = answers.iter().take(24).map(|answer| format!(" {answer}"));
            format!(" of {}{}", answers.len(), few.collect::<String>())
        });
    }

    pub fn revert(&mut self, what: &str, mfn: u32) {
        self.plain(what, "revert", |mst, xrf| store::revert(mst, xrf, mfn));
    }

    pub fn migrate(&mut self, what: &str) {
        let run = |mst: &mut [u8], xrf: &mut [u8]| store::migrate(mst, xrf);
        self.plain(what, "migrate", run);
    }

    pub fn recount(&mut self, what: &str) {
        let run = |mst: &mut [u8], xrf: &mut [u8]| store::recount(mst, xrf);
        self.plain(what, "recount", run);
    }

    pub fn check(&mut self, what: &str) {
        let answer = number(&store::check(&self.mst, &self.xrf));
        writeln!(self.lines, "{what}: check {answer}").unwrap();
    }

    pub fn view_of(&mut self, what: &str, mfn: u32, tag: u16, occurrence: u32) {
        let result = store::view(&self.mst, &self.xrf, mfn, tag, occurrence);
        self.shown(what, "view", result);
    }

    pub fn settled_view_of(&mut self, what: &str, mfn: u32, tag: u16, occurrence: u32) {
        let result = store::view_settled(&self.mst, &self.xrf, mfn, tag, occurrence);
        self.shown(what, "settled view", result);
    }

    fn shown(&mut self, what: &str, call: &str, result: store::Answer<std::ops::Range<usize>>) {
        let answer = number(&result);
        write!(self.lines, "{what}: {call} {answer}").unwrap();
        if let Err(Refusal::Fewer(occurrences)) = result {
            write!(self.lines, " occurrences {occurrences}").unwrap();
        }
        let field = String::from_utf8_lossy(&self.mst[result.unwrap_or(0..0)]);
        writeln!(self.lines, " \"{field}\"").unwrap();
    }

    pub fn view(&mut self, what: &str, mfn: u32) {
        self.view_of(what, mfn, 24, 1);
    }

    pub fn settled_view(&mut self, what: &str, mfn: u32) {
        self.settled_view_of(what, mfn, 24, 1);
    }

    pub fn field(&mut self, what: &str, mfn: u32, index: usize) {
        let result = store::field(&self.mst, &self.xrf, mfn, index);
        self.indexed(what, "field", result);
    }

    pub fn settled_field(&mut self, what: &str, mfn: u32, index: usize) {
        let result = store::field_settled(&self.mst, &self.xrf, mfn, index);
        self.indexed(what, "settled field", result);
    }

    fn indexed(&mut self, what: &str, call: &str, result: store::Answer<store::Indexed>) {
        let answer = number(&result);
        let (tag, part) = result.unwrap_or((0, 0..0));
        let field = String::from_utf8_lossy(&self.mst[part]);
        writeln!(self.lines, "{what}: {call} {answer} tag {tag} \"{field}\"").unwrap();
    }

    /// The calls that name an MFN.
    pub fn naming(&mut self, what: &str, mfn: u32) {
        self.view(what, mfn);
        self.settled_view(what, mfn);
        self.field(what, mfn, 0);
        self.settled_field(what, mfn, 0);
        self.told(what, mfn);
        self.update(what, mfn, b"Kites");
        self.delete(what, mfn);
        self.settle(what, mfn);
        self.revert(what, mfn);
    }

    /// The calls that name an MFN, on MFN 1; next, create, check, migrate and recount.
    pub fn all_on_one(&mut self, what: &str) {
        self.next(what);
        self.naming(what, 1);
        self.create(what, b"Kites");
        self.check(what);
        self.migrate(what);
        self.recount(what);
    }
}

/// The state: the entry of MFN 1, the end, and bytes of the MST.
impl Card {
    pub fn state(&mut self, what: &str, part: std::ops::Range<usize>) {
        let entry = i32::from_le_bytes(self.xrf[4..8].try_into().unwrap());
        let block = i32::from_le_bytes(self.mst[8..12].try_into().unwrap());
        let count = u16::from_le_bytes(self.mst[12..14].try_into().unwrap());
        let end = (block - 1) * 512 + i32::from(count) - 1;
        let (at, bytes) = (part.start, hexadecimal(&self.mst[part]));
        writeln!(
            self.lines,
            "{what}: entry {entry}, end {end}, at {at}{bytes}"
        )
        .unwrap();
    }

    /// The first eight bytes of the XRF.
    pub fn xrf_start(&mut self, what: &str) {
        let bytes = hexadecimal(&self.xrf[..8]);
        writeln!(self.lines, "{what}: XRF at 0{bytes}").unwrap();
    }
}

/// Each byte as two digits, after a space.
fn hexadecimal(bytes: &[u8]) -> String {
    bytes.iter().map(|byte| format!(" {byte:02x}")).collect()
}
