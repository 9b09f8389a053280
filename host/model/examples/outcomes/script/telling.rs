//! The steps that tell something of the card: what the next create is given, the state of
//! a record, and all its fields in lists that are lent full of rubbish.

use super::card::Card;
use crate::subject as store;
use model::answer::number;
use model::ask::{Lists, Room};
use std::fmt::Write;

/// A call for all fields of a record.
type Listing = fn(&[u8], &[u8], u32, &mut Lists) -> store::Answer<usize>;

impl Card {
    pub fn next(&mut self, what: &str) {
        let result = store::next(&self.mst, &self.xrf);
        let (answer, (mfn, end)) = (number(&result), result.unwrap_or_default());
        writeln!(self.lines, "{what}: next {answer} MFN {mfn}, end {end}").unwrap();
    }

    pub fn record_state(&mut self, what: &str, mfn: u32) {
        let result = store::state(&self.mst, &self.xrf, mfn);
        let (answer, (mark, deleted)) = (number(&result), result.unwrap_or_default());
        let lines = &mut self.lines;
        writeln!(
            lines,
            "{what}: state {answer} mark {mark}, deleted {deleted}"
        )
        .unwrap();
    }

    pub fn fields(&mut self, what: &str, mfn: u32, room: Room) {
        self.listed(&format!("{what}: fields"), mfn, room, store::fields);
    }

    pub fn settled_fields(&mut self, what: &str, mfn: u32, room: Room) {
        self.listed(
            &format!("{what}: settled fields"),
            mfn,
            room,
            store::fields_settled,
        );
    }

    /// The fields that the lists name; every other element must be as it was.
    fn listed(&mut self, call: &str, mfn: u32, room: Room, run: Listing) {
        let (mut lists, kept) = (Lists::lent(room), Lists::lent(room));
        let result = run(&self.mst, &self.xrf, mfn, &mut lists);
        let (answer, count) = (number(&result), result.unwrap_or(0));
        assert!(lists.tags[count..] == kept.tags[count..], "{call}");
        assert!(lists.starts[count..] == kept.starts[count..], "{call}");
        assert!(lists.lens[count..] == kept.lens[count..], "{call}");
        write!(self.lines, "{call} {answer} count {count}").unwrap();
        for i in 0..count {
            let (tag, start) = (lists.tags[i], lists.starts[i]);
            let field = String::from_utf8_lossy(&self.mst[start..start + lists.lens[i]]);
            write!(self.lines, ", {tag} at {start} \"{field}\"").unwrap();
        }
        self.lines.push('\n');
    }

    /// The state, and the fields of both versions of a record that has one field or none.
    pub fn told(&mut self, what: &str, mfn: u32) {
        self.record_state(what, mfn);
        self.fields(what, mfn, [1; 3]);
        self.settled_fields(what, mfn, [1; 3]);
    }
}
