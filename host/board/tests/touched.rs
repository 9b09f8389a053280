//! What isis.h says under "Touches": a call that is done changes no other byte, and one
//! that is refused or only reads changes none. The calls are made by the model; the
//! boards and the archive of this machine are held to it byte by byte elsewhere.

use differential::archive::{Given, Subject};
use differential::damage::Damaged;
use differential::families::{Family, FromFormat, drive_subject, first_seed};
use differential::guarded::Side;
use model::bytes::i32_at;
use model::call::{Call, on_bytes};
use model::draft::need;
use model::layout::{Control, Entry, Mark, slot_at};
use model::record::{Record, well_formed};
use std::ops::Range;

/// Parts of a file.
type Parts = Vec<Range<usize>>;

/// RECCNT.
const COUNT: Range<usize> = 16..20;

/// One part.
fn only(part: Range<usize>) -> Parts {
    std::iter::once(part).collect()
}

/// A record as a call finds it.
fn found(mst: &[u8], xrf: &[u8], mfn: u32) -> (Mark, Record) {
    let end = Control::read(mst, xrf.len()).unwrap().end;
    let value = i32_at(xrf, slot_at(mfn as usize));
    let Ok(Entry::Place(place)) = Entry::decode(value, end) else {
        panic!("a call was done on MFN {mfn}");
    };
    (
        place.mark,
        well_formed(mst, end, mfn as usize, place).unwrap(),
    )
}

/// The parts of the MST and of the XRF that a call may touch if it is done.
fn may_touch(mst: &[u8], xrf: &[u8], call: &Call) -> (Parts, Parts) {
    let control = || Control::read(mst, xrf.len()).unwrap();
    let entry = |mfn: usize| slot_at(mfn)..slot_at(mfn) + 4;
    let at_end = |length: usize| control().end..control().end + length;
    let own = |record: &Record| record.at..record.at + usize::from(record.leader.length);
    match call {
        Call::Format => (only(0..mst.len()), only(0..xrf.len())),
        Call::Create(draft) => {
            let length = need(draft.tags.len(), draft.data.len());
            let mst = vec![4..14, COUNT, at_end(length)];
            (mst, only(entry(control().next_mfn)))
        }
        Call::Update(mfn, draft) => {
            let (mark, record) = found(mst, xrf, *mfn);
            let length = need(draft.tags.len(), draft.data.len());
            if mark != Mark::Settled && length <= usize::from(record.leader.length) {
                return (only(own(&record)), Vec::new());
            }
            (vec![8..14, at_end(length)], only(entry(*mfn as usize)))
        }
        Call::Delete(mfn) => {
            let (mark, record) = found(mst, xrf, *mfn);
            let entry = only(entry(*mfn as usize));
            if mark != Mark::Settled {
                return (vec![COUNT, own(&record)], entry);
            }
            let fields: usize = record.fields(mst).map(|(_, part)| part.len()).sum();
            let length = need(usize::from(record.leader.fields), fields);
            (vec![8..14, COUNT, at_end(length)], entry)
        }
        Call::Settle(mfn) => {
            let at = found(mst, xrf, *mfn).1.at;
            (only(at + 6..at + 12), only(entry(*mfn as usize)))
        }
        Call::SettleList { mfns, .. } => {
            let settled = |mfn: &&u32| {
                model::store::settle(&mut mst.to_vec(), &mut xrf.to_vec(), **mfn).is_ok()
            };
            let places = |mfn: &u32| {
                let at = found(mst, xrf, *mfn).1.at;
                (at + 6..at + 12, entry(*mfn as usize))
            };
            mfns.iter().filter(settled).map(places).unzip()
        }
        Call::Revert(mfn) => {
            let value = i32_at(xrf, slot_at(*mfn as usize));
            let mst = if value < 0 { only(COUNT) } else { Vec::new() };
            (mst, only(entry(*mfn as usize)))
        }
        Call::Migrate => (only(12..14), Vec::new()),
        Call::Recount => (only(COUNT), Vec::new()),
        _ => (Vec::new(), Vec::new()),
    }
}

/// Whether a file changed only inside some parts; the second is the number of bytes that changed.
fn only_inside(before: &[u8], after: &[u8], parts: &Parts) -> (bool, usize) {
    let changed: Vec<usize> = (0..before.len())
        .filter(|&at| before[at] != after[at])
        .collect();
    let inside = |at: &usize| parts.iter().any(|part| part.contains(at));
    (changed.iter().all(inside), changed.len())
}

/// The model, watched.
#[derive(Default)]
struct Watched {
    changed: [usize; Call::NAMES.len()],
}

impl Subject for Watched {
    fn run(&mut self, mst: &mut [u8], xrf: &mut [u8], call: &Call, _: Side) -> Given {
        let before = (mst.to_vec(), xrf.to_vec());
        let (outcome, shown) = on_bytes(mst, xrf, call);
        let parts = match outcome.number {
            0 => may_touch(&before.0, &before.1, call),
            _ => (Vec::new(), Vec::new()),
        };
        for (before, after, parts) in [(&before.0, mst, &parts.0), (&before.1, xrf, &parts.1)] {
            let (inside, changed) = only_inside(before, after, parts);
            assert!(inside, "{call:?} touched more than {parts:?}");
            self.changed[call.kind()] += changed;
        }
        Given::wanted(&outcome, shown)
    }
}

#[test]
fn a_call_changes_only_the_bytes_that_the_header_names() {
    let mut watched = Watched::default();
    let families: [&mut dyn Family; 2] = [&mut FromFormat::new(), &mut Damaged::default()];
    for family in families {
        drive_subject(&mut watched, family, 20_000, first_seed()).unwrap();
    }
    for (kind, name) in Call::NAMES.iter().enumerate() {
        let writes = matches!(kind, 0 | 3..=7 | 9..=11);
        assert_eq!(watched.changed[kind] > 0, writes, "{name}");
    }
}

#[test]
fn a_byte_too_many_is_seen() {
    let (before, mut after) = (vec![0; 512], vec![0; 512]);
    after[76] = 1;
    assert_eq!(only_inside(&before, &after, &only(70..76)), (false, 1));
    assert_eq!(only_inside(&before, &after, &only(70..77)), (true, 1));
}
