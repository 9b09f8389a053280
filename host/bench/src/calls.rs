//! Every call, on a thousand records each time; a settle that is refused and the field search
//! on ten thousand records of forty fields; and copies against memcpy.

use crate::cards::{Buffers, Kind, card, draft};
use crate::clock::{cells, fastest, head, row, time};
use crate::rows::{ROUNDS, Row, Task, afresh, both_ways, number};
use isis::{Card, raw};
use model::OwnedDraft;
use model::ask::Lists;
use model::layout::put_reccnt;
use std::cell::RefCell;
use std::hint::black_box;

/// A row of a call that is done on every record of a card.
fn done<'a>(name: &'a str, call: &'a str, base: &'a Buffers, calls: usize) -> Row<'a> {
    Row {
        name,
        call,
        base,
        calls,
        wanted: 0,
    }
}

/// A draft as the library takes it.
fn lists(draft: &OwnedDraft) -> isis::Lists<'_> {
    isis::Lists {
        tags: &draft.tags,
        lens: &draft.lens,
        data: &draft.data,
    }
}

/// All calls.
pub fn run(task: &Task) {
    let records = task.records(1_000);
    let eight = draft(8, 20);
    let new = card(records, &eight, Kind::New);
    let settled = card(records, &eight, Kind::Settled);
    let changed = card(records, &eight, Kind::Changed);
    let deleted = card(records, &eight, Kind::Deleted);
    formats(task);
    views(task, records, &settled, &changed);
    fields(task, records, &settled, &changed);
    all_fields(task, records, &settled, &changed);
    states(task, records, &settled);
    drafts(task, records, &new, &settled, &eight);
    deletes(task, records, &new, &settled);
    settling(task, records, &new, &changed);
    reverts(task, records, &changed, &deleted);
    whole_lists(task, &eight);
    migrations(task, records, &settled);
    recounts(task, &eight);
    forty_fields(task);
}

fn formats(task: &Task) {
    let base = Buffers::formatted(1_000, 1_024, 1);
    task.measure(
        &done("format, 1 MB", "format", &base, 1),
        |card, _| number(card.format()),
        both_ways!(|mst, xrf, _| plain::format(mst, xrf)),
    );
}

fn views(task: &Task, records: usize, settled: &Buffers, changed: &Buffers) {
    for (name, tag) in [
        ("view, first of 8 fields", 1),
        ("view, last of 8 fields", 8),
    ] {
        task.measure(
            &done(name, "view", settled, records),
            |card, mfn| number(card.view_part(mfn, tag, 1)),
            both_ways!(|mst, xrf, mfn| plain::view(mst, xrf, mfn, tag, 1).0),
        );
    }
    task.measure(
        &done(
            "view settled, last of 8 fields",
            "view_settled",
            changed,
            records,
        ),
        |card, mfn| number(card.view_settled_part(mfn, 8, 1)),
        both_ways!(|mst, xrf, mfn| plain::view_settled(mst, xrf, mfn, 8, 1).0),
    );
}

/// Fields by their index, and all fields of a record one after the other in that way.
fn fields(task: &Task, records: usize, settled: &Buffers, changed: &Buffers) {
    for (name, index) in [
        ("field by index, first of 8", 0),
        ("field by index, last of 8", 7),
    ] {
        task.measure(
            &done(name, "field", settled, records),
            |card, mfn| number(card.field(mfn, index)),
            both_ways!(|mst, xrf, mfn| plain::field(mst, xrf, mfn, index).0),
        );
    }
    task.measure(
        &done(
            "settled field by index, last of 8",
            "field_settled",
            changed,
            records,
        ),
        |card, mfn| number(card.field_settled(mfn, 7)),
        both_ways!(|mst, xrf, mfn| plain::field_settled(mst, xrf, mfn, 7).0),
    );
    let mut all = done(
        "all 8 fields by index, one after the other",
        "field",
        settled,
        records,
    );
    all.wanted = 8;
    task.measure(
        &all,
        |card, mfn| {
            let there = |index: &usize| card.field(mfn, *index).is_ok();
            (0..).take_while(there).count() as u32
        },
        both_ways!(|mst, xrf, mfn| {
            let there = |index: &usize| plain::field(mst, xrf, mfn, *index).0 == 0;
            (0..).take_while(there).count() as u32
        }),
    );
}

/// All fields of a record by one function of the library; gives how many there are.
macro_rules! listed {
    ($function:ident, $card:expr, $mfn:expr, $lists:expr) => {{
        let (mst, xrf, lists) = ($card.mst(), $card.xrf(), $lists);
        let mut count = 0;
        // SAFETY: the card and the lists are borrowed, with their own lengths.
        unsafe {
            raw::$function(
                mst.as_ptr(),
                mst.len(),
                xrf.as_ptr(),
                xrf.len(),
                $mfn,
                lists.tags.as_mut_ptr(),
                lists.tags.len(),
                lists.starts.as_mut_ptr(),
                lists.starts.len(),
                lists.lens.as_mut_ptr(),
                lists.lens.len(),
                &mut count,
            );
        }
        count as u32
    }};
}

/// All fields of a record in one call, in lists that all calls are lent.
fn all_fields(task: &Task, records: usize, settled: &Buffers, changed: &Buffers) {
    let lent = RefCell::new(Lists::lent([8; 3]));
    let mut all = done("all 8 fields in one call", "fields", settled, records);
    all.wanted = 8;
    task.measure(
        &all,
        |card, mfn| listed!(isis_fields, card, mfn, &mut *lent.borrow_mut()),
        both_ways!(|mst, xrf, mfn| plain::fields(mst, xrf, mfn, &mut lent.borrow_mut()).1 as u32),
    );
    let name = "all 8 settled fields in one call";
    let mut all = done(name, "fields_settled", changed, records);
    all.wanted = 8;
    task.measure(
        &all,
        |card, mfn| listed!(isis_fields_settled, card, mfn, &mut *lent.borrow_mut()),
        both_ways!(|mst, xrf, mfn| {
            plain::fields_settled(mst, xrf, mfn, &mut lent.borrow_mut()).1 as u32
        }),
    );
}

/// The state of a record, and what the next create is given.
fn states(task: &Task, records: usize, settled: &Buffers) {
    task.measure(
        &done("state, a record of 8 fields", "state", settled, records),
        |card, mfn| number(card.state(mfn)),
        both_ways!(|mst, xrf, mfn| plain::state(mst, xrf, mfn).0),
    );
    task.measure(
        &done("next", "next", settled, records),
        |card, _| number(card.next()),
        both_ways!(|mst, xrf, _| plain::next(mst, xrf).0),
    );
}

/// Create, and update both ways.
fn drafts(task: &Task, records: usize, new: &Buffers, settled: &Buffers, eight: &OwnedDraft) {
    let need = eight.lent().need_if_right().expect("a right draft");
    let empty = Buffers::formatted(records, need, 1);
    task.measure(
        &done("create, 8 fields of 20 bytes", "create", &empty, records),
        |card, _| number(card.create_from(lists(eight))),
        both_ways!(|mst, xrf, _| plain::create(mst, xrf, &eight.lent()).0),
    );
    for (name, base) in [
        ("update in place, 8 fields of 20 bytes", new),
        ("update at the end, 8 fields of 20 bytes", settled),
    ] {
        task.measure(
            &done(name, "update", base, records),
            |card, mfn| number(card.update_from(mfn, lists(eight))),
            both_ways!(|mst, xrf, mfn| plain::update(mst, xrf, mfn, &eight.lent())),
        );
    }
}

fn deletes(task: &Task, records: usize, new: &Buffers, settled: &Buffers) {
    for (name, base) in [
        ("delete in place", new),
        ("delete by a copy at the end", settled),
    ] {
        task.measure(
            &done(name, "delete", base, records),
            |card, mfn| number(card.delete(mfn)),
            both_ways!(|mst, xrf, mfn| plain::delete(mst, xrf, mfn)),
        );
    }
}

fn settling(task: &Task, records: usize, new: &Buffers, changed: &Buffers) {
    for (name, base) in [
        ("settle, a new record", new),
        ("settle, a changed record", changed),
    ] {
        task.measure(
            &done(name, "settle", base, records),
            |card, mfn| number(card.settle(mfn)),
            both_ways!(|mst, xrf, mfn| plain::settle(mst, xrf, mfn)),
        );
    }
}

/// A revert of a live record, and one that brings a deleted record back.
fn reverts(task: &Task, records: usize, changed: &Buffers, deleted: &Buffers) {
    for (name, base) in [("revert", changed), ("revert a deletion", deleted)] {
        task.measure(
            &done(name, "revert", base, records),
            |card, mfn| number(card.revert(mfn)),
            both_ways!(|mst, xrf, mfn| plain::revert(mst, xrf, mfn)),
        );
    }
}

/// 4,096 MFNs in one call, and in as many single calls.
fn whole_lists(task: &Task, draft: &OwnedDraft) {
    let records = isis::SETTLE_MOST;
    let base = card(records, draft, Kind::New);
    let mfns: Vec<u32> = (1..=records as u32).collect();
    let answers = RefCell::new(vec![0; records]);
    task.measure(
        &done(
            "settle 4,096 new records, one call",
            "settle_list",
            &base,
            1,
        ),
        |card, _| number(card.settle_list(&mfns, &mut answers.borrow_mut())),
        both_ways!(|mst, xrf, _| plain::settle_list(mst, xrf, &mfns, &mut answers.borrow_mut())),
    );
    task.measure(
        &done("settle 4,096 new records, single calls", "settle", &base, 1),
        |card, _| mfns.iter().map(|&mfn| number(card.settle(mfn))).sum(),
        both_ways!(|mst, xrf, _| mfns.iter().map(|&mfn| plain::settle(mst, xrf, mfn)).sum()),
    );
}

/// An old card is migrated; each call makes it old again first, by one byte.
fn migrations(task: &Task, records: usize, settled: &Buffers) {
    let old = RefCell::new(Buffers::formatted(1, 64, 1));
    task.measure(
        &done("migrate an old card", "migrate", settled, records),
        |_, _| {
            let Buffers { mst, xrf } = &mut *old.borrow_mut();
            mst[12] = 64;
            number(Card::over(mst, xrf).migrate())
        },
        both_ways!(|_mst, _xrf, _| {
            let Buffers { mst, xrf } = &mut *old.borrow_mut();
            mst[12] = 64;
            plain::migrate(mst, xrf)
        }),
    );
}

/// A card that did not count its records is recounted.
fn recounts(task: &Task, draft: &OwnedDraft) {
    let mut base = card(1_000, draft, Kind::Changed);
    put_reccnt(&mut base.mst, 0);
    task.measure(
        &done("recount, 1000 records of 8 fields", "recount", &base, 1),
        |card, _| number(card.recount()),
        both_ways!(|mst, xrf, _| plain::recount(mst, xrf)),
    );
}

/// A settle of a settled record, which is refused right after the record test, and the field
/// search to the last of forty fields.
fn forty_fields(task: &Task) {
    let records = task.records(10_000);
    let base = card(records, &draft(40, 10), Kind::Settled);
    let mut tested = done("settle refused by 10, 40 fields", "settle", &base, records);
    tested.wanted = 10;
    task.measure(
        &tested,
        |card, mfn| number(card.settle(mfn)),
        both_ways!(|mst, xrf, mfn| plain::settle(mst, xrf, mfn)),
    );
    task.measure(
        &done(
            "record test and field search, 40 fields",
            "view",
            &base,
            records,
        ),
        |card, mfn| number(card.view_part(mfn, 40, 1)),
        both_ways!(|mst, xrf, mfn| plain::view(mst, xrf, mfn, 40, 1).0),
    );
}

/// The calls that copy or fill most, against copying or filling and nothing else.
pub fn copies() {
    const MANY: usize = 200;
    head("a copy", &["library", "memcpy", "ratio"]);
    let long = draft(1, 32_742);
    let empty = Buffers::formatted(MANY, 32_766, 1);
    against(
        &done("create, one field of 32742 bytes", "create", &empty, MANY),
        |card, _| number(card.create_from(lists(&long))),
        |mst, i| mst[64 + 32_768 * i..][..32_742].copy_from_slice(&long.data),
    );
    let settled = card(MANY, &long, Kind::Settled);
    let half = MANY * 32_768;
    against(
        &done("delete by a copy, 32766 bytes", "delete", &settled, MANY),
        |card, mfn| number(card.delete(mfn)),
        |mst, i| mst.copy_within(64 + 32_768 * i..64 + 32_768 * i + 32_766, half + 32_768 * i),
    );
    against(
        &done("format, 20 MB (against memset)", "format", &settled, 1),
        |card, _| number(card.format()),
        |mst, _| mst.fill(0),
    );
}

/// Times a call on every record of a card against some work on the bytes of its MST.
fn against(done: &Row, library: impl Fn(&mut Card, u32) -> u32, work: impl Fn(&mut [u8], usize)) {
    let (mut first, mut second) = (done.base.clone(), done.base.clone());
    let times = fastest(
        ROUNDS,
        [&mut || afresh(&mut first, done, &library), &mut || {
            second.copy_from(done.base);
            time(|| {
                for i in 0..done.calls {
                    work(black_box(&mut second.mst), i);
                }
            })
        }],
    );
    row(done.name, &cells(&times, done.calls));
}
