//! The comparison of record tests is itself tried: testers that are wrong in one sentence of the
//! papers must be found by it.

use differential::guarded::Side;
use differential::records::compare::{Family, drive_tester};
use differential::records::{Given, Tester, cases};
use model::bytes::u16_at;
use model::record::Leader;
use model::record_test::{Item, Paper, Rules, record_test, test_by, told};

/// How a fake tests: a record, and what it is held to.
type Test = fn(&[u8], u32, u32) -> Given;

/// A wrong tester: the model with other rules, or another program.
enum Fake {
    Rules(Box<dyn Rules>),
    Test(Test),
}

impl Tester for Fake {
    fn test(&mut self, record: &[u8], mfn: u32, deleted: u32, _: Side) -> Given {
        match self {
            Fake::Rules(rules) => told(test_by(&**rules, record, mfn, deleted)),
            Fake::Test(test) => test(record, mfn, deleted),
        }
    }
}

/// The fake is found by a family within its cases.
fn found(family: Family, mut fake: Fake) {
    let found = drive_tester(&mut fake, family, 5_000, 1);
    let words = found.expect_err("the fake was not found");
    assert!(words.starts_with("seed "), "{words}");
    assert!(words.contains("the tester gave"), "{words}");
}

/// A set of rules with one of them in other words, and the test that finds it.
macro_rules! wrong_rule {
    ($test:ident, $family:ident, $($rule:tt)*) => {
        #[test]
        fn $test() {
            struct Wrong;
            impl Rules for Wrong {
                $($rule)*
            }
            found(cases::$family, Fake::Rules(Box::new(Wrong)));
        }
    };
}

/// Another program, and the test that finds it.
macro_rules! wrong_test {
    ($test:ident, $family:ident, $program:expr) => {
        #[test]
        fn $test() {
            found(cases::$family, Fake::Test($program));
        }
    };
}

/// The fakes' own ground: without a fake nothing is found.
#[test]
fn the_model_itself_is_not_found() {
    let families: [Family; 7] = [
        cases::right,
        cases::leaders,
        cases::entries,
        cases::arguments,
        cases::poked,
        cases::chance,
        cases::rubbish,
    ];
    for family in families {
        let held = drive_tester(&mut Fake::Rules(Box::new(Paper)), family, 5_000, 1);
        held.unwrap_or_else(|words| panic!("{words}"));
        let held = drive_tester(&mut Fake::Test(walked), family, 5_000, 1);
        held.unwrap_or_else(|words| panic!("{words}"));
    }
}

wrong_rule!(
    mfn_not_compared,
    leaders,
    fn mfn(&self, _: u32, _: u32) -> bool {
        true
    }
);
wrong_rule!(
    mfn_compared_without_its_sign,
    arguments,
    fn mfn(&self, field: u32, mfn: u32) -> bool {
        field << 1 == mfn << 1
    }
);
wrong_rule!(
    mfn_compared_as_16_bits,
    arguments,
    fn mfn(&self, field: u32, mfn: u32) -> bool {
        field as u16 == mfn as u16
    }
);
wrong_rule!(
    mfns_that_no_card_gives_out_refused,
    right,
    fn mfn(&self, field: u32, mfn: u32) -> bool {
        field == mfn && (1..0x8000_0000).contains(&mfn)
    }
);
wrong_rule!(
    an_odd_mfrl_accepted,
    leaders,
    fn mfrl(&self, mfrl: u16) -> bool {
        (18..=32_767).contains(&mfrl)
    }
);
wrong_rule!(
    an_mfrl_above_32766_accepted,
    leaders,
    fn mfrl(&self, mfrl: u16) -> bool {
        mfrl >= 18 && mfrl.is_multiple_of(2)
    }
);
wrong_rule!(
    mfrl_believed,
    leaders,
    fn before_end(&self, _: u16, _: usize) -> bool {
        true
    }
);
wrong_rule!(
    a_record_that_stops_at_the_end_refused,
    right,
    fn before_end(&self, mfrl: u16, len: usize) -> bool {
        usize::from(mfrl) < len
    }
);
wrong_rule!(
    base_not_compared,
    leaders,
    fn base(&self, _: u16, _: u16) -> bool {
        true
    }
);
wrong_rule!(
    base_in_16_bits,
    leaders,
    fn base(&self, base: u16, nvf: u16) -> bool {
        base == nvf.wrapping_mul(6).wrapping_add(18)
    }
);
wrong_rule!(
    base_past_mfrl_accepted,
    leaders,
    fn base_within(&self, _: u16, _: u16) -> bool {
        true
    }
);
wrong_rule!(
    status_not_compared,
    leaders,
    fn status(&self, _: u16, _: u32) -> bool {
        true
    }
);
wrong_rule!(
    any_status_but_0_is_deleted,
    leaders,
    fn status(&self, status: u16, deleted: u32) -> bool {
        (status != 0) == (deleted != 0)
    }
);
wrong_rule!(
    status_in_one_byte,
    leaders,
    fn status(&self, status: u16, deleted: u32) -> bool {
        status % 256 == u16::from(deleted != 0)
    }
);
wrong_rule!(
    deleted_only_by_1,
    right,
    fn status(&self, status: u16, deleted: u32) -> bool {
        status == u16::from(deleted == 1)
    }
);
wrong_rule!(
    deleted_in_16_bits,
    right,
    fn status(&self, status: u16, deleted: u32) -> bool {
        status == u16::from(deleted as u16 != 0)
    }
);
wrong_rule!(
    deleted_by_its_sign_refused,
    right,
    fn status(&self, status: u16, deleted: u32) -> bool {
        status == u16::from(deleted as i32 > 0)
    }
);
wrong_rule!(
    tag_0_accepted,
    entries,
    fn tag(&self, tag: u16) -> bool {
        tag <= 32_767
    }
);
wrong_rule!(
    tag_32768_accepted,
    entries,
    fn tag(&self, tag: u16) -> bool {
        (1..=32_768).contains(&tag)
    }
);
wrong_rule!(
    tag_32767_refused,
    right,
    fn tag(&self, tag: u16) -> bool {
        (1..32_767).contains(&tag)
    }
);
wrong_rule!(
    tags_not_asked,
    entries,
    fn tag(&self, _: u16) -> bool {
        true
    }
);
wrong_rule!(
    positions_not_asked,
    entries,
    fn pos(&self, _: u16, _: Option<Item>) -> bool {
        true
    }
);
wrong_rule!(
    the_first_pos_not_asked,
    entries,
    fn pos(&self, pos: u16, before: Option<Item>) -> bool {
        before.is_none() || Paper.pos(pos, before)
    }
);
wrong_rule!(
    only_the_first_pos_asked,
    entries,
    fn pos(&self, pos: u16, before: Option<Item>) -> bool {
        before.is_some() || Paper.pos(pos, before)
    }
);
wrong_rule!(
    a_gap_between_fields_accepted,
    entries,
    fn pos(&self, pos: u16, before: Option<Item>) -> bool {
        before.map_or(pos == 0, |item| pos >= item.pos.saturating_add(item.len))
    }
);
wrong_rule!(
    fields_that_overlap_accepted,
    entries,
    fn pos(&self, pos: u16, before: Option<Item>) -> bool {
        before.map_or(pos == 0, |item| pos <= item.pos.saturating_add(item.len))
    }
);
wrong_rule!(
    pos_in_one_byte,
    entries,
    fn pos(&self, pos: u16, before: Option<Item>) -> bool {
        let wanted = before.map_or(0, |item| item.pos.wrapping_add(item.len));
        pos as u8 == wanted as u8
    }
);
wrong_rule!(
    sums_not_asked,
    entries,
    fn sum(&self, _: usize, _: &Leader) -> bool {
        true
    }
);
wrong_rule!(
    sums_in_16_bits,
    entries,
    fn sum(&self, sum: usize, leader: &Leader) -> bool {
        Paper.sum(sum % 65_536, leader)
    }
);
wrong_rule!(
    the_sum_held_to_mfrl,
    entries,
    fn sum(&self, sum: usize, leader: &Leader) -> bool {
        sum <= usize::from(leader.length)
    }
);
wrong_rule!(
    a_record_without_a_byte_to_spare_refused,
    right,
    fn sum(&self, sum: usize, leader: &Leader) -> bool {
        sum < usize::from(leader.length - leader.base)
    }
);
wrong_rule!(
    one_byte_too_many_accepted,
    entries,
    fn sum(&self, sum: usize, leader: &Leader) -> bool {
        sum <= usize::from(leader.length - leader.base) + 1
    }
);

/// Which of its three rules each entry breaks, of a record whose leader is right.
fn entries(record: &[u8]) -> Vec<[bool; 3]> {
    let (mfrl, base) = (
        usize::from(u16_at(record, 4)),
        usize::from(u16_at(record, 12)),
    );
    let mut sum = 0;
    let broken = |item: &[u8]| {
        let [tag, pos, len] = [0, 2, 4].map(|at| usize::from(u16_at(item, at)));
        let before = sum;
        sum += len;
        [tag == 0 || tag > 32_767, pos != before, sum > mfrl - base]
    };
    record[18..base].chunks_exact(6).map(broken).collect()
}

/// The record test as one walk that stops, by hand; a leader is the model's to judge.
fn walked(record: &[u8], mfn: u32, deleted: u32) -> Given {
    of_entries(record, mfn, deleted, |entries| {
        entries.iter().position(|entry| entry.contains(&true))
    })
}

/// A test that tells, where the leader is right, what is chosen from the entries, from 0.
fn of_entries(
    record: &[u8],
    mfn: u32,
    deleted: u32,
    choose: impl Fn(&[[bool; 3]]) -> Option<usize>,
) -> Given {
    match record_test(record, mfn, deleted) {
        (8, 0) => (8, 0),
        _ => choose(&entries(record)).map_or((0, 0), |at| (8, at as u32 + 1)),
    }
}

/// Whether an entry breaks a rule of this number.
fn breaks(rule: usize) -> impl Fn(&[bool; 3]) -> bool {
    move |entry| entry[rule]
}

wrong_test!(the_last_entry_told, entries, |record, mfn, deleted| {
    of_entries(record, mfn, deleted, |entries| {
        entries.iter().rposition(|entry| entry.contains(&true))
    })
});
wrong_test!(one_walk_for_each_rule, entries, |record, mfn, deleted| {
    of_entries(record, mfn, deleted, |entries| {
        let first = |rule| entries.iter().position(breaks(rule));
        first(0).or_else(|| first(1)).or_else(|| first(2))
    })
});
wrong_test!(
    positions_asked_before_tags,
    entries,
    |record, mfn, deleted| {
        of_entries(record, mfn, deleted, |entries| {
            let first = |rule| entries.iter().position(breaks(rule));
            first(1).or_else(|| first(0)).or_else(|| first(2))
        })
    }
);
wrong_test!(the_sum_asked_at_the_end, entries, |record, mfn, deleted| {
    of_entries(record, mfn, deleted, |entries| {
        let first = entries.iter().position(|entry| entry[0] || entry[1]);
        let last = entries.len().checked_sub(1);
        first.or_else(|| last.filter(|&last| entries[last][2]))
    })
});
wrong_test!(
    the_sum_of_the_lengths_before,
    entries,
    |record, mfn, deleted| {
        of_entries(record, mfn, deleted, |entries| {
            let before = |at: usize| at > 0 && entries[at - 1][2];
            (0..entries.len()).find(|&at| entries[at][0] || entries[at][1] || before(at))
        })
    }
);
wrong_test!(
    the_first_entry_not_asked,
    entries,
    |record, mfn, deleted| {
        of_entries(record, mfn, deleted, |entries| {
            let behind = entries.iter().skip(1);
            behind
                .clone()
                .position(|entry| entry.contains(&true))
                .map(|at| at + 1)
        })
    }
);
wrong_test!(the_last_entry_not_asked, entries, |record, mfn, deleted| {
    of_entries(record, mfn, deleted, |entries| {
        let before = entries.split_last().map_or(&[][..], |(_, before)| before);
        before.iter().position(|entry| entry.contains(&true))
    })
});
wrong_test!(
    no_more_than_256_entries_asked,
    entries,
    |record, mfn, deleted| {
        of_entries(record, mfn, deleted, |entries| {
            let mut first = entries.iter().take(256);
            first.position(|entry| entry.contains(&true))
        })
    }
);
wrong_test!(entries_counted_from_0, entries, |record, mfn, deleted| {
    let (number, entry) = record_test(record, mfn, deleted);
    (number, entry.saturating_sub(1))
});
wrong_test!(entries_counted_from_2, entries, |record, mfn, deleted| {
    let (number, entry) = record_test(record, mfn, deleted);
    (number, entry + u32::from(entry > 0))
});
wrong_test!(the_entry_in_one_byte, entries, |record, mfn, deleted| {
    let (number, entry) = record_test(record, mfn, deleted);
    (number, entry % 256)
});
wrong_test!(
    where_the_entry_stands_for_its_number,
    entries,
    |record, mfn, deleted| {
        let (number, entry) = record_test(record, mfn, deleted);
        (number, if entry == 0 { 0 } else { 12 + 6 * entry })
    }
);
wrong_test!(no_entry_told, entries, |record, mfn, deleted| {
    (record_test(record, mfn, deleted).0, 0)
});
wrong_test!(
    an_entry_told_and_the_record_passed,
    entries,
    |record, mfn, deleted| { (0, record_test(record, mfn, deleted).1) }
);
wrong_test!(
    the_entry_left_where_a_record_passes,
    right,
    |record, mfn, deleted| {
        match record_test(record, mfn, deleted) {
            (0, _) => (0, 0xEEEE_EEEE),
            given => given,
        }
    }
);
wrong_test!(
    the_entry_left_where_a_leader_fails,
    leaders,
    |record, mfn, deleted| {
        match record_test(record, mfn, deleted) {
            (8, 0) => (8, 0xEEEE_EEEE),
            given => given,
        }
    }
);
wrong_test!(entry_1_told_of_a_leader, leaders, |record, mfn, deleted| {
    let (number, entry) = record_test(record, mfn, deleted);
    (number, entry.max(number / 8))
});
wrong_test!(
    the_number_of_fields_told_of_what_passes,
    right,
    |record, mfn, deleted| {
        match record_test(record, mfn, deleted) {
            (0, _) => (0, u32::from(u16_at(record, 14))),
            given => given,
        }
    }
);
wrong_test!(the_store_not_sound, entries, |record, mfn, deleted| {
    let (number, entry) = record_test(record, mfn, deleted);
    (if number == 8 { 14 } else { number }, entry)
});
// STATUS, and the MFN, asked when the directory was walked: an entry is told with both wrong.
wrong_test!(
    status_asked_behind_the_directory,
    leaders,
    |record, mfn, deleted| {
        let swapped = u32::from(deleted == 0);
        match [deleted, swapped].map(|deleted| record_test(record, mfn, deleted)) {
            [(8, 0), (8, entry)] => (8, entry),
            [given, _] => given,
        }
    }
);
wrong_test!(
    the_mfn_asked_behind_the_directory,
    leaders,
    |record, mfn, deleted| {
        let own = record
            .first_chunk()
            .map_or(mfn, |four| u32::from_le_bytes(*four));
        match [mfn, own].map(|mfn| record_test(record, mfn, deleted)) {
            [(8, 0), (8, entry)] => (8, entry),
            [given, _] => given,
        }
    }
);
wrong_test!(
    less_than_a_leader_accepted,
    rubbish,
    |record, mfn, deleted| {
        match record.len() {
            0..18 => (0, 0),
            _ => record_test(record, mfn, deleted),
        }
    }
);
wrong_test!(a_leader_alone_refused, rubbish, |record, mfn, deleted| {
    match record.len() {
        18 => (8, 0),
        _ => record_test(record, mfn, deleted),
    }
});
wrong_test!(the_back_pointer_asked, right, |record, mfn, deleted| {
    match record.get(6..12) {
        Some([0, 0, 0, 0, 0, 0]) | None => record_test(record, mfn, deleted),
        Some(_) => (8, 0),
    }
});
wrong_test!(
    bytes_behind_the_record_refused,
    right,
    |record, mfn, deleted| {
        match record_test(record, mfn, deleted) {
            (0, 0) if record.len() > usize::from(u16_at(record, 4)) => (8, 0),
            given => given,
        }
    }
);
wrong_test!(bytes_to_spare_must_be_0, right, |record, mfn, deleted| {
    let given = record_test(record, mfn, deleted);
    match record.get(usize::from(u16_at(record, 4)) - 1) {
        Some(0) => given,
        _ if given == (0, 0) => (8, 0),
        _ => given,
    }
});
wrong_test!(always_right, entries, |_, _, _| (0, 0));
wrong_test!(always_refused, right, |_, _, _| (8, 0));
