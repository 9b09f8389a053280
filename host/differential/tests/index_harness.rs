//! The comparison of indexes is itself tried: readers that are wrong in one sentence of the
//! request, or that do not look at one number of a record, must be found by it.

use differential::guarded::{Area, Side, at_work, report_hits};
use differential::index::compare::{Family, drive_reader, given_for};
use differential::index::{Given, Reader, cases};
use model::Refusal;
use model::index::Files;
use model::index::read::{Met, Request, Rules, check_by, lookup_by};
use model::index::record::Tree;
use model::index::tree::{leaf_len, node_len};
use std::process::Command;

/// A wrong reader: the model's with other rules, on files that are put right before it
/// looks at them, and with its answers spoiled.
struct Fake {
    rules: Box<dyn Rules>,
    mend: fn(&mut Files),
    spoil: fn(&mut Given),
    checked: fn(u32) -> u32,
    files: Files,
}

impl Fake {
    fn new(rules: impl Rules + 'static) -> Fake {
        Fake {
            rules: Box::new(rules),
            mend: |_| (),
            spoil: |_| (),
            checked: |number| number,
            files: Files::default(),
        }
    }

    fn mending(mend: fn(&mut Files)) -> Fake {
        Fake {
            mend,
            ..Fake::new(Request)
        }
    }
}

impl Reader for Fake {
    fn lend(&mut self, files: &Files, _: [Side; 5]) {
        self.files = files.clone();
        (self.mend)(&mut self.files);
    }

    fn lookup(&mut self, term: &[u8], _: Side) -> Given {
        let answer = lookup_by(&*self.rules, &self.files, term);
        let mut given = given_for(answer.map_err(Refusal::from));
        (self.spoil)(&mut given);
        given
    }

    fn check(&mut self) -> u32 {
        let passed = check_by(&*self.rules, &self.files);
        (self.checked)(passed.map_or(21, |()| 0))
    }
}

/// The fake is found by a family within its cases, in a lookup or in the check.
fn found(family: Family, call: &str, mut fake: Fake) {
    let found = drive_reader(&mut fake, family, 20_000, 1);
    let words = found.expect_err("the fake was not found");
    assert!(words.starts_with("seed "), "{words}");
    assert!(words.contains(&format!(": {call}")), "{words}");
}

/// A set of rules with one of them in other words. Two sentences have no fake, since no
/// index could show it: where each pointer's key is its target's first and keys ascend along
/// the leaves, keys ascend in nodes as well, and no leaf is met twice.
macro_rules! rules {
    ($name:ident, $($rule:tt)*) => {
        struct $name;
        impl Rules for $name {
            $($rule)*
        }
    };
}

rules!(
    FirstNotAbove,
    fn taken(&self, keys: &[&[u8]], term: &[u8]) -> Option<usize> {
        keys.iter().position(|key| self.not_above(key, term))
    }
);
rules!(
    BelowStopsTheSearch,
    fn taken(&self, keys: &[&[u8]], term: &[u8]) -> Option<usize> {
        let not_above = keys.iter().take_while(|key| self.not_above(key, term));
        not_above.count().checked_sub(1)
    }
);
rules!(
    FirstWhereAllAreAbove,
    fn taken(&self, keys: &[&[u8]], term: &[u8]) -> Option<usize> {
        Some(Request.taken(keys, term).unwrap_or(0))
    }
);
rules!(
    LastEqual,
    fn equal(&self, keys: &[&[u8]], term: &[u8]) -> Option<usize> {
        keys.iter().rposition(|key| *key == term)
    }
);
rules!(
    NotPadded,
    fn padded(&self, term: &[u8], _: usize) -> Vec<u8> {
        term.to_vec()
    }
);
rules!(
    PaddedWithZeros,
    fn padded(&self, term: &[u8], width: usize) -> Vec<u8> {
        let mut key = term.to_vec();
        key.resize(width, 0);
        key
    }
);
rules!(
    SignedBytes,
    fn not_above(&self, key: &[u8], term: &[u8]) -> bool {
        let signed = |bytes: &[u8]| bytes.iter().map(|byte| *byte as i8).collect::<Vec<_>>();
        signed(key) <= signed(term)
    }
);
rules!(
    EqualIsAbove,
    fn not_above(&self, key: &[u8], term: &[u8]) -> bool {
        key < term
    }
);
rules!(
    TrailingSpaces,
    fn is_term(&self, term: &[u8]) -> bool {
        (1..=30).contains(&term.len())
    }
);
rules!(
    EmptyTerm,
    fn is_term(&self, term: &[u8]) -> bool {
        term.is_empty() || Request.is_term(term)
    }
);
rules!(
    TenInTheSecondTree,
    fn tree_of(&self, term: &[u8]) -> usize {
        usize::from(term.len() > 9)
    }
);
rules!(
    Seventeen,
    fn deepest(&self) -> usize {
        17
    }
);
rules!(
    Fifteen,
    fn deepest(&self) -> usize {
        15
    }
);
rules!(
    NoSuccessors,
    fn in_successor_order(&self, _: &Met) -> bool {
        true
    }
);
rules!(
    NoLastSuccessor,
    fn ends_with_0(&self, _: &Met) -> bool {
        true
    }
);
rules!(
    NoPointerKeys,
    fn pointers_right(&self, _: &Tree, _: &Met) -> bool {
        true
    }
);
rules!(
    NoLeafKeys,
    fn leaves_ascend(&self, _: &Met) -> bool {
        true
    }
);
rules!(
    LeavesOneByOne,
    fn leaves_ascend(&self, met: &Met) -> bool {
        let ascend = |keys: &[&[u8]]| keys.windows(2).all(|two| two[0] < two[1]);
        met.leaves.iter().all(|leaf| ascend(&leaf.keys))
    }
);
rules!(
    EqualLeafKeys,
    fn leaves_ascend(&self, met: &Met) -> bool {
        let keys: Vec<&[u8]> = met
            .leaves
            .iter()
            .flat_map(|leaf| leaf.keys.clone())
            .collect();
        keys.windows(2).all(|two| two[0] <= two[1])
    }
);

#[test]
fn the_first_key_for_the_last() {
    found(cases::built, "lookup", Fake::new(FirstNotAbove));
}

#[test]
fn a_search_that_believes_nodes_to_be_sorted() {
    found(cases::damaged, "lookup", Fake::new(BelowStopsTheSearch));
}

#[test]
fn a_way_down_where_every_key_is_above() {
    found(cases::damaged, "lookup", Fake::new(FirstWhereAllAreAbove));
}

#[test]
fn an_equal_key_that_is_not_the_first() {
    found(cases::damaged, "lookup", Fake::new(LastEqual));
}

#[test]
fn a_term_that_is_not_padded() {
    found(cases::built, "lookup", Fake::new(NotPadded));
    found(cases::built, "lookup", Fake::new(PaddedWithZeros));
}

#[test]
fn bytes_compared_with_a_sign() {
    found(cases::built, "lookup", Fake::new(SignedBytes));
}

#[test]
fn an_equal_key_taken_for_one_above() {
    found(cases::built, "lookup", Fake::new(EqualIsAbove));
}

#[test]
fn bad_terms_looked_up() {
    found(cases::built, "lookup", Fake::new(TrailingSpaces));
    found(cases::built, "lookup", Fake::new(EmptyTerm));
}

#[test]
fn ten_bytes_looked_up_in_the_second_tree() {
    found(cases::built, "lookup", Fake::new(TenInTheSecondTree));
}

#[test]
fn a_seventeenth_node_accepted() {
    found(cases::damaged, "", Fake::new(Seventeen));
}

#[test]
fn a_sixteenth_node_refused() {
    found(cases::built, "", Fake::new(Fifteen));
}

#[test]
fn a_check_that_skips_successors() {
    found(cases::damaged, "check", Fake::new(NoSuccessors));
    found(cases::damaged, "check", Fake::new(NoLastSuccessor));
}

#[test]
fn a_check_that_skips_the_keys_of_pointers() {
    found(cases::damaged, "check", Fake::new(NoPointerKeys));
}

#[test]
fn a_check_that_skips_keys_of_leaves() {
    found(cases::damaged, "check", Fake::new(NoLeafKeys));
    found(cases::damaged, "check", Fake::new(LeavesOneByOne));
    found(cases::damaged, "check", Fake::new(EqualLeafKeys));
}

#[test]
fn a_check_that_always_says_the_same() {
    let always = |checked| Fake {
        checked,
        ..Fake::new(Request)
    };
    found(cases::damaged, "check", always(|_| 0));
    found(cases::built, "check", always(|_| 21));
}

#[test]
fn numbers_left_standing_by_a_refusal() {
    let spoiled = |spoil| Fake {
        spoil,
        ..Fake::new(Request)
    };
    found(
        cases::built,
        "lookup",
        spoiled(|given| given.block |= i32::from(given.number == 22)),
    );
    found(
        cases::damaged,
        "lookup",
        spoiled(|given| given.word |= i32::from(given.number == 21)),
    );
    found(
        cases::built,
        "lookup",
        spoiled(|given| given.word |= i32::from(given.number == 20)),
    );
}

#[test]
fn the_two_numbers_of_a_place_swapped() {
    let swapped = Fake {
        spoil: |given| std::mem::swap(&mut given.block, &mut given.word),
        ..Fake::new(Request)
    };
    found(cases::built, "lookup", swapped);
}

/// The orders of a tree as its CNT has them, if there is a CNT and they are in range.
fn orders(files: &Files, which: usize) -> Option<(u16, u16)> {
    let order = |at: usize| {
        let bytes = files.cnt.get(26 * which + at..)?.first_chunk()?;
        let order = u16::from_le_bytes(*bytes);
        (1..=16).contains(&order).then_some(order)
    };
    Some((order(2)?, order(4)?))
}

/// Changes every record of the four files: its position from 1, its tree's number, its
/// bytes.
fn each_record(files: &mut Files, change: impl Fn(i32, u16, &mut [u8])) {
    for (which, width) in [(0, 10), (1, 30)] {
        let Some((ordn, ordf)) = orders(files, which) else {
            continue;
        };
        let lens = [node_len(width, ordn), leaf_len(width, ordf)];
        for (of, len) in lens.into_iter().enumerate() {
            let file = &mut files.all_mut()[1 + 2 * which + of];
            for (at, record) in (1..).zip(file.chunks_exact_mut(len)) {
                change(at, which as u16 + 1, record);
            }
        }
    }
}

#[test]
fn a_number_that_is_not_compared() {
    let fake = Fake::mending(|files| {
        each_record(files, |at, _, record| {
            record[..4].copy_from_slice(&at.to_le_bytes())
        });
    });
    found(cases::damaged, "", fake);
}

#[test]
fn a_type_that_is_not_compared() {
    let in_records = Fake::mending(|files| {
        each_record(files, |_, own, record| {
            record[6..8].copy_from_slice(&own.to_le_bytes())
        });
    });
    found(cases::damaged, "", in_records);
    let in_cnt = Fake::mending(|files| {
        for (part, own) in files.cnt.chunks_exact_mut(26).zip([1, 2]) {
            part[..2].copy_from_slice(&[own, 0]);
        }
    });
    found(cases::damaged, "", in_cnt);
}

#[test]
fn only_the_low_byte_of_a_count() {
    let fake = Fake::mending(|files| each_record(files, |_, _, record| record[5] = 0));
    found(cases::damaged, "", fake);
}

#[test]
fn a_record_that_is_cut_short_read_all_the_same() {
    let fake = Fake::mending(|files| {
        for file in &mut files.all_mut()[1..] {
            let len = file.len() + 1;
            file.resize(len, b' ');
        }
    });
    found(cases::poked, "", fake);
}

#[test]
fn bytes_behind_cnt() {
    found(
        cases::poked,
        "",
        Fake::mending(|files| files.cnt.truncate(52)),
    );
}

#[test]
fn what_is_not_read_is_read() {
    let fake = Fake::mending(|files| {
        let marked = |part: &[u8]| part.len() == 26 && part[24..] == [0, 0];
        if files.cnt.chunks(26).any(marked) {
            files.cnt.clear();
        }
    });
    found(cases::built, "check", fake);
}

#[test]
fn a_right_reader_passes() {
    for family in [
        cases::built,
        cases::damaged,
        cases::poked,
        cases::chance,
        cases::rubbish,
    ] {
        let passed = drive_reader(&mut Fake::new(Request), family, 100, 1);
        assert!(passed.is_ok());
    }
}

/// Run by the next test in a process of its own.
#[test]
#[ignore = "ends the process"]
fn touches_what_it_may_not() {
    report_hits();
    at_work(4711, 12);
    let mut area = Area::new(52);
    let file = area.bytes(&[1; 52], Side::Back).as_mut_ptr();
    area.read_only(true);
    // SAFETY: none; these are the faults that must be caught.
    unsafe {
        match std::env::var("ISIS_TOUCH").as_deref() {
            Ok("write") => file.write_volatile(0),
            Ok("behind") => drop(file.add(52).read_volatile()),
            _ => drop(file.add(51).read_volatile()),
        }
    }
}

#[test]
fn a_write_to_a_shut_file_and_a_look_behind_it_end_the_program() {
    for (touch, code) in [("read", 0), ("write", 139), ("behind", 139)] {
        let output = Command::new(std::env::current_exe().unwrap())
            .args([
                "--exact",
                "touches_what_it_may_not",
                "--ignored",
                "--nocapture",
            ])
            .env("ISIS_TOUCH", touch)
            .output()
            .unwrap();
        assert_eq!(output.status.code(), Some(code), "{touch}: {output:?}");
        let words = String::from_utf8_lossy(&output.stderr);
        assert_eq!(
            words.contains("outside its buffers"),
            code == 139,
            "{words}"
        );
    }
}
