//! The lists that every core is given.

use crate::recorder::{
    Recorder, of_family, of_index_family, of_postings_family, of_records, of_replay_lists,
    of_singles,
};
use differential::damage::Damaged;
use differential::families::{FromFormat, Hostile, Planted};
use differential::index::cases;
use differential::postings::cases as postings;
use differential::random_cards::RandomCards;
use differential::records::cases as records;

/// What a list is called, and how it is made.
pub type Named = (&'static str, fn() -> Recorder);

/// All lists.
pub const ALL: [Named; 19] = [
    ("replay-lists", of_replay_lists),
    ("lists-from-format", || {
        of_family(&mut FromFormat::new(), 20_000)
    }),
    ("damaged-cards", || {
        of_family(&mut Damaged::default(), 40_000)
    }),
    ("random-cards", || of_family(&mut RandomCards, 15_000)),
    ("hostile-arguments", || of_family(&mut Hostile, 2_000)),
    ("built-indexes", || of_index_family(cases::built, 150)),
    ("damaged-indexes", || of_index_family(cases::damaged, 800)),
    ("poked-indexes", || of_index_family(cases::poked, 300)),
    ("records-by-chance", || of_index_family(cases::chance, 200)),
    ("rubbish-indexes", || of_index_family(cases::rubbish, 50)),
    ("built-postings", || {
        of_postings_family(postings::built, 200)
    }),
    ("damaged-postings", || {
        of_postings_family(postings::damaged, 600)
    }),
    ("poked-postings", || {
        of_postings_family(postings::poked, 300)
    }),
    ("headers-by-chance", || {
        of_postings_family(postings::chance, 100)
    }),
    ("rubbish-postings", || {
        of_postings_family(postings::rubbish, 100)
    }),
    ("single-postings", || of_singles(1_000)),
    ("broken-records", || {
        of_records(&[records::leaders, records::entries], 1_500)
    }),
    ("other-records", || {
        let families = [
            records::right,
            records::arguments,
            records::poked,
            records::chance,
            records::rubbish,
        ];
        of_records(&families, 500)
    }),
    ("planted-counts", || {
        of_family(&mut Planted::default(), 10_000)
    }),
];
