//! A postings file beside a search index, made by the model's builders, and a card that its
//! postings lead to.

use super::Folder;
use model::index::{Entry, plain};
use model::postings::build::Segment;
use model::postings::{Ifp, Place, Posting, place};

/// The terms, in the order of the lists.
pub const TERMS: [&str; 5] = ["KITE", "WIND", "SEA", "NOTHING", "WIND, SAND AND STARS"];

/// The titles of the card's records, from MFN 1 on.
pub const TITLES: [&str; 6] = ["one", "two", "three", "four", "five", "six"];

/// A posting of a record and a field, of the first occurrence and the seventh term.
pub fn posting(mfn: u32, field: u32) -> u64 {
    Posting::of(mfn, field, 1, 7).bits()
}

/// A full segment.
fn segment(at: Place, next: Place, total: i32, postings: &[(u32, u32)]) -> Segment {
    let postings = postings.iter().map(|&(mfn, field)| posting(mfn, field));
    Segment::full(at, next, total, postings.collect())
}

/// The lists, in two blocks. KITE is in MFN 1 to 6, by segments at words 60, 120 and 11 of
/// block 1, of two postings each, of which the one of MFN 4 stands in block 2. WIND at word 80
/// is in 2, twice, and 6; SEA at word 30 in 2 and 5; NOTHING at word 100 is nowhere; and
/// the long term at word 40 is in 6.
pub fn lists() -> Ifp {
    let end = place(0, 0);
    Ifp {
        segments: vec![
            segment(place(1, 60), place(1, 120), 6, &[(1, 24), (2, 24)]),
            segment(place(1, 120), place(1, 11), 0, &[(3, 24), (4, 24)]),
            segment(place(1, 11), end, 0, &[(5, 24), (6, 24)]),
            segment(place(1, 80), end, 3, &[(2, 24), (2, 70), (6, 24)]),
            segment(place(1, 30), end, 2, &[(2, 70), (5, 24)]),
            segment(place(1, 100), end, 0, &[]),
            segment(place(1, 40), end, 1, &[(6, 24)]),
        ],
        lists: vec![vec![0, 1, 2], vec![3], vec![4], vec![5], vec![6]],
        ..Ifp::default()
    }
}

impl Folder {
    /// A folder with the index `a` and its postings file.
    pub fn with_postings(name: &str) -> Folder {
        let folder = Folder::new(name);
        folder.put_lists(&lists());
        folder
    }

    /// The same with a card of six new records, `a.mst` and `a.xrf`.
    pub fn with_search(name: &str) -> Folder {
        let folder = Folder::with_card(name);
        for title in TITLES {
            folder.done(&format!("create a.mst a.xrf 24={title}"));
        }
        folder.put_lists(&lists());
        folder
    }

    /// Writes a postings file, and the index that leads to its lists.
    pub fn put_lists(&self, ifp: &Ifp) {
        self.put_places(&ifp.starts());
        self.write("a.IFP", &ifp.bytes(&mut |_| ()));
    }

    /// Writes an index that says where the list of each term begins.
    pub fn put_places(&self, starts: &[Place]) {
        let entry = |(term, from): (&str, &Place)| Entry {
            term: term.into(),
            block: from.block,
            word: from.word,
        };
        let entries: Vec<Entry> = TERMS.into_iter().zip(starts).map(entry).collect();
        self.put_index("a", &plain(&entries, 1, 1));
    }
}
