//! The search index that WinISIS wrote for one of the databases of Biblio::Isis's source.
//! `.ci/desktop-cards` puts them into target/desktop-cards; where they are not there, each
//! test says so and holds nothing.
//!
//! What request C-11 makes of it: every one of its 107 terms is found, at a place of the
//! postings file where a list begins. The check answers 21, since the first key of each root
//! is all spaces and not its leaf's first key; with these two keys put right it answers 0.
//!
//! What request C-14 makes of it: all 137 postings of these terms are read, and each leads to
//! a field of its record in which the term stands; MFN 3, which WinISIS deleted, cannot be
//! shown.

use differential::guarded::Side;
use differential::index::compare::{Case, Tally};
use differential::index::terms::around;
use differential::index::{Archive, Given, Reader};
use differential::postings::{self, Reader as _, given_for};
use model::bytes::i32_at;
use model::index::fault::Broken;
use model::index::{Entry, Files};
use model::postings::read::Merge;
use model::postings::{Place, Posting, place};
use model::random::Random;
use std::collections::BTreeMap;
use std::fs;
use std::path::{Path, PathBuf};

/// The folder of the databases.
fn folder() -> PathBuf {
    Path::new(env!("CARGO_MANIFEST_DIR")).join("../../target/desktop-cards")
}

/// CNT, N01, L01, N02 and L02, and the postings file, if they are there.
fn desktop() -> Option<(Files, Vec<u8>)> {
    let folder = folder();
    if !folder.is_dir() {
        println!("skipped, there is no target/desktop-cards: .ci/desktop-cards fetches it");
        return None;
    }
    let read = |kind: &str| fs::read(folder.join(format!("winisis/BIBL.{kind}"))).expect(kind);
    let files = Files {
        cnt: read("CNT"),
        n01: read("N01"),
        l01: read("l01"),
        n02: read("N02"),
        l02: read("l02"),
    };
    Some((files, read("IFP")))
}

/// The active entries of all leaves of a file, read by place: the orders are 5, so a leaf is
/// 12 bytes and ten entries.
fn entries(leaves: &[u8], width: usize) -> Vec<Entry> {
    let of_leaf = |leaf: &[u8]| -> Vec<Entry> {
        let active = leaf[12..].chunks(width + 8).take(leaf[4].into());
        let entries = active.map(|entry| Entry {
            term: entry[..width].trim_ascii_end().to_vec(),
            block: i32_at(entry, width),
            word: i32_at(entry, width + 4),
        });
        entries.collect()
    };
    leaves
        .chunks(12 + 10 * (width + 8))
        .flat_map(of_leaf)
        .collect()
}

fn terms(files: &Files) -> Vec<Entry> {
    let (short, long) = (entries(&files.l01, 10), entries(&files.l02, 30));
    assert_eq!((short.len(), long.len()), (74, 33));
    [short, long].concat()
}

/// The index with the first key of both roots made the first leaf's.
fn put_right(files: &Files) -> Files {
    let mut files = files.clone();
    for (nodes, leaves, width) in [
        (&mut files.n01, &files.l01, 10),
        (&mut files.n02, &files.l02, 30),
    ] {
        assert!(nodes[8..8 + width].iter().all(|byte| *byte == b' '));
        nodes[8..8 + width].copy_from_slice(&leaves[12..12 + width]);
    }
    files
}

/// The archive and the model agree on every term and its neighbours; gives the reason that
/// the model has for the check's answer.
fn held(files: &Files, entries: &[Entry]) -> Option<Broken> {
    let mut tally = Tally::default();
    let case = Case {
        what: "the index of WinISIS".to_string(),
        files: files.clone(),
        built: None,
        terms: entries
            .iter()
            .flat_map(|entry| around(&entry.term))
            .collect(),
    };
    let compared = case.compare(&mut Archive::new(), &mut Random::new(1), &mut tally);
    compared.unwrap_or_else(|words| panic!("{words}"));
    *tally.checks.keys().next().expect("it was checked")
}

#[test]
fn the_archive_does_as_the_model_on_an_index_of_winisis() {
    let Some((files, _)) = desktop() else {
        return;
    };
    let entries = terms(&files);
    assert_eq!(held(&files, &entries), Some(Broken::PointerKey));
    assert_eq!(held(&put_right(&files), &entries), None);
}

#[test]
fn every_term_of_an_index_of_winisis_is_found_where_a_list_of_postings_begins() {
    let Some((files, ifp)) = desktop() else {
        return;
    };
    let mut archive = Archive::new();
    archive.lend(&files, [Side::Back; 5]);
    assert_eq!(archive.check(), 21);
    for Entry { term, block, word } in terms(&files) {
        let number = 0;
        let wanted = Given {
            number,
            block,
            word,
        };
        assert_eq!(archive.lookup(&term, Side::Back), wanted, "{term:?}");
        // A header of five numbers: the last three are all postings, those of this segment,
        // and the room for them.
        let header = (block as usize - 1) * 512 + 4 + 4 * word as usize;
        let [all, here, room] = [8, 12, 16].map(|at| i32_at(&ifp, header + at));
        assert!(all >= 1 && all == here && here <= room, "{term:?}");
    }
    archive.lend(&put_right(&files), [Side::Front; 5]);
    assert_eq!(archive.check(), 0);
}

#[test]
fn terms_known_by_eye() {
    let Some((files, _)) = desktop() else {
        return;
    };
    let mut archive = Archive::new();
    archive.lend(&files, [Side::Back; 5]);
    for (term, number, block, word) in [
        (&b"159.9"[..], 0, 1, 2),
        (b"FREUD", 0, 3, 28),
        (b"PSYCHOLOGY", 0, 4, 98),
        (b"CONTROVERSIES IN PSYCHOANALYTI", 0, 6, 70),
        (b"NEW YORK, NEW YORK UNIVERSITY", 0, 7, 14),
        (b"freud", 22, 0, 0),
        (b"0", 22, 0, 0),
        (b"CONTROVERSIES IN PSYCHOANALYTIC", 20, 0, 0),
    ] {
        let wanted = Given {
            number,
            block,
            word,
        };
        assert_eq!(archive.lookup(term, Side::Front), wanted, "{term:?}");
    }
}

/// The postings of each term, as the archive reads them.
fn read_all(files: &Files, ifp: &[u8]) -> BTreeMap<Vec<u8>, Vec<Posting>> {
    let mut archive = postings::Archive::new();
    archive.lend(ifp, Side::Back);
    let read = |Entry { term, block, word }| {
        let given = archive.postings(place(block, word), 20, Side::Back);
        assert_eq!(given.number, 0, "{term:?}");
        let list = given.list[..given.count].iter();
        (term, list.map(|&bits| Posting::of_bits(bits)).collect())
    };
    terms(files).into_iter().map(read).collect()
}

/// A text as its words in capitals, a space around each: subfield marks and all that is no
/// letter or digit divide words, and a letter that is not ASCII is 0.
fn in_words(text: &[u8]) -> Vec<u8> {
    let marks = text.split(|&byte| byte == b'^').enumerate();
    let parts = marks.map(|(n, part)| {
        if n == 0 {
            part
        } else {
            &part[1.min(part.len())..]
        }
    });
    let mut words = vec![b' '];
    for byte in parts.collect::<Vec<_>>().join(&b' ') {
        match byte.to_ascii_uppercase() {
            letter if letter.is_ascii_alphanumeric() => words.push(letter),
            0x80.. => words.push(0),
            _ if words.ends_with(b" ") => {}
            _ => words.push(b' '),
        }
    }
    words.push(b' ');
    words
}

/// Whether the words of a field have a term's, where a letter that is not ASCII is any.
fn has(field: &[u8], term: &[u8]) -> bool {
    let (field, mut wanted) = (in_words(field), in_words(term));
    let cut = wanted.trim_ascii_end().len();
    wanted.truncate(if term.len() < 30 { cut + 1 } else { cut });
    let same = |(a, b): (&u8, &u8)| a == b || *a == 0 || *b == 0;
    let mut at = field.windows(wanted.len());
    at.any(|part| part.iter().zip(&wanted).all(same))
}

#[test]
fn every_posting_leads_to_a_field_that_has_its_term() {
    let Some((files, ifp)) = desktop() else {
        return;
    };
    let read = |kind: &str| fs::read(folder().join(format!("winisis/BIBL.{kind}"))).expect(kind);
    let (mst, xrf) = (read("mst"), read("XRF"));
    let card = isis::CardRef::over(&mst, &xrf);
    let (mut shown, mut deleted) = (0, 0);
    for (term, postings) in read_all(&files, &ifp) {
        for Posting { mfn, tag, .. } in postings {
            let mut fields = match card.fields(mfn) {
                Ok(fields) => fields,
                Err(refusal) => {
                    assert_eq!((mfn, refusal.number()), (3, 6));
                    deleted += 1;
                    continue;
                }
            };
            let found = fields.any(|field| u32::from(field.tag) == tag && has(field.bytes, &term));
            assert!(found, "MFN {mfn}, tag {tag}: {}", term.escape_ascii());
            shown += 1;
        }
    }
    assert_eq!((shown, deleted), (113, 24));
}

/// A list of MFNs.
type Mfns = &'static [u32];

#[test]
fn records_that_terms_have_in_common() {
    let Some((files, ifp)) = desktop() else {
        return;
    };
    let entries = terms(&files);
    let of = |term: &[u8]| -> Place {
        let entry = entries.iter().find(|entry| entry.term == term);
        let Entry { block, word, .. } = entry.expect("the term is there");
        place(*block, *word)
    };
    let mut archive = postings::Archive::new();
    archive.lend(&ifp, Side::Front);
    let rows: [(_, Mfns, Mfns); 4] = [
        ([&b"FREUD"[..], b"AND"], &[1, 3], &[1, 2, 3]),
        ([b"FREUD", b"ELIZABETH"], &[1], &[1, 3, 5]),
        ([b"PSYCHOLOGY", b"ELIZABETH"], &[5], &[1, 2, 4, 5]),
        ([b"2100", b"2140"], &[4], &[1, 2, 3, 4, 5]),
    ];
    for (terms, common, joined) in rows {
        for (merge, wanted) in [(Merge::Common, common), (Merge::Joined, joined)] {
            let given = archive.merged(merge, terms.map(of), 5, Side::Front);
            assert_eq!(given, given_for(Ok(wanted), 5), "{merge:?}");
        }
    }
}

#[test]
fn postings_known_by_eye() {
    let Some((files, ifp)) = desktop() else {
        return;
    };
    let all = read_all(&files, &ifp);
    assert_eq!(all.values().map(Vec::len).sum::<usize>(), 137);
    let [one, two] = [Posting::of(1, 675, 1, 1), Posting::of(2, 675, 1, 1)];
    assert_eq!(all[&b"159.9"[..]], [one, two]);
    let by = [12, 17, 27, 33].map(|sequence| Posting::of(1, 200, 1, sequence));
    assert_eq!(all[&b"BY"[..]], by);
    assert_eq!(all[&b"TURKLE, SHIRLIE"[..]], [Posting::of(3, 700, 1, 1)]);
}
