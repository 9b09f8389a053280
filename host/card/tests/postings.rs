//! `card postings` as a reader runs it: what it prints, every rule of a list by the words that
//! name it, its exit statuses and its six files. A search says the same of a list.

mod folder;

use folder::Folder;
use folder::index::ENDINGS;
use folder::postings::{TERMS, lists, posting};
use model::postings::{Ifp, place};
use std::fs;
use std::os::unix::fs::symlink;

/// What is printed of the list of SEA.
const SEA: &str = "SEA: block 1, word 30, 2 postings\n  \
                   MFN 2, field 70, occurrence 1, term 7\n  \
                   MFN 5, field 24, occurrence 1, term 7\n";

/// A term has a line, and so has each of its postings, over all segments.
#[test]
fn postings_are_printed_in_stored_order() {
    let folder = Folder::with_postings("postings");
    let before = folder.files();
    assert_eq!(folder.done("postings a SEA"), SEA);
    let mut kite = "KITE: block 1, word 60, 6 postings\n".to_string();
    for mfn in 1..=6 {
        kite += &format!("  MFN {mfn}, field 24, occurrence 1, term 7\n");
    }
    assert_eq!(folder.done("postings a KITE"), kite);
    let nothing = "NOTHING: block 1, word 100, 0 postings\n";
    assert_eq!(folder.done("postings a NOTHING"), nothing);
    let long = "WIND, SAND AND STARS: block 1, word 40, 1 posting\n  \
                MFN 6, field 24, occurrence 1, term 7\n";
    assert_eq!(folder.done("postings a WIND,_SAND_AND_STARS"), long);
    assert!(before == folder.files());
}

#[test]
fn the_numbers_of_a_posting_have_their_widths() {
    let folder = Folder::new("postings-wide");
    let mut ifp = lists();
    ifp.segments[4].postings = vec![0x0000_0100_0203_0004, u64::MAX];
    folder.put_lists(&ifp);
    let wide = "SEA: block 1, word 30, 2 postings\n  \
                MFN 1, field 2, occurrence 3, term 4\n  \
                MFN 16777215, field 65535, occurrence 255, term 65535\n";
    assert_eq!(folder.done("postings a SEA"), wide);
}

/// Both commands must say these words of the list of KITE with answer 23, the search also
/// where it is not the first term; another list is read all the same.
fn both_say(folder: &Folder, words: &str) {
    let said = format!(
        "card: refused, answer 23: the postings are not right: the list of 'KITE': {words}\n"
    );
    for command in [
        "postings a KITE",
        "search a a.mst a.xrf KITE",
        "search a a.mst a.xrf SEA KITE --and",
        "search a a.mst a.xrf WIND SEA KITE --or",
    ] {
        let run = folder.card(command);
        assert_eq!((run.status, run.out.as_str()), (23, ""), "{run:?}");
        assert_eq!(run.err, said, "{command}");
    }
    assert_eq!(folder.done("postings a SEA"), SEA);
}

/// A damage to the lists.
type Damage = fn(&mut Ifp);

/// Damage to the three segments of KITE and what is said of it. A block has 512 bytes, of
/// which word 0 begins with the fifth.
const DAMAGE: [(Damage, &str); 21] = [
    (
        |ifp| ifp.segments[0].total = -1,
        "a.IFP, segment at block 1, word 60: its total is -1",
    ),
    (
        |ifp| ifp.segments[0].total = 5,
        "a.IFP, segment at block 1, word 60: its total is 5, but the counts of the list sum to 6",
    ),
    (
        |ifp| ifp.segments[0].total = i32::MAX,
        "a.IFP, segment at block 1, word 60: its total is 2147483647, \
         but the counts of the list sum to 6",
    ),
    (
        |ifp| ifp.segments[1].next = place(0, 0),
        "a.IFP, segment at block 1, word 60: its total is 6, but the counts of the list sum to 4",
    ),
    (
        |ifp| ifp.segments[0].count = -1,
        "a.IFP, segment at block 1, word 60: its count is -1",
    ),
    (
        |ifp| ifp.segments[2].count = i32::MIN,
        "a.IFP, segment at block 1, word 11: its count is -2147483648",
    ),
    (
        |ifp| ifp.segments[1].count = 3,
        "a.IFP, segment at block 1, word 120: its count is 3, but its capacity is 2",
    ),
    (
        |ifp| (ifp.segments[2].count, ifp.segments[2].capacity) = (0, -1),
        "a.IFP, segment at block 1, word 11: its count is 0, but its capacity is -1",
    ),
    (
        |ifp| ifp.segments[0].next = place(0, 120),
        "a.IFP, segment at block 1, word 60: it leads on to block 0, word 120: \
         blocks count from 1",
    ),
    (
        |ifp| ifp.segments[0].next = place(-1, 0),
        "a.IFP, segment at block 1, word 60: it leads on to block -1, word 0: \
         blocks count from 1",
    ),
    (
        |ifp| ifp.segments[1].next = place(1, 121),
        "a.IFP, segment at block 1, word 120: it leads on to block 1, word 121: \
         a header stands at words 0 to 120",
    ),
    (
        |ifp| ifp.segments[1].next = place(0, -1),
        "a.IFP, segment at block 1, word 120: it leads on to block 0, word -1: \
         a header stands at words 0 to 120",
    ),
    (
        |ifp| ifp.segments[2].next = place(3, 11),
        "a.IFP, segment at block 1, word 11: it leads on to block 3, word 11: \
         it would take bytes 1072 to 1091, and a.IFP has 1024",
    ),
    (
        |ifp| ifp.segments[2].next = place(i32::MAX, 0),
        "a.IFP, segment at block 1, word 11: it leads on to block 2147483647, word 0: \
         it would take bytes 1099511626756 to 1099511626775, and a.IFP has 1024",
    ),
    (
        |ifp| ifp.segments[0].next = place(1, 60),
        "a.IFP, segment at block 1, word 60: it leads on to block 1, word 60: \
         this segment came before",
    ),
    (
        |ifp| ifp.segments[2].next = place(1, 120),
        "a.IFP, segment at block 1, word 11: it leads on to block 1, word 120: \
         this segment came before",
    ),
    (
        |ifp| ifp.segments[0].postings[1] = posting(1, 24),
        "a.IFP, segment at block 1, word 60: posting 2, 1/24/1/7, \
         is not above 1/24/1/7 before it",
    ),
    (
        |ifp| ifp.segments[1].postings[0] = posting(2, 23),
        "a.IFP, segment at block 1, word 120: posting 1, 2/23/1/7, \
         is not above 2/24/1/7 before it",
    ),
    (
        |ifp| ifp.segments[2].postings[1] = 0,
        "a.IFP, segment at block 1, word 11: posting 2, 0/0/0/0, \
         is not above 5/24/1/7 before it",
    ),
    (
        // The second posting of the segment at word 120 is the first thing of block 2.
        |ifp| ifp.cut = 501,
        "a.IFP, segment at block 1, word 120: posting 2 is not there: \
         it would take bytes 516 to 523, and a.IFP has 523",
    ),
    (
        |ifp| ifp.cut = 512,
        "a.IFP, segment at block 1, word 120: posting 2 is not there: \
         it would take bytes 516 to 523, and a.IFP has 512",
    ),
];

#[test]
fn every_rule_of_a_list_is_named_with_its_segment() {
    let folder = Folder::with_search("postings-rules");
    for (damage, words) in DAMAGE {
        let mut ifp = lists();
        damage(&mut ifp);
        folder.put_lists(&ifp);
        both_say(&folder, words);
    }
}

/// A count may be less than the capacity, and this may run past the file; totals behind the
/// first segment, the numbers of the blocks and the pointer to free space say nothing.
#[test]
fn what_is_no_rule_of_a_list() {
    let folder = Folder::with_postings("postings-right");
    let right = folder.done("postings a KITE");
    let mut ifp = lists();
    for segment in &mut ifp.segments {
        segment.capacity = i32::MAX;
    }
    ifp.segments[1].total = -1;
    ifp.segments[2].total = i32::MAX;
    ifp.free = Some(place(-1, 500));
    ifp.cut = 500;
    folder.put_lists(&ifp);
    folder.damage("a.IFP", 0, &[0xFF; 4]);
    assert_eq!(folder.done("postings a KITE"), right);
}

/// An index that leads to where no list can begin.
#[test]
fn a_place_that_no_list_begins_at() {
    let folder = Folder::with_search("postings-places");
    for ((block, word), why) in [
        ((0, 0), "blocks count from 1"),
        ((-2_147_483_648, 60), "blocks count from 1"),
        ((1, 121), "a header stands at words 0 to 120"),
        ((1, -1), "a header stands at words 0 to 120"),
        (
            (3, 0),
            "it would take bytes 1028 to 1047, and a.IFP has 1024",
        ),
    ] {
        let mut starts = lists().starts();
        starts[0] = place(block, word);
        folder.put_places(&starts);
        let begin = format!("the index has it begin at block {block}, word {word}");
        both_say(&folder, &format!("{begin}: {why}"));
    }
}

/// A file that ends in the header, or is empty, has no list at all.
#[test]
fn a_file_that_is_too_short() {
    let folder = Folder::with_postings("postings-short");
    let right = folder.read("a.IFP");
    for len in [0, 4, 143, 263] {
        folder.write("a.IFP", &right[..len]);
        let why = format!(
            "the list of 'KITE': the index has it begin at block 1, word 60: \
             it would take bytes 244 to 263, and a.IFP has {len}\n"
        );
        folder.refused("postings a KITE", 23, &why);
    }
    folder.write("a.IFP", &right[..160]);
    assert_eq!(folder.done("postings a SEA"), SEA);
}

/// The refusals of a lookup come first, with its words; a broken list of another term does not
/// matter.
#[test]
fn a_term_is_refused_as_in_a_lookup() {
    let folder = Folder::with_postings("postings-terms");
    let mut ifp = lists();
    ifp.segments[0].total = -1;
    folder.put_lists(&ifp);
    for (term, status, why) in [
        ("KITE_", 20, "'KITE ' ends with a space\n"),
        ("", 20, "this one is empty\n"),
        ("KIT", 22, "the index does not hold this term: 'KIT'\n"),
        ("kite", 22, "'kite'; letters are compared as they stand"),
    ] {
        folder.refused(&format!("postings a {term}"), status, why);
    }
    folder.damage("a.CNT", 2, &[17]);
    let order = "answer 21: the index is not right: a.CNT, byte 2: ORDN is 17, not in 1 to 16\n";
    folder.refused("postings a KITE", 21, order);
    folder.done("postings a WIND,_SAND_AND_STARS");
}

/// Six files are read; a lookup needs five of them.
#[test]
fn missing_files_are_said_in_a_sentence() {
    let folder = Folder::with_postings("postings-missing");
    for ending in ENDINGS.into_iter().chain(["IFP"]) {
        folder.needs(ending, &["postings a KITE"]);
    }
    fs::remove_file(folder.0.join("a.IFP")).unwrap();
    let line = "KITE: block 1, word 60\n";
    assert_eq!(folder.done("lookup a KITE"), line);
    symlink("/dev/zero", folder.0.join("a.IFP")).unwrap();
    let why = "a.IFP: this is not a plain file";
    folder.refused("postings a KITE", 66, why);
}

/// The ending may be in capitals or in small letters; where both are there it is taken as
/// CNT is.
#[test]
fn the_postings_file_is_taken_as_the_others_are() {
    let folder = Folder::with_postings("postings-case");
    let rename = |from: &str, to: &str| fs::rename(folder.0.join(from), folder.0.join(to)).unwrap();
    rename("a.IFP", "a.ifp");
    assert_eq!(folder.done("postings a SEA"), SEA);
    folder.write("a.IFP", b"no postings file");
    folder.refused("postings a SEA", 23, "a.IFP has 16\n");
    rename("a.CNT", "a.cnt");
    assert_eq!(folder.done("postings a SEA"), SEA);
    for name in ["a.IFP", "a.ifp"] {
        let why = "an index is named without an ending";
        folder.refused(&format!("postings {name} SEA"), 66, why);
    }
}

#[test]
fn a_postings_file_that_may_not_be_read() {
    let folder = Folder::with_postings("postings-locked");
    folder.refused_unread("a.IFP", "postings a KITE");
}

/// All six files may have 512 MB, of which a lookup reads five.
#[test]
fn no_more_than_512_mb_are_read() {
    let folder = Folder::with_postings("postings-huge");
    let unread = |name: &str, len: u64| {
        folder.lengthen(name, len);
        let run = folder.card("postings a KITE");
        assert_eq!((run.status, run.out.as_str()), (66, ""), "{run:?}");
        let why = format!(
            "card: {name}: cannot be read: it has {len} bytes, \
             and the six files may have 536870912 in all\n"
        );
        assert_eq!(run.err, why);
    };
    unread("a.IFP", (1 << 40) + 1);
    unread("a.IFP", 1 << 29);
    assert_eq!(folder.done("lookup a KITE"), "KITE: block 1, word 60\n");
    unread("a.N01", 1 << 29);
}

#[test]
fn words_that_are_none_of_the_command() {
    let folder = Folder::with_postings("postings-words");
    for (words, why) in [
        ("", "the name of the index is missing"),
        (" a", "a term is missing; see 'card help postings'"),
        (" a KITE WIND", "'WIND' is one word too many"),
        (" a KITE --or", "'--or' is no flag of 'card postings'"),
        (" - KITE", "'-' is no file"),
    ] {
        folder.refused(&format!("postings{words}"), 64, why);
    }
    folder.refused("postings a -- --or", 22, "'--or'");
}

/// A result that cannot be printed has a status of its own, behind a refusal's.
#[test]
fn output_that_is_lost() {
    let folder = Folder::with_postings("postings-full");
    for term in TERMS {
        let words = format!("postings a {}", term.replace(' ', "_"));
        assert_eq!(folder.unprinted(&words), Some(74), "{words}");
    }
    assert_eq!(folder.unprinted("postings a KIT"), Some(22));
    folder.write("a.IFP", &[]);
    assert_eq!(folder.unprinted("postings a KITE"), Some(23));
}
