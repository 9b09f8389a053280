//! What isis.h says to firmware: the format's numbers are the model's, a core of 32 bits
//! takes the same header, and the archives ask for nothing but what it lists.

use board::core::{CORES, root, run};
use model::draft::need;
use model::index;
use model::layout::{self, slot_at};
use model::postings::{self, Posting, posting};
use std::collections::BTreeSet;
use std::fs;
use std::path::{Path, PathBuf};
use std::process::Command;

fn header() -> String {
    fs::read_to_string(root().join("include/isis.h")).unwrap()
}

/// A C file of this test, by name.
fn file(name: &str, text: &str) -> PathBuf {
    let path = Path::new(env!("CARGO_TARGET_TMPDIR")).join(name);
    fs::write(&path, text).unwrap();
    path
}

/// Whether a compiler for a 32-bit core takes a file, with every warning an error.
fn compiles(compiler: &str, standard: &str, language: &str, file: &Path) -> bool {
    let output = Command::new(compiler)
        .current_dir(root())
        .args(["-mcpu=cortex-m0", "-mthumb", "-x", language, standard])
        .args([
            "-Wall",
            "-Wextra",
            "-Werror",
            "-pedantic",
            "-fsyntax-only",
            "-Iinclude",
        ])
        .arg(file)
        .output();
    output
        .expect("the compiler could not be started")
        .status
        .success()
}

/// What is a right sentence of C about the header's numbers, by the model.
fn sentences() -> Vec<String> {
    let numbers = [
        ("ISIS_BLOCK", layout::BLOCK),
        ("ISIS_MST_BLOCKS_MAX", layout::MST_BLOCKS),
        ("ISIS_XRF_BLOCKS_MAX", layout::XRF_BLOCKS),
        ("ISIS_MFNS_PER_BLOCK", layout::PER_BLOCK),
        ("ISIS_FIRST_RECORD", layout::FIRST),
        ("ISIS_LEADER", layout::LEADER),
        ("ISIS_DIRECTORY_ENTRY", layout::ITEM),
        ("ISIS_RECORD_MAX", layout::LONGEST),
        ("ISIS_TAG_MAX", usize::from(layout::LAST_TAG)),
        (
            "ISIS_FIELDS_MAX",
            (layout::LONGEST - layout::LEADER) / layout::ITEM,
        ),
        ("ISIS_RECCNT_AT", layout::RECCNT),
        ("ISIS_CNT", 2 * index::PART),
        ("ISIS_SHORT_TERM_MAX", index::WIDTHS[0]),
        ("ISIS_TERM_MAX", index::LONGEST),
        ("ISIS_NODES_MAX", index::DEEPEST),
        ("ISIS_POSTING", posting::BYTES),
        ("ISIS_IFP_WORDS", postings::WORDS as usize),
        ("ISIS_IFP_HEADER_MAX", postings::LAST_HEADER as usize),
    ];
    let plain = numbers.map(|(name, number)| format!("{name} == {number}"));
    let needs = [
        (0, 0),
        (0, 1),
        (1, 0),
        (1, 4),
        (2, 5),
        (8, 160),
        (5458, 0),
        (1, 32_742),
    ]
    .map(|(fields, data)| format!("ISIS_NEED({fields}, {data}) == {}", need(fields, data)));
    let entries = [1, 2, 127, 128, 129, 254, 255, 520_192]
        .map(|mfn| format!("ISIS_ENTRY_AT({mfn}) == {}", slot_at(mfn)));
    let postings = [0, 1 << 40, 0x1234_5678_9ABC_DEF0, u64::MAX].map(taken_apart);
    [&plain[..], &needs, &entries, &postings].concat()
}

/// That a posting has its four numbers.
fn taken_apart(bits: u64) -> String {
    let names = ["PMFN", "PTAG", "POCC", "PCNT"].into_iter();
    let same = names
        .zip(Posting::of_bits(bits).numbers())
        .map(|(name, number)| format!("ISIS_{name}({bits}ULL) == {number}"));
    same.collect::<Vec<_>>().join(" && ")
}

/// A C file that compiles only if a sentence is right.
fn asserted(sentence: &str) -> String {
    format!("#include \"isis.h\"\ntypedef char asserted[({sentence}) ? 1 : -1];\n")
}

#[test]
fn the_numbers_of_the_format_are_the_models() {
    let sentences = sentences();
    let all = sentences.join(") && (");
    let right = file("right.c", &asserted(&format!("({all})")));
    assert!(
        compiles("arm-none-eabi-gcc", "-std=c99", "c", &right),
        "{all}"
    );
    for sentence in sentences {
        let wrong = file("wrong.c", &asserted(&format!("!({sentence})")));
        assert!(
            !compiles("arm-none-eabi-gcc", "-std=c99", "c", &wrong),
            "{sentence}"
        );
    }
}

#[test]
fn a_core_of_32_bits_takes_the_header_and_refuses_a_wrong_width() {
    let right = "typedef uint64_t isis_size;";
    assert_eq!(header().matches(right).count(), 1);
    let languages = [
        ("arm-none-eabi-gcc", "-std=c99", "c"),
        ("arm-none-eabi-gcc", "-std=c11", "c"),
        ("arm-none-eabi-g++", "-std=c++11", "c++"),
    ];
    for (compiler, standard, language) in languages {
        for (kind, accepted) in [("uint64_t", true), ("size_t", false), ("int64_t", false)] {
            let changed = header().replace(right, &format!("typedef {kind} isis_size;"));
            let changed = file("width.h", &changed);
            assert_eq!(
                compiles(compiler, standard, language, &changed),
                accepted,
                "{kind}"
            );
        }
    }
}

/// The names that an archive leaves to its host.
fn undefined(archive: &Path) -> BTreeSet<String> {
    let listed = run(Command::new("nm").arg("-u").arg(archive));
    let names = listed
        .lines()
        .filter_map(|line| line.trim().strip_prefix("U "));
    names.map(str::to_owned).collect()
}

/// What the header says that a target's archive needs.
fn said_to_need(target: &str) -> BTreeSet<String> {
    let header = header();
    let line = header.lines().find_map(|line| {
        let words = line.strip_prefix(" *   ")?.strip_prefix(target)?;
        words.starts_with(' ').then_some(words)
    });
    let names = line.unwrap_or_else(|| panic!("isis.h has no line for {target}"));
    names.split_whitespace().map(str::to_owned).collect()
}

#[test]
fn the_archives_need_what_the_header_says() {
    let key = |target: &str| root().join("target/key").join(target).join("libisis.a");
    assert_eq!(undefined(&key("aarch64")), said_to_need("aarch64"));
    let here = root().join("crates/isis/out/libisis.a");
    assert_eq!(undefined(&here), said_to_need("x86-64"));
    let readme = fs::read_to_string(root().join("README.md")).unwrap();
    for core in CORES {
        let needs = undefined(&core.archive());
        assert_eq!(needs, said_to_need(core.name), "{}", core.name);
        for name in needs {
            assert!(
                readme.contains(&format!("`{name}`")),
                "README has no {name}"
            );
        }
    }
}

#[test]
fn null_is_permitted_on_a_core_of_32_bits() {
    for core in CORES {
        let program = core.build("null", &["host/isis/tests/null.c"], &[]);
        let ran = core.run(&program, None, &[]);
        assert!(ran.well, "{}: {}", core.name, ran.said);
    }
}
