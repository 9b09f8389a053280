//! include/isis.h against the Rust side of the same interface, read as text: every
//! function with its parameters in order, every answer by name and number. And what
//! the header says of itself: it refuses a wrong width, its functions are all in the
//! example, and a pointer may be NULL where its length is 0.

use std::fs;
use std::path::{Path, PathBuf};
use std::process::Command;

fn root() -> PathBuf {
    Path::new(env!("CARGO_MANIFEST_DIR")).join("../..")
}

fn text(file: &str) -> String {
    fs::read_to_string(root().join(file)).unwrap()
}

/// C without its comments.
fn bare(c: &str) -> String {
    let mut bare = String::new();
    let mut rest = c;
    while let Some((before, after)) = rest.split_once("/*") {
        bare.push_str(before);
        rest = after.split_once("*/").expect("a comment ends").1;
    }
    bare + rest
}

/// A function: its name, and its parameters as Rust writes them.
type Function = (String, Vec<String>);

/// What stands between brackets behind a function's name, cut at the commas.
fn parameters(list: &str) -> impl Iterator<Item = &str> {
    list.split(',').map(str::trim).filter(|p| !p.is_empty())
}

/// A parameter of C as Rust writes it.
fn in_rust(parameter: &str) -> String {
    let at = parameter.rfind([' ', '*']).expect("a type and a name") + 1;
    let (kind, name) = (parameter[..at].trim(), &parameter[at..]);
    let plain = |kind: &str| match kind.trim() {
        "uint8_t" => "u8",
        "uint16_t" => "u16",
        "uint32_t" => "u32",
        "uint64_t" => "u64",
        "int32_t" => "i32",
        "isis_size" => "usize",
        other => panic!("isis.h has the type {other}"),
    };
    match (kind.strip_prefix("const "), kind.strip_suffix('*')) {
        (Some(lent), _) => {
            let lent = lent.strip_suffix('*').expect("const only behind a pointer");
            format!("{name}: *const {}", plain(lent))
        }
        (None, Some(lent)) => format!("{name}: *mut {}", plain(lent)),
        (None, None) => format!("{name}: {}", plain(kind)),
    }
}

/// The functions of a text, each behind some words and before some others.
fn functions(text: &str, before: &str, behind: &str, as_rust: fn(&str) -> String) -> Vec<Function> {
    let mut functions: Vec<Function> = text
        .split(before)
        .skip(1)
        .map(|rest| {
            let (declared, _) = rest.split_once(behind).expect("a declaration ends");
            let (name, list) = declared.split_once('(').expect("a list of parameters");
            (name.to_owned(), parameters(list).map(as_rust).collect())
        })
        .collect();
    functions.sort();
    functions
}

fn header_functions() -> Vec<Function> {
    let words = bare(&text("include/isis.h"));
    let words: Vec<&str> = words.split_whitespace().collect();
    functions(&words.join(" "), "uint32_t isis_", ");", in_rust)
}

#[test]
fn the_functions_are_those_of_raw() {
    let raw = text("host/isis/src/raw.rs");
    let lines = raw.lines().filter(|line| !line.trim().starts_with("//"));
    let words: Vec<&str> = lines.flat_map(str::split_whitespace).collect();
    let raw = functions(&words.join(" "), "pub fn isis_", ") -> u32;", str::to_owned);
    assert!(raw.len() >= 11, "{raw:?}");
    assert_eq!(header_functions(), raw);
}

/// `NoMfn` as C writes it: `ISIS_NO_MFN`.
fn in_c(name: &str) -> String {
    let mut c = String::from("ISIS");
    for letter in name.chars() {
        if letter.is_uppercase() {
            c.push('_');
        }
        c.push(letter.to_ascii_uppercase());
    }
    c
}

/// Names and numbers of an enum's lines `NAME = NUMBER,`; what a name carries, in brackets
/// behind it, is left away.
fn numbered(text: &str, begins: &str) -> Vec<(String, u32)> {
    let (_, rest) = text.split_once(begins).expect("the enum is there");
    let (lines, _) = rest.split_once('}').expect("the enum ends");
    let named = lines.lines().filter_map(|line| line.split_once('='));
    named
        .map(|(name, number)| {
            let number = number.trim().trim_end_matches(',').parse();
            let (name, _) = name.split_once('(').unwrap_or((name, ""));
            (name.trim().to_owned(), number.expect("a number"))
        })
        .collect()
}

#[test]
fn the_answers_are_those_of_the_wrapper_by_name_and_number() {
    let header = numbered(&bare(&text("include/isis.h")), "enum isis_answer {");
    let refusals = numbered(&text("host/isis/src/refusal.rs"), "pub enum Refusal {");
    let done = std::iter::once(("ISIS_DONE".to_owned(), 0));
    let refused = refusals.iter().map(|(name, number)| (in_c(name), *number));
    assert!(refusals.len() >= 14, "{refusals:?}");
    assert_eq!(header, done.chain(refused).collect::<Vec<_>>());
}

#[test]
fn the_example_calls_every_function() {
    let example = bare(&text("examples/key.c"));
    for (name, _) in header_functions() {
        let called = example.split("isis_").skip(1).any(|rest| {
            let end = rest.find(|c: char| !(c.is_alphanumeric() || c == '_'));
            Some(&rest[..end.unwrap_or(rest.len())]) == Some(name.as_str())
        });
        assert!(called, "examples/key.c does not call isis_{name}");
    }
}

/// Languages and standards that the header is for.
const LANGUAGES: [(&str, &str, &str); 4] = [
    ("cc", "c", "-std=c99"),
    ("cc", "c", "-std=c11"),
    ("c++", "c++", "-std=c++11"),
    ("c++", "c++", "-std=c++20"),
];

/// Whether a header compiles, with every warning an error.
fn compiles(header: &Path, (compiler, language, standard): (&str, &str, &str)) -> bool {
    let output = Command::new(compiler)
        .args(["-x", language, standard, "-Wall", "-Wextra", "-Werror"])
        .args(["-pedantic", "-fsyntax-only"])
        .arg(header)
        .output();
    output
        .expect("the compiler could not be started")
        .status
        .success()
}

#[test]
fn a_wrong_width_is_refused() {
    let right = "typedef size_t isis_size;";
    let header = text("include/isis.h");
    assert_eq!(header.matches(right).count(), 1);
    let changed = std::env::temp_dir().join(format!("isis-{}.h", std::process::id()));
    for language in LANGUAGES {
        for (kind, accepted) in [
            ("size_t", true),
            ("unsigned long", true),
            ("uint32_t", false),
            ("uint16_t", false),
            ("int64_t", false),
        ] {
            let kind = format!("typedef {kind} isis_size;");
            fs::write(&changed, header.replace(right, &kind)).unwrap();
            assert_eq!(
                compiles(&changed, language),
                accepted,
                "{language:?} {kind}"
            );
        }
    }
    fs::remove_file(&changed).unwrap();
}

#[test]
fn null_is_permitted_where_the_length_is_0() {
    let program = std::env::temp_dir().join(format!("isis-null-{}", std::process::id()));
    let built = Command::new("cc")
        .current_dir(root())
        .args(["-std=c99", "-Wall", "-Wextra", "-Werror", "-Iinclude"])
        .arg("host/isis/tests/null.c")
        .arg(isis::ARCHIVE)
        .arg("-o")
        .arg(&program)
        .status();
    assert!(built.expect("the compiler could not be started").success());
    let ran = Command::new(&program).status().unwrap();
    fs::remove_file(&program).unwrap();
    assert_eq!(
        ran.code(),
        Some(0),
        "the exit status is the line that went wrong"
    );
}
