//! What the pages name between backticks is there: definitions, laws, functions, tests,
//! must-fail edits and files where they say, and a bare name somewhere in the code. A trace
//! that points nowhere would be worse than none. What holds a space is a command or a
//! phrase, and what holds NAME is a pattern; these are left alone.

use std::collections::BTreeSet;
use std::fs;
use std::path::{Path, PathBuf};
use std::sync::OnceLock;

/// The repository's folder.
fn root() -> PathBuf {
    Path::new(env!("CARGO_MANIFEST_DIR")).join("../..")
}

fn text(path: &Path) -> Option<String> {
    fs::read_to_string(root().join(path)).ok()
}

/// The words between backticks of a page.
fn words(page: &str) -> BTreeSet<String> {
    let text = text(Path::new(page)).unwrap_or_else(|| panic!("{page} is not there"));
    let (mut words, mut code) = (BTreeSet::new(), false);
    for line in text.lines() {
        if line.starts_with("```") {
            code = !code;
        } else if !code {
            words.extend(line.split('`').skip(1).step_by(2).map(str::to_owned));
        }
    }
    words
}

/// Every file below a folder that is not a page, was not made by a command and belongs to no unfinished change.
fn files(folder: &Path, all: &mut Vec<PathBuf>) {
    for entry in fs::read_dir(folder).unwrap().map(Result::unwrap) {
        let (path, name) = (entry.path(), entry.file_name());
        if entry.file_type().unwrap().is_dir() {
            if !["target", "out", "unfinished", ".git"]
                .iter()
                .any(|left| name == *left)
            {
                files(&path, all);
            }
        } else if path
            .extension()
            .is_none_or(|kind| kind != "md" && kind != "patch")
        {
            all.push(path);
        }
    }
}

/// The names that the code has: the words of every file, with and without hyphens, and the
/// files' own names.
fn names() -> &'static BTreeSet<String> {
    static NAMES: OnceLock<BTreeSet<String>> = OnceLock::new();
    NAMES.get_or_init(|| {
        let mut all = Vec::new();
        files(&root(), &mut all);
        let mut names = BTreeSet::new();
        for path in all {
            names.insert(path.file_name().unwrap().to_string_lossy().into_owned());
            let text = fs::read_to_string(&path).unwrap_or_default();
            let part = |c: char| c.is_alphanumeric() || c == '_';
            names.extend(text.split(|c| !part(c)).map(str::to_owned));
            names.extend(text.split(|c| !part(c) && c != '-').map(str::to_owned));
        }
        names
    })
}

/// Whether a word looks like a name: of letters, digits, `_` and `-`, or a file's.
fn bare(word: &str) -> bool {
    let part = |c: char| c.is_alphanumeric() || matches!(c, '_' | '-' | '.');
    word.starts_with(char::is_alphabetic) && word.chars().all(part)
}

/// Whether a line of a specs or proofs file declares a name: `pub name : …`,
/// `pub record Name …`, `unfoldable pub name : …` and the like.
fn declares(line: &str, name: &str) -> bool {
    let mut words = line
        .split([' ', '(', '{'])
        .filter(|word| !word.is_empty())
        .skip_while(|word| {
            matches!(
                *word,
                "unfoldable" | "abbrev" | "pub" | "record" | "data" | "ruleset"
            )
        });
    words.next() == Some(name) && words.next().is_some()
}

/// Whether a line of a source file begins a function or a type of a name.
fn begins(line: &str, name: &str) -> bool {
    ["fn ", "struct ", "enum "].iter().any(|kind| {
        line.split_once(kind).is_some_and(|(before, after)| {
            before
                .split_whitespace()
                .all(|word| matches!(word, "pub" | "pub(crate)" | "extern" | "\"C\""))
                && after
                    .split(|c: char| !(c.is_alphanumeric() || c == '_'))
                    .next()
                    == Some(name)
        })
    })
}

/// Whether a line of a source file begins the methods of a type.
fn of_kind(line: &str, kind: &str) -> bool {
    line.starts_with("impl")
        && line
            .split(|c: char| !(c.is_alphanumeric() || c == '_'))
            .any(|word| word == kind)
}

/// Why a name points nowhere, if it does. A word that is no name of this kind is left alone.
fn missing(word: &str) -> Option<String> {
    let has = |file: String, found: &dyn Fn(&str) -> bool| match text(Path::new(&file)) {
        None => Some(format!("{word}: there is no {file}")),
        Some(text) if text.lines().any(found) => None,
        Some(_) => Some(format!("{word}: it is not in {file}")),
    };
    let parts: Vec<&str> = word.split('/').collect();
    match parts[..] {
        [krate, kind @ ("specs" | "proofs"), name] => match name.split_once('.') {
            None => has(format!("crates/{krate}/{kind}/{name}.antt"), &|_| true),
            Some((file, law)) => has(format!("crates/{krate}/{kind}/{file}.antt"), &|line| {
                declares(line, law)
            }),
        },
        [krate, "must-fail", edit] => {
            has(format!("crates/{krate}/must-fail/{edit}.edit"), &|_| true)
        }
        [krate, "tests", name] => match name.split_once("::") {
            None => has(format!("host/{krate}/tests/{name}.rs"), &|_| true),
            Some((file, test)) => has(format!("host/{krate}/tests/{file}.rs"), &|line| {
                begins(line, test)
            }),
        },
        ["target", ..] | ["crates", _, "out", ..] => None,
        _ if word.contains("NAME") => None,
        [_, _, ..] if !word.contains(['…', ' ']) => {
            let there = |folder: &str| root().join(folder).join(word).exists();
            (!there("") && !there("crates"))
                .then(|| format!("{word}: there is no such file or folder"))
        }
        [one] => match one.split("::").collect::<Vec<_>>()[..] {
            [krate, module, name] => has(format!("crates/{krate}/src/{module}.rt"), &|line| {
                begins(line, name)
            }),
            [krate, module, kind, name] => {
                let file = format!("crates/{krate}/src/{module}.rt");
                has(file.clone(), &|line| of_kind(line, kind))
                    .or_else(|| has(file, &|line| begins(line, name)))
            }
            [name] if bare(name) && !names().contains(name) => {
                Some(format!("{word}: no file has this name or names it"))
            }
            _ => None,
        },
        _ => None,
    }
}

fn all_are_there(page: &str, at_least: usize) {
    let words = words(page);
    let names = words.iter().filter(|word| word.contains(['/', ':']));
    assert!(names.count() >= at_least, "{page} names too little");
    let missing: Vec<String> = words.iter().filter_map(|word| missing(word)).collect();
    assert!(missing.is_empty(), "{page}:\n{}", missing.join("\n"));
}

#[test]
fn every_name_of_the_trace_is_there() {
    all_are_there("docs/TRACE.md", 200);
}

#[test]
fn every_name_of_the_promises_is_there() {
    all_are_there("docs/PROMISES.md", 40);
}

#[test]
fn every_name_of_the_other_pages_is_there() {
    all_are_there("docs/ARCHITECTURE.md", 20);
    all_are_there("docs/DECISIONS.md", 5);
    all_are_there("docs/BENCHMARKS.md", 1);
    all_are_there("README.md", 5);
    all_are_there("CONTRIBUTING.md", 10);
}

/// A table cannot be folded, so a wide one is a list.
#[test]
fn tables_are_at_most_160_columns_wide() {
    let mut pages = vec![root().join("README.md"), root().join("CONTRIBUTING.md")];
    let docs = fs::read_dir(root().join("docs")).unwrap();
    pages.extend(docs.map(|entry| entry.unwrap().path()));
    pages.retain(|page| page.extension().is_some_and(|kind| kind == "md"));
    assert!(pages.len() > 5, "{pages:?}");
    for page in pages {
        let text = fs::read_to_string(&page).unwrap();
        for (at, line) in text.lines().enumerate() {
            let wide = line.starts_with('|') && line.chars().count() > 160;
            assert!(!wide, "{}, line {}: a wide table", page.display(), at + 1);
        }
    }
}

#[test]
fn every_must_fail_edit_is_named_with_a_promise() {
    let named = words("docs/PROMISES.md");
    let mut edits = 0;
    for krate in fs::read_dir(root().join("crates")).unwrap() {
        let krate = krate.unwrap();
        let Ok(folder) = fs::read_dir(krate.path().join("must-fail")) else {
            continue;
        };
        for edit in folder {
            let edit = edit.unwrap().path();
            let name = format!(
                "{}/must-fail/{}",
                krate.file_name().to_str().unwrap(),
                edit.file_stem().unwrap().to_str().unwrap()
            );
            assert!(named.contains(&name), "{name} is not in docs/PROMISES.md");
            edits += 1;
        }
    }
    assert!(edits > 20, "only {edits} edits");
}

#[test]
fn names_that_point_nowhere_are_found() {
    for wrong in [
        "writing/specs/Calls.no_such_definition",
        "store/specs/NoSuchFile",
        "ledger/proofs/Theorem.no_such_law",
        "writing/must-fail/no_such_edit",
        "model/tests/answers::no_such_test",
        "views::views::no_such_function",
        "docs/NO-SUCH-PAGE.md",
        // in two pieces, since this file is searched too
        concat!("noSuch", "Name"),
        concat!("no-such-", "word"),
        concat!("no_such", ".rs"),
    ] {
        assert!(missing(wrong).is_some(), "{wrong} was found");
    }
    for right in [
        "views/specs/Views.view_of",
        "layout/specs/Entry.well_placed",
        "ledger/specs/Ledger.Item",
        "ledger/proofs/Theorem.demand_3",
        "views::views::view",
        "layout::sizes::Mfn",
        "differential/tests/docs::names_that_point_nowhere_are_found",
        "view_of",
        "isis_view",
        "isis.h",
    ] {
        assert_eq!(missing(right), None);
    }
}
