//! The header and the C example: the example is compiled with all warnings as errors,
//! linked with the archive and run; the header is compiled as C11 and as C++.

use std::path::{Path, PathBuf};
use std::process::{Command, Output};

fn root() -> PathBuf {
    Path::new(env!("CARGO_MANIFEST_DIR")).join("../..")
}

fn run(command: &mut Command) -> Output {
    let output = command.output().expect("the compiler could not be started");
    let words = String::from_utf8_lossy(&output.stderr);
    assert!(output.status.success(), "{command:?}\n{words}");
    output
}

#[test]
fn the_example_compiles_without_a_warning_and_does_what_it_says() {
    let program = std::env::temp_dir().join(format!("isis-key-{}", std::process::id()));
    run(Command::new("cc")
        .args(["-std=c11", "-Wall", "-Wextra", "-Werror", "-I"])
        .arg(root().join("include"))
        .arg(root().join("examples/key.c"))
        .arg(isis::ARCHIVE)
        .args(["-lpthread", "-ldl", "-lm", "-o"])
        .arg(&program));
    let output = run(&mut Command::new(&program));
    std::fs::remove_file(&program).unwrap();
    let printed = String::from_utf8(output.stdout).unwrap();
    assert!(printed.contains("its MFN is 1\n"), "{printed}");
    let fields = "its fields:\n       24  The Kite Runner\n       70  Hosseini, Khaled\n";
    assert!(printed.contains(fields), "{printed}");
    let authors = "    author 1: Hosseini, Khaled\n    author 2: not there, the record has 1\n";
    assert!(printed.contains(authors), "{printed}");
    assert!(printed.contains("    no author\n"), "{printed}");
    assert!(printed.contains("title now:     The Kite\n"), "{printed}");
    assert!(
        printed.contains("title settled: The Kite Runner\n"),
        "{printed}"
    );
    assert!(printed.contains("answer 10\n"), "{printed}");
    let broken = "    entry 2 of its directory is broken\n";
    assert!(printed.contains(broken), "{printed}");
    let counted = "check a card that was not counted  answer 14\n";
    assert!(printed.contains(counted), "{printed}");
    let counts = printed.matches("    RECCNT is 1\n").count();
    assert_eq!(counts, 2, "{printed}");
    let postings = "    postings of HOSSEINI, KHALED: block 1, word 9\n";
    assert!(printed.contains(postings), "{printed}");
    assert!(printed.contains("answer 22\n"), "{printed}");
    let kite =
        "    MFN 1, field 24, occurrence 1, term 2\n    MFN 4, field 24, occurrence 1, term 3\n";
    assert!(printed.contains(kite), "{printed}");
    assert!(printed.contains("    MFNs: 1\n"), "{printed}");
    assert!(printed.contains("    MFNs: 1 4\n"), "{printed}");
    assert!(printed.contains("answer 23\n"), "{printed}");
    assert!(printed.ends_with("all done\n"), "{printed}");
}

#[test]
fn the_header_is_c11_and_cpp() {
    for (compiler, language, standard) in [("cc", "c", "-std=c11"), ("c++", "c++", "-std=c++11")] {
        run(Command::new(compiler)
            .args([
                "-x",
                language,
                standard,
                "-Wall",
                "-Wextra",
                "-Werror",
                "-pedantic",
            ])
            .arg("-fsyntax-only")
            .arg(root().join("include/isis.h")));
    }
}

#[test]
fn the_header_has_the_answer_numbers_of_this_crate() {
    let header = std::fs::read_to_string(root().join("include/isis.h")).unwrap();
    let numbers: Vec<u32> = header
        .lines()
        .filter_map(|line| line.trim().strip_prefix("ISIS_")?.split_once('='))
        .map(|(_, rest)| {
            let digits: String = rest
                .trim()
                .chars()
                .take_while(char::is_ascii_digit)
                .collect();
            digits.parse().unwrap()
        })
        .collect();
    let wanted: Vec<u32> = std::iter::once(0)
        .chain(isis::Refusal::ALL.iter().map(|refusal| refusal.number()))
        .collect();
    assert_eq!(numbers, wanted);
}
