//! What the library takes on a key, as the emulated boards show it: instructions of each
//! call, its stack, and bytes of flash. Printed as tables and never asserted.
//!
//!   ./key-archive && cd host && cargo --offline run --release -p board

use board::core::{CORES, Core, root, run};
use board::list::List;
use board::lists::ALL;
use board::posted::Posted;
use board::recorder::Recorder;
use board::runner;
use board::search::Search;
use board::tested;
use model::Call;
use model::index::{Entry, plain};
use model::postings::build;
use std::fs;
use std::process::Command;

fn main() {
    instructions();
    stack();
    println!();
    flash();
}

/// A line of a table: a name, and a number for each core.
fn line(name: &str, numbers: &[String]) {
    let columns: String = numbers
        .iter()
        .map(|number| format!("{number:>12}"))
        .collect();
    println!("{name:<44}{columns}");
}

fn heading(name: &str) {
    line(name, &CORES.map(|core| core.name.to_owned()));
}

/// What c/count.c says of a core: instructions, and of what.
fn counted(core: &Core, name: &str, files: &[&str]) -> Vec<(String, String)> {
    let files = [&["host/board/c/count.c"], files].concat();
    let program = core.build(name, &files, &[]);
    let list = program.with_extension("list");
    fs::write(&list, index()).expect("the index could not be written");
    let ran = core.run(&program, Some(&list), &["-icount", "shift=10,sleep=off"]);
    assert!(ran.well, "{}: {}", core.name, ran.said);
    let lines = ran.said.lines().filter_map(|line| line.split_once(' '));
    lines
        .map(|(count, of)| (count.to_owned(), of.to_owned()))
        .collect()
}

/// The terms of both trees that are looked up, at a distance from either end.
const ASKED: usize = 137;

/// An index of a thousand terms, half in each tree, at the manual's order: the five files,
/// a term of each tree and the slices of two lists as c/count.c finds them, each behind its
/// length.
fn index() -> Vec<u8> {
    let terms = |number| {
        [
            format!("TERM{number:05}"),
            format!("TERM NUMBER {number:05}"),
        ]
    };
    let entries: Vec<Entry> = (0..500)
        .flat_map(terms)
        .map(|term| Entry {
            term: term.into_bytes(),
            block: 1,
            word: 0,
        })
        .collect();
    let (files, asked) = (plain(&entries, 5, 5), terms(ASKED));
    let slices = files
        .all()
        .into_iter()
        .chain(asked.iter().map(String::as_bytes));
    let lists = lists();
    let slices = slices.chain(lists.iter().map(Vec::as_slice));
    let padded = slices.map(|slice| {
        let mut bytes = (slice.len() as u32).to_le_bytes().to_vec();
        bytes.extend(slice);
        bytes.resize(bytes.len().next_multiple_of(4), 0);
        bytes
    });
    padded.flatten().collect()
}

/// A postings file with two lists of 100 postings, 20 to a segment: one has the even MFNs, the
/// other those that 3 divides; and their blocks and words.
fn lists() -> [Vec<u8>; 2] {
    let every = |step: u64| (1..=100).map(|number| (number * step) << 40).collect();
    let built = build::in_turn(&[every(2), every(3)], 20);
    let starts = built.starts();
    let places = starts.iter().flat_map(|place| [place.block, place.word]);
    [
        built.bytes(&mut |_| ()),
        places.flat_map(i32::to_le_bytes).collect(),
    ]
}

fn instructions() {
    for (title, name, files) in [
        ("instructions of a call", "count", &[][..]),
        (
            "the same, dividing 32-bit numbers",
            "count-32",
            &["host/board/c/divide.c"],
        ),
    ] {
        heading(title);
        let counts = CORES.map(|core| counted(&core, name, files));
        for row in 0..counts[0].len() {
            let numbers: Vec<String> = counts.iter().map(|of| of[row].0.clone()).collect();
            line(&counts[0][row].1, &numbers);
        }
        println!();
    }
}

fn stack() {
    heading("stack of a call, bytes");
    let mut most = CORES.map(|_| runner::Stack::default());
    let mut calls: usize = 0;
    for (name, make) in ALL {
        let recorder: Recorder = make();
        calls += recorder.lists.iter().map(List::steps).sum::<usize>();
        for (core, most) in CORES.iter().zip(&mut most) {
            let used = runner::run(core, name, &recorder).unwrap_or_else(|words| panic!("{words}"));
            for (most, used) in most.iter_mut().zip(used) {
                *most = used.max(*most);
            }
        }
    }
    let names = Call::NAMES.into_iter().chain(Search::NAMES);
    let names = names.chain(Posted::NAMES).chain(tested::NAMES);
    for (kind, name) in names.enumerate() {
        let numbers: Vec<String> = most.iter().map(|of| of[kind].to_string()).collect();
        line(name, &numbers);
    }
    println!("the most over {calls} calls on each core");
}

/// The functions of the interface, as an archive has them.
fn functions(core: &Core) -> Vec<String> {
    let listed = run(Command::new("arm-none-eabi-nm")
        .args(["-g", "--defined-only"])
        .arg(core.archive()));
    let names = listed.lines().filter_map(|line| line.split_once(" T "));
    names.map(|(_, name)| name.to_owned()).collect()
}

/// Bytes of the library in a program that calls only one function.
fn reach(core: &Core, function: &str) -> usize {
    let program = root().join("target/key").join(core.name).join("reach.elf");
    run(Command::new("arm-none-eabi-ld")
        .args([
            "--gc-sections",
            "--unresolved-symbols=ignore-all",
            "-e",
            function,
            "-u",
            function,
        ])
        .arg(core.archive())
        .arg("-o")
        .arg(&program));
    code(&[program.to_str().expect("a path in letters")])
}

/// Bytes of code and constants that `size` finds.
fn code(words: &[&str]) -> usize {
    let printed = run(Command::new("arm-none-eabi-size").args(words));
    let last = printed.lines().last().expect("a line");
    let first = last.split_whitespace().next().expect("a number");
    first.parse().expect("a number")
}

fn flash() {
    heading("flash, bytes");
    let archive = CORES.map(|core| {
        let path = core.archive();
        code(&["-t", path.to_str().expect("a path in letters")]).to_string()
    });
    line("the whole archive", &archive);
    for function in functions(&CORES[0]) {
        line(
            &function,
            &CORES.map(|core| reach(&core, &function).to_string()),
        );
    }
}
