//! The firmware on each board prints what the model says of the same run, by the script
//! that README names; and a program in C is the same on a board as on this machine.

use board::core::{CORES, Core, root, run};
use model::bytes::i32_at;
use model::call::{Call, OwnedDraft, on_bytes};
use model::layout::{Control, slot_at};
use std::path::Path;
use std::process::Command;

/// Builds and runs a program as README says.
fn by_script(core: &Core, file: &str) -> String {
    core.archive();
    run(Command::new(root().join("firmware/run")).args([core.name, file]))
}

/// The worked run of document 01, and a revert too many.
fn writes() -> [(&'static str, Call); 7] {
    let title = |text: &str| OwnedDraft::of(&[(24, text.as_bytes())]);
    [
        ("format", Call::Format),
        ("create \"Kite\"", Call::Create(title("Kite"))),
        ("update to \"Kit\"", Call::Update(1, title("Kit"))),
        ("settle", Call::Settle(1)),
        ("update to \"Kites\"", Call::Update(1, title("Kites"))),
        ("revert", Call::Revert(1)),
        ("revert again", Call::Revert(1)),
    ]
}

/// What the firmware must print: every write is tried before and after a touch.
fn wanted() -> String {
    let (mut mst, mut xrf) = (vec![255; 16 * 512], vec![255; 512]);
    let mut printed = String::new();
    for (name, call) in writes() {
        let number = on_bytes(&mut mst, &mut xrf, &call).0.number;
        let end = Control::read(&mst, xrf.len()).unwrap().end;
        let entry = i32_at(&xrf, slot_at(1));
        printed += &format!("{name}: nobody touched the key, not made\n");
        printed += &format!("{name}: answer {number}\n    end {end}, entry {entry}");
        let (shown, _) = on_bytes(&mut mst, &mut xrf, &Call::view(1, 24, 1));
        if shown.number == 0 {
            printed += &format!(", title {}", String::from_utf8(shown.field).unwrap());
        }
        printed += "\n";
    }
    let check = on_bytes(&mut mst, &mut xrf, &Call::Check).0.number;
    printed + &format!("check: answer {check}\n")
}

#[test]
fn the_firmware_makes_the_worked_run_and_no_write_without_a_touch() {
    let wanted = wanted();
    assert!(
        wanted.contains("end 122, entry 2652, title Kites\n"),
        "{wanted}"
    );
    for core in CORES {
        assert_eq!(by_script(&core, "firmware/main.c"), wanted, "{}", core.name);
    }
}

/// Builds a program for this machine and runs it.
fn here(file: &str) -> String {
    let program = Path::new(env!("CARGO_TARGET_TMPDIR")).join("here");
    run(Command::new("cc")
        .current_dir(root())
        .args(["-std=c99", "-Wall", "-Wextra", "-Werror", "-Iinclude", file])
        .args(["crates/isis/out/libisis.a", "-o"])
        .arg(&program));
    run(&mut Command::new(&program))
}

#[test]
fn the_example_does_the_same_on_a_board_as_here() {
    let wanted = here("examples/key.c");
    assert!(wanted.ends_with("all done\n"), "{wanted}");
    for core in CORES {
        assert_eq!(by_script(&core, "examples/key.c"), wanted, "{}", core.name);
    }
}
