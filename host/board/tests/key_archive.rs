//! `./key-archive` says what is missing, before it proves anything.

use board::core::root;
use std::fs;
use std::os::unix::fs::PermissionsExt;
use std::path::{Path, PathBuf};
use std::process::Command;

/// What the script says of a core, with a kit in a folder; it must fail.
fn refused(core: &str, kit: &Path) -> String {
    let output = Command::new(root().join("key-archive"))
        .arg(core)
        .env("RATTLE_HOME", kit)
        .output()
        .expect("key-archive could not be started");
    assert_eq!(output.status.code(), Some(1));
    assert!(output.stdout.is_empty());
    String::from_utf8(output.stderr).unwrap()
}

/// A folder with the programs of a kit's toolchain, each printing some text.
fn kit(name: &str, programs: &[(&str, &str)]) -> PathBuf {
    let kit = Path::new(env!("CARGO_TARGET_TMPDIR")).join(name);
    let bin = kit.join("toolchain/bin");
    fs::create_dir_all(&bin).unwrap();
    for (program, text) in programs {
        let path = bin.join(program);
        fs::write(&path, format!("#!/bin/sh\necho '{text}'\n")).unwrap();
        fs::set_permissions(&path, fs::Permissions::from_mode(0o755)).unwrap();
    }
    kit
}

#[test]
fn what_is_missing_is_said() {
    let without_target = [("clang", "    x86-64     - 64-bit X86"), ("llvm-ar", "")];
    for (core, kit, words) in [
        (
            "cortex-m9",
            kit("no-core", &[]),
            "'cortex-m9' is no core; there are ",
        ),
        (
            "cortex-m0",
            kit("no-clang", &[]),
            "the kit has no clang at ",
        ),
        (
            "cortex-m0",
            kit("no-target", &without_target),
            "the kit's clang has no target 'thumb', which cortex-m0 needs\n",
        ),
    ] {
        let said = refused(core, &kit);
        assert!(said.starts_with(&format!("key-archive: {words}")), "{said}");
    }
}
