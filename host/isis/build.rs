//! Finds the archive of the proved library, `libisis.a`: in the folder that
//! ISIS_ARCHIVE_DIR names, or else where `rt lib` in `crates/isis` writes it.

use std::env;
use std::path::{Path, PathBuf};

fn main() {
    println!("cargo:rerun-if-changed=build.rs");
    println!("cargo:rerun-if-env-changed=ISIS_ARCHIVE_DIR");
    let folder = match env::var_os("ISIS_ARCHIVE_DIR") {
        Some(folder) => PathBuf::from(folder),
        None => Path::new(&env::var_os("CARGO_MANIFEST_DIR").expect("cargo sets it"))
            .join("../../crates/isis/out"),
    };
    let archive = folder.join("libisis.a");
    println!("cargo:rerun-if-changed={}", archive.display());
    if !archive.is_file() {
        println!(
            "cargo:warning=no {}: run `rt lib` in crates/isis, \
             or name the archive's folder in ISIS_ARCHIVE_DIR",
            archive.display()
        );
        std::process::exit(1);
    }
    let folder = folder
        .canonicalize()
        .expect("the archive's folder is there");
    println!("cargo:rustc-link-search=native={}", folder.display());
    println!("cargo:rustc-link-lib=static=isis");
    println!(
        "cargo:rustc-env=ISIS_ARCHIVE={}/libisis.a",
        folder.display()
    );
}
