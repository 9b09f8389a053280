//! Hands the compiler's version on to the program, which prints it.

use std::process::Command;

fn main() {
    println!("cargo:rerun-if-changed=build.rs");
    let compiler = std::env::var_os("RUSTC").expect("cargo sets it");
    let output = Command::new(compiler).arg("--version").output();
    let told = output.expect("the compiler runs").stdout;
    println!(
        "cargo:rustc-env=BENCH_RUSTC={}",
        String::from_utf8_lossy(&told).trim()
    );
}
