//! On what, and by what, the numbers were made.

use std::process::Command;

/// Prints the processor, the compilers and the archive's target.
pub fn run() {
    println!("- processor: {}", processor());
    println!(
        "- safe Rust: {}, release, one codegen unit, link-time optimisation",
        env!("BENCH_RUSTC")
    );
    println!("- library: {}, compiled for x86-64-v2", kit());
}

/// The processor's name, as Linux tells it.
fn processor() -> String {
    let told = std::fs::read_to_string("/proc/cpuinfo").unwrap_or_default();
    let of = |name: &str| {
        let line = told.lines().find(|line| line.starts_with(name))?;
        Some(line.split_once(':')?.1.trim().to_string())
    };
    let name = of("model name").unwrap_or_else(|| "not told".to_string());
    let model = [of("cpu family"), of("model\t"), of("stepping")].map(Option::unwrap_or_default);
    let threads = std::thread::available_parallelism().map_or(0, usize::from);
    format!(
        "{name} (family {}, model {}, stepping {}), {threads} threads",
        model[0], model[1], model[2]
    )
}

/// The kit's identity, as it tells it itself.
fn kit() -> String {
    let output = Command::new("rt").arg("version").output();
    let told = output.map(|output| String::from_utf8_lossy(&output.stdout).trim().to_string());
    told.ok()
        .filter(|told| !told.is_empty())
        .unwrap_or_else(|| "a kit that is not here".to_string())
}
