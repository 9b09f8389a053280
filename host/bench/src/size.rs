//! The archive's code size, as `size` of the binary tools tells it.

use std::process::Command;

/// Prints code and data of the whole archive in bytes.
pub fn run() {
    let output = Command::new("size").arg("-t").arg(isis::ARCHIVE).output();
    let Ok(output) = output else {
        println!("archive size: not measured, there is no program 'size'");
        return;
    };
    let printed = String::from_utf8_lossy(&output.stdout);
    let totals = printed.lines().find(|line| line.contains("(TOTALS)"));
    match totals.map(|line| line.split_whitespace().collect::<Vec<_>>()) {
        Some(words) if words.len() > 3 => println!(
            "The archive has {} bytes of code and constants, {} of data, {} of zeroed data (x86-64).",
            words[0], words[1], words[2]
        ),
        _ => println!("archive size: not measured, 'size' did not read the archive"),
    }
}
