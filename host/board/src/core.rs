//! The cores that the library is compiled for, the boards that emulate them, and how a
//! program gets there.

use std::path::{Path, PathBuf};
use std::process::Command;

/// The repository's folder.
pub fn root() -> PathBuf {
    Path::new(env!("CARGO_MANIFEST_DIR")).join("../..")
}

/// A core, with a board that has it.
#[derive(Debug)]
pub struct Core {
    /// Its name, as the compilers and `./key-archive` have it.
    pub name: &'static str,
    /// The emulator's words for the board.
    board: &'static [&'static str],
    /// Memory for a program's data and stack: where, and how many bytes.
    ram: (u32, u32),
    /// Memory for cards: its first byte, and the first behind it.
    cards: (u32, u32),
    /// Where a list of calls stands.
    list: u32,
}

/// Arm's MPS2 board: the 16 MB from 0x2100_0000 on are for cards, with a list in the middle.
const fn mps2(name: &'static str, board: &'static [&'static str]) -> Core {
    Core {
        name,
        board,
        ram: (0x2000_0000, 0x8_0000),
        cards: (0x2100_0000, 0x2200_0000),
        list: 0x2110_0000,
    }
}

/// A Cortex-M0: the micro:bit, with 16 MB of memory in the place of 16 KB, so that it holds a list.
pub const M0: Core = Core {
    name: "cortex-m0",
    board: &["microbit", "-global", "nrf51-soc.sram-size=16777216"],
    ram: (0x2008_0000, 0x8_0000),
    cards: (0x2000_0000, 0x2100_0000),
    list: 0x2010_0000,
};
/// A Cortex-M3.
pub const M3: Core = mps2("cortex-m3", &["mps2-an385"]);
/// A Cortex-M4.
pub const M4: Core = mps2("cortex-m4", &["mps2-an386"]);

/// Every core that a board is emulated for.
pub const CORES: [Core; 3] = [M0, M3, M4];

/// Bytes that a list may have: behind it are the cards that stand at the last byte.
pub const LIST_ROOM: usize = 0xE0_0000;

/// What a run on a board gave.
#[derive(Clone, Debug)]
pub struct Ran {
    /// Whether the program said that all went well.
    pub well: bool,
    /// What it said.
    pub said: String,
}

impl Core {
    /// The archive for this core.
    pub fn archive(&self) -> PathBuf {
        let archive = self.folder().join("libisis.a");
        assert!(
            archive.is_file(),
            "there is no {}; './key-archive' at the root of the repository writes it",
            archive.display()
        );
        archive
    }

    fn folder(&self) -> PathBuf {
        root().join("target/key").join(self.name)
    }

    /// Builds a program from C files of the repository and the archive; gives its path.
    pub fn build(&self, program: &str, files: &[&str], flags: &[&str]) -> PathBuf {
        let path = self.folder().join(format!("{program}.elf"));
        let symbols = [
            ("RAM_START", self.ram.0),
            ("RAM_LENGTH", self.ram.1),
            ("cards_start", self.cards.0),
            ("cards_end", self.cards.1),
            ("list", self.list),
        ];
        let mut compiler = Command::new("arm-none-eabi-gcc");
        compiler
            .current_dir(root())
            .arg(format!("-mcpu={}", self.name))
            .args(["-mthumb", "-std=c99", "-O2", "-Wall", "-Wextra", "-Werror"])
            .args([
                "-fno-optimize-sibling-calls",
                "-nostartfiles",
                "-Iinclude",
                "-Ifirmware",
            ])
            .args(symbols.map(|(name, value)| format!("-Wl,--defsym={name}={value:#x}")))
            .args([
                "-Wl,-z,noexecstack",
                "-T",
                "firmware/key.ld",
                "firmware/start.c",
            ])
            .args(files)
            .args(flags)
            .arg(self.archive())
            .arg("-o")
            .arg(&path);
        run(&mut compiler);
        path
    }

    /// Runs a program on the board, with a list in memory if there is one; a run that does not end is ended.
    pub fn run(&self, program: &Path, list: Option<&Path>, flags: &[&str]) -> Ran {
        let mut emulator = Command::new("timeout");
        emulator
            .args(["600", "qemu-system-arm", "-M"])
            .args(self.board)
            .args(["-display", "none", "-serial", "none", "-monitor", "none"])
            .args(["-semihosting-config", "enable=on,target=native"])
            .args(flags)
            .arg("-kernel")
            .arg(program);
        if let Some(list) = list {
            let (file, at) = (list.display(), self.list);
            emulator.arg("-device");
            emulator.arg(format!("loader,file={file},addr={at:#x},force-raw=on"));
        }
        let output = emulator.output().expect("'timeout' could not be started");
        assert!(
            !matches!(output.status.code(), Some(126 | 127)),
            "qemu-system-arm could not be started; Debian has it in a package of that name"
        );
        Ran {
            well: output.status.success(),
            said: String::from_utf8_lossy(&output.stderr).into_owned(),
        }
    }
}

/// Runs a tool that must end well; gives what it printed.
pub fn run(command: &mut Command) -> String {
    let output = command.output().unwrap_or_else(|why| {
        panic!("{command:?}: {why}; Debian has it in gcc-arm-none-eabi and libnewlib-arm-none-eabi")
    });
    let words = String::from_utf8_lossy(&output.stderr);
    assert!(output.status.success(), "{command:?}\n{words}");
    String::from_utf8_lossy(&output.stdout).into_owned()
}
