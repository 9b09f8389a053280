//! A folder with a card for one test, and `card` run in it.

// Each file of tests uses a part of this.
#![allow(dead_code)]

pub mod cut;
pub mod index;
pub mod postings;

use std::fs;
use std::os::unix::fs::PermissionsExt;
use std::os::unix::process::CommandExt;
use std::path::PathBuf;
use std::process::Command;

/// A user without rights, for tests that run as root.
pub const NOBODY: u32 = 65_534;

/// Has a command run as that user. Only root can, and only a program that is not shut to
/// others; where it is not so, the test says so.
pub fn as_nobody(command: &mut Command) -> bool {
    let mut card = Command::new(env!("CARGO_BIN_EXE_card"));
    let tried = card.arg("--version").uid(NOBODY).gid(NOBODY).output();
    match tried {
        Ok(_) => command.uid(NOBODY).gid(NOBODY),
        Err(why) => {
            println!("not tried as another user: {why}");
            return false;
        }
    };
    true
}

/// A folder of its own for one test, removed at the end.
pub struct Folder(pub PathBuf);

/// What a run of the command gave.
#[derive(Debug)]
pub struct Run {
    pub status: i32,
    pub out: String,
    pub err: String,
}

impl Folder {
    pub fn new(name: &str) -> Folder {
        let path = std::env::temp_dir().join(format!("card-test-{}-{name}", std::process::id()));
        let _ = fs::remove_dir_all(&path);
        fs::create_dir_all(&path).unwrap();
        Folder(path)
    }

    /// A folder with a formatted card `a.mst`, `a.xrf` of 8 blocks and 1.
    pub fn with_card(name: &str) -> Folder {
        let folder = Folder::new(name);
        folder.done("format a.mst a.xrf 8 1");
        folder
    }

    /// `card`, to be run; the words are separated by spaces, `_` stands for one in a word.
    pub fn command(&self, words: &str) -> Command {
        let mut command = Command::new(env!("CARGO_BIN_EXE_card"));
        let words = words.split(' ').map(|word| word.replace('_', " "));
        command.current_dir(&self.0).args(words);
        command
    }

    /// Runs `card`.
    pub fn card(&self, words: &str) -> Run {
        let output = self.command(words).output().unwrap();
        Run {
            status: output.status.code().unwrap(),
            out: String::from_utf8(output.stdout).unwrap(),
            err: String::from_utf8(output.stderr).unwrap(),
        }
    }

    /// Runs `card`, which must do its work without a word on standard error.
    pub fn done(&self, words: &str) -> String {
        let run = self.card(words);
        assert_eq!((run.status, run.err.as_str()), (0, ""), "{words}");
        run.out
    }

    /// Runs `card`, which must refuse with a status, one sentence that has `part` in
    /// it, and every file of the folder as it was.
    pub fn refused(&self, words: &str, status: i32, part: &str) {
        let before = self.files();
        let run = self.card(words);
        assert_eq!(run.status, status, "{words}: {run:?}");
        assert!(run.err.starts_with("card: "), "{words}: {run:?}");
        assert!(run.err.contains(part), "{words}: {run:?}");
        assert!(before == self.files(), "{words} changed a file");
    }

    /// Runs `card` with a standard output that takes nothing; gives its status.
    pub fn unprinted(&self, words: &str) -> Option<i32> {
        let full = fs::OpenOptions::new().write(true).open("/dev/full");
        let output = self.command(words).stdout(full.unwrap()).output();
        output.unwrap().status.code()
    }

    /// Runs `card` as a user who may not read a file, if that can be tried: it must say so.
    pub fn refused_unread(&self, name: &str, words: &str) {
        self.permit(name, 0o000);
        let mut command = self.command(words);
        if as_nobody(&mut command) {
            let output = command.output().unwrap();
            let said = String::from_utf8(output.stderr).unwrap();
            assert_eq!(output.status.code(), Some(66), "{said}");
            let why = format!("card: {name}: cannot be read: permission denied\n");
            assert_eq!(said, why);
        }
        self.permit(name, 0o644);
    }

    /// Every file of the folder with its bytes.
    pub fn files(&self) -> Vec<(PathBuf, Vec<u8>)> {
        let mut files: Vec<_> = fs::read_dir(&self.0)
            .unwrap()
            .map(|entry| entry.unwrap().path())
            .filter(|path| path.is_file())
            .map(|path| (path.clone(), fs::read(path).unwrap()))
            .collect();
        files.sort();
        files
    }

    pub fn read(&self, name: &str) -> Vec<u8> {
        fs::read(self.0.join(name)).unwrap()
    }

    pub fn write(&self, name: &str, bytes: &[u8]) {
        fs::write(self.0.join(name), bytes).unwrap();
    }

    /// Lets everybody write the folder and its files.
    pub fn permit_all(&self) {
        self.permit(".", 0o777);
        for (path, _) in self.files() {
            fs::set_permissions(path, fs::Permissions::from_mode(0o666)).unwrap();
        }
    }

    /// Sets the permissions of a name in the folder.
    pub fn permit(&self, name: &str, mode: u32) {
        fs::set_permissions(self.0.join(name), fs::Permissions::from_mode(mode)).unwrap();
    }

    /// Gives a file another length; what is new takes no room on the disk.
    pub fn lengthen(&self, name: &str, len: u64) {
        let file = fs::OpenOptions::new().append(true).open(self.0.join(name));
        file.unwrap().set_len(len).unwrap();
    }

    /// Changes some bytes of a file.
    pub fn damage(&self, name: &str, at: usize, bytes: &[u8]) {
        let mut file = self.read(name);
        file[at..at + bytes.len()].copy_from_slice(bytes);
        self.write(name, &file);
    }
}

impl Drop for Folder {
    fn drop(&mut self) {
        let _ = fs::remove_dir_all(&self.0);
    }
}
