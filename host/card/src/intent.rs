//! The intent of a write: a small file beside the MST, `NAME.card-intent`, that is there
//! while the card's files are being replaced. It says by length and checksum what each
//! file held and what it is to hold, so that after a cut the next command can tell how
//! far the write came, and finish or undo it. The writer holds a lock on it, which
//! ends with its process.

use crate::disk;
use crate::mark::{Mark, checksum, holds};
use crate::trouble::Trouble;
use std::io;
use std::os::unix::ffi::OsStrExt;
use std::path::{Path, PathBuf};

/// One of the two files.
#[derive(PartialEq, Debug)]
pub struct Part {
    /// The file itself, no link.
    pub path: PathBuf,
    /// Where its new bytes stand until they take its place.
    pub new: PathBuf,
    /// What it held; `None`: it was not there.
    before: Option<Mark>,
    /// What it is to hold.
    after: Mark,
}

/// What is to become of the two files.
#[derive(PartialEq, Debug)]
pub struct Intent {
    /// The process that writes.
    process: u32,
    /// The MST and the XRF.
    pub parts: [Part; 2],
}

impl Part {
    /// A file that held some bytes, or was not there, and is to hold others.
    pub fn new(path: PathBuf, before: Option<&[u8]>, after: &[u8]) -> Part {
        Part {
            new: new_name(&path, std::process::id()),
            path,
            before: before.map(Mark::of),
            after: Mark::of(after),
        }
    }

    /// Whether the file is to change at all.
    pub fn changes(&self) -> bool {
        self.before != Some(self.after)
    }

    /// Whether the file is as it was.
    pub fn is_before(&self) -> io::Result<bool> {
        holds(&self.path, self.before)
    }

    /// Whether the file holds what it is to hold.
    pub fn is_after(&self) -> io::Result<bool> {
        holds(&self.path, Some(self.after))
    }

    /// Whether the new bytes are complete and may take their place. The old file may be
    /// gone: some file systems rename in two steps.
    pub fn is_ready(&self) -> io::Result<bool> {
        let free = holds(&self.path, None)? || self.is_before()?;
        Ok(free && holds(&self.new, Some(self.after))?)
    }

    /// Both marks as a line of the intent.
    fn line(&self) -> String {
        let before = self.before.map_or("none".into(), Mark::words);
        format!("{before} {}\n", self.after.words())
    }

    /// Reads such a line.
    fn read(path: &Path, process: u32, line: &[u8]) -> Option<Part> {
        let (before, after) = std::str::from_utf8(line).ok()?.split_once(' ')?;
        Some(Part {
            path: path.to_path_buf(),
            new: new_name(path, process),
            before: match before {
                "none" => None,
                words => Some(Mark::read(words)?),
            },
            after: Mark::read(after)?,
        })
    }
}

/// The name of the new bytes beside a file.
pub fn new_name(path: &Path, process: u32) -> PathBuf {
    disk::beside(path, &format!(".{process}.new"))
}

/// The name of the intent beside an MST.
pub fn intent_name(mst: &Path) -> PathBuf {
    disk::beside(mst, ".card-intent")
}

impl Intent {
    /// The intent to replace an MST and an XRF.
    pub fn new(mst: Part, xrf: Part) -> Intent {
        Intent {
            process: std::process::id(),
            parts: [mst, xrf],
        }
    }

    /// The intent's own name.
    pub fn path(&self) -> PathBuf {
        intent_name(&self.parts[0].path)
    }

    /// The XRF's name as the intent has it: from the MST's folder on, so that a card may
    /// be carried to another place.
    pub fn xrf_name<'a>(mst: &Path, xrf: &'a Path) -> &'a Path {
        let inside = mst
            .parent()
            .and_then(|folder| xrf.strip_prefix(folder).ok());
        inside.unwrap_or(xrf)
    }

    /// The intent as the bytes of its file: a checksum of the rest, the process, a line
    /// for each of the two files, and the name of the XRF.
    pub fn bytes(&self) -> Vec<u8> {
        let [mst, xrf] = &self.parts;
        let mut rest = format!("{}\n{}{}", self.process, mst.line(), xrf.line()).into_bytes();
        rest.extend(
            Intent::xrf_name(&mst.path, &xrf.path)
                .as_os_str()
                .as_bytes(),
        );
        let mut bytes = format!("card intent 1 {:016x}\n", checksum(&rest)).into_bytes();
        bytes.extend(rest);
        bytes
    }

    /// Reads such bytes, with the name of the XRF; `None` if they are not complete.
    pub fn read<'a>(bytes: &'a [u8], mst: &Path, xrf: &Path) -> Option<(Intent, &'a [u8])> {
        let at = bytes.iter().position(|&byte| byte == b'\n')?;
        let (head, rest) = (&bytes[..at], &bytes[at + 1..]);
        if head != format!("card intent 1 {:016x}", checksum(rest)).as_bytes() {
            return None;
        }
        let mut lines = rest.splitn(4, |&byte| byte == b'\n');
        let process = std::str::from_utf8(lines.next()?).ok()?.parse().ok()?;
        let parts = [
            Part::read(mst, process, lines.next()?)?,
            Part::read(xrf, process, lines.next()?)?,
        ];
        Some((Intent { process, parts }, lines.next()?))
    }

    /// Whether the files were not there before.
    pub fn makes(&self) -> bool {
        self.parts.iter().all(|part| part.before.is_none())
    }

    /// Sees to it that the names in both folders last.
    pub fn keep_names(&self) {
        for part in &self.parts {
            disk::keep_names(&part.path);
        }
    }

    /// Removes the intent: all is done.
    pub fn close(&self) -> Result<(), Trouble> {
        disk::remove(&self.path())?;
        disk::keep_names(&self.path());
        Ok(())
    }
}

#[cfg(test)]
mod tests {
    use super::*;
    use std::ffi::OsStr;

    fn intent(xrf: &[u8]) -> Intent {
        let xrf = Path::new("/cards").join(OsStr::from_bytes(xrf));
        Intent::new(
            Part::new("/cards/a.mst".into(), Some(b"old"), b"new"),
            Part::new(xrf, None, &[0; 512]),
        )
    }

    #[test]
    fn an_intent_is_read_as_it_was_written() {
        let names: [&[u8]; 4] = [b"a.xrf", b"a\nb\n.xrf", b"\xFF \x80", b"/other/a.xrf"];
        for name in names {
            let intent = intent(name);
            let [mst, xrf] = &intent.parts;
            let bytes = intent.bytes();
            let (read, its) = Intent::read(&bytes, &mst.path, &xrf.path).unwrap();
            assert_eq!((read, its), (intent, name));
        }
    }

    #[test]
    fn an_intent_that_is_not_complete_is_none() {
        let intent = intent(b"a.xrf");
        let [mst, xrf] = &intent.parts;
        let whole = intent.bytes();
        for len in 0..whole.len() {
            assert_eq!(Intent::read(&whole[..len], &mst.path, &xrf.path), None);
        }
        for at in 0..whole.len() {
            for bit in 0..8 {
                let mut bytes = whole.clone();
                bytes[at] ^= 1 << bit;
                assert_eq!(Intent::read(&bytes, &mst.path, &xrf.path), None, "{at}");
            }
        }
        for rest in [
            "",
            "\n",
            "1\n\n\n",
            "1\n: :\n1:1 1:1\nx",
            "x\n1:1 1:1\n1:1 1:1\nx",
        ] {
            let bytes = format!("card intent 1 {:016x}\n{rest}", checksum(rest.as_bytes()));
            let read = Intent::read(bytes.as_bytes(), &mst.path, &xrf.path);
            assert_eq!(read, None, "{rest}");
        }
    }
}
