//! The files of a search index: CNT, the nodes and leaves of two trees, and the postings file.
//! They share a name and have an ending each, in capitals or in small letters. They are only
//! read.

use crate::disk;
use crate::files::read;
use crate::trouble::Trouble;
use isis::{IfpPlace, Index};
use std::fs;
use std::io;
use std::path::{Path, PathBuf};

/// Of an index no more bytes are read. The format has no limit, but memory has.
const LONGEST: u64 = 1 << 29;

/// The endings in capitals, CNT first.
const ENDINGS: [&str; 5] = ["CNT", "N01", "L01", "N02", "L02"];

/// The ending of the postings file.
const POSTINGS: &str = "IFP";

/// A place of the postings file in words.
pub fn place_words(IfpPlace { block, word }: IfpPlace) -> String {
    format!("block {block}, word {word}")
}

/// A file of an index in memory.
pub struct IndexFile {
    /// Its name.
    pub path: PathBuf,
    /// Its bytes.
    pub bytes: Vec<u8>,
}

/// An index in memory.
pub struct IndexFiles {
    /// CNT.
    pub cnt: IndexFile,
    /// N01 and N02.
    pub nodes: [IndexFile; 2],
    /// L01 and L02.
    pub leaves: [IndexFile; 2],
}

impl IndexFiles {
    /// Reads the five files of a name. Where an ending is there in capitals and in small
    /// letters, CNT is taken in capitals and the others as CNT is.
    pub fn read(name: &Path) -> Result<IndexFiles, Trouble> {
        IndexFiles::from(&mut Reading::of(name, "five"))
    }

    /// Reads these and the postings file, which is taken as the others are.
    pub fn with_postings(name: &Path) -> Result<(IndexFiles, IndexFile), Trouble> {
        let mut reading = Reading::of(name, "six");
        let files = IndexFiles::from(&mut reading)?;
        let (postings, _) = reading.file(POSTINGS)?;
        Ok((files, postings))
    }

    fn from(reading: &mut Reading) -> Result<IndexFiles, Trouble> {
        let [cnt, n01, l01, n02, l02] = ENDINGS;
        let (cnt, capitals) = reading.file(cnt)?;
        reading.capitals = capitals;
        let mut other = |ending| reading.file(ending).map(|(file, _)| file);
        let (n01, l01) = (other(n01)?, other(l01)?);
        let (n02, l02) = (other(n02)?, other(l02)?);
        Ok(IndexFiles {
            cnt,
            nodes: [n01, n02],
            leaves: [l01, l02],
        })
    }

    /// The index, for the library.
    pub fn index(&self) -> Index<'_> {
        Index {
            cnt: &self.cnt.bytes,
            n01: &self.nodes[0].bytes,
            l01: &self.leaves[0].bytes,
            n02: &self.nodes[1].bytes,
            l02: &self.leaves[1].bytes,
        }
    }
}

/// Files of a name that are being read.
struct Reading<'a> {
    name: &'a Path,
    /// How many there are, in a word.
    files: &'static str,
    /// Whether an ending is looked for in capitals first.
    capitals: bool,
    /// How many bytes may still be read.
    left: u64,
}

impl<'a> Reading<'a> {
    /// Nothing read yet.
    fn of(name: &'a Path, files: &'static str) -> Reading<'a> {
        Reading {
            name,
            files,
            capitals: true,
            left: LONGEST,
        }
    }

    /// The file of an ending, and whether that is in capitals.
    fn file(&mut self, ending: &str) -> Result<(IndexFile, bool), Trouble> {
        let path = |capitals| with_ending(self.name, ending, capitals);
        let cases = [self.capitals, !self.capitals];
        let Some(capitals) = cases.into_iter().find(|&case| is_there(&path(case))) else {
            return Err(none(self.name, cases.map(path)));
        };
        let path = path(capitals);
        let (_, bytes) = read(&path, self.left, |len| {
            let (path, files) = (path.display(), self.files);
            Trouble::File(format!(
                "{path}: cannot be read: it has {len} bytes, and the {files} files may have {LONGEST} in all"
            ))
        })?;
        self.left = self.left.saturating_sub(bytes.len() as u64);
        Ok((IndexFile { path, bytes }, capitals))
    }
}

/// A name with an ending.
fn with_ending(name: &Path, ending: &str, capitals: bool) -> PathBuf {
    let mut path = name.as_os_str().to_os_string();
    path.push(".");
    path.push(match capitals {
        true => ending.to_ascii_uppercase(),
        false => ending.to_ascii_lowercase(),
    });
    path.into()
}

/// Whether a name leads to something, or to a trouble that is worth telling.
fn is_there(path: &Path) -> bool {
    !fs::metadata(path).is_err_and(|why| disk::is_missing(&why))
}

/// That a file is not there, in capitals or in small letters.
fn none(name: &Path, [path, other]: [PathBuf; 2]) -> Trouble {
    let trouble = disk::trouble(&path, "cannot be read", &io::ErrorKind::NotFound.into());
    match trouble {
        Trouble::File(words) if disk::folder(&path).exists() => {
            let (other, advice) = (other.display(), advice(name));
            Trouble::File(format!("{words}, nor {other}{advice}"))
        }
        trouble => trouble,
    }
}

/// What to name instead of a file of an index, or of its folder.
fn advice(name: &Path) -> &'static str {
    let ending = name.extension().map(|ending| ending.to_ascii_uppercase());
    match ending {
        Some(ending)
            if ENDINGS
                .iter()
                .chain([&POSTINGS])
                .any(|known| ending == *known) =>
        {
            "; an index is named without an ending"
        }
        _ if name.is_dir() => "; an index is named by its files, not by a folder",
        _ => "",
    }
}
