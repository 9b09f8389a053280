//! The two files of a card. They are read whole; what has changed is written to new
//! files beside and both are replaced as one, so that no reader meets a half-written
//! card, even if the power was cut.

use crate::check::is_permitted;
use crate::disk;
use crate::layout::{BLOCK, MST_BLOCKS, Store, XRF_BLOCKS};
use crate::progress::with_progress;
use crate::recover::{is_pending, recover};
use crate::replace::{Change, Replacement};
use crate::trouble::Trouble;
use isis::{Answer, Card, CardRef, Refusal};
use std::fs::{self, File};
use std::io::{self, Read};
use std::path::{Path, PathBuf};

/// Longer files are refused unread: no MST of more bytes is permitted.
const LONGEST: u64 = (MST_BLOCKS * BLOCK) as u64;

/// A card in memory, with the files that it came from.
pub struct Files {
    /// The master file's name.
    pub mst_path: PathBuf,
    /// The cross-reference file's name.
    pub xrf_path: PathBuf,
    /// The master file's bytes.
    pub mst: Vec<u8>,
    /// The cross-reference file's bytes.
    pub xrf: Vec<u8>,
}

/// Opens a file and reads it whole, unless it is longer than some bytes.
pub fn read(
    path: &Path,
    longest: u64,
    too_long: impl FnOnce(u64) -> Trouble,
) -> Result<(File, Vec<u8>), Trouble> {
    let cannot = |why: io::Error| disk::trouble(path, "cannot be read", &why);
    let meta = fs::metadata(path).map_err(cannot)?;
    if meta.is_dir() {
        return Err(cannot(io::ErrorKind::IsADirectory.into()));
    }
    if !meta.is_file() {
        let path = path.display();
        return Err(Trouble::File(format!("{path}: this is not a plain file")));
    }
    if meta.len() > longest {
        return Err(too_long(meta.len()));
    }
    let mut file = File::open(path).map_err(cannot)?;
    let mut bytes = Vec::new();
    with_progress(&format!("reading {}", path.display()), || {
        file.read_to_end(&mut bytes)
    })
    .map_err(cannot)?;
    Ok((file, bytes))
}

/// Reads a file of a card.
fn read_card(path: &Path) -> Result<(File, Vec<u8>), Trouble> {
    read(path, LONGEST, |len| {
        let path = path.display();
        let words = format!("{path} has {len} bytes, more than the longest MST");
        Trouble::Refused(Refusal::BadLength, words)
    })
}

/// The real place of a file that is to be written.
fn real(path: &Path) -> Result<PathBuf, Trouble> {
    disk::real(path).map_err(|why| disk::trouble(path, "cannot be written", &why))
}

/// Refuses one file in both places.
pub fn two_files(paths: &(PathBuf, PathBuf)) -> Result<(), Trouble> {
    if disk::same_file(&paths.0, &paths.1) {
        let words = "the MST and the XRF must be two files, but one is named twice";
        return Err(Trouble::Usage(words.into()));
    }
    Ok(())
}

impl Files {
    /// Reads both files, once no write of them is pending.
    pub fn read(paths: (PathBuf, PathBuf)) -> Result<Files, Trouble> {
        two_files(&paths)?;
        let (mst_path, xrf_path) = paths;
        loop {
            recover(&mst_path, &xrf_path)?;
            let (mst_file, mst) = read_card(&mst_path)?;
            let (xrf_file, xrf) = read_card(&xrf_path)?;
            // If another process has replaced one meanwhile, they are read again. The
            // intent comes first: it goes only after both files are replaced.
            let as_one = !is_pending(&mst_path)
                && disk::leads_to(&mst_path, &mst_file)
                && disk::leads_to(&xrf_path, &xrf_file);
            if as_one {
                return Ok(Files {
                    mst_path,
                    xrf_path,
                    mst,
                    xrf,
                });
            }
        }
    }

    /// Makes two files that must not be there yet.
    pub fn make(&self) -> Result<(), Trouble> {
        recover(&self.mst_path, &self.xrf_path)?;
        let is_there = |path: &&PathBuf| fs::symlink_metadata(path).is_ok();
        match [&self.mst_path, &self.xrf_path].into_iter().find(is_there) {
            Some(path) => Err(self.exists(path)),
            None => self.replace(None, None),
        }
    }

    /// That a file is there already, and what to do.
    fn exists(&self, path: &Path) -> Trouble {
        let is_of = |path: &Path, most: usize| {
            let len = fs::metadata(path).ok().filter(|meta| meta.is_file());
            len.is_some_and(|meta| is_permitted(meta.len() as usize, most))
        };
        let both = is_of(&self.mst_path, MST_BLOCKS) && is_of(&self.xrf_path, XRF_BLOCKS);
        let advice = match both {
            true => "'card format MST XRF --erase' empties the catalogue in both",
            false => "format makes two new files: choose other names",
        };
        let path = path.display();
        Trouble::File(format!("{path}: the file exists already; {advice}"))
    }

    /// The card, to read.
    pub fn card(&self) -> CardRef<'_> {
        CardRef::over(&self.mst, &self.xrf)
    }

    /// What stands where on the card, if its lengths and its control record are right.
    pub fn store(&self) -> Answer<Store<'_>> {
        Store::open(self.card())
    }

    /// Makes a call on the card and, where it was done, writes the files back.
    pub fn change<T>(
        &mut self,
        call: impl FnOnce(&mut Card) -> T,
        done: impl FnOnce(&T) -> bool,
    ) -> Result<T, Trouble> {
        let (mst_before, xrf_before) = (self.mst.clone(), self.xrf.clone());
        let given = call(&mut Card::over(&mut self.mst, &mut self.xrf));
        if done(&given) {
            self.write_back(&mst_before, &xrf_before)?;
        }
        Ok(given)
    }

    /// Writes back the files whose bytes are not as they were read.
    fn write_back(&self, mst_before: &[u8], xrf_before: &[u8]) -> Result<(), Trouble> {
        disk::writable(&self.mst_path)?;
        disk::writable(&self.xrf_path)?;
        if self.mst == mst_before && self.xrf == xrf_before {
            return Ok(());
        }
        self.replace(Some(mst_before), Some(xrf_before))
    }

    /// Replaces both files as one.
    fn replace(&self, mst: Option<&[u8]>, xrf: Option<&[u8]>) -> Result<(), Trouble> {
        let mst = Change {
            path: real(&self.mst_path)?,
            before: mst,
            after: &self.mst,
        };
        let xrf = Change {
            path: real(&self.xrf_path)?,
            before: xrf,
            after: &self.xrf,
        };
        Replacement::new(mst, xrf).run()
    }
}
