//! Both files of a card are replaced as one, also if the power is cut on the way: the
//! intent is on the disk before the new files, both new files before the first rename,
//! and both renames before the intent is removed. Until both new files are complete the
//! write can be undone, and from then on it can be finished.

use crate::disk;
use crate::intent::{Intent, Part};
use crate::progress::with_progress;
use crate::trouble::Trouble;
use std::fs::{self, File};
use std::io::{self, Write};
use std::path::PathBuf;

/// What is to become of a file.
pub struct Change<'a> {
    /// Its real place.
    pub path: PathBuf,
    /// What it holds; `None`: it is not there.
    pub before: Option<&'a [u8]>,
    /// What it is to hold.
    pub after: &'a [u8],
}

/// A replacement on its way.
pub struct Replacement<'a> {
    intent: Intent,
    bytes: [&'a [u8]; 2],
    /// The intent's file, locked as long as this process is at work.
    lock: Option<File>,
    /// Whether the intent was written, or a part of it.
    declared: bool,
}

/// One step of a replacement.
pub type Step = fn(&mut Replacement<'_>) -> Result<(), Trouble>;

/// All steps. The power may be cut in each of them, or between two.
pub const STEPS: [Step; 10] = [
    |all| all.claim(),
    |all| all.compare(),
    |all| all.declare(),
    |all| all.write(0),
    |all| all.write(1),
    |all| all.keep_names(),
    |all| all.rename(0),
    |all| all.rename(1),
    |all| all.keep_names(),
    |all| all.intent.close(),
];

impl<'a> Replacement<'a> {
    /// A replacement of the MST and the XRF; nothing is done yet.
    pub fn new(mst: Change<'a>, xrf: Change<'a>) -> Replacement<'a> {
        let bytes = [mst.after, xrf.after];
        let part = |change: Change| Part::new(change.path, change.before, change.after);
        let parts = || Intent::new(part(mst), part(xrf));
        Replacement {
            bytes,
            intent: with_progress("taking checksums", parts),
            lock: None,
            declared: false,
        }
    }

    /// Takes all steps. If one fails, the card is left as it was, or, once a file has been
    /// replaced, for the next command to finish.
    pub fn run(mut self) -> Result<(), Trouble> {
        for step in STEPS {
            if let Err(trouble) = step(&mut self) {
                return Err(self.give_up(trouble));
            }
        }
        Ok(())
    }

    /// Leaves no trace if no file was replaced; an intent of another process is let be.
    fn give_up(&self, trouble: Trouble) -> Trouble {
        let left = match (&self.lock, self.declared) {
            (None, _) => Ok(()),
            (Some(_), false) => self.intent.close(),
            (Some(_), true) => self.intent.withdraw(),
        };
        match left {
            Ok(()) => trouble,
            Err(_) => Trouble::File(format!(
                "{trouble}; the write is not complete, and the next card command finishes or undoes it"
            )),
        }
    }

    fn trouble(&self, what: &str) -> Trouble {
        Trouble::File(format!("{}: {what}", self.intent.parts[0].path.display()))
    }

    /// Makes the intent's file, empty, so that no other process writes.
    fn claim(&mut self) -> Result<(), Trouble> {
        for part in &self.intent.parts {
            if fs::symlink_metadata(&part.new).is_ok() {
                let new = part.new.display();
                return Err(Trouble::File(format!("{new}: this file is in the way")));
            }
        }
        let path = self.intent.path();
        let busy = "another card command writes this card; try again";
        let file = disk::make(&path, 0o666).map_err(|why| match why.kind() {
            io::ErrorKind::AlreadyExists => self.trouble(busy),
            _ => disk::not_made(&self.intent.parts[0].path, &why),
        })?;
        // Another process may have met it before the lock and taken it for a cut write.
        if let Err(fs::TryLockError::WouldBlock) = file.try_lock() {
            return Err(self.trouble(busy));
        }
        if !disk::leads_to(&path, &file) {
            return Err(self.trouble(busy));
        }
        self.lock = Some(file);
        Ok(())
    }

    /// Holds both files to be as they were read.
    fn compare(&mut self) -> Result<(), Trouble> {
        for part in &self.intent.parts {
            let what = format!("comparing {}", part.path.display());
            let same = with_progress(&what, || part.is_before());
            if !same.map_err(|why| disk::trouble(&part.path, "cannot be read", &why))? {
                let what = "the card was changed by another program meanwhile; try again";
                return Err(self.trouble(what));
            }
        }
        Ok(())
    }

    /// Writes the intent.
    fn declare(&mut self) -> Result<(), Trouble> {
        self.declared = true;
        let (path, bytes) = (self.intent.path(), self.intent.bytes());
        if let Some(file) = &mut self.lock {
            file.write_all(&bytes)
                .and_then(|()| file.sync_all())
                .map_err(|why| disk::trouble(&path, "cannot be written", &why))?;
        }
        disk::keep_names(&path);
        Ok(())
    }

    /// Writes the new bytes of one file beside it, if they are new.
    fn write(&mut self, which: usize) -> Result<(), Trouble> {
        let part = &self.intent.parts[which];
        if part.changes() {
            disk::write_new(&part.new, &part.path, self.bytes[which])?;
        }
        Ok(())
    }

    /// Puts them in its place.
    fn rename(&mut self, which: usize) -> Result<(), Trouble> {
        let part = &self.intent.parts[which];
        if part.changes() {
            disk::rename(&part.new, &part.path)?;
        }
        Ok(())
    }

    fn keep_names(&mut self) -> Result<(), Trouble> {
        with_progress("waiting for the disk", || self.intent.keep_names());
        Ok(())
    }
}
