//! What the next command does about a write that was cut short. If both new files are
//! complete, or already in their places, the write is finished; if no file was replaced,
//! it is undone. A card that was being made is always undone, so that it can be made again.

use crate::disk;
use crate::intent::{Intent, Part, intent_name};
use crate::progress::with_progress;
use crate::say::tell;
use crate::trouble::Trouble;
use std::fs::{self, File};
use std::io::{self, Read};
use std::os::unix::ffi::OsStrExt;
use std::path::Path;

/// What can be done about a write that was cut short.
#[derive(PartialEq, Debug)]
enum Course {
    Finish,
    Undo,
    Neither,
}

impl Intent {
    /// Of the files that are to change, how many do not hold their new bytes yet, and how
    /// many do.
    fn left_and_replaced(&self) -> io::Result<(usize, usize)> {
        let (mut left, mut replaced) = (0, 0);
        for part in self.parts.iter().filter(|part| part.changes()) {
            match part.is_after()? {
                false => left += 1,
                true => replaced += 1,
            }
        }
        Ok((left, replaced))
    }

    /// Looks at the files and says what can be done.
    fn course(&self) -> io::Result<Course> {
        let (left, replaced) = self.left_and_replaced()?;
        let mut ready = true;
        for part in &self.parts {
            ready &= part.is_after()? || part.is_ready()?;
        }
        Ok(match (left, replaced) {
            _ if self.makes() => Course::Undo,
            (0, _) => Course::Finish,
            _ if ready => Course::Finish,
            (_, 0) => Course::Undo,
            _ => Course::Neither,
        })
    }

    /// Puts the new files in their places that are not there yet.
    fn finish(&self) -> Result<(), Trouble> {
        for part in self.parts.iter().filter(|part| part.changes()) {
            match part.is_after() {
                Ok(true) => disk::remove(&part.new)?,
                _ => disk::rename(&part.new, &part.path)?,
            }
        }
        self.keep_names();
        self.close()
    }

    /// Removes the new files; of a card that was being made, also those in their places,
    /// if nobody has written there since.
    fn undo(&self) -> Result<(), Trouble> {
        let untouched = |part: &Part| {
            let (absent, after) = (part.is_before(), part.is_after());
            absent.unwrap_or(false) || after.unwrap_or(false)
        };
        let unmake = self.makes() && self.parts.iter().all(untouched);
        for part in &self.parts {
            disk::remove(&part.new)?;
            if unmake {
                disk::remove(&part.path)?;
            }
        }
        self.keep_names();
        self.close()
    }

    /// Undoes a write that failed, unless it has replaced a file that was there.
    pub fn withdraw(&self) -> Result<(), Trouble> {
        match self.left_and_replaced() {
            Ok((_, replaced)) if replaced == 0 || self.makes() => self.undo(),
            _ => Err(Trouble::File("a file was replaced already".into())),
        }
    }
}

/// Whether a card is being written, or a write of it was cut short.
pub fn is_pending(mst: &Path) -> bool {
    disk::real(mst).is_ok_and(|mst| fs::metadata(intent_name(&mst)).is_ok())
}

/// Opens the intent beside an MST once no other process writes the card, if it is there.
fn open(mst: &Path) -> io::Result<Option<File>> {
    let path = intent_name(mst);
    loop {
        let file = match File::open(&path) {
            Err(why) if disk::is_missing(&why) => return Ok(None),
            file => file?,
        };
        // A file system without locks says no; then nobody is taken to write.
        let _ = with_progress("waiting for another card command", || file.lock());
        if disk::leads_to(&path, &file) {
            return Ok(Some(file));
        }
    }
}

/// Finishes a write of this card that was cut short, or undoes it, and says so.
pub fn recover(mst: &Path, xrf: &Path) -> Result<(), Trouble> {
    let (Ok(mst), Ok(xrf)) = (disk::real(mst), disk::real(xrf)) else {
        return Ok(());
    };
    let name = intent_name(&mst);
    let cannot = |why: io::Error| disk::trouble(&name, "cannot be read", &why);
    let Some(mut file) = open(&mst).map_err(cannot)? else {
        return Ok(());
    };
    let mut bytes = Vec::new();
    file.read_to_end(&mut bytes).map_err(cannot)?;
    let done = match Intent::read(&bytes, &mst, &xrf) {
        // The intent itself was not complete, so nothing else was begun.
        None => disk::remove(&name).map(|()| Course::Undo),
        Some((_, its)) if its != Intent::xrf_name(&mst, &xrf).as_os_str().as_bytes() => {
            return Err(Trouble::File(format!(
                "{}: a write of this MST with the XRF {} was cut short; name that XRF first, \
                 and the write is finished or undone",
                mst.display(),
                its.escape_ascii()
            )));
        }
        Some((intent, _)) => settle(&intent),
    };
    let (mst, intent) = (mst.display(), name.display());
    match done {
        Ok(Course::Finish) => tell(format_args!(
            "{mst}: a write that was cut short has been finished; the card is as that write was to leave it"
        )),
        Ok(Course::Undo) => tell(format_args!(
            "{mst}: a write that was cut short has been undone; the card is as it was before it"
        )),
        Ok(Course::Neither) => {
            return Err(Trouble::File(format!(
                "{mst}: a write was cut short and one of its new files is missing or damaged, so it can be \
                 neither finished nor undone; put back both files from a copy and remove {intent}"
            )));
        }
        Err(why) => {
            return Err(Trouble::File(format!(
                "{mst}: a write that was cut short is pending and cannot be finished or undone here ({why}); \
                 run a card command where both files and their folders may be written"
            )));
        }
    }
    Ok(())
}

/// Takes the course that is possible.
fn settle(intent: &Intent) -> Result<Course, Trouble> {
    for part in &intent.parts {
        if fs::symlink_metadata(&part.path).is_ok() {
            disk::writable(&part.path)?;
        }
    }
    let course = intent
        .course()
        .map_err(|why| disk::trouble(&intent.path(), "a file cannot be read", &why))?;
    match course {
        Course::Finish => intent.finish()?,
        Course::Undo => intent.undo()?,
        Course::Neither => {}
    }
    Ok(course)
}
