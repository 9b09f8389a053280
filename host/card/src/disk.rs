//! The few things that are done with a file on the disk.

use crate::keep::take_over;
use crate::progress::with_progress;
use crate::say::tell;
use crate::trouble::Trouble;
use std::fs::{self, File, OpenOptions};
use std::io::{self, Write};
use std::os::unix::fs::{MetadataExt, OpenOptionsExt};
use std::path::{Path, PathBuf};

/// What was wrong with a file, in a sentence.
pub fn trouble(path: &Path, what: &str, why: &io::Error) -> Trouble {
    let reason = match why.kind() {
        io::ErrorKind::NotFound => missing(path),
        io::ErrorKind::NotADirectory => no_folder(path),
        io::ErrorKind::IsADirectory => "this is a folder".to_string(),
        io::ErrorKind::PermissionDenied => "permission denied".to_string(),
        _ => why.to_string(),
    };
    Trouble::File(format!("{}: {what}: {reason}", path.display()))
}

/// The folder of a file.
pub fn folder(path: &Path) -> &Path {
    match path.parent() {
        Some(folder) if folder != Path::new("") => folder,
        _ => Path::new("."),
    }
}

/// What is missing: the file, or its folder.
fn missing(path: &Path) -> String {
    let folder = folder(path);
    match folder.exists() {
        true => "there is no such file".to_string(),
        false => format!("there is no folder {}", folder.display()),
    }
}

/// Which part of a name is taken for a folder and is none.
fn no_folder(path: &Path) -> String {
    let file = path.ancestors().skip(1).find(|part| part.exists());
    let file = file.unwrap_or(path).display();
    format!("{file} is no folder")
}

/// Why no new file can be made, in a sentence about the file that it is for.
pub fn not_made(target: &Path, why: &io::Error) -> Trouble {
    if why.kind() != io::ErrorKind::PermissionDenied {
        return trouble(target, "cannot be written", why);
    }
    let (target, folder) = (target.display(), folder(target).display());
    Trouble::File(format!(
        "{target}: cannot be written: a new file takes its place, and the folder {folder} may not be written"
    ))
}

/// Makes a new file.
pub fn make(path: &Path, mode: u32) -> io::Result<File> {
    let mut options = OpenOptions::new();
    options.write(true).create_new(true).mode(mode).open(path)
}

/// The real place of a name. Links are followed, also where no file is behind them yet.
pub fn real(path: &Path) -> io::Result<PathBuf> {
    let mut path = path.to_path_buf();
    loop {
        match fs::canonicalize(&path) {
            Err(why) if is_missing(&why) => {}
            found => return found,
        }
        // A circle of links is another error, so the links come to an end.
        match fs::read_link(&path) {
            Ok(to) => path = folder(&path).join(to),
            Err(why) => {
                let name = path.file_name().ok_or(why)?;
                return Ok(fs::canonicalize(folder(&path))?.join(name));
            }
        }
    }
}

/// A name beside a file: its own with something behind it.
pub fn beside(path: &Path, suffix: &str) -> PathBuf {
    let mut name = path.file_name().unwrap_or_default().to_os_string();
    name.push(suffix);
    path.with_file_name(name)
}

/// Holds a file to be writable.
pub fn writable(path: &Path) -> Result<(), Trouble> {
    let cannot = |why: io::Error| trouble(path, "cannot be written", &why);
    let meta = fs::metadata(path).map_err(cannot)?;
    if meta.permissions().readonly() {
        return Err(cannot(io::ErrorKind::PermissionDenied.into()));
    }
    OpenOptions::new().write(true).open(path).map_err(cannot)?;
    Ok(())
}

/// Writes a new file, which is like the one whose place it is to take but for its bytes. If
/// it fails, nothing of it is left.
pub fn write_new(new: &Path, target: &Path, bytes: &[u8]) -> Result<(), Trouble> {
    let had = fs::metadata(target);
    let mode = if had.is_ok() { 0o600 } else { 0o666 };
    let mut file = make(new, mode).map_err(|why| not_made(target, &why))?;
    if let Ok(had) = had {
        let lost = take_over(new, &file, target, &had).join(", ");
        if !lost.is_empty() {
            let target = target.display();
            tell(format_args!("warning: {target}: cannot be kept: {lost}"));
        }
    }
    let what = format!("writing {}", target.display());
    let written = with_progress(&what, || {
        file.write_all(bytes)?;
        file.sync_all()
    });
    written.map_err(|why| {
        let _ = fs::remove_file(new);
        trouble(target, "cannot be written", &why)
    })
}

/// Puts a new file in the place of the one it is for.
pub fn rename(new: &Path, target: &Path) -> Result<(), Trouble> {
    fs::rename(new, target).map_err(|why| trouble(target, "cannot be replaced", &why))
}

/// Whether an error says that a file is not there. A name that is too long has none.
pub fn is_missing(why: &io::Error) -> bool {
    use io::ErrorKind::{InvalidFilename, NotFound};
    matches!(why.kind(), NotFound | InvalidFilename)
}

/// Removes a file, if it is there.
pub fn remove(path: &Path) -> Result<(), Trouble> {
    match fs::remove_file(path) {
        Err(why) if !is_missing(&why) => Err(trouble(path, "cannot be removed", &why)),
        _ => Ok(()),
    }
}

/// Sees to it that the names in a file's folder last as they are now. A file system
/// that has no such thing says no.
pub fn keep_names(path: &Path) {
    if let Some(Ok(folder)) = path.parent().map(File::open) {
        let _ = folder.sync_all();
    }
}

/// Whether a name still leads to the file that was opened by it.
pub fn leads_to(path: &Path, file: &File) -> bool {
    match (fs::metadata(path), file.metadata()) {
        (Ok(now), Ok(then)) => (now.dev(), now.ino()) == (then.dev(), then.ino()),
        _ => false,
    }
}

/// Whether two names lead to one file, or would if it were there.
pub fn same_file(one: &Path, other: &Path) -> bool {
    match (fs::metadata(one), fs::metadata(other)) {
        (Ok(one), Ok(other)) => (one.dev(), one.ino()) == (other.dev(), other.ino()),
        _ => real(one).is_ok_and(|one| real(other).is_ok_and(|other| one == other)),
    }
}
