//! What a new file takes over from the one whose place it takes: its owner and group, its
//! mode, its access list and its other extended attributes (Linux keeps access lists
//! among them). It does so before it holds a byte, so that nothing is readable in between,
//! and what cannot be taken over is known before the write begins and ends none.

use std::ffi::{CStr, CString, c_char, c_int, c_void};
use std::fs::{File, Metadata, Permissions};
use std::io;
use std::os::unix::ffi::OsStrExt;
use std::os::unix::fs::{MetadataExt, PermissionsExt, fchown};
use std::path::Path;

unsafe extern "C" {
    fn llistxattr(path: *const c_char, list: *mut c_char, size: usize) -> isize;
    fn lgetxattr(
        path: *const c_char,
        name: *const c_char,
        value: *mut c_void,
        size: usize,
    ) -> isize;
    fn lsetxattr(
        path: *const c_char,
        name: *const c_char,
        value: *const c_void,
        size: usize,
        flags: c_int,
    ) -> c_int;
    fn lremovexattr(path: *const c_char, name: *const c_char) -> c_int;
}

/// No list of names and no value is longer.
const LONGEST: usize = 65_536;

/// The bits of a mode.
const ALL: u32 = 0o7777;

/// Gives a new file what the old one has; gives back what could not be kept, in words.
pub fn take_over(new: &Path, file: &File, old: &Path, had: &Metadata) -> Vec<String> {
    let mut lost = Vec::new();
    let mode = owner_and_group(file, had, &mut lost);
    if attributes(new, old, &mut lost).is_err() {
        lost.push("its extended attributes".into());
    }
    // The mode comes last: a new owner or access list changes it.
    let is = file.metadata().map(|is| is.mode() & ALL);
    let set = || file.set_permissions(Permissions::from_mode(mode));
    if is.ok() != Some(mode) && set().is_err() {
        lost.push("its mode".into());
    }
    if had.nlink() > 1 {
        lost.push("its other names, which stay with the old bytes".into());
    }
    lost
}

/// Sets owner and group; gives the mode that goes with those it has then. The rights of a
/// group that is lost go to no other group.
fn owner_and_group(file: &File, had: &Metadata, lost: &mut Vec<String>) -> u32 {
    let mode = had.mode() & ALL;
    let is = file.metadata().map(|is| (is.uid(), is.gid())).ok();
    let (owner, group) = (had.uid(), had.gid());
    if is == Some((owner, group)) || fchown(file, Some(owner), Some(group)).is_ok() {
        return mode;
    }
    if is.is_none_or(|is| is.0 != owner) {
        lost.push("its owner".into());
    }
    if is.is_some_and(|is| is.1 == group) || fchown(file, None, Some(group)).is_ok() {
        return mode & 0o777;
    }
    lost.push("its group".into());
    mode & 0o707 | (mode & 0o007) << 3 & mode
}

/// Sets the extended attributes of the old file, and takes away what the folder has given.
fn attributes(new: &Path, old: &Path, lost: &mut Vec<String>) -> io::Result<()> {
    let (new, old) = (terminated(new)?, terminated(old)?);
    let wanted = names(&old)?;
    for name in &wanted {
        let value = value(&old, name)?;
        let is = self::value(&new, name);
        if is.is_ok_and(|is| is == value) || set(&new, name, &value) {
            continue;
        }
        lost.push(called(name));
    }
    for name in names(&new)?.iter().filter(|name| !wanted.contains(name)) {
        // SAFETY: both names end in 0.
        if unsafe { lremovexattr(new.as_ptr(), name.as_ptr()) } != 0 {
            lost.push(format!("the absence of {}", called(name)));
        }
    }
    Ok(())
}

/// An attribute in words.
fn called(name: &CStr) -> String {
    match name.to_bytes() {
        b"system.posix_acl_access" => "its access list".into(),
        name => format!("its attribute {}", name.escape_ascii()),
    }
}

fn terminated(path: &Path) -> io::Result<CString> {
    Ok(CString::new(path.as_os_str().as_bytes())?)
}

/// The bytes that a function of the system gives into a buffer; none where the file system
/// has no such thing.
fn given(call: impl FnOnce(*mut u8, usize) -> isize) -> io::Result<Vec<u8>> {
    let mut bytes = vec![0; LONGEST];
    match usize::try_from(call(bytes.as_mut_ptr(), bytes.len())) {
        Ok(len) => {
            bytes.truncate(len);
            Ok(bytes)
        }
        Err(_) => match io::Error::last_os_error() {
            why if why.kind() == io::ErrorKind::Unsupported => Ok(Vec::new()),
            why => Err(why),
        },
    }
}

/// The names of a file's extended attributes.
fn names(path: &CStr) -> io::Result<Vec<CString>> {
    // SAFETY: the path ends in 0, and the list is written into its own length.
    let list = given(|list, len| unsafe { llistxattr(path.as_ptr(), list.cast(), len) })?;
    let names = list
        .split(|&byte| byte == 0)
        .filter(|name| !name.is_empty());
    names.map(|name| Ok(CString::new(name)?)).collect()
}

/// The value of an extended attribute.
fn value(path: &CStr, name: &CStr) -> io::Result<Vec<u8>> {
    // SAFETY: both names end in 0, and the value is written into its own length.
    given(|value, len| unsafe { lgetxattr(path.as_ptr(), name.as_ptr(), value.cast(), len) })
}

/// Sets an extended attribute; false where that is not permitted.
fn set(path: &CStr, name: &CStr, value: &[u8]) -> bool {
    let (bytes, len) = (value.as_ptr().cast(), value.len());
    // SAFETY: both names end in 0, and the value goes with its own length.
    unsafe { lsetxattr(path.as_ptr(), name.as_ptr(), bytes, len, 0) == 0 }
}
