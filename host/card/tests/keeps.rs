//! A file that is replaced keeps its owner, group, mode, access list and extended
//! attributes; what cannot be kept is said and ends no write.

mod folder;

use folder::{Folder, NOBODY, as_nobody};
use std::ffi::{CString, c_char, c_int, c_void};
use std::fs;
use std::os::unix::ffi::OsStrExt;
use std::os::unix::fs::{MetadataExt, chown};
use std::path::Path;

unsafe extern "C" {
    fn setxattr(
        path: *const c_char,
        name: *const c_char,
        value: *const c_void,
        size: usize,
        flags: c_int,
    ) -> c_int;
    fn getxattr(path: *const c_char, name: *const c_char, value: *mut c_void, size: usize)
    -> isize;
}

fn terminated(bytes: &[u8]) -> CString {
    CString::new(bytes).unwrap()
}

/// Sets an extended attribute; false where the file system has none.
fn set(path: &Path, name: &str, value: &[u8]) -> bool {
    let (path, name) = (
        terminated(path.as_os_str().as_bytes()),
        terminated(name.as_bytes()),
    );
    // SAFETY: both names end in 0 and the value has its own length.
    let done = unsafe {
        setxattr(
            path.as_ptr(),
            name.as_ptr(),
            value.as_ptr().cast(),
            value.len(),
            0,
        )
    };
    if done != 0 {
        println!("not tried: {}", std::io::Error::last_os_error());
    }
    done == 0
}

/// An extended attribute, if it is there.
fn get(path: &Path, name: &str) -> Option<Vec<u8>> {
    let (path, name) = (
        terminated(path.as_os_str().as_bytes()),
        terminated(name.as_bytes()),
    );
    let mut value = vec![0; 1000];
    // SAFETY: as above, and the value is written into its own length.
    let len = unsafe {
        getxattr(
            path.as_ptr(),
            name.as_ptr(),
            value.as_mut_ptr().cast(),
            value.len(),
        )
    };
    value.truncate(usize::try_from(len).ok()?);
    Some(value)
}

const ACCESS: &str = "system.posix_acl_access";
const DEFAULT: &str = "system.posix_acl_default";

/// An access list: the owner, one named user, the group, the mask, all others.
fn access_list() -> Vec<u8> {
    let mut list = vec![2, 0, 0, 0];
    for (tag, rights, id) in [
        (1u16, 6u16, u32::MAX),
        (2, 6, 4321),
        (4, 4, u32::MAX),
        (16, 6, u32::MAX),
        (32, 0, u32::MAX),
    ] {
        list.extend(tag.to_le_bytes());
        list.extend(rights.to_le_bytes());
        list.extend(id.to_le_bytes());
    }
    list
}

/// A folder with a card of one record, and the file names that a settle replaces.
fn with_record(name: &str) -> Folder {
    let folder = Folder::with_card(name);
    folder.done("create a.mst a.xrf 24=Kite");
    folder
}

const FILES: [&str; 2] = ["a.mst", "a.xrf"];

#[test]
fn extended_attributes_and_access_lists_are_kept() {
    let folder = with_record("keep-attributes");
    for name in FILES {
        let path = folder.0.join(name);
        if !(set(&path, "user.origin", b"branch 7")
            && set(&path, "user.empty", b"")
            && set(&path, ACCESS, &access_list()))
        {
            return;
        }
    }
    let mode = |name: &str| fs::metadata(folder.0.join(name)).unwrap().mode();
    let before = FILES.map(mode);
    folder.done("update a.mst a.xrf 1 24=Kites");
    folder.done("create a.mst a.xrf 24=Wind");
    assert_eq!(FILES.map(mode), before);
    for name in FILES {
        let path = folder.0.join(name);
        assert_eq!(
            get(&path, "user.origin").as_deref(),
            Some(&b"branch 7"[..]),
            "{name}"
        );
        assert_eq!(
            get(&path, "user.empty").as_deref(),
            Some(&b""[..]),
            "{name}"
        );
        assert_eq!(get(&path, ACCESS), Some(access_list()), "{name}");
    }
}

/// A file without an access list gains none from its folder.
#[test]
fn no_access_list_stays_none() {
    let folder = with_record("keep-none");
    if !set(&folder.0, DEFAULT, &access_list()) {
        return;
    }
    folder.done("create a.mst a.xrf 24=Wind");
    for name in FILES {
        assert_eq!(get(&folder.0.join(name), ACCESS), None, "{name}");
    }
}

#[test]
fn owner_group_and_mode_are_kept() {
    let folder = with_record("keep-owner");
    if let Err(why) = chown(folder.0.join("a.mst"), Some(1234), None) {
        println!("not tried, since only root gives files away: {why}");
        return;
    }
    let kept = |name: &str| {
        let meta = fs::metadata(folder.0.join(name)).unwrap();
        (meta.uid(), meta.gid(), meta.mode() & 0o7777)
    };
    folder.done("draw a.mst a.xrf a.svg");
    for (name, (owner, group, mode)) in [
        ("a.mst", (1234, 5678, 0o640)),
        ("a.xrf", (4321, 0, 0o606)),
        ("a.svg", (7, 8, 0o604)),
    ] {
        chown(folder.0.join(name), Some(owner), Some(group)).unwrap();
        folder.permit(name, mode);
    }
    folder.done("create a.mst a.xrf 24=Wind");
    folder.done("draw a.mst a.xrf a.svg");
    assert_eq!(kept("a.mst"), (1234, 5678, 0o640));
    assert_eq!(kept("a.xrf"), (4321, 0, 0o606));
    assert_eq!(kept("a.svg"), (7, 8, 0o604));
}

/// A write that was cut short and is finished later keeps them too.
#[test]
fn a_finished_write_keeps_them() {
    use folder::cut::{CALLS, COMPLETE, before_and_after, card_in, cut, worked};
    let folder = worked("keep-finish");
    let (before, after) = before_and_after(&folder, CALLS[0]);
    for name in FILES {
        if !set(&folder.0.join(name), "user.origin", b"branch 7") {
            return;
        }
        folder.permit(name, 0o640);
    }
    cut(&folder, Some(&before), &after, COMPLETE);
    folder.card("check a.mst a.xrf");
    assert!(card_in(&folder) == after);
    for name in FILES {
        let path = folder.0.join(name);
        assert!(get(&path, "user.origin").is_some(), "{name}");
        assert_eq!(fs::metadata(&path).unwrap().mode() & 0o777, 0o640, "{name}");
    }
}

/// Who may not give a file away is told so, once for each file, and the card is written.
/// The rights of a group that is lost go to no other group.
#[test]
fn what_cannot_be_kept_is_said() {
    let folder = with_record("keep-not");
    folder.permit_all();
    let mut create = folder.command("create a.mst a.xrf 24=Wind");
    if !as_nobody(&mut create) {
        return;
    }
    let output = create.output().unwrap();
    let said = String::from_utf8(output.stderr).unwrap();
    assert_eq!(output.status.code(), Some(0), "{said}");
    let lines: Vec<&str> = said.lines().collect();
    assert_eq!(lines.len(), 2, "{said}");
    for (line, name) in lines.iter().zip(FILES) {
        assert!(
            line.starts_with("card: warning: ") && line.contains(name),
            "{line}"
        );
        assert!(line.contains("owner") && line.contains("group"), "{line}");
    }
    assert_eq!(
        folder.done("show a.mst a.xrf 2"),
        "MFN 2: live, new, pending\n     24  Wind\n"
    );
    let folder = with_record("keep-not-group");
    folder.permit(".", 0o777);
    for name in FILES {
        chown(folder.0.join(name), Some(NOBODY), Some(0)).unwrap();
        folder.permit(name, 0o664);
    }
    let mut create = folder.command("create a.mst a.xrf 24=Wind");
    assert!(as_nobody(&mut create));
    let output = create.output().unwrap();
    assert_eq!(output.status.code(), Some(0));
    for name in FILES {
        let meta = fs::metadata(folder.0.join(name)).unwrap();
        assert_eq!((meta.gid(), meta.mode() & 0o777), (NOBODY, 0o644), "{name}");
    }
}

/// A second name of a file keeps the old bytes, and that is said.
#[test]
fn another_name_of_a_file_is_said() {
    let folder = with_record("keep-names");
    fs::hard_link(folder.0.join("a.mst"), folder.0.join("copy")).unwrap();
    let run = folder.card("create a.mst a.xrf 24=Wind");
    assert_eq!(run.status, 0);
    assert!(
        run.err.starts_with("card: warning: ") && run.err.contains("a.mst"),
        "{run:?}"
    );
    assert_eq!(run.err.lines().count(), 1, "{run:?}");
}
