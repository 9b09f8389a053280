//! Where a picture goes. A name is followed to what is behind it: a file that is new, or is
//! such a picture already, is replaced as a whole; what is no plain file, a FIFO say, is
//! written to and stays; any other file is let be unless it is to be replaced, and the
//! card's own always.

use crate::disk;
use crate::draw::TITLE;
use crate::files::Files;
use crate::intent::{intent_name, new_name};
use crate::progress::with_progress;
use crate::trouble::Trouble;
use std::fs::{self, File, OpenOptions};
use std::io::{self, Read, Write};
use std::path::Path;

/// So many bytes of a picture have its title.
const HEAD: u64 = 4096;

/// Writes a picture of a card.
pub fn put(files: &Files, path: &Path, replace: bool, svg: &str) -> Result<(), Trouble> {
    let cannot = |why: io::Error| disk::trouble(path, "cannot be written", &why);
    let of_card = |own: &Path| disk::same_file(path, own);
    let intent = disk::real(&files.mst_path).map(|mst| intent_name(&mst));
    if of_card(&files.mst_path) || of_card(&files.xrf_path) || intent.is_ok_and(|own| of_card(&own))
    {
        let path = path.display();
        return Err(Trouble::Usage(format!(
            "{path} is a file of the card itself"
        )));
    }
    let real = disk::real(path).map_err(cannot)?;
    match fs::metadata(&real) {
        Err(why) if why.kind() == io::ErrorKind::NotFound => {}
        Ok(meta) if meta.is_file() => {
            disk::writable(&real)?;
            if !replace && !is_picture(&real).map_err(cannot)? {
                let path = path.display();
                return Err(Trouble::File(format!(
                    "{path}: this file exists and is no picture of a card; --replace replaces it"
                )));
            }
        }
        Ok(meta) if meta.is_dir() => return Err(cannot(io::ErrorKind::IsADirectory.into())),
        Ok(_) => return write_into(&real, svg).map_err(cannot),
        Err(why) => return Err(cannot(why)),
    }
    replace_file(&real, svg)
}

/// Whether a file begins as our pictures do.
fn is_picture(path: &Path) -> io::Result<bool> {
    let mut head = Vec::new();
    File::open(path)?.take(HEAD).read_to_end(&mut head)?;
    let head = String::from_utf8_lossy(&head);
    Ok(head.starts_with("<svg ") && head.contains(TITLE))
}

/// Writes into what is no plain file.
fn write_into(path: &Path, svg: &str) -> io::Result<()> {
    with_progress(&format!("writing {}", path.display()), || {
        let mut file = OpenOptions::new().write(true).open(path)?;
        file.write_all(svg.as_bytes())
    })
}

/// Writes a new file and puts it in the place of the old one, if there is one.
fn replace_file(path: &Path, svg: &str) -> Result<(), Trouble> {
    let new = new_name(path, std::process::id());
    disk::write_new(&new, path, svg.as_bytes())?;
    disk::rename(&new, path).inspect_err(|_| {
        let _ = fs::remove_file(&new);
    })?;
    disk::keep_names(path);
    Ok(())
}
