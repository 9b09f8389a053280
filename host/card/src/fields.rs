//! The fields of the command line: TAG=TEXT, TAG=@FILE for the bytes of a file, and
//! TAG=@@TEXT for a text that begins with an @. Of a file no more is read than it takes to
//! see that no record holds it; the draft is then the library's to refuse.

use crate::arguments::{Arguments, number, quoted};
use crate::disk;
use crate::layout::{ITEM, LEADER, LONGEST};
use crate::progress::with_progress;
use crate::trouble::Trouble;
use isis::Draft;
use std::ffi::OsStr;
use std::fs::File;
use std::io::Read;
use std::os::unix::ffi::OsStrExt;
use std::path::Path;

/// The most bytes of a field, in a record with no other.
const MOST: usize = LONGEST - LEADER - ITEM;

/// The fields that a record is to have.
#[derive(Default, Debug, PartialEq)]
pub struct Given {
    /// Tags and bytes.
    pub fields: Vec<(u16, Vec<u8>)>,
    /// The first file that is longer than any field, if there is one.
    pub too_long: Option<String>,
}

impl Given {
    /// All words that are left, as fields. That there are none has to be said.
    pub fn read(arguments: &mut Arguments) -> Result<Given, Trouble> {
        let words = arguments.rest();
        let mut given = Given::default();
        match words.as_slice() {
            [] => {
                let words = "a field TAG=TEXT is missing; --empty makes a record without fields";
                return Err(Trouble::Usage(words.into()));
            }
            [only] if only == "--empty" => {}
            _ => {
                for word in &words {
                    given.add(word)?;
                }
            }
        }
        Ok(given)
    }

    /// The fields as a draft.
    pub fn draft(&self) -> Draft {
        Draft::gather(self.fields.iter().map(|(tag, field)| (*tag, field)))
    }

    /// The bytes of the record: 18, 6 for each field and the fields', rounded up to even.
    pub fn need(&self) -> usize {
        let bytes = self.fields.iter().map(|(_, field)| ITEM + field.len());
        (LEADER + bytes.sum::<usize>()).next_multiple_of(2)
    }

    /// Adds the field that a word gives.
    fn add(&mut self, word: &OsStr) -> Result<(), Trouble> {
        let bytes = word.as_bytes();
        let Some(equals) = bytes.iter().position(|&byte| byte == b'=') else {
            let words = format!("{} is no field: TAG=TEXT is wanted", quoted(word));
            return Err(Trouble::Usage(words));
        };
        let tag = tag(OsStr::from_bytes(&bytes[..equals]))?;
        let field = match &bytes[equals + 1..] {
            [b'@', text @ ..] if text.first() == Some(&b'@') => text.to_vec(),
            b"@" => {
                let words = format!("{tag}=@ names no file; {tag}=@@ is the text '@'");
                return Err(Trouble::Usage(words));
            }
            [b'@', name @ ..] => self.file(OsStr::from_bytes(name).as_ref())?,
            text => text.to_vec(),
        };
        self.fields.push((tag, field));
        Ok(())
    }

    /// The bytes of a file, or as many of them as are too many.
    fn file(&mut self, path: &Path) -> Result<Vec<u8>, Trouble> {
        let mut field = Vec::new();
        with_progress(&format!("reading {}", path.display()), || {
            let file = File::open(path)?;
            file.take(MOST as u64 + 1).read_to_end(&mut field)
        })
        .map_err(|why| disk::trouble(path, "cannot be read", &why))?;
        if field.len() > MOST && self.too_long.is_none() {
            self.too_long = Some(path.display().to_string());
        }
        Ok(field)
    }
}

/// A tag from its digits.
pub fn tag(word: &OsStr) -> Result<u16, Trouble> {
    let tag = number(word).filter(|tag| (1..=32_767).contains(tag));
    tag.map(|tag| tag as u16).ok_or_else(|| {
        let tag = quoted(word);
        Trouble::Usage(format!(
            "{tag} is no tag: a number from 1 to 32767 is wanted"
        ))
    })
}

#[cfg(test)]
mod tests {
    use super::*;
    use std::ffi::OsString;

    fn given(words: &[&str]) -> Result<Given, Trouble> {
        Given::read(&mut Arguments::new(words.iter().map(OsString::from)))
    }

    #[test]
    fn fields_are_tag_and_text() {
        let words = ["24=Kite", "70=", "1=a=b", "2=@@", "2=@@x", "2=x@y"];
        let wanted: [(u16, &[u8]); 6] = [
            (24, b"Kite"),
            (70, b""),
            (1, b"a=b"),
            (2, b"@"),
            (2, b"@x"),
            (2, b"x@y"),
        ];
        let wanted = wanted.map(|(tag, text)| (tag, text.to_vec()));
        assert_eq!(given(&words).unwrap().fields, wanted);
        for bad in [
            "Kite", "=Kite", "0=x", "32768=x", "title=x", "-1=x", "24 =x", "24=@",
        ] {
            assert!(given(&[bad]).is_err(), "{bad}");
        }
    }

    #[test]
    fn no_fields_must_be_said() {
        assert!(given(&[]).is_err());
        assert_eq!(given(&["--empty"]).unwrap(), Given::default());
        assert!(given(&["--empty", "24=x"]).is_err());
    }

    #[test]
    fn the_need_is_even() {
        assert_eq!(given(&["--empty"]).unwrap().need(), 18);
        assert_eq!(given(&["24=Kite"]).unwrap().need(), 28);
        assert_eq!(given(&["24=Kit", "70="]).unwrap().need(), 34);
    }
}
