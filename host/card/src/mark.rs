//! What a file's bytes are recognised by: their length and a checksum.

use crate::disk;
use std::fs;
use std::io;
use std::path::Path;

/// What a file's bytes are recognised by.
#[derive(Clone, Copy, PartialEq, Eq, Debug)]
pub struct Mark {
    len: u64,
    sum: u64,
}

/// FNV-1a of 64 bits.
pub fn checksum(bytes: &[u8]) -> u64 {
    bytes.iter().fold(0xCBF2_9CE4_8422_2325, |sum, &byte| {
        (sum ^ u64::from(byte)).wrapping_mul(0x100_0000_01B3)
    })
}

impl Mark {
    /// The mark of some bytes.
    pub fn of(bytes: &[u8]) -> Mark {
        Mark {
            len: bytes.len() as u64,
            sum: checksum(bytes),
        }
    }

    /// Reads what `words` writes.
    pub fn read(words: &str) -> Option<Mark> {
        let (len, sum) = words.split_once(':')?;
        Some(Mark {
            len: len.parse().ok()?,
            sum: u64::from_str_radix(sum, 16).ok()?,
        })
    }

    /// The mark in words: the length, and the checksum in hexadecimal.
    pub fn words(self) -> String {
        format!("{}:{:016x}", self.len, self.sum)
    }
}

/// Whether a file has these bytes, or is not there if there are to be none.
pub fn holds(path: &Path, mark: Option<Mark>) -> io::Result<bool> {
    let meta = match fs::symlink_metadata(path) {
        Err(why) if disk::is_missing(&why) => return Ok(mark.is_none()),
        meta => meta?,
    };
    match mark {
        Some(mark) if meta.is_file() && meta.len() == mark.len => {
            Ok(Mark::of(&fs::read(path)?) == mark)
        }
        _ => Ok(false),
    }
}

#[cfg(test)]
mod tests {
    use super::*;

    #[test]
    fn the_checksum_is_fnv_1a() {
        assert_eq!(checksum(b""), 0xCBF2_9CE4_8422_2325);
        assert_eq!(checksum(b"a"), 0xAF63_DC4C_8601_EC8C);
        assert_eq!(checksum(b"foobar"), 0x8594_4171_F739_67E8);
    }
}
