//! The test of a single record, which says where it is broken.

use crate::{answer, raw};
use std::error::Error;
use std::fmt;

/// What of a record breaks a rule.
#[derive(Clone, Copy, Debug, PartialEq, Eq, Hash)]
pub enum Broken {
    /// Its leader, or there are not even 18 bytes.
    Leader,
    /// An entry of its directory, the first that does: its number, from 1.
    Entry(u32),
}

impl fmt::Display for Broken {
    fn fmt(&self, f: &mut fmt::Formatter<'_>) -> fmt::Result {
        match self {
            Broken::Leader => f.write_str("the leader is not right"),
            Broken::Entry(number) => write!(f, "directory entry {number} is not right"),
        }
    }
}

impl Error for Broken {}

/// Tests a record as every call that names an MFN does, but for its back pointer. `record`
/// begins at the record's first byte and stops at the store's end.
///
/// ```
/// use isis::{Broken, Card, record_test};
///
/// let (mut mst, mut xrf) = (vec![0; 8 * 512], vec![0; 512]);
/// let mut card = Card::over(&mut mst, &mut xrf);
/// card.format()?;
/// let (mfn, at) = (card.create([(24, "Kite"), (70, "Hosseini, Khaled")])?, 64);
/// let end = card.next()?.end;
/// assert_eq!(record_test(&mst[at..end], mfn, false), Ok(()));
/// mst[at + 26] = 5; // POS of the second entry, where 4 is right
/// assert_eq!(record_test(&mst[at..end], mfn, false), Err(Broken::Entry(2)));
/// # Ok::<(), isis::Refusal>(())
/// ```
pub fn record_test(record: &[u8], mfn: u32, deleted: bool) -> Result<(), Broken> {
    let mut entry = 0;
    // SAFETY: the record is borrowed for its whole length, the output is a variable of this
    // function.
    let number = unsafe {
        raw::isis_record_test(
            record.as_ptr(),
            record.len(),
            mfn,
            deleted.into(),
            &mut entry,
        )
    };
    match (answer(number), entry) {
        (Ok(()), _) => Ok(()),
        (Err(_), 0) => Err(Broken::Leader),
        (Err(_), number) => Err(Broken::Entry(number)),
    }
}
