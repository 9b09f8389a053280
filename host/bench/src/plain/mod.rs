//! The same work in plain safe Rust, written to be fast and nothing else: no proof, no
//! words for what is wrong, only the answer numbers. It asks the same rules; that is held
//! by a test and by comparing all bytes after every row. Each call stands here
//! twice: `called`, as the library's are, by a call that is not inlined, and `inlined`
//! into the loop that makes the calls, where the optimiser sees both.

mod check;
mod index;
mod postings;
mod record;
mod store;
mod tell;
#[cfg(test)]
mod tests;
mod write;

/// Each call by a call.
pub mod called {
    use model::Draft;
    use model::ask::Lists;

    macro_rules! called {
        ($($module:ident::$name:ident($($argument:ident: $kind:ty),*) -> $answer:ty;)*) => {$(
            /// The call of this name, not inlined.
            #[inline(never)]
            pub fn $name($($argument: $kind),*) -> $answer {
                super::$module::$name($($argument),*)
            }
        )*};
    }

    called! {
        write::format(mst: &mut [u8], xrf: &mut [u8]) -> u32;
        write::create(mst: &mut [u8], xrf: &mut [u8], draft: &Draft) -> (u32, u32);
        write::update(mst: &mut [u8], xrf: &mut [u8], mfn: u32, draft: &Draft) -> u32;
        store::view(mst: &[u8], xrf: &[u8], mfn: u32, tag: u16, occurrence: u32) -> (u32, usize, usize, u32);
        store::view_settled(mst: &[u8], xrf: &[u8], mfn: u32, tag: u16, occurrence: u32) -> (u32, usize, usize, u32);
        store::field(mst: &[u8], xrf: &[u8], mfn: u32, index: usize) -> (u32, u16, usize, usize);
        store::field_settled(mst: &[u8], xrf: &[u8], mfn: u32, index: usize) -> (u32, u16, usize, usize);
        store::delete(mst: &mut [u8], xrf: &mut [u8], mfn: u32) -> u32;
        store::settle(mst: &mut [u8], xrf: &mut [u8], mfn: u32) -> u32;
        store::settle_list(mst: &mut [u8], xrf: &mut [u8], mfns: &[u32], answers: &mut [u32]) -> u32;
        store::revert(mst: &mut [u8], xrf: &mut [u8], mfn: u32) -> u32;
        write::migrate(mst: &mut [u8], xrf: &[u8]) -> u32;
        check::check(mst: &[u8], xrf: &[u8]) -> u32;
        check::recount(mst: &mut [u8], xrf: &[u8]) -> u32;
        record::record_test(record: &[u8], mfn: u32, deleted: u32) -> (u32, u32);
        record::record_test_plainly(record: &[u8], mfn: u32, deleted: u32) -> (u32, u32);
        index::lookup(cnt: &[u8], n01: &[u8], l01: &[u8], n02: &[u8], l02: &[u8], term: &[u8]) -> (u32, i32, i32);
        index::check_index(cnt: &[u8], n01: &[u8], l01: &[u8], n02: &[u8], l02: &[u8]) -> u32;
        postings::postings(ifp: &[u8], from: (i32, i32), out: &mut [u64]) -> (u32, usize);
        postings::common(ifp: &[u8], a: (i32, i32), b: (i32, i32), out: &mut [u32]) -> (u32, usize);
        postings::joined(ifp: &[u8], a: (i32, i32), b: (i32, i32), out: &mut [u32]) -> (u32, usize);
        tell::next(mst: &[u8], xrf: &[u8]) -> (u32, u32, usize);
        tell::state(mst: &[u8], xrf: &[u8], mfn: u32) -> (u32, u32, u32);
        tell::fields(mst: &[u8], xrf: &[u8], mfn: u32, lists: &mut Lists) -> (u32, usize);
        tell::fields_settled(mst: &[u8], xrf: &[u8], mfn: u32, lists: &mut Lists) -> (u32, usize);
    }
}

/// Each call as it is, for the compiler to inline.
pub mod inlined {
    pub use super::check::{check, recount};
    pub use super::index::{check_index, lookup};
    pub use super::postings::{common, joined, postings};
    pub use super::record::{record_test, record_test_plainly};
    pub use super::store::{
        delete, field, field_settled, revert, settle, settle_list, view, view_settled,
    };
    pub use super::tell::{fields, fields_settled, next, state};
    pub use super::write::{create, format, migrate, update};
}

/// The 2-byte integer at `at`.
fn u16_at(bytes: &[u8], at: usize) -> u16 {
    u16::from_le_bytes(*bytes[at..].first_chunk().expect("two bytes"))
}

/// The 4-byte integer at `at`.
fn i32_at(bytes: &[u8], at: usize) -> i32 {
    i32::from_le_bytes(*bytes[at..].first_chunk().expect("four bytes"))
}

/// NXTMFN and the end.
#[derive(Clone, Copy)]
struct Control {
    next: usize,
    end: usize,
}

/// Whether both lengths are permitted.
fn lengths_permitted(mst: &[u8], xrf: &[u8]) -> bool {
    let blocks =
        |len: usize, most: usize| len.is_multiple_of(512) && len >= 512 && len / 512 <= most;
    blocks(mst.len(), 1_048_575) && blocks(xrf.len(), 4_096)
}

/// Answers 1 and 2.
fn gate(mst: &[u8], xrf: &[u8]) -> Result<Control, u32> {
    counted(mst, xrf, 1)
}

/// The same where NXTMFP counts the offset from a number.
#[inline(always)]
fn counted(mst: &[u8], xrf: &[u8], from: u16) -> Result<Control, u32> {
    if !lengths_permitted(mst, xrf) {
        return Err(1);
    }
    let head: &[u8; 16] = mst.first_chunk().ok_or(1u32)?;
    let (next, block, count) = (i32_at(head, 4), i32_at(head, 8), u16_at(head, 12));
    let end = (i64::from(block) - 1) * 512 + i64::from(count) - i64::from(from);
    let right = i32_at(head, 0) == 0
        && u16_at(head, 14) == 0
        && next >= 1
        && next as usize <= xrf.len() / 512 * 127 + 1
        && count % 2 == from % 2
        && count <= 498 + from
        && end >= 64
        && end <= mst.len() as i64;
    if !right {
        return Err(2);
    }
    Ok(Control {
        next: next as usize,
        end: end as usize,
    })
}

/// Answers 1 and 2 of the calls that may count one more, and RECCNT.
fn gate_to_one_more(mst: &[u8], xrf: &[u8]) -> Result<(Control, i32), u32> {
    let control = gate(mst, xrf)?;
    let count = i32_at(mst, RECCNT);
    if count == i32::MAX {
        return Err(2);
    }
    Ok((control, count))
}

/// Where RECCNT stands.
const RECCNT: usize = 16;

/// Writes RECCNT.
fn put_count(mst: &mut [u8], count: i32) {
    mst[RECCNT..RECCNT + 4].copy_from_slice(&count.to_le_bytes());
}

/// Where an MFN's entry stands.
fn slot(mfn: usize) -> usize {
    (mfn - 1) / 127 * 512 + 4 + (mfn - 1) % 127 * 4
}

/// Whether the XRF block of an MFN has its number.
fn numbered(xrf: &[u8], mfn: usize) -> bool {
    let block = (mfn - 1) / 127;
    let number = block as i32 + 1;
    let last = block + 1 == xrf.len() / 512;
    i32_at(xrf, block * 512) == if last { -number } else { number }
}

/// The marks of an entry.
const SETTLED: u8 = 0;
const CHANGED: u8 = 1;

/// An entry's place.
#[derive(Clone, Copy)]
struct Place {
    at: usize,
    mark: u8,
    deleted: bool,
}

/// The address of a well-formed place.
fn place_at(block: i32, offset: u16, end: usize) -> Option<usize> {
    let at = (i64::from(block) - 1) * 512 + i64::from(offset);
    let right = offset.is_multiple_of(2) && offset <= 498 && at >= 64 && at + 18 <= end as i64;
    right.then_some(at as usize)
}

/// Takes an entry apart; the error is answer 6 or 7.
fn entry(value: i32, end: usize) -> Result<Place, u32> {
    if value == -2048 {
        return Err(7);
    }
    let (block, low) = (value >> 11, value & 2047);
    let mark = (low >> 9) as u8;
    match place_at(block.abs(), (low & 511) as u16, end) {
        Some(at) if mark < 3 => Ok(Place {
            at,
            mark,
            deleted: block < 0,
        }),
        _ => Err(6),
    }
}

/// The entry that names a place.
fn entry_of(at: usize, mark: u8, deleted: bool) -> i32 {
    let block = (at / 512 + 1) as i32;
    let block = if deleted { -block } else { block };
    block * 2048 + (at % 512) as i32 + i32::from(mark) * 512
}

/// The next step after bytes that stop at `at`.
fn step_over(at: usize) -> usize {
    if at % 512 > 498 { (at | 511) + 1 } else { at }
}
