//! The fields of a record in directory order.

use crate::answer;
use crate::refusal::{Answer, Refusal};

/// A function of the C interface that shows a field by its index.
pub(crate) type FieldCall = unsafe extern "C" fn(
    *const u8,
    usize,
    *const u8,
    usize,
    u32,
    usize,
    *mut u16,
    *mut usize,
    *mut usize,
) -> u32;

/// A field: its tag and its bytes, which stand in the MST.
#[derive(Clone, Copy, Debug, PartialEq, Eq)]
pub struct Field<'c> {
    /// The tag.
    pub tag: u16,
    /// The bytes; there may be none.
    pub bytes: &'c [u8],
}

/// The field at an index, as the part of the MST that the library names.
pub(crate) fn by_index<'c>(
    mst: &'c [u8],
    xrf: &[u8],
    call: FieldCall,
    mfn: u32,
    index: usize,
) -> Answer<Field<'c>> {
    let (mut tag, mut start, mut len) = (0, 0, 0);
    // SAFETY: the buffers are borrowed for their whole length, the outputs are three
    // variables of this function.
    let number = unsafe {
        call(
            mst.as_ptr(),
            mst.len(),
            xrf.as_ptr(),
            xrf.len(),
            mfn,
            index,
            &mut tag,
            &mut start,
            &mut len,
        )
    };
    answer(number).map(|()| Field {
        tag,
        bytes: &mst[start..start + len],
    })
}

/// A function of the C interface that hands out all fields.
pub(crate) type FieldsCall = unsafe extern "C" fn(
    *const u8,
    usize,
    *const u8,
    usize,
    u32,
    *mut u16,
    usize,
    *mut usize,
    usize,
    *mut usize,
    usize,
    *mut usize,
) -> u32;

/// Lists for the fields of most records, and for those of any.
const ROOMS: [usize; 2] = [64, 5_458];

/// The fields of one version of a record, in directory order. The card is lent
/// meanwhile, so that no byte of it changes.
#[derive(Clone, Debug)]
pub struct Fields<'c>(std::vec::IntoIter<Field<'c>>);

impl<'c> Fields<'c> {
    /// The fields that a function of the library hands out for an MFN, in one call of it,
    /// or two where there are many.
    pub(crate) fn of(mst: &'c [u8], xrf: &[u8], call: FieldsCall, mfn: u32) -> Answer<Fields<'c>> {
        let [few, most] = ROOMS;
        match gathered(mst, xrf, call, mfn, few) {
            Err(Refusal::NoRoomInList) => gathered(mst, xrf, call, mfn, most),
            answer => answer,
        }
    }
}

/// The fields, if there are no more of them than the lists have room for.
fn gathered<'c>(
    mst: &'c [u8],
    xrf: &[u8],
    call: FieldsCall,
    mfn: u32,
    room: usize,
) -> Answer<Fields<'c>> {
    let (mut tags, mut starts, mut lens) = (vec![0; room], vec![0; room], vec![0; room]);
    let mut count = 0;
    // SAFETY: the buffers are borrowed for their whole length, the outputs are three lists
    // with their own lengths and a variable of this function.
    let number = unsafe {
        call(
            mst.as_ptr(),
            mst.len(),
            xrf.as_ptr(),
            xrf.len(),
            mfn,
            tags.as_mut_ptr(),
            tags.len(),
            starts.as_mut_ptr(),
            starts.len(),
            lens.as_mut_ptr(),
            lens.len(),
            &mut count,
        )
    };
    answer(number)?;
    let parts = starts.into_iter().zip(lens);
    let fields = tags.into_iter().zip(parts).take(count);
    let field = |(tag, (start, len))| Field {
        tag,
        bytes: &mst[start..start + len],
    };
    let fields: Vec<_> = fields.map(field).collect();
    Ok(Fields(fields.into_iter()))
}

impl<'c> Iterator for Fields<'c> {
    type Item = Field<'c>;

    fn next(&mut self) -> Option<Field<'c>> {
        self.0.next()
    }

    fn size_hint(&self) -> (usize, Option<usize>) {
        self.0.size_hint()
    }
}

impl ExactSizeIterator for Fields<'_> {}
