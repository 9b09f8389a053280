//! The calls that tell something of a card: what the next create is given, the state of a
//! record, and all its fields at once, in lists that are lent for them.

use crate::answer::Refusal;
use crate::layout::Mark;
use crate::ledger::Fields;
use crate::record::Record;
use crate::store::{Answer, current, find, gate, settled};

/// How many elements the lists for tags, starts and lengths have.
pub type Room = [usize; 3];

/// The byte that outputs are full of before a call.
pub const RUBBISH: u8 = 0xEE;

/// Three lists that are lent for fields: the tag of each, where it begins in the MST, and
/// its length.
#[derive(Clone, Debug, PartialEq, Eq, Default)]
#[allow(missing_docs)]
pub struct Lists {
    pub tags: Vec<u16>,
    pub starts: Vec<usize>,
    pub lens: Vec<usize>,
}

impl Lists {
    /// Lists of so many elements, full of rubbish.
    pub fn lent([tags, starts, lens]: Room) -> Lists {
        let size = usize::from_ne_bytes([RUBBISH; size_of::<usize>()]);
        Lists {
            tags: vec![u16::from_ne_bytes([RUBBISH; 2]); tags],
            starts: vec![size; starts],
            lens: vec![size; lens],
        }
    }

    /// So many elements they have.
    pub fn room(&self) -> Room {
        [self.tags.len(), self.starts.len(), self.lens.len()]
    }

    /// The tag and the bytes of the first so many fields.
    pub fn fields(&self, mst: &[u8], count: usize) -> Fields {
        let parts = self.starts.iter().zip(&self.lens);
        let fields = self.tags.iter().zip(parts).take(count);
        let bytes = |start: usize, len: usize| mst[start..start + len].to_vec();
        fields
            .map(|(tag, (start, len))| (*tag, bytes(*start, *len)))
            .collect()
    }
}

/// Whether each of three lists has an element for each of so many fields.
pub fn has_room(room: Room, fields: usize) -> bool {
    room.iter().all(|&elements| elements >= fields)
}

/// How a record stands: the mark's number, and 1 if it is deleted, pending or settled.
pub type State = (u32, u32);

/// The state of a record under a mark.
pub fn state_of(mark: Mark, deleted: bool) -> State {
    let mark = match mark {
        Mark::Settled => 0,
        Mark::Changed => 1,
        Mark::New => 2,
    };
    (mark, u32::from(deleted))
}

/// The MFN that the next create gives, and where its record begins: the end.
pub fn next(mst: &[u8], xrf: &[u8]) -> Answer<(u32, usize)> {
    let control = gate(mst, xrf)?;
    Ok((control.next_mfn as u32, control.end))
}

/// The state of a record, once answers 1 to 8 have let it through.
pub fn state(mst: &[u8], xrf: &[u8], mfn: u32) -> Answer<State> {
    let place = find(mst, xrf, gate(mst, xrf)?, mfn)?.place;
    Ok(state_of(place.mark, place.deleted))
}

/// All fields of the current version into the lists; gives how many there are.
pub fn fields(mst: &[u8], xrf: &[u8], mfn: u32, lists: &mut Lists) -> Answer<usize> {
    list_out(mst, current(mst, xrf, mfn)?, lists)
}

/// All fields of the settled version into the lists; gives how many there are.
pub fn fields_settled(mst: &[u8], xrf: &[u8], mfn: u32, lists: &mut Lists) -> Answer<usize> {
    list_out(mst, settled(mst, xrf, mfn)?, lists)
}

/// Answer 17, or the first elements of the lists in directory order.
fn list_out(mst: &[u8], record: Record, lists: &mut Lists) -> Answer<usize> {
    let count = usize::from(record.leader.fields);
    if !has_room(lists.room(), count) {
        return Err(Refusal::NoRoomInList);
    }
    for (i, (tag, part)) in record.fields(mst).enumerate() {
        lists.tags[i] = tag;
        (lists.starts[i], lists.lens[i]) = (part.start, part.len());
    }
    Ok(count)
}
