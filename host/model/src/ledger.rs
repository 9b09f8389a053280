//! The plain ledger of demand 3. It knows the two buffer lengths and the calls that
//! it is fed, and nothing of any byte: no block, no entry, no leader.

use crate::answer::{Refusal, number};
use crate::ask::{Room, State, has_room, state_of};
use crate::draft::{Draft, need};
use crate::layout::{FIRST, Mark, capacity, lengths_permitted, step_over};
use crate::store::lists_right;

/// A record's fields: tags with their bytes, in draft order.
pub type Fields = Vec<(u16, Vec<u8>)>;

/// The mark of a ledger item, with what the ledger keeps under it.
#[derive(Clone, Debug, PartialEq, Eq)]
pub enum Standing {
    /// Nothing is pending.
    Settled,
    /// A change of a settled record is pending.
    Changed {
        /// The fields before the change.
        settled: Fields,
        /// The record length.
        length: usize,
    },
    /// Never settled so far.
    New {
        /// The record length.
        length: usize,
    },
}

/// What the ledger keeps for an MFN.
#[derive(Clone, Debug, PartialEq, Eq)]
pub struct Item {
    /// The current fields.
    pub fields: Fields,
    /// Deleted or live.
    pub deleted: bool,
    /// The mark.
    pub standing: Standing,
}

/// The ledger of a pair of buffers since their last format.
#[derive(Clone, Debug, PartialEq, Eq)]
pub struct Ledger {
    mst_len: usize,
    xrf_len: usize,
    end: usize,
    items: Vec<Item>,
}

impl Ledger {
    /// The ledger after a format of two buffers of these lengths; `None` if a length
    /// is not permitted.
    pub fn new(mst_len: usize, xrf_len: usize) -> Option<Ledger> {
        lengths_permitted(mst_len, xrf_len).then_some(Ledger {
            mst_len,
            xrf_len,
            end: FIRST,
            items: Vec::new(),
        })
    }

    /// The ledger's end.
    pub fn end(&self) -> usize {
        self.end
    }

    /// The next MFN.
    pub fn next_mfn(&self) -> usize {
        self.items.len() + 1
    }

    /// How many items are live.
    pub fn live(&self) -> usize {
        self.items.iter().filter(|item| !item.deleted).count()
    }

    /// The item of an MFN that was given out.
    pub fn item(&self, mfn: usize) -> Option<&Item> {
        self.items.get(mfn.checked_sub(1)?)
    }

    /// A second format empties the ledger.
    pub fn format(&mut self) -> Result<(), Refusal> {
        self.end = FIRST;
        self.items.clear();
        Ok(())
    }

    /// Where an MFN's item is kept.
    fn index(&self, mfn: u32) -> Result<usize, Refusal> {
        let mfn = mfn as usize;
        if mfn < 1 || mfn >= self.next_mfn() {
            return Err(Refusal::Mfn);
        }
        Ok(mfn - 1)
    }

    /// The end after appending `need` bytes.
    fn appended(&self, need: usize) -> Result<usize, Refusal> {
        if self.end + need > self.mst_len {
            return Err(Refusal::NoRoom);
        }
        Ok(step_over(self.end + need))
    }

    /// The current fields of a live record.
    fn current(&self, mfn: u32) -> Result<&Fields, Refusal> {
        let item = &self.items[self.index(mfn)?];
        if item.deleted {
            return Err(Refusal::Deleted);
        }
        Ok(&item.fields)
    }

    /// The settled fields under changed, otherwise the current ones of a live record.
    fn settled(&self, mfn: u32) -> Result<&Fields, Refusal> {
        let item = &self.items[self.index(mfn)?];
        match &item.standing {
            Standing::Changed { settled, .. } => Ok(settled),
            Standing::Settled if item.deleted => Err(Refusal::Deleted),
            Standing::Settled => Ok(&item.fields),
            Standing::New { .. } => Err(Refusal::New),
        }
    }

    /// A field of the current fields.
    pub fn view(&self, mfn: u32, tag: u16, occurrence: u32) -> Result<&[u8], Refusal> {
        pick(self.current(mfn)?, tag, occurrence)
    }

    /// A field of the settled fields under changed, otherwise of the current ones.
    pub fn view_settled(&self, mfn: u32, tag: u16, occurrence: u32) -> Result<&[u8], Refusal> {
        pick(self.settled(mfn)?, tag, occurrence)
    }

    /// The current field at an index, from 0, in draft order.
    pub fn field(&self, mfn: u32, index: usize) -> Result<(u16, &[u8]), Refusal> {
        at_index(self.current(mfn)?, index)
    }

    /// The settled field at an index, from 0, in draft order.
    pub fn field_settled(&self, mfn: u32, index: usize) -> Result<(u16, &[u8]), Refusal> {
        at_index(self.settled(mfn)?, index)
    }

    /// All current fields, if lists of these lengths have room for them.
    pub fn fields(&self, mfn: u32, room: Room) -> Result<Fields, Refusal> {
        listed(self.current(mfn)?, room)
    }

    /// All settled fields, if lists of these lengths have room for them.
    pub fn fields_settled(&self, mfn: u32, room: Room) -> Result<Fields, Refusal> {
        listed(self.settled(mfn)?, room)
    }

    /// The mark, and deleted or live.
    pub fn state(&self, mfn: u32) -> Result<State, Refusal> {
        let item = &self.items[self.index(mfn)?];
        let mark = match item.standing {
            Standing::Settled => Mark::Settled,
            Standing::Changed { .. } => Mark::Changed,
            Standing::New { .. } => Mark::New,
        };
        Ok(state_of(mark, item.deleted))
    }

    /// The next MFN gets the draft's fields, live, new, appended.
    pub fn create(&mut self, draft: &Draft) -> Result<u32, Refusal> {
        let length = draft.need_if_right().ok_or(Refusal::Draft)?;
        let mfn = self.next_mfn();
        if mfn == capacity(self.xrf_len) + 1 {
            return Err(Refusal::Full);
        }
        self.end = self.appended(length)?;
        self.items.push(Item {
            fields: fields_of(draft),
            deleted: false,
            standing: Standing::New { length },
        });
        Ok(mfn as u32)
    }

    /// The draft's fields become current.
    pub fn update(&mut self, mfn: u32, draft: &Draft) -> Result<(), Refusal> {
        let need = draft.need_if_right().ok_or(Refusal::Draft)?;
        let index = self.index(mfn)?;
        if self.items[index].deleted {
            return Err(Refusal::Deleted);
        }
        let appends = match self.items[index].standing {
            Standing::Settled => true,
            Standing::Changed { length, .. } | Standing::New { length } => need > length,
        };
        if appends {
            self.end = self.appended(need)?;
        }
        let item = &mut self.items[index];
        let before = std::mem::replace(&mut item.fields, fields_of(draft));
        match &mut item.standing {
            Standing::Settled => {
                item.standing = Standing::Changed {
                    settled: before,
                    length: need,
                };
            }
            Standing::Changed { length, .. } | Standing::New { length } if appends => {
                *length = need;
            }
            _ => {}
        }
        Ok(())
    }

    /// The fields stay and the record is deleted; a settled one is appended.
    pub fn delete(&mut self, mfn: u32) -> Result<(), Refusal> {
        let index = self.index(mfn)?;
        if self.items[index].deleted {
            return Err(Refusal::Deleted);
        }
        if self.items[index].standing == Standing::Settled {
            let length = need_of(&self.items[index].fields);
            self.end = self.appended(length)?;
            let settled = self.items[index].fields.clone();
            self.items[index].standing = Standing::Changed { settled, length };
        }
        self.items[index].deleted = true;
        Ok(())
    }

    /// Mark settled; deleted or live stays.
    pub fn settle(&mut self, mfn: u32) -> Result<(), Refusal> {
        let index = self.index(mfn)?;
        if self.items[index].standing == Standing::Settled {
            return Err(Refusal::NotPending);
        }
        self.items[index].standing = Standing::Settled;
        Ok(())
    }

    /// Each MFN of a list is settled in order, and its answer's number listed; answer 17 if
    /// the list of so many answers that is lent is not as long, or the list is over-long.
    pub fn settle_list(&mut self, mfns: &[u32], room: usize) -> Result<Vec<u32>, Refusal> {
        if !lists_right(mfns.len(), room) {
            return Err(Refusal::NoRoomInList);
        }
        Ok(mfns.iter().map(|&mfn| number(&self.settle(mfn))).collect())
    }

    /// The settled fields become current, live, mark settled.
    pub fn revert(&mut self, mfn: u32) -> Result<(), Refusal> {
        let index = self.index(mfn)?;
        let item = &mut self.items[index];
        match std::mem::replace(&mut item.standing, Standing::Settled) {
            Standing::Settled => Err(Refusal::NotPending),
            Standing::New { length } => {
                item.standing = Standing::New { length };
                Err(Refusal::New)
            }
            Standing::Changed { settled, .. } => {
                item.fields = settled;
                item.deleted = false;
                Ok(())
            }
        }
    }

    /// Check answers 0.
    pub fn check(&self) -> Result<(), Refusal> {
        Ok(())
    }

    /// A recount answers 0 and changes nothing.
    pub fn recount(&self) -> Result<(), Refusal> {
        Ok(())
    }

    /// A migration answers 2: every store of a list is already one of today.
    pub fn migrate(&self) -> Result<(), Refusal> {
        Err(Refusal::Control)
    }
}

/// A draft's fields.
fn fields_of(draft: &Draft) -> Fields {
    draft
        .fields()
        .map(|(tag, bytes)| (tag, bytes.to_vec()))
        .collect()
}

/// The need of fields that the ledger keeps.
fn need_of(fields: &Fields) -> usize {
    need(
        fields.len(),
        fields.iter().map(|(_, bytes)| bytes.len()).sum(),
    )
}

/// The field of a tag and an occurrence, counted from 1. Of a tag that was seen, but not as
/// often as asked, it is told how often.
fn pick(fields: &Fields, tag: u16, occurrence: u32) -> Result<&[u8], Refusal> {
    let mut seen = 0;
    for (its, bytes) in fields {
        if *its == tag {
            seen += 1;
            if seen == occurrence {
                return Ok(bytes);
            }
        }
    }
    Err(match (occurrence, seen) {
        (0, _) | (_, 0) => Refusal::NoField,
        _ => Refusal::Fewer(seen),
    })
}

/// The field at an index, from 0.
fn at_index(fields: &Fields, index: usize) -> Result<(u16, &[u8]), Refusal> {
    let (tag, bytes) = fields.get(index).ok_or(Refusal::NoField)?;
    Ok((*tag, bytes))
}

/// All fields, or answer 17.
fn listed(fields: &Fields, room: Room) -> Result<Fields, Refusal> {
    if !has_room(room, fields.len()) {
        return Err(Refusal::NoRoomInList);
    }
    Ok(fields.clone())
}
