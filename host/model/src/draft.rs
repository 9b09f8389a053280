//! A draft: a list of tags, a list of lengths and the data.

use crate::layout::{ITEM, LAST_TAG, LEADER, LONGEST};

/// The fields that a create or an update is given.
#[derive(Clone, Copy, Debug)]
pub struct Draft<'a> {
    /// One tag for each field.
    pub tags: &'a [u16],
    /// One length for each field.
    pub lens: &'a [u16],
    /// The fields' bytes, one after the other.
    pub data: &'a [u8],
}

/// 18 + 6 for each field + data, rounded up to even.
pub fn need(fields: usize, data: usize) -> usize {
    (LEADER + ITEM * fields + data).next_multiple_of(2)
}

impl Draft<'_> {
    /// The need of a draft that is right; `None` if it is not.
    pub fn need_if_right(&self) -> Option<usize> {
        let sum: usize = self.lens.iter().map(|&len| usize::from(len)).sum();
        let right = self.tags.len() == self.lens.len()
            && self.tags.iter().all(|tag| (1..=LAST_TAG).contains(tag))
            && sum == self.data.len();
        let need = need(self.tags.len(), self.data.len());
        (right && need <= LONGEST).then_some(need)
    }

    /// The fields, in order.
    pub fn fields(&self) -> impl Iterator<Item = (u16, &[u8])> {
        let mut start = 0;
        self.tags.iter().zip(self.lens).map(move |(&tag, &len)| {
            let field = &self.data[start..start + usize::from(len)];
            start += usize::from(len);
            (tag, field)
        })
    }
}
