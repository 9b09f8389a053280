//! The fields that a create or an update is given.

/// Fields gathered into the three lists that the library takes. Whether they make a
/// record (tags in range, not too long) is for the library to say.
#[derive(Clone, Debug, Default, PartialEq, Eq)]
pub struct Draft {
    tags: Vec<u16>,
    lens: Vec<u16>,
    data: Vec<u8>,
}

impl Draft {
    /// A draft without fields.
    pub fn new() -> Draft {
        Draft::default()
    }

    /// Gathers fields.
    pub fn gather<F: AsRef<[u8]>>(fields: impl IntoIterator<Item = (u16, F)>) -> Draft {
        let mut draft = Draft::new();
        for (tag, field) in fields {
            draft.push(tag, field.as_ref());
        }
        draft
    }

    /// Adds a field at the end. Of one with more than 65,535 bytes, which has no length in
    /// a draft, the first 65,535 are taken: no record holds those either, so the library
    /// refuses the draft, with 3 or with what is lower.
    pub fn push(&mut self, tag: u16, field: &[u8]) {
        let len = u16::try_from(field.len()).unwrap_or(u16::MAX);
        self.tags.push(tag);
        self.lens.push(len);
        self.data.extend_from_slice(&field[..usize::from(len)]);
    }

    /// The three lists: tags, lengths, data.
    pub fn lists(&self) -> Lists<'_> {
        Lists {
            tags: &self.tags,
            lens: &self.lens,
            data: &self.data,
        }
    }
}

/// A draft as the library takes it: three lent lists. They need not fit together;
/// the library refuses those that do not.
#[derive(Clone, Copy, Debug)]
pub struct Lists<'a> {
    /// One tag for each field.
    pub tags: &'a [u16],
    /// One length for each field.
    pub lens: &'a [u16],
    /// The fields' bytes, one after the other.
    pub data: &'a [u8],
}
