//! What a call is lent beside the card, each in an area of its own between guard pages:
//! the lists of a draft, a list of MFNs, and files of an index, which must only be read, and
//! outputs, which are full of rubbish before and beside which no byte may be written.

use crate::guarded::{Area, Side};
use model::OwnedDraft;
use model::ask::RUBBISH;
use std::marker::PhantomData;

/// A pointer to a lent area: NULL for an empty one at the front guard page.
pub fn pointer(area: &mut [u8], side: Side) -> *mut u8 {
    match (area, side) {
        ([], Side::Front) => std::ptr::null_mut(),
        (area, _) => area.as_mut_ptr(),
    }
}

/// A number of a lent list: made of any bytes, and of nothing else.
pub trait Number: Copy {}
impl Number for u8 {}
impl Number for u16 {}
impl Number for u32 {}
impl Number for i32 {}
impl Number for u64 {}
impl Number for usize {}

/// The bytes of some numbers.
fn bytes_of<T: Number>(numbers: &[T]) -> &[u8] {
    // SAFETY: a number is made of its bytes alone.
    unsafe { std::slice::from_raw_parts(numbers.as_ptr().cast(), size_of_val(numbers)) }
}

/// A list against a guard page that must only be read. Where its area is shut, who writes
/// there is caught.
#[derive(Debug)]
pub struct Input<T> {
    area: Area,
    bytes: usize,
    side: Side,
    shut: bool,
    kind: PhantomData<T>,
}

impl<T: Number> Input<T> {
    /// No element, in an area that grows where it must.
    #[allow(clippy::new_without_default)]
    pub fn new() -> Input<T> {
        Input {
            area: Area::new(0),
            bytes: 0,
            side: Side::Back,
            shut: false,
            kind: PhantomData,
        }
    }

    /// Lends another list, shut against writing or not.
    pub fn lend(&mut self, list: &[T], side: Side, shut: bool) -> (*const T, usize) {
        self.shut(false);
        self.area.give_back(self.bytes, self.side);
        let bytes = bytes_of(list);
        self.area.grow(bytes.len());
        self.area.bytes(bytes, side);
        (self.bytes, self.side) = (bytes.len(), side);
        self.shut(shut);
        self.lent()
    }

    fn shut(&mut self, shut: bool) {
        if self.shut != shut {
            self.area.read_only(shut);
            self.shut = shut;
        }
    }

    /// Where the list is, NULL for an empty one at the front guard page, and how many elements
    /// it has.
    pub fn lent(&mut self) -> (*const T, usize) {
        let buffer = self.area.buffer(self.bytes, self.side);
        (
            pointer(buffer, self.side).cast(),
            self.bytes / size_of::<T>(),
        )
    }

    /// Whether nothing was written, there or beside it.
    pub fn kept(&mut self, list: &[T]) -> bool {
        self.area.slack_kept(self.bytes, self.side)
            && *self.area.buffer(self.bytes, self.side) == *bytes_of(list)
    }
}

/// Areas for a draft.
#[derive(Debug)]
pub struct Drafts {
    tags: Input<u16>,
    lens: Input<u16>,
    data: Input<u8>,
}

/// A draft's arguments.
#[allow(missing_docs)]
pub struct Lent {
    pub tags: *const u16,
    pub tags_len: usize,
    pub lens: *const u16,
    pub lens_len: usize,
    pub data: *const u8,
    pub data_len: usize,
}

impl Drafts {
    /// Areas for drafts of any length.
    pub fn new() -> Drafts {
        Drafts {
            tags: Input::new(),
            lens: Input::new(),
            data: Input::new(),
        }
    }

    /// Copies a draft to the guard pages; gives the six arguments.
    pub fn lend(&mut self, draft: &OwnedDraft, side: Side) -> Lent {
        let (tags, tags_len) = self.tags.lend(&draft.tags, side, false);
        let (lens, lens_len) = self.lens.lend(&draft.lens, side, false);
        let (data, data_len) = self.data.lend(&draft.data, side, false);
        Lent {
            tags,
            tags_len,
            lens,
            lens_len,
            data,
            data_len,
        }
    }

    /// Holds that a lent draft was only read.
    pub fn only_read(&mut self, draft: &OwnedDraft) {
        let kept = self.tags.kept(&draft.tags)
            && self.lens.kept(&draft.lens)
            && self.data.kept(&draft.data);
        assert!(kept, "a lent draft was written to");
    }
}

/// An area for outputs of one kind.
#[derive(Debug)]
pub struct Output<T> {
    area: Area,
    kind: PhantomData<T>,
}

impl<T: Number> Output<T> {
    /// An area that grows where it must.
    pub fn new() -> Output<T> {
        Output {
            area: Area::new(0),
            kind: PhantomData,
        }
    }

    /// Lends so many elements, full of rubbish.
    pub fn lend(&mut self, elements: usize, side: Side) -> *mut T {
        let bytes = elements * size_of::<T>();
        self.area.grow(bytes);
        let buffer = self.area.buffer(bytes, side);
        buffer.fill(RUBBISH);
        pointer(buffer, side).cast()
    }

    /// Takes them back as they are after the call.
    pub fn taken(&mut self, elements: usize, side: Side) -> Vec<T> {
        let bytes = elements * size_of::<T>();
        let kept = self.area.slack_kept(bytes, side);
        assert!(kept, "a byte beside an output was written");
        let buffer = self.area.buffer(bytes, side);
        // SAFETY: the buffer has so many elements, begins or stops at a page, and any
        // bytes are a number.
        let given = unsafe { std::slice::from_raw_parts(buffer.as_ptr().cast::<T>(), elements) };
        let given = given.to_vec();
        self.area.give_back(bytes, side);
        given
    }

    /// Takes a single one back.
    pub fn one(&mut self, side: Side) -> T {
        self.taken(1, side)[0]
    }
}
