//! The search index of a catalogue, from request C-11 and the manual's chapter on the
//! inverted file: five files, of which CNT describes two B*trees, one for terms of up to
//! 10 bytes (nodes in N01, leaves in L01) and one for longer ones (N02, L02).
//!
//! [`build`] makes indexes from lists of terms, plain ones and such that no indexing
//! program would write; between the list and the bytes stands a [`tree`], which can be
//! damaged by meaning. [`read`] reads any five files, from the request's words alone, and
//! knows nothing of how they were built.

pub mod build;
pub mod fault;
pub mod read;
pub mod record;
mod shape;
pub mod tree;

pub use build::{Entry, Files, plain, shuffled};
pub use read::{check, lookup};

/// Bytes of a key in each tree.
pub const WIDTHS: [usize; 2] = [10, 30];
/// The longest term.
pub const LONGEST: usize = 30;
/// The most nodes on one way down.
pub const DEEPEST: usize = 16;
/// The highest order of nodes or leaves.
pub const LAST_ORDER: u16 = 16;
/// Bytes of a tree's part of CNT.
pub const PART: usize = 26;
