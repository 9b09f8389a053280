//! The library's archive against the model, call by call and byte by byte.
//!
//! A [`trial`] is a card and a list of steps: calls, and bytes poked in between to
//! damage the card. It is run on the archive, whose buffers stand between guard pages
//! ([`guarded`]), and on the model. After every call the answer, every output and all
//! bytes of both buffers must be equal; in a list from format the
//! ledger is held to the same answers. A list that shows a difference is shrunk
//! ([`shrink`]) before it is shown. [`families`] makes trials at random; every seed
//! is printed, and `ISIS_SEED=n` runs others.
//!
//! [`records`] does the same for the test of a single record, [`index`] for the two calls on a
//! search index, which is only read, and [`postings`] for the six on its postings.

pub mod archive;
pub mod biblio;
pub mod damage;
pub mod families;
pub mod guarded;
pub mod index;
mod lent;
pub mod postings;
pub mod random_cards;
pub mod records;
pub mod seeds;
pub mod shrink;
pub mod tally;
pub mod trial;
