//! An independent implementation of document 01, written from the paper alone.
//!
//! It exists to be compared with the proved library, so it shares no code and no
//! table with it. Two programs live here:
//!
//! * the **byte store** ([`store`]): the calls over two lent buffers that may
//!   hold any bytes, with the whole-store check ([`sound`]) written as the
//!   paper states it: collect the steps, then look at every entry; and the calls
//!   that tell something of a card ([`ask`]), from the words of the header;
//!   NXTMFP counts from one, and old cards are migrated, as request C-12 has it; a whole
//!   list is settled, as request C-13 has it; a view tells which kind of missing it met, as
//!   request C-15 has it; the record test ([`record_test`]) tells the first entry of a
//!   directory that breaks a rule, as request C-16 has it; and RECCNT is kept, and written
//!   for older cards, as request C-17 has it ([`history`] counts it from the calls alone);
//! * the **ledger** ([`ledger`]): the plain ledger of demand 3, which never sees a
//!   buffer and is only fed the calls.
//!
//! Beside them stands the search index of request C-11 ([`index`]), which has files of its
//! own: it is built from lists of terms, looked up and checked; and the lists of postings
//! that it leads to, as request C-14 has them ([`postings`]).
//!
//! [`call`] gives both the same list of calls to answer, and [`lists`] makes such
//! lists at random from a seed.

pub mod answer;
pub mod ask;
pub mod bytes;
pub mod call;
pub mod draft;
pub mod fault;
pub mod history;
pub mod index;
pub mod layout;
pub mod ledger;
pub mod lists;
pub mod outcome;
pub mod postings;
pub mod random;
pub mod record;
pub mod record_test;
pub mod replay;
pub mod sound;
pub mod store;

pub use answer::Refusal;
pub use call::{Call, Outcome, OwnedDraft};
pub use draft::Draft;
pub use fault::Fault;
pub use ledger::Ledger;
