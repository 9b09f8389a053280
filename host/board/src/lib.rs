//! The library as a key has it: compiled for a Cortex-M, linked into a program without
//! an operating system and run on an emulated board.
//!
//! The model makes lists of calls with everything that each must give ([`recorder`]), on
//! cards, on indexes ([`search`]), on postings ([`posted`]) and on single records ([`tested`]);
//! they are written down as words ([`list`]), and a program on the board (`c/runner.c`) makes the
//! calls and compares.
//! [`core`] knows the boards, builds programs for them and runs them. The archives are those
//! of `./key-archive`.

pub mod core;
pub mod list;
pub mod lists;
pub mod posted;
pub mod recorder;
pub mod runner;
pub mod search;
pub mod tested;
