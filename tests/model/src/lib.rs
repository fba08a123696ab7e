//! Document 01 in plain Rust, as document 02 changes it, and packs to try it on: what the tests of the wrapper, the comparison
//! with the original and the list of cases hold the library to. It shares no code with the library, the wrapper or the original.
//!
//! - `records`: the records of a pack, and the words that they are written with
//! - `read`: Check, from words to records; and Rewrite
//! - `chains`: All kinds, Kinds of one name, Lean
//! - `tables`: the four filtered tables
//! - `resolve`: Resolve
//! - `faults`: mistakes that can be made in all of these on purpose, to see that a comparison notices them
//!
//! Packs:
//!
//! - `packs`: packs built by hand, small ones, deep ones and large ones
//! - `cases`: document 01's cases by name, and large packs, with what they come to
//! - `large`: packs that go as far as they can
//! - `limits`: packs one below each limit, at it and one above
//! - `chance`, `generate`: packs by chance
//! - `damage`: packs damaged at a word
//! - `dealt`: packs dealt out again
//! - `replay`: what shows a pack on which a test fails, and runs it again
//!
//! The program `cases` makes the list of packs and answers that the proved program of that name replays.

pub mod cases;
pub mod chains;
pub mod chance;
pub mod damage;
pub mod dealt;
pub mod faults;
pub mod generate;
pub mod large;
pub mod limits;
pub mod packs;
pub mod read;
pub mod records;
pub mod replay;
pub mod resolve;
pub mod tables;

pub use chance::Chance;
pub use read::{Reading, check, check_bytes, read, read_bytes};
pub use records::{NONE, Pack, word};

/// The words that a pack has at most.
pub const MOST_WORDS: usize = 8192;

#[derive(Clone, Copy, Debug, PartialEq, Eq, PartialOrd, Ord)]
pub struct Refusal {
    pub number: u32,
    pub place: usize,
    pub name: u32,
    pub other: u32,
}

pub type Outcome<T> = Result<T, Refusal>;

/// A refusal with a place and nothing else.
pub(crate) fn refuse<T>(number: u32, place: usize) -> Outcome<T> {
    Err(Refusal { number, place, name: 0, other: 0 })
}

/// 16, where there is no room for so many words.
pub(crate) fn fits(words: usize, room: usize) -> Outcome<()> {
    if words > room { refuse(16, 0) } else { Ok(()) }
}
