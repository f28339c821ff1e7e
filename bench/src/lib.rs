//! The card game of docs/RULES.md in ordinary Rust: rule sheets, trees, the worst of a plan, and hands.
//!
//! Nothing here is shared with the proved crates. It is for timing, and for answers to hold theirs against.

mod reckon;
mod sheet;
mod text;
mod tree;

pub use reckon::{together, worst, Memory};
pub use sheet::{Player, Sheet};
pub use text::{play_hand, play_text, read_file, read_plan, reckon_text, Start};
pub use tree::{Chair, Node, Place, Tree};

/// A tree has at most so many places.
pub const MOST_PLACES: usize = 65_536;

/// The programs have memory for so many places.
pub const ROOM: usize = 4_096;

/// What is turned away: a number of the list in docs/RULES.md, and a place.
#[derive(Clone, Copy, Debug, PartialEq, Eq)]
pub struct Refusal {
    pub number: u8,
    pub place: usize,
}

pub(crate) fn refuse<T>(number: u8, place: usize) -> Result<T, Refusal> {
    Err(Refusal { number, place })
}
