//! The reference: docs/FORMATS.md once more, in plain Rust, written from what it states and by itself.
//! It shares no code and no algorithm with the library: remembered values are collected in hash
//! maps, rows are minimised by Hopcroft's algorithm, and a table is judged by building it anew.

pub mod board;
pub mod calls;
pub mod cases;
pub mod compile;
pub mod corpus;
pub mod explain;
#[cfg(feature = "exports")]
mod exports;
pub mod generate;
pub mod inputs;
pub mod join;
pub mod machine;
pub mod meaning;
pub mod sheet;
pub mod table;
pub mod text;
pub mod trees;
pub mod values;

pub use board::{Board, Verdict};
pub use compile::compile;
pub use explain::{explain, Denial};
pub use join::join;
pub use table::load;
pub use text::read_text;

/// A refusal of the compiler, of explaining or of the reader of texts: its number and its spot (docs/FORMATS.md).
#[derive(Clone, Copy, Debug, PartialEq, Eq)]
pub struct Refusal {
    pub number: u8,
    pub spot: u16,
}

/// A refusal at a node or a word.
fn at(number: u8, spot: usize) -> Refusal {
    Refusal { number, spot: spot as u16 }
}

/// The 16-bit number at an offset, low byte first.
fn word(bytes: &[u8], offset: usize) -> usize {
    bytes[offset] as usize + 256 * bytes[offset + 1] as usize
}
