//! The language of tickets, and of days. Its card:
//!
//! ```text
#![doc = include_str!("card.txt")]
//! ```

mod assemble;
mod meant;
pub mod names;
mod operands;
mod scan;
mod statement;
mod write;

pub use assemble::{day, names_file, Item, Position};
pub use meant::did_you_mean;
pub use write::{frame_words, is_day};

use std::fmt;

/// What is wrong with a text, and where: lines and columns count from 1.
#[derive(Clone, PartialEq, Eq, Debug)]
pub struct Mistake {
    pub line: usize,
    pub column: usize,
    pub what: String,
    /// What was meant, perhaps.
    pub meant: Option<String>,
}

impl fmt::Display for Mistake {
    fn fmt(&self, f: &mut fmt::Formatter<'_>) -> fmt::Result {
        write!(f, "line {}, column {}: {}", self.line, self.column, self.what)?;
        match &self.meant {
            Some(meant) => write!(f, "; {meant}"),
            None => Ok(()),
        }
    }
}

/// The language on a card.
pub const CARD: &str = include_str!("card.txt");

/// The words that are no names.
pub const KEYWORDS: [&str; 26] = [
    "bay", "board", "code", "cut", "desk", "desks", "drop", "end", "go", "if", "is", "let", "number", "of",
    "own", "rounds", "step", "steps", "take", "ticket", "to", "turn", "turns", "with", "word", "words",
];
