//! Limited typing, document 02, (g), which the Rust lacks: its own typing, but for a line that is full and would grow.
//!
//! What a line holds is said nowhere here. The Rust is asked for the length of its own editing content, by a method appended to its copy.
use crate::layout::inserting;
use crate::oracle;
use std::ops::RangeInclusive;

/// "Typing with a limit L from 1 to 255".
pub const LIMITS: RangeInclusive<u32> = 1..=NO_LIMIT;

/// "At L = 255 it is the old call".
pub const NO_LIMIT: u32 = 255;

/// Whether nothing is typed on the screen that a valid record describes, whatever the character: "Where padded content already holds L or more, inserting
/// and extending change nothing". At 255 that is the Rust's to say.
pub fn holds_back(rec: &[u8], limit: u32) -> bool {
    if limit == NO_LIMIT {
        return false;
    }
    let (length, index) = oracle::opened(rec).content_length_and_index();
    length >= limit as usize && (inserting(rec) || index >= length)
}

/// How many characters the line under the cursor holds, padded up to the cursor.
pub fn held(rec: &[u8]) -> usize {
    oracle::opened(rec).content_length_and_index().0
}
