//! The candidate's screen and the invigilator's mirror, in a terminal.
//!
//! The package `line` has the two ends of the line between them, and what is sent may go over a bad one (`bad_line`). `halves` has both ends in one
//! terminal; `candidate` and `invigilator` have one each, over UDP (`udp`), with a key from a file (`key_file`); `played` needs no terminal. `desk`
//! turns keys into calls, `listing` prints a long text a screen at a time, `field` takes no more than so many characters, `clock` has the time, `witness`
//! compares a mirror with what the keys make. A candidate that restarts begins a new sitting (`sitting` has its number); the last screens of those that
//! were can be looked at (`view`).
//!
//! What is shown: `panel` has one screen with its words, through a `window` where not all rows have room; the words are those of `view`, `told` and
//! `span`. `front` has what may cover it, the pages of `help` and `submitted` among them. `canvas` holds the result, and `terminal` shows it.
#![forbid(unsafe_code)]

pub mod arguments;
pub mod bad_line;
pub mod candidate;
pub mod canvas;
pub mod clock;
pub mod desk;
pub mod field;
#[cfg(test)]
#[path = "../tests/folder/mod.rs"]
mod folder;
pub mod front;
pub mod glyphs;
pub mod halves;
pub mod help;
pub mod invigilator;
pub mod key_file;
pub mod keys;
pub mod listing;
pub mod panel;
pub mod played;
#[cfg(test)]
mod samples;
pub mod sitting;
pub mod span;
pub mod submitted;
pub mod terminal;
pub mod told;
pub mod udp;
pub mod view;
pub mod window;
pub mod witness;
