//! The archive against the Rust.
//!
//! `oracle` brings in the Rust and says what a record is that holds its screen; `judge` adds the documents' refusals, so that every call on
//! every bytes has one wanted outcome, with `waiting` and `limited` for the print and the typing that the Rust lacks; `trial` makes a call through the archive and compares. The runs are in
//! `random`, `exhaustive`, `examples`, `splits`, `pages`, `fields`, `refusals` and `drop_in`; `answers` is the file of recorded answers. `strip` has the runs of the key strip. Reports and mirrors are
//! run by `simulator`, over `line`, and one by one by `arrivals`; `reports` has the documents' rules for them.
#![forbid(unsafe_code)]

pub mod answers;
pub mod arrivals;
pub mod call;
pub mod corners;
pub mod counts;
pub mod drop_in;
pub mod examples;
pub mod exhaustive;
pub mod fields;
pub mod judge;
pub mod layout;
pub mod limited;
pub mod line;
pub mod lists;
pub mod options;
pub mod oracle;
pub mod pages;
pub mod random;
pub mod records;
pub mod refusals;
pub mod reports;
pub mod simulator;
pub mod splits;
pub mod strip;
pub mod tally;
pub mod trial;
pub mod waiting;
