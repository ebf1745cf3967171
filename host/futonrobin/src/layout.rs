//! Lengths of the buffers, and the fields that no exported call answers. Document 01, "The cell grid" and "Reports and mirror", in
//! version 2 (document 02, (c)), with two bits in byte 6 (document 02, (l)).

/// Bytes of a screen record.
pub const SCREEN: usize = 4046;
/// Bytes of a mirror.
pub const MIRROR: usize = 4057;
/// Bytes of a key table.
pub const KEY_TABLE: usize = 160;
/// The longest report, and the shortest output for one.
pub const REPORT: usize = 4047;
/// The longest logical line, and the shortest output for one.
pub const LINE: usize = 255;
/// The longest input of a waiting print.
pub const WAITING: usize = 65_535;
/// The shortest output for a snapshot.
pub const SNAPSHOT: usize = 2024;

pub(crate) const BITS_AT: usize = 6;
/// Of that byte: typing inserts.
pub(crate) const INSERT_BIT: u8 = 1;
/// Of that byte: a print ended with 13.
pub(crate) const CR_BIT: u8 = 2;
pub(crate) const SERIAL_AT: usize = 9;
pub(crate) const SITTING_AT: usize = 13;
pub(crate) const TOUCHED: std::ops::Range<usize> = 17..21;

pub(crate) const NEWEST_AT: usize = 3;
pub(crate) const NEWEST_SITTING_AT: usize = 7;
/// From here on a mirror is a screen record.
pub(crate) const SHOWN_AT: usize = 11;

pub(crate) const KIND_AT: usize = 3;
pub(crate) const REPORT_SERIAL_AT: usize = 4;
pub(crate) const REPORT_SITTING_AT: usize = 8;
pub(crate) const REPORT_WIDTH_AT: usize = 16;

/// The big-endian number in the four bytes from `at` on.
pub(crate) fn number(bytes: &[u8], at: usize) -> u32 {
    bytes[at..at + 4].iter().fold(0, |number, &byte| number << 8 | u32::from(byte))
}
