//! The screen record of document 01, "The cell grid", in version 2 (document 02, (c)) and with the bit of document 02, (l): where each field
//! stands. The only file here that knows.

pub const SIZE: usize = 4046;
pub const LENGTH_AT: usize = 0;
pub const VERSION_AT: usize = 2;
pub const WIDTH_AT: usize = 3;
pub const ROW_AT: usize = 4;
pub const COLUMN_AT: usize = 5;
pub const BITS_AT: usize = 6;
pub const KEYS_AT: usize = 7;
pub const ATTR_AT: usize = 8;
const SERIAL_AT: usize = 9;
const SITTING_AT: usize = 13;
const TOUCHED_AT: usize = 17;
const FLAGS_AT: usize = 21;
const CHARS_AT: usize = 46;
const ATTRS_AT: usize = 2046;

/// The bytes before the cells.
pub const FRONT: usize = CHARS_AT;

/// Byte 6 is at most this: "Byte 6 of the screen record, now 0 to 3, keeps insert in its lowest bit", and has one more.
pub const ALL_BITS: u8 = 3;
const INSERT_BIT: u8 = 1;
const CR_BIT: u8 = 2;

pub const VERSION: u8 = 2;
pub const ROWS: usize = 25;
const STRIDE: usize = 80;

/// The longest logical line, and the shortest output for one.
pub const LINE: usize = 255;
/// The shortest output for a snapshot.
pub const SNAPSHOT: usize = 2024;
/// A changing call that finds this serial is refused.
pub const LAST_SERIAL: u32 = u32::MAX;

/// A sitting and a serial. The later of two is that of the larger sitting, in one sitting that of the larger serial: so a derived order has it.
#[derive(Clone, Copy, PartialEq, Eq, PartialOrd, Ord, Debug)]
pub struct Pair {
    pub sitting: u32,
    pub serial: u32,
}

pub fn width(rec: &[u8]) -> usize {
    rec[WIDTH_AT] as usize
}

pub fn cursor(rec: &[u8]) -> (usize, usize) {
    (rec[ROW_AT] as usize, rec[COLUMN_AT] as usize)
}

/// Whether typing inserts.
pub fn inserting(rec: &[u8]) -> bool {
    rec[BITS_AT] & INSERT_BIT != 0
}

pub fn set_insert(rec: &mut [u8], on: bool) {
    set_bit(rec, INSERT_BIT, on);
}

/// The bit of document 02, (l): a print ended with 13.
pub fn ended_in_cr(rec: &[u8]) -> bool {
    rec[BITS_AT] & CR_BIT != 0
}

pub fn set_ended_in_cr(rec: &mut [u8], is: bool) {
    set_bit(rec, CR_BIT, is);
}

fn set_bit(rec: &mut [u8], bit: u8, on: bool) {
    rec[BITS_AT] = if on { rec[BITS_AT] | bit } else { rec[BITS_AT] & !bit };
}

/// E, the number of rows that can be edited.
pub fn editable(rec: &[u8]) -> usize {
    ROWS - rec[KEYS_AT] as usize
}

/// The number in the four bytes from `at` on.
pub fn number(rec: &[u8], at: usize) -> u32 {
    u32::from_be_bytes([rec[at], rec[at + 1], rec[at + 2], rec[at + 3]])
}

pub fn set_number(rec: &mut [u8], at: usize, value: u32) {
    rec[at..at + 4].copy_from_slice(&value.to_be_bytes());
}

pub fn serial(rec: &[u8]) -> u32 {
    number(rec, SERIAL_AT)
}

pub fn set_serial(rec: &mut [u8], value: u32) {
    set_number(rec, SERIAL_AT, value);
}

pub fn sitting(rec: &[u8]) -> u32 {
    number(rec, SITTING_AT)
}

pub fn set_sitting(rec: &mut [u8], value: u32) {
    set_number(rec, SITTING_AT, value);
}

pub fn pair(rec: &[u8]) -> Pair {
    Pair { sitting: sitting(rec), serial: serial(rec) }
}

pub fn set_pair(rec: &mut [u8], pair: Pair) {
    set_sitting(rec, pair.sitting);
    set_serial(rec, pair.serial);
}

pub fn touched(rec: &[u8]) -> u32 {
    number(rec, TOUCHED_AT)
}

pub fn set_touched(rec: &mut [u8], mask: u32) {
    set_number(rec, TOUCHED_AT, mask);
}

pub fn length_field(rec: &[u8]) -> usize {
    rec[LENGTH_AT] as usize * 256 + rec[LENGTH_AT + 1] as usize
}

/// The length that a record names, or a report or mirror, which have it in the same place.
pub fn set_length(bytes: &mut [u8], length: usize) {
    bytes[LENGTH_AT..LENGTH_AT + 2].copy_from_slice(&(length as u16).to_be_bytes());
}

/// Length and version, which every record has alike.
pub fn set_front(rec: &mut [u8]) {
    set_length(rec, SIZE);
    rec[VERSION_AT] = VERSION;
}

/// The record as version 1 had it: without a sitting.
pub fn as_version_1(rec: &[u8]) -> Vec<u8> {
    says_version_1([&rec[..SITTING_AT], &rec[TOUCHED_AT..]].concat())
}

/// Names version 1, and the length that it has.
pub fn says_version_1(mut bytes: Vec<u8>) -> Vec<u8> {
    let length = bytes.len();
    set_length(&mut bytes, length);
    bytes[VERSION_AT] = 1;
    bytes
}

pub fn flag(rec: &[u8], row: usize) -> u8 {
    rec[FLAGS_AT + row]
}

pub fn set_flag(rec: &mut [u8], row: usize, flag: u8) {
    rec[FLAGS_AT + row] = flag;
}

pub fn flagged(rec: &[u8], row: usize) -> bool {
    flag(rec, row) != 0
}

/// All 80 characters of a row, those beyond the width included.
pub fn chars(rec: &[u8], row: usize) -> &[u8] {
    &rec[CHARS_AT + STRIDE * row..][..STRIDE]
}

pub fn chars_mut(rec: &mut [u8], row: usize) -> &mut [u8] {
    &mut rec[CHARS_AT + STRIDE * row..][..STRIDE]
}

/// All 80 attributes of a row, those beyond the width included.
pub fn attrs(rec: &[u8], row: usize) -> &[u8] {
    &rec[ATTRS_AT + STRIDE * row..][..STRIDE]
}

pub fn attrs_mut(rec: &mut [u8], row: usize) -> &mut [u8] {
    &mut rec[ATTRS_AT + STRIDE * row..][..STRIDE]
}

/// The characters of a row inside the width.
pub fn text(rec: &[u8], row: usize) -> &[u8] {
    &chars(rec, row)[..width(rec)]
}

const FIELDS: [(usize, &str); 14] = [
    (LENGTH_AT, "length"),
    (VERSION_AT, "version"),
    (WIDTH_AT, "width"),
    (ROW_AT, "cursor row"),
    (COLUMN_AT, "cursor column"),
    (BITS_AT, "insert, and whether a print ended with 13"),
    (KEYS_AT, "keys on"),
    (ATTR_AT, "current attribute"),
    (SERIAL_AT, "serial"),
    (SITTING_AT, "sitting"),
    (TOUCHED_AT, "touched rows"),
    (FLAGS_AT, "flag of row"),
    (CHARS_AT, "character"),
    (ATTRS_AT, "attribute"),
];

/// What the byte at `at` is, in words, for a message.
pub fn name(at: usize) -> String {
    let &(start, field) = FIELDS.iter().rev().find(|(start, _)| *start <= at).expect("the first field starts at 0");
    match start {
        FLAGS_AT => format!("{field} {}", at - start),
        CHARS_AT | ATTRS_AT => format!("{field} ({}, {})", (at - start) / STRIDE, (at - start) % STRIDE),
        _ => field.into(),
    }
}
