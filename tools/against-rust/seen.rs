//! What is compared after each call, summed to one number.

use super::calls::bytes_of;
use crate::screen::Screen;

pub const ROWS: usize = 25;
const COLUMNS: usize = 80;

#[derive(PartialEq)]
pub struct Row {
    flag: u8,
    chars: [u8; COLUMNS],
    attrs: [u8; COLUMNS],
}

/// The rows, zero beyond the width as in a record.
pub fn rows_of(screen: &Screen) -> Vec<Row> {
    (0..ROWS).map(|r| row_of(screen, r)).collect()
}

fn row_of(screen: &Screen, r: usize) -> Row {
    let mut row = Row {
        flag: u8::from(screen.continues(r)),
        chars: [0; COLUMNS],
        attrs: [0; COLUMNS],
    };
    for c in 0..screen.width() {
        let cell = screen.cell(r, c);
        row.chars[c] = cell.ch;
        row.attrs[c] = cell.attr;
    }
    row
}

/// The rows that differ: bit r for row r.
pub fn touched(before: &[Row], after: &[Row]) -> u64 {
    (0..ROWS).fold(0, |mask, r| mask | u64::from(before[r] != after[r]) << r)
}

/// What the Rust does not have: the sitting is kept by every call, the serial counts them, and after some a print has ended with 13.
pub struct Stamp {
    pub sitting: u32,
    pub serial: usize,
    pub touched: u64,
    pub ended_in_cr: bool,
}

/// All that can be seen of a screen after a call, in the order of `seen` in `agrees.antt.txt`.
pub fn seen(screen: &Screen, rows: &[Row], stamp: &Stamp, answer: u64, submitted: &[u8]) -> u64 {
    let (row, col) = screen.cursor();
    let mut items = vec![
        answer,
        sum_of_bytes(submitted),
        screen.width() as u64,
        row as u64,
        col as u64,
        u64::from(screen.insert_mode()),
        u64::from(stamp.ended_in_cr),
        u64::from(screen.keys_visible()),
        u64::from(screen.attr()),
        u64::from(stamp.sitting),
        stamp.serial as u64,
        stamp.touched,
        sum_of_bytes(&bytes_of(&screen.logical_text())),
        sum_of_bytes(&bytes_of(&screen.snapshot())),
    ];
    for row in rows {
        let flag = u64::from(row.flag);
        items.push(sum(&[
            flag,
            sum_of_bytes(&row.chars),
            sum_of_bytes(&row.attrs),
        ]));
    }
    sum(&items)
}

/// `sum` of `agrees.antt.txt`.
fn sum(items: &[u64]) -> u64 {
    const PRIME: u128 = (1 << 61) - 1;
    let add = |rest: u128, item: &u64| (u128::from(*item) + 1 + 257 * rest) % PRIME;
    items.iter().rev().fold(0, add) as u64
}

fn sum_of_bytes(bytes: &[u8]) -> u64 {
    sum(&bytes
        .iter()
        .map(|&byte| u64::from(byte))
        .collect::<Vec<_>>())
}
