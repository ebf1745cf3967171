//! The Rust that the archive is compared with, and what a record looks like when it holds the Rust's screen.
use crate::call::Call;
use crate::layout::{self, *};

include!(concat!(env!("OUT_DIR"), "/oracle.rs"));

/// The text-mode methods of the Rust's `Screen`: its own, unchanged or opened, and the drop-in one, which has them by name and signature.
pub trait TextScreen {
    fn new(width: usize) -> Self;
    fn print_str(&mut self, s: &str);
    fn set_width(&mut self, width: usize) -> bool;
    /// An accepted changing call; the text that it submits, which only `take_logical_line` does.
    fn change(&mut self, call: &Call) -> Vec<u8>;
    /// The number that a reading call answers.
    fn read(&self, call: &Call) -> u32;
    /// The text of a text call.
    fn text(&self, call: &Call) -> Vec<u8>;
    /// Writes all of a record but serial, sitting, touched rows and whether a print ended with 13, which the Rust does not have, and the bytes beyond
    /// the width.
    fn write(&self, rec: &mut [u8]);
}

macro_rules! text_screen {
    ($screen:ty) => {
        impl TextScreen for $screen {
            fn new(width: usize) -> Self {
                <$screen>::new(width)
            }

            fn print_str(&mut self, s: &str) {
                self.print_str(s)
            }

            fn set_width(&mut self, width: usize) -> bool {
                self.set_width(width)
            }

            fn change(&mut self, call: &Call) -> Vec<u8> {
                match *call {
                    // an accepted checked print is the Rust's print
                    Call::PrintBytes(ref bytes) | Call::PrintChecked(ref bytes) => self.print_bytes(bytes),
                    Call::TypeChar(ch) => self.type_char(ch as u8),
                    Call::Backspace => self.backspace(),
                    Call::DeleteChar => self.delete_char(),
                    Call::EraseToEnd => self.erase_to_end(),
                    Call::EscapeLine => self.escape_line(),
                    Call::Tab => self.tab(),
                    Call::CtrlEnter => self.ctrl_enter(),
                    Call::TakeLogicalLine => return bytes_of(self.take_logical_line()),
                    Call::BreakLine => self.break_line(),
                    Call::MoveLeft => self.move_left(),
                    Call::MoveRight => self.move_right(),
                    Call::MoveUp => self.move_up(),
                    Call::MoveDown => self.move_down(),
                    Call::Home => self.home(),
                    Call::WordLeft => self.word_left(),
                    Call::WordRight => self.word_right(),
                    Call::EndOfLine => self.end_of_line(),
                    Call::Clear => self.clear(),
                    Call::SetWidth(width) => assert!(self.set_width(width as usize)),
                    Call::SetCursor(row, col) => self.set_cursor(row as usize, col as usize),
                    Call::SetInsert(on) => self.set_insert(on == 1),
                    Call::SetAttr(attr) => self.set_attr(attr as u8),
                    Call::SetKeysOn(on) => self.set_keys_on(on == 1),
                    _ => unreachable!("{call} is no changing call"),
                }
                Vec::new()
            }

            fn read(&self, call: &Call) -> u32 {
                match *call {
                    Call::Width => self.width() as u32,
                    Call::Cursor => self.cursor().1 as u32 + 256 * self.cursor().0 as u32,
                    Call::Attr => self.attr() as u32,
                    Call::EditableRows => self.editable_rows() as u32,
                    Call::Cell(row, col) => {
                        let cell = self.cell(row as usize, col as usize);
                        cell.ch as u32 + 256 * cell.attr as u32
                    }
                    Call::Continues(row) => self.continues(row as usize) as u32,
                    _ => unreachable!("{call} is no reading call"),
                }
            }

            fn text(&self, call: &Call) -> Vec<u8> {
                match call {
                    Call::LogicalText => bytes_of(self.logical_text()),
                    Call::Snapshot => bytes_of(self.snapshot()),
                    _ => unreachable!("{call} is no text call"),
                }
            }

            fn write(&self, rec: &mut [u8]) {
                layout::set_front(rec);
                rec[WIDTH_AT] = self.width() as u8;
                rec[ROW_AT] = self.cursor().0 as u8;
                rec[COLUMN_AT] = self.cursor().1 as u8;
                layout::set_insert(rec, self.insert_mode());
                rec[KEYS_AT] = self.keys_visible() as u8;
                rec[ATTR_AT] = self.attr();
                for row in 0..ROWS {
                    set_flag(rec, row, self.continues(row) as u8);
                    for col in 0..self.width() {
                        chars_mut(rec, row)[col] = self.cell(row, col).ch;
                        attrs_mut(rec, row)[col] = self.cell(row, col).attr;
                    }
                }
            }
        }
    };
}

text_screen!(screen::Screen);
text_screen!(opened::Screen);
text_screen!(futonrobin::drop_in::Screen);

/// One byte stands for one character of the Rust's strings.
fn bytes_of(text: String) -> Vec<u8> {
    text.chars().map(|c| u8::try_from(c).expect("the Rust's texts have characters up to U+00FF")).collect()
}

/// The Rust's screen that a valid record describes.
pub fn opened(rec: &[u8]) -> opened::Screen {
    let cells = |row: usize| {
        let attrs = &attrs(rec, row)[..layout::width(rec)];
        layout::text(rec, row).iter().zip(attrs).map(|(&ch, &attr)| opened::Cell { ch, attr }).collect()
    };
    let rows = (0..ROWS).map(|row| (cells(row), flagged(rec, row))).collect();
    opened::Screen::of_parts(width(rec), rows, cursor(rec), inserting(rec), rec[KEYS_AT] == 1, rec[ATTR_AT])
}

/// The record of a new screen in a sitting. Serial and touched rows are 0, and no print ended with 13.
pub fn new_record(width: u32, sitting: u32) -> Vec<u8> {
    let mut rec = vec![0; SIZE];
    screen::Screen::new(width as usize).write(&mut rec);
    set_sitting(&mut rec, sitting);
    rec
}

/// The record after an accepted changing call on `before`: the Rust's screen after it, the next serial of the same sitting, the rows that differ, and
/// whether a print ended with 13.
pub fn record_after(before: &[u8], call: &Call, screen: &impl TextScreen) -> Vec<u8> {
    let mut after = vec![0; SIZE];
    screen.write(&mut after);
    set_ended_in_cr(&mut after, ended_in_cr_after(call, ended_in_cr(before)));
    set_pair(&mut after, Pair { sitting: sitting(before), serial: serial(before) + 1 });
    let mask = differing_rows(before, &after);
    set_touched(&mut after, mask);
    after
}

/// Document 02, (l): the bit "is set by a print whose last byte taken is 13, left by one that takes none and cleared by every other changing call".
fn ended_in_cr_after(call: &Call, before: bool) -> bool {
    match call {
        Call::PrintBytes(bytes) | Call::PrintChecked(bytes) => bytes.last().map_or(before, |&last| last == 13),
        _ => false,
    }
}

/// Bit r is set exactly when row r's 160 cell bytes or its flag differ.
fn differing_rows(a: &[u8], b: &[u8]) -> u32 {
    let differs = |r: usize| flag(a, r) != flag(b, r) || chars(a, r) != chars(b, r) || attrs(a, r) != attrs(b, r);
    (0..ROWS).filter(|&r| differs(r)).map(|r| 1 << r).sum()
}
