//! The 27 changing calls: made on the Rust screen, and written for antt.

use super::limited::type_limited;
use super::waiting::Waited;
use crate::screen::Screen;
use std::fmt::Write;

#[derive(Clone, Debug)]
pub enum Call {
    PrintBytes(Vec<u8>),
    PrintChecked(Vec<u8>),
    /// Bytes, a limit, and what is made of them where the call stands.
    PrintWaiting(Vec<u8>, usize, Waited),
    TypeChar(u8),
    TypeLimited(u8, usize),
    Backspace,
    DeleteChar,
    EraseToEnd,
    EscapeLine,
    Tab,
    CtrlEnter,
    TakeLogicalLine,
    BreakLine,
    MoveLeft,
    MoveRight,
    MoveUp,
    MoveDown,
    Home,
    WordLeft,
    WordRight,
    EndOfLine,
    Clear,
    SetWidth(usize),
    SetCursor(usize, usize),
    SetInsert(bool),
    SetAttr(u8),
    SetKeysOn(bool),
}
use Call::*;

impl Call {
    /// Makes the call, and answers the text that it hands out. A checked print is the Rust's print, a waiting one its print of the bytes that are taken, and
    /// typing with a limit its typing, or nothing.
    pub fn make(&self, screen: &mut Screen) -> Vec<u8> {
        match self {
            PrintBytes(bytes) | PrintChecked(bytes) => screen.print_bytes(bytes),
            PrintWaiting(bytes, _, waited) => screen.print_bytes(&bytes[..waited.taken]),
            TypeChar(ch) => screen.type_char(*ch),
            TypeLimited(ch, limit) => type_limited(screen, *ch, *limit),
            Backspace => screen.backspace(),
            DeleteChar => screen.delete_char(),
            EraseToEnd => screen.erase_to_end(),
            EscapeLine => screen.escape_line(),
            Tab => screen.tab(),
            CtrlEnter => screen.ctrl_enter(),
            TakeLogicalLine => return bytes_of(&screen.take_logical_line()),
            BreakLine => screen.break_line(),
            MoveLeft => screen.move_left(),
            MoveRight => screen.move_right(),
            MoveUp => screen.move_up(),
            MoveDown => screen.move_down(),
            Home => screen.home(),
            WordLeft => screen.word_left(),
            WordRight => screen.word_right(),
            EndOfLine => screen.end_of_line(),
            Clear => screen.clear(),
            SetWidth(width) => assert!(screen.set_width(*width)),
            SetCursor(row, col) => screen.set_cursor(*row, *col),
            SetInsert(on) => screen.set_insert(*on),
            SetAttr(attr) => screen.set_attr(*attr),
            SetKeysOn(on) => screen.set_keys_on(*on),
        }
        Vec::new()
    }

    /// The number that the call answers, if it hands out this text.
    pub fn answer(&self, submitted: &[u8]) -> u64 {
        match self {
            PrintWaiting(_, _, waited) => waited.answer(),
            _ => submitted.len() as u64,
        }
    }

    /// The call as antt reads it.
    pub fn antt(&self) -> String {
        match self {
            PrintBytes(bytes) => format!("PrintBytes ({})", packed(bytes)),
            PrintChecked(bytes) => format!("PrintChecked ({})", packed(bytes)),
            PrintWaiting(bytes, rows, _) => format!("PrintWaiting ({}) {rows}", packed(bytes)),
            TypeChar(ch) => format!("TypeChar {ch}"),
            TypeLimited(ch, limit) => format!("TypeLimited {ch} {limit}"),
            TakeLogicalLine => "TakeLogicalLine line".to_string(),
            SetWidth(width) => format!("SetWidth {width}"),
            SetCursor(row, col) => format!("SetCursor {row} {col}"),
            SetInsert(on) => format!("SetInsert {}", u8::from(*on)),
            SetAttr(attr) => format!("SetAttr {attr}"),
            SetKeysOn(on) => format!("SetKeysOn {}", u8::from(*on)),
            plain => format!("{plain:?}"),
        }
    }
}

/// Bytes as one number, the first one lowest: antt reads a numeral far quicker than a list.
fn packed(bytes: &[u8]) -> String {
    let mut text = format!("bytes {} 0x0", bytes.len());
    for byte in bytes.iter().rev() {
        write!(text, "{byte:02x}").unwrap();
    }
    text
}

/// One byte stands for one character of the Rust's strings.
pub fn bytes_of(text: &str) -> Vec<u8> {
    text.chars().map(|c| u8::try_from(c).unwrap()).collect()
}
