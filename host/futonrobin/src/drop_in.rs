//! The text-mode part of the BASIC runtime's `screen` module, by name and signature, over the proved screen: a runtime that has
//! `use crate::screen::Screen` writes `use futonrobin::drop_in::Screen`.
//!
//! Its prints are the Rust's: a 13 and its 10 in two of them are two newlines. [`crate::Screen::print_checked`] would refuse that.
//!
//! Where no signature has room for a refusal, the method panics with its sentence: a changing call on a spent serial, and `cell` and
//! `continues` out of range, where the Rust panics too.
use crate::{Refusal, Shown};

pub use crate::Cell;

/// Rows of the screen, the key strip's included.
pub const SCREEN_ROWS: usize = 25;
/// The longest logical line.
pub const MAX_LOGICAL: usize = crate::layout::LINE;
/// The attribute of a new screen.
pub const ATTR_NORMAL: u8 = 0x07;

/// The Rust's `Screen` in text mode.
pub struct Screen {
    screen: crate::Screen,
}

/// Changing calls whose numbers pass as they are.
macro_rules! changing {
    ($($name:ident($($number:ident: $type:ty),*);)*) => {
        $(#[allow(missing_docs)]
        #[track_caller]
        pub fn $name(&mut self $(, $number: $type)*) {
            accepted(self.screen.$name($($number),*))
        })*
    };
}

#[allow(missing_docs)]
impl Screen {
    pub fn new(width: usize) -> Self {
        Self { screen: crate::Screen::new(number(width), 0) }
    }

    /// The new screen in this sitting rather than 0, for a mirror that follows restarts: `Screen::new(80).in_sitting(number)`. What was printed
    /// before is gone, as in every new screen.
    pub fn in_sitting(self, number: u32) -> Self {
        Self { screen: crate::Screen::new(self.screen.width(), number) }
    }

    /// The proved screen itself, for reports.
    pub fn proved(&self) -> &crate::Screen {
        &self.screen
    }

    /// The same for calls that the Rust lacks, as [`type_limited`](crate::Screen::type_limited): `screen.proved_mut().type_limited(b'A', 60)`.
    pub fn proved_mut(&mut self) -> &mut crate::Screen {
        &mut self.screen
    }

    pub fn width(&self) -> usize {
        self.screen.width() as usize
    }

    pub fn cursor(&self) -> (usize, usize) {
        let (row, col) = self.screen.cursor();
        (row as usize, col as usize)
    }

    #[track_caller]
    pub fn set_cursor(&mut self, row: usize, col: usize) {
        accepted(self.screen.set_cursor(number(row), number(col)))
    }

    pub fn insert_mode(&self) -> bool {
        self.screen.insert_mode()
    }

    pub fn attr(&self) -> u8 {
        self.screen.attr()
    }

    pub fn keys_visible(&self) -> bool {
        self.screen.keys_visible()
    }

    #[track_caller]
    pub fn cell(&self, row: usize, col: usize) -> Cell {
        accepted(self.screen.cell(number(row), number(col)))
    }

    #[track_caller]
    pub fn continues(&self, row: usize) -> bool {
        accepted(self.screen.continues(number(row)))
    }

    pub fn editable_rows(&self) -> usize {
        self.screen.editable_rows() as usize
    }

    #[track_caller]
    pub fn set_width(&mut self, width: usize) -> bool {
        match self.screen.set_width(number(width)) {
            Err(Refusal::OutOfRange) => false,
            answer => {
                accepted(answer);
                true
            }
        }
    }

    pub fn logical_text(&self) -> String {
        string(self.screen.logical_text())
    }

    pub fn snapshot(&self) -> String {
        string(self.screen.snapshot())
    }

    /// As in the Rust, U+2190 is byte 27 and what is above U+00FF is left out.
    #[track_caller]
    pub fn print_str(&mut self, s: &str) {
        let byte = |c: char| if c == '\u{2190}' { Some(27) } else { u8::try_from(c).ok() };
        self.print_bytes(&s.chars().filter_map(byte).collect::<Vec<_>>())
    }

    #[track_caller]
    pub fn take_logical_line(&mut self) -> String {
        string(accepted(self.screen.take_logical_line()))
    }

    changing! {
        print_bytes(bytes: &[u8]);
        type_char(ch: u8);
        backspace();
        delete_char();
        erase_to_end();
        escape_line();
        tab();
        ctrl_enter();
        break_line();
        move_left();
        move_right();
        move_up();
        move_down();
        home();
        word_left();
        word_right();
        end_of_line();
        clear();
        set_insert(on: bool);
        set_attr(attr: u8);
        set_keys_on(on: bool);
    }
}

impl From<crate::Screen> for Screen {
    fn from(screen: crate::Screen) -> Self {
        Self { screen }
    }
}

/// Numbers that no `u32` holds lie beyond every bound, as the largest one does.
fn number(n: usize) -> u32 {
    u32::try_from(n).unwrap_or(u32::MAX)
}

/// One byte stands for one character of the Rust's strings.
fn string(bytes: Vec<u8>) -> String {
    bytes.into_iter().map(char::from).collect()
}

#[track_caller]
fn accepted<T>(answer: Result<T, Refusal>) -> T {
    answer.unwrap_or_else(|refusal| panic!("{refusal}"))
}
