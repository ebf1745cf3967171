//! The screen that is typed on.
use crate::layout::{LINE, REPORT, SCREEN};
use crate::shown::{brief, kept, text};
use crate::waiting::piece;
use crate::{ffi, Refusal, Report, Shown, Waited};
use std::fmt;

/// A screen record of its own. Every changing call may be refused for a spent serial, after 4,294,967,295 of them; where another refusal is
/// possible the method says so.
#[derive(Clone, PartialEq, Eq)]
pub struct Screen {
    record: Vec<u8>,
}

/// Changing calls that have no arguments, or arguments whose types leave nothing to refuse.
macro_rules! changing {
    ($($(#[$what:meta])* $name:ident($($number:ident: $type:ty),*) = $call:ident;)*) => {
        $($(#[$what])*
        pub fn $name(&mut self $(, $number: $type)*) -> Result<(), Refusal> {
            Refusal::of_answer(ffi::$call(&mut self.record $(, u32::from($number))*)).map(drop)
        })*
    };
}

impl Screen {
    /// A new screen in a sitting: 40 columns if asked for 40, else 80. The number of the sitting is the host's to choose, larger after each restart,
    /// so that a mirror takes the new screen's reports for later ones than those of the screen before.
    pub fn new(width: u32, sitting: u32) -> Self {
        let mut record = vec![0; SCREEN];
        kept(ffi::screen_new(&mut record, width, sitting));
        Self { record }
    }

    /// A screen from a record that was kept elsewhere. Refused are wrong lengths and broken layouts.
    pub fn from_bytes(record: &[u8]) -> Result<Self, Refusal> {
        Refusal::of_answer(ffi::screen_width(record))?;
        Ok(Self { record: record.to_vec() })
    }

    /// Prints: 13, 10 and 13 followed by 10 are a newline; 27 and 32 to 255 are written; the others are ignored. A 13 and its 10 belong
    /// into one call: in two they are two newlines. [`Screen::print_checked`] looks whether that was kept.
    pub fn print_bytes(&mut self, bytes: &[u8]) -> Result<(), Refusal> {
        Refusal::of_answer(ffi::screen_print_bytes(&mut self.record, bytes)).map(drop)
    }

    /// Prints as [`Screen::print_bytes`] does, but refuses bytes that begin with 10 while [`Shown::ended_in_cr`] holds, with
    /// [`Refusal::SplitLineEnd`]. So a text that is printed in pieces, with no other changing call between them, looks as if it were printed at
    /// once, wherever it was cut, if no piece is refused. A call between two pieces, as a key that is typed, makes an end of it: a 10 after it is a
    /// newline of its own.
    ///
    /// ```
    /// use futonrobin::{Refusal, Screen, Shown};
    ///
    /// let mut screen = Screen::new(80, 1);
    /// screen.print_checked(b"WARD 7\r")?;
    /// let mut piece = b"\nBED 12".to_vec();
    /// assert_eq!(screen.print_checked(&piece), Err(Refusal::SplitLineEnd));
    ///
    /// // The 10 belongs to the 13 before. With an ignored byte in its place the piece is taken, and both look as if printed at once.
    /// piece[0] = 0;
    /// screen.print_checked(&piece)?;
    /// assert_eq!(screen.snapshot(), b"WARD 7\nBED 12");
    /// # Ok::<(), Refusal>(())
    /// ```
    ///
    /// To leave the 10 out and print the rest is not the same: of a piece that is a 10 alone nothing would be left, a print of nothing leaves the 13
    /// open, and the next 10, a newline of its own, would be refused too.
    pub fn print_checked(&mut self, bytes: &[u8]) -> Result<(), Refusal> {
        Refusal::of_answer(ffi::screen_print_checked(&mut self.record, bytes)).map(drop)
    }

    /// Prints as [`Screen::print_bytes`] does, but stops before the byte that would scroll one row more than `rows`: 0 to 1,000, more is refused. What
    /// [`Waited::taken`] leaves over is for the next call, and all together look like one print. With 0 a call at the bottom may take nothing; with more
    /// each takes something.
    ///
    /// ```
    /// use futonrobin::{Refusal, Screen, Shown};
    ///
    /// let mut screen = Screen::new(80, 1);
    /// let list = "BED\r\n".repeat(100);
    /// let mut rest = list.as_bytes();
    /// let mut screens = 0;
    /// while !rest.is_empty() {
    ///     let waited = screen.print_waiting(rest, screen.editable_rows() - 1)?;
    ///     rest = &rest[waited.taken..];
    ///     screens += 1; // here the reader presses a key
    /// }
    /// assert_eq!(screens, 4);
    /// # Ok::<(), Refusal>(())
    /// ```
    ///
    /// A call hands over 65,535 bytes at most. A longer text is cut there, a byte sooner where a 13 would be parted from its 10: then less than the
    /// whole may be taken although fewer rows than `rows` were scrolled, and the next call goes on.
    pub fn print_waiting(&mut self, bytes: &[u8], rows: u32) -> Result<Waited, Refusal> {
        Refusal::of_answer(ffi::screen_print_waiting(&mut self.record, piece(bytes), rows)).map(Waited::of_answer)
    }

    /// Types as [`Screen::type_char`] does, into a field of `limit` characters, 1 to 255; 0 is refused. Where the line under the cursor holds that many or
    /// more, it takes none in addition: cells, flags and cursor stay as they are, and the call counts. What stands in it is still typed over, in a longer
    /// line too. With 255 it is [`Screen::type_char`].
    ///
    /// ```
    /// use futonrobin::{Refusal, Screen, Shown};
    ///
    /// let mut screen = Screen::new(80, 1);
    /// for ch in *b"WARD78" {
    ///     let before = screen.cursor();
    ///     screen.type_limited(ch, 5)?;
    ///     // Whatever is typed moves the cursor: the field was full for the 8. (Of characters below 32 only 27 types anything.)
    ///     assert_eq!(screen.cursor() == before, ch == b'8');
    /// }
    /// assert_eq!(screen.logical_text(), b"WARD7");
    ///
    /// screen.move_left()?;
    /// screen.type_limited(b'8', 5)?;
    /// screen.home()?;
    /// screen.type_limited(b'C', 5)?;
    /// assert_eq!(screen.logical_text(), b"CARD8");
    ///
    /// assert_eq!(screen.type_limited(b'A', 0), Err(Refusal::OutOfRange));
    /// # Ok::<(), Refusal>(())
    /// ```
    ///
    /// What was printed in the line counts too: a question stands in a row of its own, or the limit is larger by it. The line reaches at least to the cursor:
    /// one that was moved to the right of the text has spaces before it that count. Other calls know nothing of a limit: [`Screen::tab`] with insert on types up
    /// to 255 characters, and [`Screen::ctrl_enter`] joins a row to the line. A host that keeps a field calls `type_limited` for each space of a tab instead
    /// (with insert on, from the cursor's column to the next multiple of 8, until one leaves the cursor still), and leaves `ctrl_enter` out.
    pub fn type_limited(&mut self, ch: u8, limit: u8) -> Result<(), Refusal> {
        Refusal::of_answer(ffi::screen_type_limited(&mut self.record, ch.into(), limit.into())).map(drop)
    }

    /// Submits the logical line under the cursor: its text.
    pub fn take_logical_line(&mut self) -> Result<Vec<u8>, Refusal> {
        let mut out = vec![0; LINE];
        let length = Refusal::of_answer(ffi::screen_take_logical_line(&mut self.record, &mut out))?;
        out.truncate(length as usize);
        Ok(out)
    }

    changing! {
        /// Types a character at the cursor, inserting or over what stands there.
        type_char(ch: u8) = screen_type_char;
        /// Drops the character before the cursor; in column 0 the one under it.
        backspace() = screen_backspace;
        /// Drops the character under the cursor.
        delete_char() = screen_delete_char;
        /// Drops the line's characters from the cursor on.
        erase_to_end() = screen_erase_to_end;
        /// Takes the logical line out; those below move up.
        escape_line() = screen_escape_line;
        /// To the next multiple of 8; with insert on, by typing spaces.
        tab() = screen_tab;
        /// Joins the next row to this line and goes there.
        ctrl_enter() = screen_ctrl_enter;
        /// To the next row, without submitting.
        break_line() = screen_break_line;
        /// One cell to the left.
        move_left() = screen_move_left;
        /// One cell to the right.
        move_right() = screen_move_right;
        /// One row up.
        move_up() = screen_move_up;
        /// One row down.
        move_down() = screen_move_down;
        /// To the first cell.
        home() = screen_home;
        /// To the start of the word before.
        word_left() = screen_word_left;
        /// To the start of the next word.
        word_right() = screen_word_right;
        /// Behind the last character of the logical line.
        end_of_line() = screen_end_of_line;
        /// Blanks the editable rows and goes home.
        clear() = screen_clear;
        /// Blanks all rows at the new width, 40 or 80; other widths are refused.
        set_width(width: u32) = screen_set_width;
        /// Sets the cursor, at most to the last editable row and the last column.
        set_cursor(row: u32, col: u32) = screen_set_cursor;
        /// Whether typing inserts.
        set_insert(on: bool) = screen_set_insert;
        /// The attribute of what is written from now on.
        set_attr(attr: u8) = screen_set_attr;
        /// Whether the last row is the key strip's.
        set_keys_on(on: bool) = screen_set_keys_on;
    }

    /// The step report: what the last accepted call has changed.
    pub fn report_step(&self) -> Report {
        Report::of_call(text(REPORT, |out| kept(ffi::report_step(&self.record, out))))
    }

    /// The full report: all that the screen shows.
    pub fn report_full(&self) -> Report {
        Report::of_call(text(REPORT, |out| kept(ffi::report_full(&self.record, out))))
    }
}

impl Shown for Screen {
    fn record(&self) -> &[u8] {
        &self.record
    }
}

impl fmt::Debug for Screen {
    fn fmt(&self, f: &mut fmt::Formatter) -> fmt::Result {
        brief("Screen", self, f)
    }
}
