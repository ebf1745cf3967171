//! What a screen or a mirror shows, read by the exported reading and text calls.
use crate::layout::{number, BITS_AT, CR_BIT, INSERT_BIT, LINE, SERIAL_AT, SITTING_AT, SNAPSHOT, TOUCHED};
use crate::{ffi, Pair, Refusal};
use std::fmt;

/// A character and its attribute: foreground is the low nibble, background the high one.
#[derive(Clone, Copy, Debug, PartialEq, Eq)]
pub struct Cell {
    /// The character.
    pub ch: u8,
    /// Its attribute.
    pub attr: u8,
}

/// What a screen or a mirror shows.
pub trait Shown {
    /// The bytes of its screen record, which keep the documents' layout.
    fn record(&self) -> &[u8];

    /// Columns: 40 or 80.
    fn width(&self) -> u32 {
        kept(ffi::screen_width(self.record()))
    }

    /// Row and column.
    fn cursor(&self) -> (u32, u32) {
        let answer = kept(ffi::screen_cursor(self.record()));
        (answer / 256, answer % 256)
    }

    /// The current attribute.
    fn attr(&self) -> u8 {
        kept(ffi::screen_attr(self.record())) as u8
    }

    /// The rows that can be edited: 24 with keys on, else 25.
    fn editable_rows(&self) -> u32 {
        kept(ffi::screen_editable_rows(self.record()))
    }

    /// Whether the last row is the key strip's.
    fn keys_visible(&self) -> bool {
        self.editable_rows() == 24
    }

    /// Whether typing inserts.
    fn insert_mode(&self) -> bool {
        self.record()[BITS_AT] & INSERT_BIT != 0
    }

    /// Whether the last changing call was a print whose last byte taken is 13, prints that took no byte aside: a 10 that is printed next belongs to it.
    fn ended_in_cr(&self) -> bool {
        self.record()[BITS_AT] & CR_BIT != 0
    }

    /// How many changing calls were accepted since the screen was new.
    fn serial(&self) -> u32 {
        number(self.record(), SERIAL_AT)
    }

    /// The sitting that the screen was new in.
    fn sitting(&self) -> u32 {
        number(self.record(), SITTING_AT)
    }

    /// Sitting and serial: what stands for this screen on a line.
    fn pair(&self) -> Pair {
        Pair { sitting: self.sitting(), serial: self.serial() }
    }

    /// Whether both show the same screen of the same sitting at the same serial. The touched rows, which a mirror does not have, are left out.
    fn same_as(&self, other: &impl Shown) -> bool
    where
        Self: Sized,
    {
        let (a, b) = (self.record(), other.record());
        a[..TOUCHED.start] == b[..TOUCHED.start] && a[TOUCHED.end..] == b[TOUCHED.end..]
    }

    /// A row from 0 to 24 and a column below the width.
    fn cell(&self, row: u32, col: u32) -> Result<Cell, Refusal> {
        let answer = Refusal::of_answer(ffi::screen_cell(self.record(), row, col))?;
        Ok(Cell { ch: answer as u8, attr: (answer >> 8) as u8 })
    }

    /// Whether the row after this one, 0 to 24, belongs to its logical line.
    fn continues(&self, row: u32) -> Result<bool, Refusal> {
        Ok(Refusal::of_answer(ffi::screen_continues(self.record(), row))? == 1)
    }

    /// The logical line under the cursor.
    fn logical_text(&self) -> Vec<u8> {
        text(LINE, |out| kept(ffi::screen_logical_text(self.record(), out)))
    }

    /// The editable rows without white space at their ends, joined by byte 10.
    fn snapshot(&self) -> Vec<u8> {
        text(SNAPSHOT, |out| kept(ffi::screen_snapshot(self.record(), out)))
    }
}

/// What a screen or mirror shows in a few words, for `Debug`: its bytes would fill pages.
pub(crate) fn brief(name: &str, shown: &impl Shown, f: &mut fmt::Formatter) -> fmt::Result {
    let text = String::from_utf8_lossy(&shown.snapshot()).into_owned();
    let (sitting, serial, width, cursor) = (shown.sitting(), shown.serial(), shown.width(), shown.cursor());
    f.debug_struct(name)
        .field("sitting", &sitting)
        .field("serial", &serial)
        .field("width", &width)
        .field("cursor", &cursor)
        .field("text", &text)
        .finish_non_exhaustive()
}

/// The answer of a call that the documents do not refuse on bytes that keep their layout.
pub(crate) fn kept(answer: u32) -> u32 {
    Refusal::of_answer(answer).expect("the bytes keep their layout")
}

/// What a call writes into an output of this length, whose answer is how many bytes it wrote.
pub(crate) fn text(room: usize, call: impl FnOnce(&mut [u8]) -> u32) -> Vec<u8> {
    let mut out = vec![0; room];
    let length = call(&mut out);
    out.truncate(length as usize);
    out
}
