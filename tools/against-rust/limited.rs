//! Typing with a limit, document 02, (g), which the Rust lacks: whether the line has room, counted on the cells that the Rust shows, and else its own typing.
//!
//! The length of the padded editing content is written here from document 01 once more. `host/checks` asks the Rust for it instead, so the two do not
//! have their errors in common.

use crate::screen::Screen;

/// Content is "cut to 255", and the index is "at most 255".
const LONGEST: usize = 255;

pub fn type_limited(screen: &mut Screen, ch: u8, limit: usize) {
    let (length, index) = content(screen);
    let grows = screen.insert_mode() || index >= length;
    if !(grows && length >= limit) {
        screen.type_char(ch);
    }
}

/// The length of the editing content of the line under the cursor, padded up to the index.
pub fn length(screen: &Screen) -> usize {
    content(screen).0
}

/// Length and index. "The same without that final drop, but the last row reaches at least to the cursor column if the cursor is on it; index = rows below the
/// start × W + column, at most 255; content is padded with spaces up to the index."
fn content(screen: &Screen) -> (usize, usize) {
    let (row, col) = screen.cursor();
    let (start, end) = span(screen, row);
    let to_the_cursor = if row == end { col } else { 0 };
    let last = written(screen, end).max(to_the_cursor);
    let cut = ((end - start) * screen.width() + last).min(LONGEST);
    let index = ((row - start) * screen.width() + col).min(LONGEST);
    (cut.max(index), index)
}

/// "The span of a row runs up while the row above is flagged and down while the current row is flagged and another editable row follows."
fn span(screen: &Screen, row: usize) -> (usize, usize) {
    let (mut start, mut end) = (row, row);
    while start > 0 && screen.continues(start - 1) {
        start -= 1;
    }
    while screen.continues(end) && end + 1 < screen.editable_rows() {
        end += 1;
    }
    (start, end)
}

/// How long a row is without its trailing spaces.
fn written(screen: &Screen, row: usize) -> usize {
    let is_written = |&col: &usize| screen.cell(row, col).ch != b' ';
    (0..screen.width())
        .rev()
        .find(is_written)
        .map_or(0, |col| col + 1)
}
