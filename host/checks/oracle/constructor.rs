// Appended to a copy of the Rust's screen.rs: its fields are private, and a constructor inside its module is the only way to a screen
// that no list of calls reaches. So is its editing content, and one method more answers how long that is. Every method of its own is as it was.
impl Screen {
    pub fn of_parts(width: usize, rows: Vec<(Vec<Cell>, bool)>, cursor: (usize, usize), insert: bool, keys_on: bool, attr: u8) -> Self {
        Self {
            width,
            rows: rows.into_iter().map(|(cells, continues)| Row { cells, continues }).collect(),
            cursor_row: cursor.0,
            cursor_col: cursor.1,
            insert,
            keys_on,
            attr,
            gfx: Gfx::text(),
        }
    }

    /// Of the line under the cursor, as typing finds it.
    pub fn content_length_and_index(&self) -> (usize, usize) {
        let (_, _, content, index) = self.content_and_cursor();
        (content.len(), index)
    }
}
