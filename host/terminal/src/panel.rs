//! One screen or mirror in a part of the terminal: a title, its rows or a window on them, the key strip, and three rows of status.
use crate::canvas::{flowed, Canvas, Part, PLAIN, REVERSED};
use crate::window::Window;
use futonrobin::{KeyTable, Shown};

/// Rows under the screen.
pub const STATUS: usize = 3;
/// Rows that are not of the screen.
pub const AROUND: usize = 1 + STATUS;
/// Rows of a screen.
pub const SCREEN: usize = 25;

/// Columns and rows of the terminal, from this place on.
#[derive(Clone, Copy)]
pub struct Area {
    pub left: usize,
    pub cols: usize,
    pub rows: usize,
}

pub struct Panel<'a, S: Shown> {
    pub title: Vec<Part>,
    /// What the right end of the title's row says.
    pub hint: &'a str,
    pub shown: Option<&'a S>,
    /// Groups of texts that belong together.
    pub status: Vec<Vec<Part>>,
    pub table: &'a KeyTable,
}

/// Where something was painted.
pub struct Painted {
    /// The cursor's place, if that is in sight.
    pub cursor: Option<(usize, usize)>,
    /// The first row under the status.
    pub below: usize,
}

impl<S: Shown> Panel<'_, S> {
    pub fn paint(&self, canvas: &mut Canvas, area: Area, window: &mut Window) -> Painted {
        let high = area.rows.saturating_sub(AROUND).min(SCREEN);
        let (hidden, cursor) = match self.shown {
            Some(shown) => paint_rows(canvas, area, shown, self.table, window),
            None => ([0, 0], None),
        };
        let marks = [mark('▲', "above", hidden[0], area.cols), mark('▼', "below", hidden[1], area.cols)];
        let end = area.left + area.cols;
        let before_hint = end - room_of(self.hint);
        canvas.text_before(0, end, self.hint, PLAIN);
        canvas.text_before(0, before_hint, &marks[0], REVERSED);
        canvas.parts(0, area.left..before_hint.saturating_sub(room_of(&marks[0])), &self.title);
        canvas.text_before(1 + high, end, &marks[1], REVERSED);
        self.paint_status(canvas, area, 1 + high, room_of(&marks[1]));
        Painted { cursor, below: 1 + high + STATUS }
    }

    /// In the first of its rows so many columns are taken.
    fn paint_status(&self, canvas: &mut Canvas, area: Area, top: usize, taken: usize) {
        let rooms = [area.cols - taken, area.cols, area.cols];
        for (at, row) in flowed(&self.status, &rooms).iter().enumerate() {
            canvas.parts(top + at, area.left..area.left + rooms[at], row);
        }
    }
}

/// How many editable rows have room, with the key strip under them, in an area of so many rows.
pub fn in_sight(rows: usize, shown: &impl Shown) -> usize {
    let editable = shown.editable_rows() as usize;
    (rows.saturating_sub(AROUND).min(SCREEN) + editable).saturating_sub(SCREEN).min(editable)
}

/// The rows that have room, and the key strip under them; how many rows are hidden above and below, and where the cursor is.
fn paint_rows(
    canvas: &mut Canvas,
    area: Area,
    shown: &impl Shown,
    table: &KeyTable,
    window: &mut Window,
) -> ([usize; 2], Option<(usize, usize)>) {
    let (editable, width) = (shown.editable_rows() as usize, shown.width() as usize);
    let (strip, height) = (SCREEN - editable, in_sight(area.rows, shown));
    let (row, col) = shown.cursor();
    let top = window.top(shown.sitting(), row as usize, height, editable);
    canvas.rows(1, area.left, shown, top as u32..(top + height) as u32);
    if strip > 0 {
        canvas.strip(1 + height, area.left, shown.width(), table);
    }
    if width < area.cols {
        (1..1 + height + strip).for_each(|row| canvas.text(row, area.left + width, "│", PLAIN));
    }
    let in_sight = (row as usize).checked_sub(top).filter(|at| *at < height);
    ([top, editable - top - height], in_sight.map(|at| (1 + at, area.left + col as usize)))
}

/// That so many rows are hidden there, in a word or two if so many columns are enough for them.
fn mark(arrow: char, side: &str, rows: usize, cols: usize) -> String {
    match (rows, cols) {
        (0, _) => String::new(),
        (1, 80..) => format!("{arrow} 1 row {side}"),
        (_, 80..) => format!("{arrow} {rows} rows {side}"),
        _ => format!("{arrow} {rows}"),
    }
}

/// The columns of a text at the end of a row, and of the space before it.
fn room_of(text: &str) -> usize {
    match text.chars().count() {
        0 => 0,
        length => length + 2,
    }
}

#[cfg(test)]
mod tests {
    use super::*;
    use crate::canvas::{Size, STRONG};
    use crate::front::NEEDED;
    use crate::glyphs::{glyph, string};
    use futonrobin::Screen;

    /// A screen whose rows all differ, up to their last column.
    fn filled(width: u32, keys: bool) -> Screen {
        let mut screen = Screen::new(width, 1);
        screen.set_keys_on(false).unwrap();
        let cells = (0..25 * width - 1).map(|n| b'0' + (n % 71 + n / width) as u8 % 75);
        screen.print_checked(&cells.collect::<Vec<_>>()).unwrap();
        screen.set_keys_on(keys).unwrap();
        screen
    }

    /// The characters from a place on.
    fn text(canvas: &Canvas, row: usize, left: usize, length: usize) -> String {
        canvas.row(row)[left..left + length].iter().map(|spot| spot.ch).collect()
    }

    /// All rows of a canvas that is so high, compared with the screen's cells.
    fn check(screen: &Screen, left: usize, rows: usize, window: &mut Window) {
        let (table, width, editable) = (KeyTable::standard(), screen.width() as usize, screen.editable_rows() as usize);
        let mut canvas = Canvas::new(Size { cols: 170, rows });
        let part = |text: &str| (text.to_string(), STRONG);
        let panel = Panel {
            title: vec![part("TITLE")],
            hint: "HINT",
            shown: Some(screen),
            status: vec![vec![part("FIRST")], vec![part("SECOND")]],
            table: &table,
        };
        let painted = panel.paint(&mut canvas, Area { left, cols: width, rows }, window);
        let strip = 25 - editable;
        let height = (rows - AROUND - strip).min(editable);
        let mark = |row: usize, arrow| -> usize {
            let mark = text(&canvas, row, left, width);
            mark.split_once(arrow).map_or(0, |(_, rest)| rest.split_whitespace().next().unwrap().parse().unwrap())
        };
        let (above, below) = (mark(0, '▲'), mark(1 + height + strip, '▼'));
        assert_eq!(above + height + below, editable);
        for at in 0..height {
            let cells: String = (0..screen.width()).map(|col| glyph(screen.cell((above + at) as u32, col).unwrap().ch)).collect();
            assert_eq!(text(&canvas, 1 + at, left, width), cells);
        }
        if strip > 0 {
            assert_eq!(text(&canvas, 1 + height, left, width), string(&table.strip(0, screen.width()).unwrap()));
        }
        let (row, col) = screen.cursor();
        assert_eq!(painted.cursor, Some((1 + row as usize - above, left + col as usize)), "the cursor's row is in sight");
        assert_eq!(painted.below, 1 + height + strip + STATUS);
        assert!(text(&canvas, 0, left, width).starts_with("TITLE") && text(&canvas, 0, left, width).ends_with("HINT"));
        let status = [0, 1, 2].map(|at| text(&canvas, 1 + height + strip + at, left, width));
        assert!(status[0].starts_with("FIRST ") && status[1].starts_with("SECOND ") && status[2].trim().is_empty());
    }

    #[test]
    fn at_every_height_and_cursor_the_rows_in_sight_are_the_screens() {
        for (width, keys) in [(40, true), (40, false), (80, true), (80, false)] {
            let (mut screen, mut window) = (filled(width, keys), Window::default());
            let last = screen.editable_rows() - 1;
            for rows in (NEEDED.rows - 1..=31).chain([NEEDED.rows - 1]) {
                for row in (0..=last).chain((0..last).rev()).chain([last, 0, last / 2]) {
                    screen.set_cursor(row, row % width).unwrap();
                    check(&screen, if rows % 2 == 0 { 0 } else { 81 }, rows, &mut window);
                }
            }
        }
    }

    #[test]
    fn nothing_runs_into_the_marks() {
        let (table, mut screen, mut canvas) = (KeyTable::standard(), filled(80, true), Canvas::new(Size { cols: 80, rows: 24 }));
        screen.set_cursor(12, 0).unwrap();
        let (long, mut window) = ((0..9).map(|n| (format!("{n}23456789"), STRONG)).collect::<Vec<_>>(), Window::default());
        window.top(1, 20, 19, 24);
        let panel = Panel { title: long.clone(), hint: "HINT", shown: Some(&screen), status: vec![long], table: &table };
        panel.paint(&mut canvas, Area { left: 0, cols: 80, rows: 24 }, &mut window);
        assert_eq!(canvas.line(0), "023456789  123456789  223456789  323456789  423456789  …    ▲ 2 rows above  HINT");
        assert_eq!(canvas.line(21), "023456789  123456789  223456789  323456789  423456789  523456789  ▼ 3 rows below");
        assert_eq!(canvas.line(22), "623456789  723456789  823456789");
    }

    #[test]
    fn a_screen_that_is_narrower_than_its_place_has_an_edge() {
        let (table, screen) = (KeyTable::standard(), filled(40, true));
        for (cols, edge) in [(40, ' '), (41, '│'), (80, '│')] {
            let mut canvas = Canvas::new(Size { cols: 81, rows: 24 });
            let panel = Panel { title: Vec::new(), hint: "", shown: Some(&screen), status: Vec::new(), table: &table };
            panel.paint(&mut canvas, Area { left: 0, cols, rows: 24 }, &mut Window::default());
            assert!((1..21).all(|row| canvas.row(row)[40].ch == edge), "{cols} columns");
            assert!([0, 21, 22, 23].iter().all(|&row| canvas.row(row)[40].ch != '│'));
        }
    }
}
