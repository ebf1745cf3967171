//! What a terminal is to show, before it is shown: characters with attributes, and a cursor.
use crate::glyphs::{self, glyph};
use futonrobin::{Cell, KeyTable, Shown};
use std::ops::Range;

/// The attribute of what is ours: titles, status, help; and of the key strip.
pub const PLAIN: u8 = 0x07;
pub const STRONG: u8 = 0x0f;
pub const REVERSED: u8 = 0x70;
/// Of what is well, of what is to be watched, and of what is not well.
pub const GREEN: u8 = 0x0a;
pub const YELLOW: u8 = 0x0e;
pub const RED: u8 = 0x0c;

/// A text, and its attribute.
pub type Part = (String, u8);

#[derive(Clone, Copy, PartialEq, Eq)]
pub struct Spot {
    pub ch: char,
    pub attr: u8,
    pub underlined: bool,
}

impl Spot {
    pub fn new(ch: char, attr: u8) -> Self {
        Self { ch, attr, underlined: false }
    }

    fn looks_like(self, other: Spot) -> bool {
        self.attr == other.attr && self.underlined == other.underlined
    }
}

#[derive(Clone, Copy, PartialEq, Eq, Debug)]
pub struct Size {
    pub cols: usize,
    pub rows: usize,
}

impl Size {
    pub fn fits(self, into: Size) -> bool {
        self.cols <= into.cols && self.rows <= into.rows
    }
}

#[derive(PartialEq, Eq)]
pub struct Canvas {
    pub size: Size,
    pub cursor: Option<(usize, usize)>,
    spots: Vec<Spot>,
}

impl Canvas {
    pub fn new(size: Size) -> Self {
        Self { size, cursor: None, spots: vec![Spot::new(' ', PLAIN); size.cols * size.rows] }
    }

    pub fn row(&self, row: usize) -> &[Spot] {
        &self.spots[row * self.size.cols..][..self.size.cols]
    }

    /// What lies beyond the edge is left out.
    pub fn put(&mut self, row: usize, col: usize, spot: Spot) {
        if row < self.size.rows && col < self.size.cols {
            self.spots[row * self.size.cols + col] = spot;
        }
    }

    /// In these columns. A text that is cut there shows that it goes on: else the first digits of a number would read as another number.
    pub fn text_to(&mut self, row: usize, cols: Range<usize>, text: &str, attr: u8) {
        for (at, ch) in fitting(text, cols.len()).chars().enumerate() {
            self.put(row, cols.start + at, Spot::new(ch, attr));
        }
    }

    /// Up to the edge of the terminal.
    pub fn text(&mut self, row: usize, col: usize, text: &str, attr: u8) {
        self.text_to(row, col..self.size.cols, text, attr);
    }

    /// Texts in one row, two spaces between them. One that has no room is left out with those behind it, and `…` tells so; the first is cut.
    pub fn parts(&mut self, row: usize, cols: Range<usize>, parts: &[Part]) {
        let mut col = cols.start;
        for (at, (text, attr)) in parts.iter().enumerate() {
            let behind = if at + 1 < parts.len() && length_of(&parts[at..]) > cols.end.saturating_sub(col) { APART + 1 } else { 0 };
            if at > 0 && col + length(text) + behind > cols.end {
                self.text_to(row, col..cols.end, "…", *attr);
                return;
            }
            self.text_to(row, col..cols.end, text, *attr);
            col += length(text) + APART;
        }
    }

    /// A text that ends in this column.
    pub fn text_before(&mut self, row: usize, end: usize, text: &str, attr: u8) {
        self.text(row, end.saturating_sub(length(text)), text, attr);
    }

    /// Rows of a screen or a mirror. The last cell of one whose line goes on in the next row is underlined.
    pub fn rows(&mut self, top: usize, left: usize, shown: &impl Shown, rows: Range<u32>) {
        let width = shown.width();
        for (at, row) in rows.enumerate() {
            let goes_on = shown.continues(row).expect("the row is inside of the screen");
            for col in 0..width {
                let Cell { ch, attr } = shown.cell(row, col).expect("the place is inside of the screen");
                self.put(top + at, left + col as usize, Spot { ch: glyph(ch), attr, underlined: goes_on && col + 1 == width });
            }
        }
    }

    pub fn strip(&mut self, row: usize, left: usize, width: u32, table: &KeyTable) {
        let strip = table.strip(0, width).expect("a screen's width is a strip's");
        self.text(row, left, &glyphs::string(&strip), REVERSED);
    }

    /// All 25 rows of a screen or a mirror. While keys are on, the last is the key strip.
    pub fn screen(&mut self, top: usize, left: usize, shown: &impl Shown, table: &KeyTable) {
        self.rows(top, left, shown, 0..25);
        if shown.keys_visible() {
            self.strip(top + 24, left, shown.width(), table);
        }
    }

    /// A cursor that the terminal itself does not show: colours change places.
    pub fn reverse(&mut self, row: usize, col: usize) {
        if row < self.size.rows && col < self.size.cols {
            let spot = &mut self.spots[row * self.size.cols + col];
            spot.attr = spot.attr.rotate_left(4);
        }
    }

    /// What stands in a row, for the tests.
    #[cfg(test)]
    pub fn line(&self, row: usize) -> String {
        self.row(row).iter().map(|spot| spot.ch).collect::<String>().trim_end().into()
    }
}

/// Columns between two texts of a row.
const APART: usize = 2;

fn length(text: &str) -> usize {
    text.chars().count()
}

/// The columns of texts in one row.
pub fn length_of(parts: &[Part]) -> usize {
    parts.iter().map(|(text, _)| length(text) + APART).sum::<usize>().saturating_sub(APART)
}

/// The text, or as much of it as fits into so many columns, the last of them then being `…`.
pub fn fitting(text: &str, cols: usize) -> String {
    if length(text) <= cols {
        return text.into();
    }
    text.chars().take(cols.saturating_sub(1)).chain(['…']).take(cols).collect()
}

/// Groups of texts in rows that have so many columns each. A group begins a row, as long as one is left for each group behind it; a text that does not
/// fit behind the one before it begins one too. What is too much is in the last row.
pub fn flowed(groups: &[Vec<Part>], rows: &[usize]) -> Vec<Vec<Part>> {
    let mut flowed: Vec<Vec<Part>> = Vec::new();
    let groups: Vec<_> = groups.iter().filter(|group| !group.is_empty()).collect();
    for (nth, group) in groups.iter().enumerate() {
        for (at, part) in group.iter().enumerate() {
            let (count, left) = (flowed.len(), rows.len() - flowed.len());
            let begins = at == 0 && left >= groups.len() - nth;
            match flowed.last_mut() {
                Some(row) if left == 0 || !begins && length_of(row) + APART + length(&part.0) <= rows[count - 1] => row.push(part.clone()),
                _ => flowed.push(vec![part.clone()]),
            }
        }
    }
    flowed
}

/// The words of a sentence in lines of at most so many columns; a longer word, as a path may be, is broken.
pub fn wrapped(sentence: &str, cols: usize) -> Vec<String> {
    let mut lines: Vec<String> = Vec::new();
    for word in sentence.split(' ') {
        match lines.last_mut() {
            Some(line) if length(line) + 1 + length(word) <= cols => *line += &format!(" {word}"),
            _ => lines.extend(broken(word, cols)),
        }
    }
    lines
}

/// A text in pieces of so many columns, the last of them perhaps shorter.
pub fn broken(text: &str, cols: usize) -> Vec<String> {
    text.chars().collect::<Vec<_>>().chunks(cols.max(1)).map(|piece| piece.iter().collect()).collect()
}

/// The stretches of one look that differ from what stood there, or all of them: column, text, and a spot of that look.
pub fn differing(before: Option<&[Spot]>, row: &[Spot]) -> Vec<(usize, String, Spot)> {
    let mut stretches: Vec<(usize, String, Spot)> = Vec::new();
    let mut end = 0;
    for (col, spot) in row.iter().enumerate() {
        if before.is_some_and(|before| before[col] == *spot) {
            continue;
        }
        match stretches.last_mut() {
            Some((_, text, look)) if end == col && look.looks_like(*spot) => text.push(spot.ch),
            _ => stretches.push((col, spot.ch.into(), *spot)),
        }
        end = col + 1;
    }
    stretches
}

#[cfg(test)]
mod tests {
    use super::*;
    use futonrobin::Screen;

    fn part(text: &str) -> Part {
        (text.into(), PLAIN)
    }

    #[test]
    fn lines_are_as_long_as_they_may_be() {
        assert_eq!(wrapped("WARD 7, BED 12 is free", 12), ["WARD 7, BED", "12 is free"]);
        assert_eq!(wrapped("WARD 7, BED 12 is free", 5), ["WARD", "7,", "BED", "12 is", "free"]);
    }

    #[test]
    fn a_long_word_is_broken() {
        assert_eq!(wrapped("overlong", 5), ["overl", "ong"]);
        assert_eq!(wrapped("in /var/lib/ward/7 it is", 8), ["in", "/var/lib", "/ward/7", "it is"]);
        assert_eq!(wrapped("BED", 0), ["B", "E", "D"], "a terminal may say that it has no columns");
    }

    #[test]
    fn what_the_edge_cuts_shows_it() {
        let shown = |text: &str| {
            let mut canvas = Canvas::new(Size { cols: 14, rows: 1 });
            canvas.text(0, 2, text, PLAIN);
            canvas.line(0)
        };
        assert_eq!(shown("BEHIND by 12"), "  BEHIND by 12");
        assert_eq!(shown("BEHIND by 123"), "  BEHIND by 1…");
        assert_eq!((fitting("12", 1), fitting("12", 0)), ("…".into(), "".into()));
    }

    #[test]
    fn parts_of_a_row() {
        let shown = |cols| {
            let mut canvas = Canvas::new(Size { cols: 24, rows: 1 });
            canvas.parts(0, 1..cols, &[part("BED 12"), part("is"), part("free")]);
            canvas.line(0)
        };
        assert_eq!(shown(17), " BED 12  is  free");
        assert_eq!(shown(16), " BED 12  is  …", "what has no room is told to be missing, and is not cut");
        assert_eq!([14, 13, 12].map(shown), [" BED 12  is  …", " BED 12  …", " BED 12  …"]);
        assert_eq!([10, 9, 7, 6].map(shown), [" BED 12  …", " BED 12", " BED 12", " BED …"]);
        let mut canvas = Canvas::new(Size { cols: 20, rows: 1 });
        canvas.text_before(0, 20, "END", PLAIN);
        assert_eq!(canvas.line(0), "                 END");
    }

    #[test]
    fn groups_begin_a_row_each_while_there_are_rows_enough() {
        let groups = [vec![part("LEVEL"), part("0.2 s")], vec![], vec![part("call 62"), part("INSERT")]];
        let shown = |rows: &[usize]| {
            let rows = flowed(&groups, rows);
            rows.iter().map(|row| row.iter().map(|(text, _)| text.as_str()).collect::<Vec<_>>().join("  ")).collect::<Vec<_>>()
        };
        assert_eq!(shown(&[15, 15, 15]), ["LEVEL  0.2 s", "call 62  INSERT"]);
        assert_eq!(shown(&[15, 14, 15]), ["LEVEL  0.2 s", "call 62", "INSERT"]);
        assert_eq!(shown(&[11, 15, 15]), ["LEVEL", "0.2 s", "call 62  INSERT"]);
        assert_eq!(shown(&[11, 15]), ["LEVEL", "0.2 s  call 62  INSERT"], "no row is left for a group of its own");
        assert_eq!(shown(&[12, 9]), ["LEVEL  0.2 s", "call 62  INSERT"]);
        assert_eq!(shown(&[3]), ["LEVEL  0.2 s  call 62  INSERT"]);
        let three = [groups[0].clone(), vec![part("call 62")], vec![part("INSERT")]];
        let rows = flowed(&three, &[11, 15, 15]);
        assert_eq!(rows[1..], [vec![part("0.2 s"), part("call 62")], vec![part("INSERT")]], "each group behind it has a row left");
    }

    #[test]
    fn a_row_that_goes_on_is_underlined_at_its_end() {
        let (mut screen, mut canvas) = (Screen::new(40, 1), Canvas::new(Size { cols: 41, rows: 3 }));
        screen.print_checked(&[b'A'; 41]).unwrap();
        canvas.rows(0, 0, &screen, 0..3);
        let underlined = |row| (0..41).filter(|&col| canvas.row(row)[col].underlined).collect::<Vec<_>>();
        assert_eq!([0, 1, 2].map(underlined), [vec![39], vec![], vec![]]);
    }

    #[test]
    fn only_what_differs_is_painted() {
        let spots = |text: &str, attr| text.chars().map(|ch| Spot::new(ch, attr)).collect::<Vec<_>>();
        let before = spots("WARD 7 BED 12", 7);
        let mut after = [spots("WARD 8 ", 7), spots("BED", 0x1f), spots(" 12", 7)].concat();
        let painted = |after: &[Spot]| {
            let stretches = differing(Some(&before), after);
            stretches.into_iter().map(|(col, text, look)| (col, text, look.attr, look.underlined)).collect::<Vec<_>>()
        };
        assert_eq!(painted(&after), [(5, "8".into(), 7, false), (7, "BED".into(), 0x1f, false)]);
        assert_eq!(differing(None, &after).len(), 3);
        after[12].underlined = true;
        assert_eq!(painted(&after)[2], (12, "2".into(), 7, true));
        assert_eq!(painted(&before), []);
    }
}
