//! Random lists of calls.
//!
//! A list is a row of scenes. Some are single calls; the others set up what random calls reach too seldom: row E - 1 flagged,
//! lines of about 255 characters, fields that are typed full, full screens, row ends.

use super::calls::Call::{self, *};
use super::chance::Chance;
use super::limited;
use super::seen::{rows_of, seen, touched, Stamp, ROWS};
use super::waiting::Waited;
use crate::screen::Screen;

pub struct List {
    pub first_width: usize,
    pub sitting: u32,
    pub calls: Vec<Call>,
    /// What is seen of the new screen, and after each call.
    pub sums: Vec<u64>,
    length: usize,
    fixed_width: Option<usize>,
    screen: Screen,
    ended_in_cr: bool,
    chance: Chance,
}

impl List {
    pub fn new(seed: usize, n: usize, length: usize, fixed_width: Option<usize>) -> List {
        let mut chance = Chance::new(seed, n);
        let first_width = fixed_width.unwrap_or(chance.one_of(&[40, 80]));
        let any = chance.below(1 << 32) as u32;
        let sitting = chance.one_of(&[0, 1, 256, u32::MAX, any, any]);
        let screen = Screen::new(first_width);
        let stamp = Stamp {
            sitting,
            serial: 0,
            touched: 0,
            ended_in_cr: false,
        };
        let mut list = List {
            first_width,
            sitting,
            calls: Vec::new(),
            sums: vec![seen(&screen, &rows_of(&screen), &stamp, 0, &[])],
            length,
            fixed_width,
            screen,
            ended_in_cr: false,
            chance,
        };
        while list.calls.len() < length {
            list.scene();
        }
        list
    }

    /// Makes a call, unless the list is long enough.
    fn call(&mut self, call: Call) {
        if self.calls.len() == self.length {
            return;
        }
        let before = rows_of(&self.screen);
        let submitted = call.make(&mut self.screen);
        let after = rows_of(&self.screen);
        self.ended_in_cr = ended_in_cr_after(&call, self.ended_in_cr);
        let answer = call.answer(&submitted);
        self.calls.push(call);
        let stamp = Stamp {
            sitting: self.sitting,
            serial: self.calls.len(),
            touched: touched(&before, &after),
            ended_in_cr: self.ended_in_cr,
        };
        self.sums
            .push(seen(&self.screen, &after, &stamp, answer, &submitted));
    }

    fn scene(&mut self) {
        match self.chance.below(37) {
            0..=3 => self.any_call(),
            4..=6 => self.key(),
            7 | 8 => self.corner(),
            9 | 10 => self.last_row_flagged(),
            11 | 12 => self.line_of_about_255(),
            13..=15 => self.full_row(),
            16 => self.white_row_end(),
            17..=19 => self.full_screen(),
            20 => self.joined_rows(),
            21 => self.joined_up_to_255(),
            22 => self.blank_rows_joined(),
            23 => self.recoloured_line(),
            24 | 25 => self.tabs(),
            26 | 27 => self.parted_line_ends(),
            28..=30 => self.waiting_prints(),
            31..=34 => self.short_field(),
            _ => self.words(),
        }
    }

    // ---- parts of scenes

    fn width(&self) -> usize {
        self.screen.width()
    }

    fn row(&mut self) -> usize {
        self.chance.below(ROWS)
    }

    /// A column at the row's ends or anywhere.
    fn column(&mut self) -> usize {
        let width = self.width();
        let any = self.chance.below(width);
        self.chance.one_of(&[0, 1, width - 1, width - 2, any, any])
    }

    fn go(&mut self, row: usize, col: usize) {
        self.call(SetCursor(row, col));
    }

    /// Checked or not, by chance. No call of a list is refused, so a 10 whose 13 the print before has ended with is not checked.
    fn print(&mut self, text: Vec<u8>) {
        let splits = self.ended_in_cr && text.first() == Some(&10);
        let checked = self.chance.coin() && !splits;
        let print = if checked { PrintChecked } else { PrintBytes };
        self.call(print(text));
    }

    fn print_letters(&mut self, length: usize) {
        let text = self.chance.letters(length);
        self.print(text);
    }

    /// 13 and 10 in every arrangement, in one print and parted, by prints of no bytes too.
    fn print_newlines(&mut self) {
        for _ in 0..1 + self.chance.below(4) {
            let length = self.chance.below(6);
            let text = self.chance.some_of(&[13, 10, 13, 10, 32, 65, 7], length);
            self.print(text);
        }
    }

    fn insert_or_not(&mut self) {
        let on = self.chance.coin();
        self.call(SetInsert(on));
    }

    fn one_call_of(&mut self, calls: &[Call]) {
        let call = self.chance.one_of(calls);
        self.call(call);
    }

    /// A key as a person at the screen would press it.
    fn key(&mut self) {
        let limit = self.limit();
        let chance = &mut self.chance;
        let call = match chance.below(34) {
            0..=8 => TypeChar(chance.character()),
            9 | 10 => TypeLimited(chance.character(), limit),
            11 | 12 => Backspace,
            13 | 14 => DeleteChar,
            15 | 16 => EraseToEnd,
            17 => EscapeLine,
            18 | 19 => Tab,
            20 | 21 => CtrlEnter,
            22 | 23 => TakeLogicalLine,
            24 => BreakLine,
            25 => chance.one_of(&[MoveLeft, MoveRight]),
            26 => chance.one_of(&[MoveUp, MoveDown]),
            27 => chance.one_of(&[WordLeft, WordRight]),
            28 | 29 => EndOfLine,
            30 => SetInsert(chance.coin()),
            _ => SetAttr(chance.byte()),
        };
        self.call(call);
    }

    fn keys(&mut self, most: usize) {
        for _ in 0..1 + self.chance.below(most) {
            self.key();
        }
    }

    // ---- scenes

    /// Calls that are no keys.
    fn any_call(&mut self) {
        const LARGEST: usize = u32::MAX as usize;
        let chance = &mut self.chance;
        let call = match chance.below(18) {
            0..=4 => {
                let length = chance.one_of(&[0, 1, 3, 12, 60]);
                let text = chance.characters(length);
                return self.print(text);
            }
            5 => Clear,
            6 => Home,
            7..=9 => SetWidth(self.fixed_width.unwrap_or(chance.one_of(&[40, 80]))),
            10..=12 => SetCursor(chance.below(27), chance.below(82)),
            13 => SetCursor(
                chance.one_of(&[0, 1000, LARGEST]),
                chance.one_of(&[0, 255, LARGEST]),
            ),
            14 => SetInsert(chance.coin()),
            15 => SetAttr(chance.byte()),
            _ => SetKeysOn(chance.coin()),
        };
        self.call(call);
    }

    fn corner(&mut self) {
        let row = self.chance.one_of(&[0, ROWS - 2, ROWS - 1]);
        let col = self.chance.one_of(&[0, self.screen.width() - 1]);
        self.go(row, col);
        match self.chance.below(3) {
            0 => {
                let text = self.chance.characters(2);
                self.print(text);
            }
            1 => self.one_call_of(&[MoveLeft, MoveRight, MoveUp, MoveDown, WordLeft, WordRight]),
            _ => self.keys(2),
        }
    }

    /// With keys off a print flags row 23; with keys on again that is row E - 1, which nothing else leaves flagged.
    fn last_row_flagged(&mut self) {
        self.call(SetKeysOn(false));
        let (row, col) = (21 + self.chance.below(4), self.column());
        self.go(row, col);
        let to_the_end_of_row_23 = (24 - row.min(23)) * self.width() - col;
        let more = self.chance.below(self.screen.width());
        self.print_letters(to_the_end_of_row_23 + more);
        self.call(SetKeysOn(true));
        let (row, col) = (20 + self.chance.below(4), self.column());
        self.go(row, col);
        if self.chance.below(4) == 0 {
            self.call(EndOfLine);
        }
        self.keys(4);
    }

    /// Longer than the longest line too, at any height of the screen.
    fn line_of_about_255(&mut self) {
        if self.chance.coin() {
            self.call(Clear);
        }
        let row = self.row();
        self.go(row, 0);
        let lengths = [250, 253, 254, 255, 256, 257, 280, 330];
        let length = self.chance.one_of(&lengths);
        self.print_letters(length);
        self.insert_or_not();
        if self.chance.coin() {
            let up = self.chance.below(4);
            let (row, col) = (self.screen.cursor().0.saturating_sub(up), self.column());
            self.go(row, col);
        } else {
            self.call(EndOfLine);
        }
        self.keys(6);
    }

    /// Newlines after a full row, and elsewhere; at times the line is taken first.
    fn full_row(&mut self) {
        if self.chance.below(3) > 0 {
            let row = self.row();
            self.go(row, 0);
            self.print_letters(self.width());
        }
        if self.chance.below(4) == 0 {
            self.call(TakeLogicalLine);
        }
        self.print_newlines();
    }

    /// Rows that end in what `trim_end` takes for white space, and in what it does not.
    fn white_row_end(&mut self) {
        let (row, back) = (self.row(), 1 + self.chance.below(5));
        self.go(row, self.width() - back);
        let length = self.chance.one_of(&[back - 1, back]);
        let text = self
            .chance
            .some_of(&[32, 133, 160, 133, 160, 255, 27, 65], length);
        self.print(text);
    }

    /// Every row holds something, so that a line which grows drops rows after it, and at the bottom rows before it.
    fn full_screen(&mut self) {
        let last = self.screen.editable_rows() - 1;
        self.call(Home);
        let mut text = vec![65];
        for row in 1..=last {
            text.extend([13, 10, 65 + row as u8]);
        }
        self.print(text);
        let row = self.chance.one_of(&[0, last / 2, last - 1, last, last]);
        let back = 1 + self.chance.below(2);
        self.go(row, self.width() - back);
        self.insert_or_not();
        for _ in 0..1 + self.chance.below(4) {
            let ch = self.chance.character();
            self.call(TypeChar(ch));
        }
        self.keys(4);
    }

    /// Rows joined by hand, empty ones too, up to the longest line.
    fn joined_rows(&mut self) {
        let row = self.chance.one_of(&[0, 0, 5, 18, 22]);
        self.go(row, 0);
        let most = 255 / self.width() + 2;
        for _ in 0..1 + self.chance.below(most) {
            let any = self.chance.below(self.screen.width());
            let length = self.chance.one_of(&[0, any, any]);
            self.print_letters(length);
            self.call(CtrlEnter);
        }
        let (down, col) = (self.chance.below(4), self.column());
        self.go(row + down, col);
        self.keys(4);
    }

    /// Rows joined that come, with the line after them, to 254, 255 or 256 characters.
    fn joined_up_to_255(&mut self) {
        let row = self.chance.below(16);
        let rows = 1 + self.chance.below(255 / self.screen.width());
        self.go(row + rows, 0);
        let length = 254 + self.chance.below(3) - rows * self.screen.width();
        self.print_letters(length);
        self.go(row, 0);
        for _ in 0..rows {
            self.call(CtrlEnter);
        }
        self.key();
    }

    /// Flags of rows that hold nothing, of the first row too.
    fn blank_rows_joined(&mut self) {
        self.call(Clear);
        for _ in 0..1 + self.chance.below(2) {
            self.call(CtrlEnter);
        }
        let row = self.chance.one_of(&[0, 0, 1, 2]);
        let col = self.chance.one_of(&[0, 0, 0, 5]);
        self.go(row, col);
        match self.chance.below(5) {
            0 => self.call(TakeLogicalLine),
            1 => self.call(BreakLine),
            2 | 3 => self.print_newlines(),
            _ => self.keys(4),
        }
    }

    /// A line that is not of the current attribute: what is spliced takes the current one.
    fn recoloured_line(&mut self) {
        let (row, col) = (self.row(), self.column());
        self.go(row, col);
        let (attr, ch) = (self.chance.byte(), self.chance.character());
        self.call(SetAttr(attr));
        if self.chance.coin() {
            self.call(EndOfLine);
        }
        self.one_call_of(&[EraseToEnd, EraseToEnd, DeleteChar, Backspace, TypeChar(ch)]);
    }

    /// Tabs near the row's end, inserting and not, on the last row often.
    fn tabs(&mut self) {
        self.insert_or_not();
        let (any, back) = (self.row(), 1 + self.chance.below(20));
        let row = self.chance.one_of(&[any, ROWS - 1]);
        self.go(row, self.width() - back);
        for _ in 0..1 + self.chance.below(3) {
            self.call(Tab);
        }
        self.keys(2);
    }

    /// A text in several prints, cut between 13 and 10 often; at times a key is pressed between them.
    fn parted_line_ends(&mut self) {
        const PARTS: [&[u8]; 8] = [b"", b"", b"\r", b"A\r", b"\n", b"\nB", b"\r\n", b"\r\x07"];
        for _ in 0..2 + self.chance.below(5) {
            let part = self.chance.one_of(&PARTS);
            self.print(part.to_vec());
            if self.chance.below(8) == 0 {
                self.key();
            }
        }
    }

    /// A waiting print. What it takes is found out on the screen as it is now, made anew from its calls, since it cannot be copied.
    fn print_waiting(&mut self, text: Vec<u8>, rows: usize) -> Waited {
        let mut screen = Screen::new(self.first_width);
        for call in &self.calls {
            call.make(&mut screen);
        }
        let waited = Waited::on(screen, &text, rows);
        self.call(PrintWaiting(text, rows, waited));
        waited
    }

    /// Waiting prints, from the last rows for the most part, and after a row that was filled to its end there. At times what one leaves over is printed.
    fn waiting_prints(&mut self) {
        let (up, back) = (self.chance.below(3), 1 + self.chance.below(20));
        match self.chance.below(6) {
            0 => {}
            1 => {
                self.go(ROWS - 1, 0);
                self.print_letters(self.width());
            }
            2 => self.go(ROWS - 1 - up, 0),
            _ => self.go(ROWS - 1 - up, self.width() - back),
        }
        for _ in 0..1 + self.chance.below(3) {
            let length = self.chance.below(41);
            let mut text = match self.chance.below(4) {
                0 => self.chance.letters(length),
                1 => self.chance.characters(length),
                _ => self.chance.some_of(&[13, 10, 13, 10, 32, 65, 7], length),
            };
            let limits = [0, 0, 1, 1, 2, 3, 5, 24, 1000];
            let rows = self.chance.one_of(&limits);
            let waited = self.print_waiting(text.clone(), rows);
            text.drain(..waited.taken);
            if !text.is_empty() && self.chance.coin() {
                let rows = self.chance.one_of(&limits);
                self.print_waiting(text, rows);
            }
        }
    }

    /// A limit about the length of the line under the cursor, or another one.
    fn limit(&mut self) -> usize {
        let (length, any) = (limited::length(&self.screen), 1 + self.chance.below(255));
        let near = [length.saturating_sub(1), length, length + 1];
        let less = 1 + self.chance.below(length.max(1));
        let limits = [
            near[0], near[1], near[2], near[1], near[2], less, less, 1, any, 254, 255, 255,
        ];
        self.chance.one_of(&limits).clamp(1, 255)
    }

    /// A field is filled with limited typing, from a row's beginning or from any place, and then typed into: over what it holds, with insert on, and
    /// with the cursor behind its end.
    fn short_field(&mut self) {
        let row = self.row();
        let col = self.column();
        let col = self.chance.one_of(&[0, 0, 0, col]);
        self.go(row, col);
        self.one_call_of(&[EscapeLine, EscapeLine, EraseToEnd, EndOfLine]);
        let field = self.filled_field();
        self.insert_or_not();
        for _ in 0..self.chance.below(4) {
            self.call(MoveLeft);
        }
        for _ in 0..2 + self.chance.below(8) {
            self.about_a_field(field);
        }
    }

    /// Types until the line under the cursor is about to be full, and at times past that; what is long is printed but for its end. Answers the limit.
    fn filled_field(&mut self) -> usize {
        let (width, short) = (self.width(), 1 + self.chance.below(10));
        let before = limited::length(&self.screen);
        let room = self
            .chance
            .one_of(&[short, short, short, 60, width - 1, width, width + 1]);
        let field = (before + room).min(255);
        let typed = self.chance.below(8).min(field);
        self.print_letters((field - typed).saturating_sub(before));
        for _ in 0..typed + self.chance.below(3) {
            let ch = self.chance.character();
            self.call(TypeLimited(ch, field));
        }
        field
    }

    /// One thing that is done about a field: mostly typing, with its own limit.
    fn about_a_field(&mut self, field: usize) {
        let (row, _) = self.screen.cursor();
        let other = self.limit();
        let limit = self.chance.one_of(&[field, field, field, other]);
        let ch = self.chance.character();
        match self.chance.below(16) {
            0..=7 => self.call(TypeLimited(ch, limit)),
            8 => self.insert_or_not(),
            9 => self.go(row, field % self.width()),
            10 => {
                let col = self.column();
                self.go(row, col);
            }
            11 => self.call(EndOfLine),
            12 => self.typed_after_13(row, ch, limit),
            13 => self.typed_over_past_the_limit(row, ch),
            _ => self.one_call_of(&[MoveLeft, MoveLeft, MoveRight, MoveUp, Backspace, DeleteChar]),
        }
    }

    /// A character typed directly after a print that ended with 13, in the field's row for the most part.
    fn typed_after_13(&mut self, row: usize, ch: u8, limit: usize) {
        self.go(row.saturating_sub(1), 0);
        self.print(vec![13]);
        self.call(TypeLimited(ch, limit));
    }

    /// A character typed at the limit or behind it, over one that stands there, if one does.
    fn typed_over_past_the_limit(&mut self, row: usize, ch: u8) {
        self.call(SetInsert(false));
        let col = self.column().max(1);
        self.go(row, col);
        let limit = 1 + self.chance.below(col);
        self.call(TypeLimited(ch, limit));
    }

    /// Short words over row ends, of the first and last letters and digits, between the characters next to those.
    fn words(&mut self) {
        let (row, col) = (self.row(), self.column());
        self.go(row, col);
        let length = 5 + self.chance.below(self.screen.width());
        let text = self
            .chance
            .some_of(b"09AZaz09AZaz/:@[`{_\x80\xe9\xff    ", length);
        self.print(text);
        for _ in 0..3 + self.chance.below(5) {
            self.one_call_of(&[WordLeft, WordLeft, WordLeft, WordRight, WordRight, MoveUp]);
        }
    }
}

/// Document 02, (l): the bit "is set by a print whose last byte taken is 13, left by one that takes none and cleared by every other
/// changing call".
fn ended_in_cr_after(call: &Call, before: bool) -> bool {
    let ends_in_cr = |taken: &[u8]| taken.last().map_or(before, |&last| last == 13);
    match call {
        PrintBytes(bytes) | PrintChecked(bytes) => ends_in_cr(bytes),
        PrintWaiting(bytes, _, waited) => ends_in_cr(&bytes[..waited.taken]),
        _ => false,
    }
}
