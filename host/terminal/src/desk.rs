//! The candidate's desk: the screen, what the keys do to it, the lines submitted, the text that is printed a screen at a time, the field that answers are
//! typed into.
use crate::canvas::{Part, Size};
use crate::field::{Field, Kept};
use crate::front::NEEDED;
use crate::glyphs;
use crate::keys::{self, Key};
use crate::listing::{Listing, Text};
use crate::panel::SCREEN;
use crate::submitted::Submitted;
use crate::terminal::Input;
use futonrobin::{KeyTable, Refusal, Report, Screen, Shown};

/// What the colour key goes through, the attribute of a new screen first.
const COLOURS: [u8; 6] = [0x07, 0x0e, 0x1f, 0x2a, 0x4f, 0x70];

/// What a desk is set up with: the text that a key prints, and the field, if one types into one.
#[derive(Clone)]
pub struct Paper {
    pub text: Text,
    pub field: Option<Field>,
}

impl From<Text> for Paper {
    fn from(text: Text) -> Self {
        Self { text, field: None }
    }
}

pub struct Desk {
    pub screen: Screen,
    pub table: KeyTable,
    pub submitted: Vec<Submitted>,
    pub listing: Listing,
    pub field: Option<Field>,
    /// What in the field kept the last key from what it does, if anything did.
    pub kept: Option<Kept>,
    /// So many rows of the screen are in sight; where nobody looks at a terminal, all of them.
    pub in_sight: u32,
}

impl Desk {
    pub fn new(width: u32, sitting: u32) -> Self {
        Self::with(Text::wards().into(), width, sitting)
    }

    pub fn with(Paper { text, field }: Paper, width: u32, sitting: u32) -> Self {
        let (screen, table, listing) = (Screen::new(width, sitting), KeyTable::standard(), Listing::new(text));
        Self { screen, table, submitted: Vec::new(), listing, field, kept: None, in_sight: SCREEN as u32 }
    }

    /// What it was set up with, for the next one.
    pub fn paper(&self) -> Paper {
        Paper { text: self.listing.text(), field: self.field }
    }

    /// What there is to know about the field, if there is one.
    pub fn notes(&self) -> Vec<String> {
        self.field.map(Field::told).into_iter().collect()
    }

    /// What the field says of the last key.
    pub fn field_says(&self) -> Option<Part> {
        Some(self.field?.says(self.kept?))
    }

    /// An input was given in a terminal of this size, and this is left to do. What is told of the last key ends with it, unless nobody sees it do anything. A
    /// key of the desk ends it itself.
    pub fn given(&mut self, input: Input, left: Option<Input>, size: Size) {
        let seen = input != Input::Unknown && NEEDED.fits(size);
        if seen && !matches!(left, Some(Input::Key(_))) {
            self.kept = None;
        }
    }

    pub fn other_width(&self) -> u32 {
        other_width(&self.screen)
    }

    /// Presses a key, and makes a step report for each call.
    pub fn press(&mut self, key: Key) -> Result<Vec<Report>, Refusal> {
        let mut reports = Vec::new();
        self.press_and(key, |screen| reports.push(screen.report_step()))?;
        Ok(reports)
    }

    /// Presses a key, and hands on the screen after each call. While a text waits for a key, that key prints more of it and does nothing else; Esc drops
    /// the rest.
    pub fn press_and(&mut self, key: Key, mut made: impl FnMut(&Screen)) -> Result<(), Refusal> {
        let kept = self.kept.take();
        match key {
            Key::Escape if self.listing.waits() => self.listing.drop_rest(),
            _ if key == Key::Print || self.listing.waits() => self.listing.page(&mut self.screen, self.in_sight, made)?,
            Key::CtrlEnter if self.field.is_some() => self.kept = Some(Kept::Joining),
            Key::Enter => {
                self.submit(kept)?;
                made(&self.screen);
            }
            _ => {
                for key in self.single(key) {
                    self.call(key)?;
                    made(&self.screen);
                    // What follows finds the field full too; and what was cut there is not submitted by a key that could not type all of it.
                    if self.kept.is_some() {
                        break;
                    }
                }
            }
        }
        Ok(())
    }

    /// The keys that make one call each. With insert on Tab types spaces up to its next stop, and in a field each of them as any other character.
    fn single(&self, key: Key) -> Vec<Key> {
        match key {
            Key::Tab if self.field.is_some() && self.screen.insert_mode() => vec![Key::Char(b' '); to_the_stop(&self.screen)],
            _ => keys::single(key, &self.table),
        }
    }

    fn type_char(&mut self, ch: u8) -> Result<(), Refusal> {
        match self.field {
            None => self.screen.type_char(ch)?,
            Some(field) => self.kept = field.type_into(ch, &mut self.screen)?.then(|| field.without_room(&self.screen)),
        }
        Ok(())
    }

    /// Submits the line, and keeps with it whether the field has kept the key before from being typed. In a text that is pasted nobody has seen that yet.
    fn submit(&mut self, kept: Option<Kept>) -> Result<(), Refusal> {
        let text = glyphs::string(&self.screen.take_logical_line()?);
        self.submitted.push(Submitted { text, cut: matches!(kept, Some(Kept::Full | Kept::AtEnd)) });
        Ok(())
    }

    /// The call of a key that makes one.
    fn call(&mut self, key: Key) -> Result<(), Refusal> {
        let screen = &mut self.screen;
        match key {
            Key::Char(ch) => self.type_char(ch)?,
            Key::Enter => self.submit(None)?,
            Key::CtrlEnter => screen.ctrl_enter()?,
            Key::Tab => screen.tab()?,
            Key::Backspace => screen.backspace()?,
            Key::Delete => screen.delete_char()?,
            Key::Insert => screen.set_insert(!screen.insert_mode())?,
            Key::Escape => screen.escape_line()?,
            Key::Left => screen.move_left()?,
            Key::Right => screen.move_right()?,
            Key::Up => screen.move_up()?,
            Key::Down => screen.move_down()?,
            Key::CtrlLeft => screen.word_left()?,
            Key::CtrlRight => screen.word_right()?,
            Key::Home => screen.home()?,
            Key::End => screen.end_of_line()?,
            Key::CtrlHome => screen.clear()?,
            Key::CtrlEnd => screen.erase_to_end()?,
            Key::Break => screen.break_line()?,
            Key::Colour => screen.set_attr(next_colour(screen.attr()))?,
            Key::Width => screen.set_width(other_width(screen))?,
            Key::Strip => screen.set_keys_on(!screen.keys_visible())?,
            Key::Function(_) => unreachable!("a function key is split into single keys"),
            Key::Print => unreachable!("it prints a page"),
        }
        Ok(())
    }
}

/// How many columns the cursor is before the next stop of Tab, at most up to the row's end: asked of a screen with insert off, where Tab moves.
fn to_the_stop(screen: &Screen) -> usize {
    let (col, mut bare) = (screen.cursor().1, Screen::new(screen.width(), 0));
    bare.set_cursor(0, col).and_then(|()| bare.tab()).expect("a new screen has serials left");
    let (row, stop) = bare.cursor();
    (row * screen.width() + stop - col) as usize
}

/// 40 for 80, and 80 for 40.
fn other_width(screen: &Screen) -> u32 {
    120 - screen.width()
}

fn next_colour(attr: u8) -> u8 {
    let at = COLOURS.iter().position(|&colour| colour == attr).unwrap_or_default();
    COLOURS[(at + 1) % COLOURS.len()]
}

#[cfg(test)]
mod tests {
    use super::*;
    use crate::samples::cells;

    const FULL: &str = "FIELD FULL: 5 characters";
    const AT_END: &str = "END OF THE FIELD: 5 characters";

    /// A desk with a field of so many characters.
    fn desk(characters: u8) -> Desk {
        Desk::with(Paper { text: Text::wards(), field: Field::new(characters) }, 80, 1)
    }

    /// How many calls the keys make.
    fn calls(desk: &mut Desk, keys: &[Key]) -> usize {
        keys.iter().map(|&key| desk.press(key).unwrap().len()).sum()
    }

    fn types(desk: &mut Desk, text: &str) {
        text.bytes().for_each(|ch| assert_eq!(calls(desk, &[Key::Char(ch)]), 1, "each key is a call, whether it types or not"));
    }

    fn said(desk: &Desk) -> String {
        desk.field_says().map_or(String::new(), |(said, _)| said)
    }

    /// The lines submitted, those behind a key for which there was no room with a mark.
    fn submitted(desk: &Desk) -> Vec<String> {
        desk.submitted.iter().map(|line| format!("{}{}", line.text, if line.cut { " (cut)" } else { "" })).collect()
    }

    /// The text of the line, and the cursor's column.
    fn line(desk: &Desk) -> (String, u32) {
        (glyphs::string(&desk.screen.logical_text()), desk.screen.cursor().1)
    }

    #[test]
    fn a_field_is_typed_full_and_typed_over() {
        let mut desk = desk(5);
        types(&mut desk, "WARD7");
        assert_eq!((line(&desk), &*said(&desk)), (("WARD7".into(), 5), ""));
        types(&mut desk, "!");
        assert_eq!((line(&desk), &*said(&desk)), (("WARD7".into(), 5), FULL));
        calls(&mut desk, &[Key::Left]);
        assert_eq!(&*said(&desk), "", "until the next key");
        types(&mut desk, "8");
        assert_eq!((line(&desk), &*said(&desk)), (("WARD8".into(), 5), ""));
        calls(&mut desk, &[Key::Left, Key::Left, Key::Insert]);
        types(&mut desk, "S");
        assert_eq!((line(&desk), &*said(&desk)), (("WARD8".into(), 3), FULL), "nothing is inserted");
        calls(&mut desk, &[Key::Backspace]);
        types(&mut desk, "K");
        assert_eq!((line(&desk), &*said(&desk)), (("WAKD8".into(), 3), ""), "what was deleted makes room");
        calls(&mut desk, &[Key::Enter]);
        types(&mut desk, "NEXT");
        assert_eq!((line(&desk), &*said(&desk)), (("NEXT".into(), 4), ""), "each line is a field");
        assert_eq!(submitted(&desk), ["WAKD8"]);
    }

    #[test]
    fn a_longer_line_is_typed_over() {
        let mut desk = desk(5);
        desk.screen.print_checked(b"WARD 7, BED 12").unwrap();
        types(&mut desk, "!");
        assert_eq!((line(&desk), &*said(&desk)), (("WARD 7, BED 12".into(), 14), FULL));
        calls(&mut desk, &[Key::Left, Key::Left]);
        types(&mut desk, "34");
        assert_eq!((line(&desk), &*said(&desk)), (("WARD 7, BED 34".into(), 14), ""));
    }

    #[test]
    fn a_cursor_to_the_right_of_the_text_leaves_no_room_before_it() {
        let mut desk = desk(5);
        types(&mut desk, "A");
        calls(&mut desk, &[Key::Right; 3]);
        types(&mut desk, "BC");
        assert_eq!((line(&desk), &*said(&desk)), (("A   B".into(), 5), FULL));
    }

    #[test]
    fn tab_stops_where_the_field_ends() {
        for (characters, typed, tab, told) in
            [(5, 2, 4, AT_END), (8, 2, 6, ""), (12, 2, 6, ""), (12, 8, 5, "END OF THE FIELD: 12 characters")]
        {
            let mut desk = desk(characters);
            types(&mut desk, &"A".repeat(typed));
            calls(&mut desk, &[Key::Insert]);
            assert_eq!(calls(&mut desk, &[Key::Tab]), tab, "a call for each space");
            let end = (typed / 8 * 8 + 8).min(characters as usize);
            assert_eq!((line(&desk).1 as usize, &*said(&desk)), (end, told));
        }
        let mut desk = desk(5);
        types(&mut desk, "AB");
        assert_eq!((calls(&mut desk, &[Key::Tab]), line(&desk).1, &*said(&desk)), (1, 8, ""), "without insert it is a move");
        types(&mut desk, "C");
        assert_eq!((line(&desk), &*said(&desk)), (("AB".into(), 8), AT_END), "behind it there is no room, though little stands in it");
        assert_eq!(calls(&mut Desk::new(80, 1), &[Key::Insert, Key::Tab]), 2, "without a field it is one call");
    }

    /// With room enough its spaces leave what the one call leaves, over the end of a row too.
    #[test]
    fn tab_in_a_wide_field_is_tab() {
        let (row, nearly, longest) = ("A".repeat(80), "A".repeat(75), "A".repeat(255));
        let at_80 = [("", 0), ("WARD 7", 3), ("WARD 7", 20), (&row, 79), (&nearly, 75), (&longest, 12)].map(|(text, col)| (80, text, col));
        let at_40 = [("", 0), ("WARD 7", 36), (&row, 39)].map(|(text, col)| (40, text, col));
        for (width, text, col) in at_80.into_iter().chain(at_40) {
            let [mut spaces, mut whole] = [Field::new(255), None].map(|field| Desk::with(Paper { text: Text::wards(), field }, width, 1));
            for desk in [&mut spaces, &mut whole] {
                types(desk, text);
                desk.screen.set_cursor(0, col).unwrap();
                calls(desk, &[Key::Insert, Key::Tab]);
            }
            assert_eq!(
                (cells(&spaces.screen), spaces.screen.cursor()),
                (cells(&whole.screen), whole.screen.cursor()),
                "{width}, {text}, {col}"
            );
        }
    }

    #[test]
    fn no_row_is_joined_to_a_field() {
        let mut field = desk(5);
        types(&mut field, "A");
        let before = field.screen.clone();
        assert_eq!((calls(&mut field, &[Key::CtrlEnter]), &*said(&field)), (0, "Ctrl-Enter, -J: off in a field"));
        assert!(field.screen == before);
        types(&mut field, "B");
        assert_eq!((line(&field), &*said(&field)), (("AB".into(), 2), ""));
        let mut whole = Desk::new(80, 1);
        assert_eq!((calls(&mut whole, &[Key::CtrlEnter]), &*said(&whole), whole.screen.cursor()), (1, "", (1, 0)));
    }

    #[test]
    fn a_function_key_that_does_not_fit_submits_nothing() {
        let mut desk = desk(5);
        assert_eq!((calls(&mut desk, &[Key::Function(2)]), &*said(&desk)), (4, ""));
        assert_eq!(submitted(&desk), ["RUN"], "one that fits does");
        types(&mut desk, "OF");
        assert_eq!((calls(&mut desk, &[Key::Function(5)]), &*said(&desk)), (4, FULL), "three of CONT, and the one that has no room");
        assert_eq!((line(&desk), desk.submitted.len()), (("OFCON".into(), 5), 1));
        calls(&mut desk, &[Key::Enter]);
        assert_eq!(submitted(&desk), ["RUN", "OFCON (cut)"]);
    }

    /// In a text that is pasted Enter comes at once: what was submitted says that it was cut, and so it does until the next key has been pressed.
    #[test]
    fn what_was_cut_in_a_pasted_text_is_marked() {
        let mut desk = desk(5);
        for ch in "WARD 12\rNEXT\rWARD 7\rEND".chars() {
            let key = if ch == '\r' { Key::Enter } else { Key::Char(ch as u8) };
            assert_eq!(calls(&mut desk, &[key]), 1);
        }
        assert_eq!((submitted(&desk), line(&desk).0), (["WARD (cut)", "NEXT", "WARD (cut)"].map(String::from).into(), "END".into()));
        types(&mut desk, "LESS");
        calls(&mut desk, &[Key::Left, Key::Enter]);
        assert_eq!(submitted(&desk)[3..], ["ENDLE"], "who has pressed another key has seen it");
        calls(&mut desk, &[Key::CtrlEnter, Key::Enter]);
        assert_eq!(submitted(&desk)[4..], [""]);
    }

    #[test]
    fn a_text_is_printed_past_the_field() {
        let mut desk = desk(5);
        types(&mut desk, "WARDS!");
        assert_eq!((calls(&mut desk, &[Key::Print]), &*said(&desk)), (1, ""));
        assert!(desk.listing.waits());
        assert_eq!((calls(&mut desk, &[Key::CtrlEnter]), &*said(&desk)), (1, ""), "a key that turns a page says nothing of the field");
    }

    #[test]
    fn the_next_desk_has_the_same_paper() {
        let desk = Desk::with(desk(5).paper(), 40, 2);
        assert_eq!((desk.field, desk.screen.sitting(), desk.notes().len()), (Field::new(5), 2, 1));
        assert!(Desk::with(Desk::new(40, 1).paper(), 40, 2).notes().is_empty());
    }
}
