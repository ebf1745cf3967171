//! A short answer field: a line into which no more than so many characters are typed (`--field N`).
use crate::canvas::{Part, YELLOW};
use crate::span;
use futonrobin::{Refusal, Screen, Shown};

/// What kept the last key from what it does.
#[derive(Clone, Copy, PartialEq, Eq, Debug)]
pub enum Kept {
    /// The line holds as many characters as the field, or more; spaces of whole rows count.
    Full,
    /// The text is shorter, and the cursor stands behind the field's end: the line reaches to it.
    AtEnd,
    /// Ctrl-Enter would join the next row to the line, past the field's end.
    Joining,
}

/// How many characters it takes, 1 to 255.
#[derive(Clone, Copy, PartialEq, Eq, Debug)]
pub struct Field(u8);

impl Field {
    /// What a line takes where there is no field: document 01's 255 characters.
    pub const WHOLE_LINE: Self = Self(u8::MAX);

    pub fn new(characters: u8) -> Option<Self> {
        (characters > 0).then_some(Self(characters))
    }

    /// Types a character; true if the field was too full for it. Nothing else keeps the cursor still, of characters that can be typed at all: those below 32
    /// but 27 type nothing anywhere.
    pub fn type_into(self, ch: u8, screen: &mut Screen) -> Result<bool, Refusal> {
        let before = screen.cursor();
        screen.type_limited(ch, self.0)?;
        Ok((ch == 27 || ch >= 32) && screen.cursor() == before)
    }

    /// Why there is no room for a character on this screen.
    pub fn without_room(self, screen: &Screen) -> Kept {
        let (row, col) = screen.cursor();
        let index = (row - span::rows(screen).start()) * screen.width() + col;
        let shorter = screen.logical_text().len() < self.0.into();
        if shorter && index >= self.0.into() {
            Kept::AtEnd
        } else {
            Kept::Full
        }
    }

    /// What is said of the key.
    pub fn says(self, kept: Kept) -> Part {
        let said = match kept {
            Kept::Full => format!("FIELD FULL: {}", self.in_words()),
            Kept::AtEnd => format!("END OF THE FIELD: {}", self.in_words()),
            Kept::Joining => "Ctrl-Enter, -J: off in a field".into(),
        };
        (said, YELLOW)
    }

    /// So many of all that it takes.
    pub fn room(self, room: usize) -> String {
        format!("room for {room} of {}", self.0)
    }

    /// What there is to know about it.
    pub fn told(self) -> String {
        format!("A field of {}: no more is typed into a line, Ctrl-Enter is off.", self.in_words())
    }

    fn in_words(self) -> String {
        match self.0 {
            1 => "1 character".into(),
            characters => format!("{characters} characters"),
        }
    }
}

#[cfg(test)]
mod tests {
    use super::*;
    use crate::desk::Desk;
    use crate::keys::{Key, NAMED};
    use crate::span::room;
    use oorandom::Rand32;

    /// Where a record's flags and cells begin (docs/ABI.md). To ask for each cell takes seconds in all.
    const CELLS: usize = 21;

    #[test]
    fn no_field_takes_nothing() {
        assert_eq!((Field::new(0), Field::new(255)), (None, Some(Field::WHOLE_LINE)));
        assert_eq!(Field(60).says(Kept::Full), ("FIELD FULL: 60 characters".into(), YELLOW));
        assert_eq!(Field(1).says(Kept::AtEnd), ("END OF THE FIELD: 1 character".into(), YELLOW));
        assert_eq!(Field(5).says(Kept::Joining), ("Ctrl-Enter, -J: off in a field".into(), YELLOW));
        assert!([1, 255].iter().all(|&n| Field(n).told().len() <= 80));
        assert!([Kept::Full, Kept::AtEnd, Kept::Joining].iter().all(|&kept| Field(255).says(kept).0.len() <= 40));
    }

    /// On any screen: it is too full exactly where nothing changes, and takes the character else as a screen without a field does.
    #[test]
    fn what_is_not_told_to_be_full_is_typed() {
        let (mut random, mut met, mut kinds) = (Rand32::new(7), [0; 2], [0; 2]);
        for list in 0..40 {
            let mut desk = Desk::new(if list % 2 == 0 { 40 } else { 80 }, 1);
            for _ in 0..500 {
                let named = NAMED[random.rand_range(0..NAMED.len() as u32) as usize].1;
                desk.press(if random.rand_range(0..4) == 0 { named } else { Key::Char(b'A') }).unwrap();
                let (field, ch) = (Field(random.rand_range(1..256) as u8), if random.rand_range(0..2) == 0 { b'A' } else { b'b' });
                let [before, mut limited, mut whole] = [0; 3].map(|_| desk.screen.clone());
                let full = field.type_into(ch, &mut limited).unwrap();
                whole.type_char(ch).unwrap();
                let untouched = limited.record()[CELLS..] == before.record()[CELLS..] && limited.cursor() == before.cursor();
                assert_eq!(full, untouched, "list {list}, {field:?}: {before:?}");
                assert!(full || limited == whole, "list {list}, {field:?}: {before:?}");
                assert!(!full || room(&before, field) == 0, "list {list}, {field:?}: {before:?}");
                let (rows, mut back) = (span::rows(&before), before.clone());
                back.end_of_line().unwrap();
                if full && rows.start() == rows.end() && back.cursor().0 == before.cursor().0 {
                    // In a line of one row there is room at the text's end exactly where the cursor alone was behind the field's.
                    let at_the_end = field.without_room(&before) == Kept::AtEnd;
                    assert_eq!(at_the_end, room(&back, field) > 0, "list {list}, {field:?}: {before:?}");
                    kinds[at_the_end as usize] += 1;
                }
                met[full as usize] += 1;
            }
        }
        assert!(met.iter().all(|&count| count > 500) && kinds.iter().all(|&count| count > 20), "{met:?}, {kinds:?}");
    }

    #[test]
    fn what_types_nothing_anywhere_does_not_find_it_full() {
        let mut screen = Screen::new(80, 1);
        screen.print_checked(b"WARD 7").unwrap();
        let full = (0..=255).filter(|&ch| Field(6).type_into(ch, &mut screen).unwrap());
        assert!(full.eq((27..=27).chain(32..=255)) && screen.serial() == 257);
    }

    #[test]
    fn a_spent_serial_is_told_as_it_is() {
        let mut spent = crate::samples::screen(1, u32::MAX);
        assert_eq!(Field(6).type_into(b'A', &mut spent), Err(Refusal::SpentSerial));
    }
}
