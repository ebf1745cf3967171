//! The logical line under the cursor: the rows that it has, and how many characters it still takes.
use crate::canvas::{Part, PLAIN, STRONG, YELLOW};
use crate::field::Field;
use futonrobin::{Screen, Shown};
use std::cell::RefCell;
use std::ops::RangeInclusive;

/// Document 01's span: up while the row above is flagged, and down while this one is and another editable row follows.
pub fn rows(shown: &impl Shown) -> RangeInclusive<u32> {
    let (row, _) = shown.cursor();
    let flagged = |row: u32| shown.continues(row).expect("the row is inside of the screen");
    let first = (0..row).rev().take_while(|&above| flagged(above)).last().unwrap_or(row);
    let last = (row..shown.editable_rows() - 1).take_while(|&row| flagged(row)).last().map_or(row, |row| row + 1);
    first..=last
}

/// So many characters can be typed in addition, into such a field: on a copy, with insert on, until it is full.
pub fn room(shown: &impl Shown, field: Field) -> usize {
    let mut copy = Screen::from_bytes(shown.record()).expect("what is shown keeps its layout");
    if copy.set_insert(true).is_err() {
        return 0;
    }
    let mut grows = || field.type_into(b'x', &mut copy) == Ok(false);
    std::iter::from_fn(|| grows().then_some(())).count()
}

/// The words of the record that was asked about last: to find the room takes some hundred calls, and a screen is painted often.
pub struct Words {
    field: Option<Field>,
    last: RefCell<(Vec<u8>, Vec<Part>)>,
}

impl Default for Words {
    fn default() -> Self {
        Self::of_field(None)
    }
}

impl Words {
    /// Where one types into a field, if there is one.
    pub fn of_field(field: Option<Field>) -> Self {
        Self { field, last: RefCell::default() }
    }

    pub fn of(&self, shown: &impl Shown) -> Vec<Part> {
        let mut last = self.last.borrow_mut();
        if last.0 != shown.record() {
            *last = (shown.record().to_vec(), words(shown, self.field));
        }
        last.1.clone()
    }
}

/// How one types there, and what is known of the line, in words.
fn words(shown: &impl Shown, field: Option<Field>) -> Vec<Part> {
    let (rows, room) = (rows(shown), room(shown, field.unwrap_or(Field::WHOLE_LINE)));
    let insert = shown.insert_mode().then(|| ("INSERT".into(), STRONG));
    let room = (field.map_or(format!("room for {room}"), |field| field.room(room)), if room == 0 { YELLOW } else { PLAIN });
    let over = (rows.start() < rows.end()).then(|| (format!("line in rows {} to {}", rows.start() + 1, rows.end() + 1), PLAIN));
    insert.into_iter().chain([room]).chain(over).collect()
}

#[cfg(test)]
mod tests {
    use super::*;
    use crate::desk::Desk;
    use crate::keys::{Key, NAMED};
    use crate::samples::cells;
    use futonrobin::Mirror;
    use oorandom::Rand32;

    fn said(shown: &impl Shown) -> String {
        Words::default().of(shown).into_iter().map(|(text, _)| text).collect::<Vec<_>>().join(", ")
    }

    #[test]
    fn a_line_of_several_rows() {
        let mut screen = Screen::new(40, 1);
        assert_eq!(said(&screen), "room for 255");
        screen.print_checked(b"FIRST\r").unwrap();
        screen.print_checked(&[b'A'; 85]).unwrap();
        assert_eq!((rows(&screen), said(&screen)), (1..=3, "room for 170, line in rows 2 to 4".into()));
        screen.set_cursor(1, 0).unwrap();
        assert_eq!(said(&screen), "room for 170, line in rows 2 to 4", "what is overwritten needs none");
        screen.set_cursor(2, 7).unwrap();
        screen.set_insert(true).unwrap();
        assert_eq!((rows(&screen), said(&screen)), (1..=3, "INSERT, room for 170, line in rows 2 to 4".into()));
        screen.set_cursor(3, 30).unwrap();
        assert_eq!(said(&screen), "INSERT, room for 145, line in rows 2 to 4", "a line reaches to the cursor");
        screen.set_cursor(0, 0).unwrap();
        assert_eq!((rows(&screen), said(&screen)), (0..=0, "INSERT, room for 250".into()));
    }

    #[test]
    fn the_room_of_a_field() {
        let (mut screen, mut mirror) = (Screen::new(40, 1), Mirror::new(40, 1));
        let said =
            |shown: &Screen| Words::of_field(Field::new(60)).of(shown).into_iter().map(|(text, _)| text).collect::<Vec<_>>().join(", ");
        assert_eq!(said(&screen), "room for 60 of 60");
        screen.print_checked(&[b'A'; 50]).unwrap();
        assert_eq!(said(&screen), "room for 10 of 60, line in rows 1 to 2");
        screen.set_cursor(1, 19).unwrap();
        assert_eq!(said(&screen), "room for 1 of 60, line in rows 1 to 2", "a line reaches to the cursor");
        screen.set_cursor(1, 30).unwrap();
        assert_eq!(said(&screen), "room for 0 of 60, line in rows 1 to 2", "and beyond the field too");
        screen.print_checked(b"ANOTHER").unwrap();
        assert_eq!(said(&screen), "room for 0 of 60, line in rows 1 to 2", "a longer line has none");
        mirror.arrive(screen.report_full()).unwrap();
        assert_eq!(Words::of_field(Field::new(60)).of(&mirror), Words::of_field(Field::new(60)).of(&screen));
        assert_eq!(Words::default().of(&mirror)[0].0, "room for 178", "who does not know of it counts by the line");
    }

    #[test]
    fn insert_is_told_whether_a_print_ended_with_13_or_not() {
        let (mut screen, mut mirror) = (Screen::new(40, 1), Mirror::new(40, 1));
        for insert in [true, false, true] {
            screen.set_insert(insert).unwrap();
            for text in [&b"WARD 7\r"[..], b"", b"BED 12"] {
                screen.print_checked(text).unwrap();
                mirror.arrive(screen.report_full()).unwrap();
                assert_eq!(screen.ended_in_cr(), text != b"BED 12");
                assert_eq!(said(&screen).starts_with("INSERT, room for "), insert, "{screen:?}");
                assert_eq!(said(&mirror), said(&screen));
            }
        }
    }

    #[test]
    fn a_line_that_is_told_to_be_full_is() {
        let (mut random, mut full) = (Rand32::new(15), 0);
        for list in 0..40 {
            let mut desk = Desk::new(if list % 2 == 0 { 40 } else { 80 }, 1);
            for _ in 0..1_000 {
                let key = match random.rand_range(0..40) {
                    0 => NAMED[random.rand_range(0..NAMED.len() as u32) as usize].1,
                    1 => Key::CtrlEnter,
                    2 => Key::Home,
                    _ => Key::Char(b'A'),
                };
                desk.press(key).unwrap();
                // A text that waits for a key takes the next one for itself.
                if desk.screen.insert_mode() && !desk.listing.waits() && random.rand_range(0..8) == 0 {
                    let (room, before) = (room(&desk.screen, Field::WHOLE_LINE), cells(&desk.screen));
                    desk.press(Key::Char(b'B')).unwrap();
                    assert_eq!(room == 0, cells(&desk.screen) == before, "list {list}, room for {room}: {:?}", desk.screen);
                    full += (room == 0) as u32;
                }
            }
        }
        assert!(full > 20, "full lines were among them: {full}");
    }

    #[test]
    fn words_are_those_of_the_screen_that_is_asked_about() {
        let (words, mut screen) = (Words::default(), Screen::new(40, 1));
        for n in 0..9 {
            assert_eq!(words.of(&screen), [(format!("room for {}", 255 - n), PLAIN)]);
            assert_eq!(words.of(&screen), [(format!("room for {}", 255 - n), PLAIN)]);
            screen.type_char(b'A').unwrap();
        }
    }

    #[test]
    fn on_a_spent_serial_nothing_has_room() {
        assert_eq!(room(&crate::samples::screen(1, u32::MAX), Field::WHOLE_LINE), 0);
    }
}
