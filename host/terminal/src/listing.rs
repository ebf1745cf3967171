//! A long text that is printed a screen at a time: what fits is printed, and the rest waits for a key.
use crate::canvas::{Part, REVERSED};
use futonrobin::layout::WAITING;
use futonrobin::{Refusal, Screen, Shown};
use std::fs::File;
use std::io::Read;
use std::sync::Arc;

/// The list that comes with the program.
const WARDS: &[u8] = include_bytes!("../data/wards.txt");
/// No file of more bytes is taken: nobody reads so much a screen at a time, and some files have no end.
const LONGEST: u64 = 1 << 24;
/// A call that has taken so many bytes may have been handed no more: the safe crate cuts a longer text at the longest input, or a byte sooner.
const CUT: usize = WAITING - 1;

/// What the key prints. Its bytes are printed as they are.
#[derive(Clone)]
pub struct Text(Arc<[u8]>);

impl Text {
    pub fn wards() -> Self {
        WARDS.into()
    }

    /// The text of a file, or a sentence about why there is none.
    pub fn of_file(file: &str) -> Result<Self, String> {
        let mut bytes = Vec::new();
        let read = File::open(file).and_then(|open| open.take(LONGEST + 1).read_to_end(&mut bytes));
        match read {
            Ok(length) if length as u64 > LONGEST => {
                Err(format!("{file}: it has more than {LONGEST} bytes, too many to be read by a person"))
            }
            Ok(_) => Ok(bytes[..].into()),
            Err(problem) => Err(format!("{file}: {problem}")),
        }
    }
}

impl From<&[u8]> for Text {
    fn from(bytes: &[u8]) -> Self {
        Self(bytes.into())
    }
}

/// The text, and how far it is printed.
pub struct Listing {
    text: Text,
    /// What waits for a key, if something does.
    waiting: Option<Waiting>,
}

/// The text from this byte on, and how many lines that is.
#[derive(Clone, Copy)]
struct Waiting {
    from: usize,
    lines: usize,
}

impl Listing {
    pub fn new(text: Text) -> Self {
        Self { text, waiting: None }
    }

    pub fn text(&self) -> Text {
        self.text.clone()
    }

    pub fn waits(&self) -> bool {
        self.waiting.is_some()
    }

    /// Drops what waits.
    pub fn drop_rest(&mut self) {
        self.waiting = None;
    }

    /// What is said while it waits.
    pub fn told(&self) -> Option<Part> {
        let lines = match self.waiting?.lines {
            1 => "1 line".into(),
            lines => format!("{lines} lines"),
        };
        Some((format!("MORE: {lines}. Any key: next screen, Esc: drops the rest"), REVERSED))
    }

    /// Prints the next page at the cursor, the first one if nothing waits, and hands on the screen after each call. So many rows of the screen are in
    /// sight: the page goes one fewer down, the cursor by some of them and the rest by scrolling. So the row in which it begins, the last one that was
    /// read, stays in sight.
    pub fn page(&mut self, screen: &mut Screen, in_sight: u32, mut made: impl FnMut(&Screen)) -> Result<(), Refusal> {
        let text = self.text.0.clone();
        let mut rest = &text[self.waiting.take().map_or(0, |waiting| waiting.from)..];
        // One row at least, or it would not go on.
        let mut further = in_sight.min(screen.editable_rows()).max(2) - 1;
        while !rest.is_empty() {
            let (row, last) = (screen.cursor().0, screen.editable_rows() - 1);
            let waited = match further.checked_sub(last - row) {
                Some(scrolls) => screen.print_waiting(rest, scrolls)?,
                None => screen.print_waiting(&rest[..front_within(screen, rest, further)?], 0)?,
            };
            made(screen);
            rest = &rest[waited.taken..];
            further -= waited.scrolled + screen.cursor().0 - row;
            if waited.taken < CUT {
                break;
            }
        }
        self.waiting = (!rest.is_empty()).then(|| Waiting { from: text.len() - rest.len(), lines: lines_of(rest) });
        Ok(())
    }
}

/// The length of the front of a text that leads the cursor so many rows down and no further, with nothing scrolled. A waiting print stops at the screen's last
/// row alone; where that is out of sight, the place is looked for on copies.
fn front_within(screen: &Screen, text: &[u8], rows: u32) -> Result<usize, Refusal> {
    let within = |length: usize| {
        let mut copy = screen.clone();
        copy.print_waiting(&text[..length], 0).map(|_| copy.cursor().0 <= screen.cursor().0 + rows)
    };
    // What is within rows is so with each byte less; of 13 and 10 the second leads no further, so that no cut parts them.
    let (mut fits, mut beyond) = (0, screen.clone().print_waiting(text, 0)?.taken + 1);
    while fits + 1 < beyond {
        let middle = (fits + beyond) / 2;
        if within(middle)? {
            fits = middle;
        } else {
            beyond = middle;
        }
    }
    Ok(fits)
}

/// How many lines there is something to come of, and at least the empty one to which the last line end leads.
fn lines_of(rest: &[u8]) -> usize {
    // The end of a line that is in sight already.
    let rest = rest.strip_prefix(b"\r\n").or_else(|| rest.strip_prefix(b"\r")).or_else(|| rest.strip_prefix(b"\n")).unwrap_or(rest);
    let ends = |at: usize| match rest[at] {
        13 => rest.get(at + 1) != Some(&10),
        byte => byte == 10,
    };
    let ended = (0..rest.len()).filter(|&at| ends(at)).count();
    let open = rest.last().is_some_and(|byte| ![10, 13].contains(byte));
    (ended + open as usize).max(1)
}

#[cfg(test)]
mod tests {
    use super::*;
    use crate::desk::Desk;
    use crate::glyphs;
    use crate::keys::Key;
    use crate::samples::{cells, screen};

    const NEXT: Key = Key::Char(b'X');

    fn desk(width: u32, text: &[u8]) -> Desk {
        Desk::with(Text::from(text).into(), width, 1)
    }

    /// So many lines, each with its number.
    fn lines(count: usize, end: &str) -> Vec<u8> {
        (0..count).map(|n| format!("LINE {n}{end}")).collect::<String>().into()
    }

    fn row(screen: &Screen, row: u32) -> String {
        let cells: Vec<_> = (0..screen.width()).map(|col| screen.cell(row, col).unwrap().ch).collect();
        glyphs::string(&cells).trim_end().into()
    }

    /// The first and the last editable row.
    fn edges(desk: &Desk) -> [String; 2] {
        [0, desk.screen.editable_rows() - 1].map(|at| row(&desk.screen, at))
    }

    fn said(desk: &Desk) -> String {
        desk.listing.told().map_or(String::new(), |(told, _)| told)
    }

    /// How many calls a key makes.
    fn calls(desk: &mut Desk, key: Key) -> usize {
        desk.press(key).unwrap().len()
    }

    /// Cells, flags and cursor.
    fn left(screen: &Screen) -> (Vec<(u8, u8, bool)>, (u32, u32)) {
        (cells(screen), screen.cursor())
    }

    /// What one print of the whole text leaves on a screen.
    fn at_once(mut screen: Screen, text: &[u8]) -> Screen {
        screen.print_bytes(text).unwrap();
        screen
    }

    #[test]
    fn the_ward_list_fits_both_widths_and_has_more_than_one_screen() {
        let text = std::str::from_utf8(WARDS).unwrap();
        let lines: Vec<_> = text.split_terminator("\r\n").collect();
        assert!((60..=80).contains(&lines.len()) && text.ends_with("\r\n"));
        assert!(lines.iter().all(|line| (1..=39).contains(&line.len()) && line.bytes().all(|byte| (32..127).contains(&byte))));
    }

    #[test]
    fn the_first_row_of_the_text_stays_in_sight_and_then_the_last_that_was_read() {
        for (width, above) in [(40, 0), (80, 0), (40, 5), (80, 23)] {
            let text = lines(60, "\r\n");
            let mut desk = desk(width, &text);
            (0..above).for_each(|_| drop(desk.press(Key::Break).unwrap()));
            let whole = at_once(desk.screen.clone(), &text);
            assert_eq!(calls(&mut desk, Key::Print), 1);
            assert_eq!(edges(&desk), ["LINE 0", "LINE 23"], "from row {above}");
            assert_eq!(said(&desk), "MORE: 36 lines. Any key: next screen, Esc: drops the rest");
            assert_eq!((calls(&mut desk, NEXT), edges(&desk)), (1, ["LINE 23", "LINE 46"].map(String::from)));
            assert!(said(&desk).starts_with("MORE: 13 lines. "));
            assert_eq!((calls(&mut desk, Key::Function(1)), desk.listing.waits()), (1, false), "one key, one page");
            assert_eq!(row(&desk.screen, 22), "LINE 59");
            assert_eq!(left(&desk.screen), left(&whole), "as one print of it leaves it");
        }
    }

    #[test]
    fn what_fits_is_printed_at_once() {
        for (count, row) in [(1, 23), (24, 0), (23, 1), (12, 12)] {
            let text = lines(count, "\r\n");
            let text = &text[..text.len() - 2];
            let mut desk = desk(80, text);
            desk.screen.set_cursor(row, 0).unwrap();
            let whole = at_once(desk.screen.clone(), text);
            assert_eq!((calls(&mut desk, Key::Print), desk.listing.waits()), (1, false));
            assert_eq!(left(&desk.screen), left(&whole));
        }
    }

    #[test]
    fn a_line_end_that_would_scroll_the_first_row_away_waits_too() {
        let mut desk = desk(80, &lines(24, "\r\n"));
        desk.press(Key::Print).unwrap();
        assert_eq!((edges(&desk)[0].as_str(), said(&desk).starts_with("MORE: 1 line. ")), ("LINE 0", true));
        desk.press(NEXT).unwrap();
        assert_eq!((edges(&desk), said(&desk)), (["LINE 1".into(), String::new()], String::new()));
    }

    #[test]
    fn an_empty_text_makes_no_call() {
        let mut desk = desk(80, b"");
        assert_eq!((calls(&mut desk, Key::Print), desk.listing.waits(), desk.screen.serial()), (0, false, 0));
    }

    #[test]
    fn esc_drops_the_rest_and_deletes_nothing() {
        let mut desk = desk(80, &lines(60, "\r\n"));
        desk.press(Key::Print).unwrap();
        let before = desk.screen.clone();
        assert_eq!((calls(&mut desk, Key::Escape), desk.listing.waits()), (0, false));
        assert!(desk.screen == before);
        desk.press(NEXT).unwrap();
        assert_eq!(edges(&desk), ["LINE 0", "LINE 23X"], "then keys type again");
        assert_eq!(calls(&mut desk, Key::Escape), 1);
        assert_eq!(edges(&desk)[1], "", "and Esc deletes the line");
        desk.press(Key::Print).unwrap();
        assert_eq!(edges(&desk), ["LINE 0", "LINE 23"], "and it begins anew");
    }

    #[test]
    fn without_the_key_strip_a_page_has_a_row_more() {
        let mut desk = desk(40, &lines(60, "\r\n"));
        desk.press(Key::Strip).unwrap();
        desk.press(Key::Print).unwrap();
        assert_eq!(edges(&desk), ["LINE 0", "LINE 24"]);
        desk.press(Key::Strip).unwrap();
        assert_eq!((edges(&desk), desk.screen.keys_visible()), (["LINE 24", "LINE 48"].map(String::from), false), "that key goes on too");
    }

    #[test]
    fn line_ends_of_every_kind() {
        let pages = |end: &str| {
            let mut desk = desk(40, &lines(60, end));
            desk.press(Key::Print).unwrap();
            desk.press(NEXT).unwrap();
            (cells(&desk.screen), said(&desk))
        };
        assert!(pages("\n") == pages("\r\n") && pages("\r") == pages("\n"));
        let lines = [(&b"A\r\nB\nC\rD"[..], 4), (b"\nA\n", 1), (b"\r\nA", 1), (b"\rA\r\r", 2), (b"\n\n\n", 2), (b"\r\n", 1), (b"A", 1)];
        lines.iter().for_each(|(rest, count)| assert_eq!(lines_of(rest), *count, "{rest:?}"));
    }

    #[test]
    fn a_line_of_many_rows() {
        let text: Vec<u8> = (0..60 * 40).map(|n| b'0' + (n / 40) as u8).collect();
        let mut desk = desk(40, &text);
        let whole = at_once(desk.screen.clone(), &text);
        let all = |n: u8, count: usize| glyphs::string(&vec![b'0' + n; count]);
        desk.press(Key::Print).unwrap();
        assert_eq!(edges(&desk), [all(0, 40), all(23, 39)], "the last character of the last row would scroll it");
        assert!(said(&desk).starts_with("MORE: 1 line. "));
        desk.press(NEXT).unwrap();
        assert_eq!(edges(&desk), [all(23, 40), all(46, 39)]);
        desk.press(NEXT).unwrap();
        assert_eq!((left(&desk.screen), desk.listing.waits()), (left(&whole), false));
    }

    #[test]
    fn a_page_of_more_bytes_than_a_call_takes() {
        // Ignored bytes so that cuts fall between lines, into one, and between 13 and 10; the first page has 240,000 of them.
        let line = [&b"ROW"[..], &[7; 10_000], b"\r\n"].concat();
        for shift in [0, 1, 2, 3, 5_500] {
            let text = [&vec![1; shift][..], &line.repeat(60)].concat();
            for row in [0, 23] {
                let mut desk = desk(80, &text);
                desk.screen.set_cursor(row, 0).unwrap();
                let whole = at_once(desk.screen.clone(), &text);
                assert!((4..=5).contains(&calls(&mut desk, Key::Print)));
                assert_eq!((edges(&desk), said(&desk).starts_with("MORE: 36 lines. ")), (["ROW"; 2].map(String::from), true));
                assert!((4..=5).contains(&calls(&mut desk, NEXT)) && said(&desk).starts_with("MORE: 13 lines. "));
                desk.press(NEXT).unwrap();
                assert_eq!((left(&desk.screen), desk.listing.waits()), (left(&whole), false));
            }
        }
        let mut desk = desk(80, &[&vec![7; 300_000][..], b"LAST"].concat());
        assert_eq!((calls(&mut desk, Key::Print), edges(&desk)[0].as_str()), (5, "LAST"), "bytes that are ignored make no page");
    }

    #[test]
    fn where_fewer_rows_are_in_sight_a_page_is_shorter() {
        for (width, in_sight, start, end) in [(40, 19, 0, "\r\n"), (80, 12, 3, "\n"), (80, 19, 23, "\r\n"), (40, 18, 10, "\r")] {
            let text = lines(70, end);
            let mut desk = desk(width, &text);
            desk.in_sight = in_sight;
            desk.screen.set_cursor(start, 0).unwrap();
            let (whole, mut first) = (at_once(desk.screen.clone(), &text), 0);
            desk.press(Key::Print).unwrap();
            while desk.listing.waits() {
                let at = desk.screen.cursor().0;
                let page = [at + 1 - in_sight, at].map(|at| row(&desk.screen, at));
                assert_eq!(page, [first, first + in_sight - 1].map(|n| format!("LINE {n}")), "all that is new is in sight");
                first += in_sight - 1;
                desk.press(NEXT).unwrap();
            }
            assert_eq!(left(&desk.screen), left(&whole));
        }
    }

    #[test]
    fn a_terminal_without_rows_does_not_keep_it_from_its_end() {
        let mut desk = desk(40, &lines(60, "\r\n"));
        desk.in_sight = 0;
        let keys = (0..).take_while(|_| calls(&mut desk, Key::Print) > 0 && desk.listing.waits());
        assert_eq!(keys.count(), 59, "each of 60 keys goes a row on");
    }

    #[test]
    fn on_a_spent_serial_nothing_waits() {
        let mut desk = desk(40, &lines(60, "\r\n"));
        desk.screen = screen(1, u32::MAX - 1);
        desk.press(Key::Print).unwrap();
        assert!(desk.listing.waits() && desk.press(NEXT).is_err());
        assert!(!desk.listing.waits());
    }

    #[test]
    fn what_is_said_has_room_in_the_smallest_terminal() {
        // Beside the mark of hidden rows; no text has more lines than bytes.
        let waiting = Some(Waiting { from: 0, lines: LONGEST as usize });
        let listing = Listing { text: Text::wards(), waiting };
        assert!(listing.told().unwrap().0.len() + 2 + "▼ 12 rows below".chars().count() <= 80);
    }

    #[test]
    fn files() {
        let told = |file: &str| Text::of_file(file).map(|text| text.0.to_vec());
        assert!(told("no-such-file").unwrap_err().starts_with("no-such-file: No such file"));
        assert!(told("/dev/zero").unwrap_err().starts_with("/dev/zero: it has more than 16777216 bytes"));
        assert_eq!(told("/dev/null"), Ok(Vec::new()));
    }
}
