//! What is shown in terminals of several sizes, compared with the screen's cells.
use crate::pane::{Pane, Shown};
use crate::two_terminals::port_of;
use futonrobin::{Screen, Shown as _};
use terminal::desk::Desk;
use terminal::glyphs::{self, glyph};
use terminal::keys::Key;

/// The usual one; both halves at 40 columns; large ones, the last with both halves at 80 columns.
pub const SIZES: [(usize, usize); 4] = [(80, 24), (81, 30), (120, 40), (170, 40)];
pub const USUAL: (usize, usize) = SIZES[0];
pub const GOOD_LINE: &str = "--loss 0 --repeat 0 --reorder 0 --seed 1";

/// A program in a terminal, and the screen that it should show.
pub struct Watched<'a> {
    pub pane: &'a Pane,
    /// The column in which it begins.
    pub left: usize,
}

/// The rows of a screen that are in sight, and how many are not.
pub struct Seen {
    pub above: usize,
    pub rows: Vec<String>,
    below: usize,
}

impl Watched<'_> {
    /// The screen's part of the terminal, if all of it is there: a title, rows, the key strip, and what stands under it.
    fn seen(&self, shown: &Shown, width: usize) -> Option<Seen> {
        let cut = |line: &String| line.chars().skip(self.left).take(width).collect::<String>().trim_end().to_string();
        let strip = shown.lines.iter().position(|line| cut(line).starts_with("1LIST"))?;
        let hidden = |row: usize, arrow: char| -> usize {
            let mark = shown.lines[row].chars().skip(self.left).skip_while(|c| *c != arrow);
            mark.skip(2).take_while(char::is_ascii_digit).collect::<String>().parse().unwrap_or(0)
        };
        Some(Seen { above: hidden(0, '▲'), rows: shown.lines[1..strip].iter().map(cut).collect(), below: hidden(strip + 1, '▼') })
    }

    /// Waits until what is in sight is what the screen has, row by row, marks and strip with it, and the cursor's row is among it.
    fn wait_for_rows_of(&self, screen: &Screen) -> Seen {
        self.pane.wait_to_find(&format!("the rows of {screen:?}"), |shown| self.right(shown, screen))
    }

    fn right(&self, shown: &Shown, screen: &Screen) -> Option<Seen> {
        let seen = self.seen(shown, screen.width() as usize)?;
        let in_sight = seen.above..seen.above + seen.rows.len();
        let same = in_sight.clone().zip(&seen.rows).all(|(row, seen)| row < 24 && row_of(screen, row as u32) == *seen);
        (same && in_sight.end + seen.below == 24 && in_sight.contains(&(screen.cursor().0 as usize))).then_some(seen)
    }

    /// The same, and the terminal's cursor at the screen's.
    pub fn wait_for_all_of(&self, screen: &Screen) -> Seen {
        let (row, col) = screen.cursor();
        let at = |seen: &Seen| Some((1 + row as usize - seen.above, self.left + col as usize));
        let right = |shown: &Shown| self.right(shown, screen).filter(|seen| self.pane.cursor() == at(seen));
        self.pane.wait_to_find(&format!("all of {screen:?}"), right)
    }
}

fn row_of(screen: &Screen, row: u32) -> String {
    let cells = (0..screen.width()).map(|col| glyph(screen.cell(row, col).unwrap().ch));
    cells.collect::<String>().trim_end().into()
}

/// A person at a terminal: each key is pressed there, and at a desk of the test's own.
pub struct Person<'a> {
    pub pane: &'a Pane,
    pub desk: Desk,
}

impl Person<'_> {
    pub fn types(&mut self, text: &str) {
        self.pane.write(text);
        text.chars().for_each(|c| drop(self.desk.press(Key::Char(glyphs::byte(c).unwrap())).unwrap()));
    }

    pub fn presses(&mut self, name: &str, key: Key) {
        self.pane.press(name);
        self.desk.press(key).unwrap();
    }

    /// Every row of the screen is filled, each up to another column, and row 3 goes on in row 4.
    fn fills_the_screen(&mut self) {
        let width = self.desk.screen.width() as usize;
        for row in 0..24 {
            self.types(&format!("{row:02} {}", "bed ward ".repeat(9))[..width - 1 - row]);
            match row {
                23 => {}
                3 => self.presses("C-j", Key::CtrlEnter),
                _ => self.presses("C-c", Key::Break),
            }
        }
    }
}

/// The two programs, each in a terminal of this size.
pub fn two(name: &str, (cols, rows): (usize, usize), words: &str) -> (Pane, Pane) {
    let invigilator = Pane::over_udp(&format!("{name}-invigilator"), cols, rows, "invigilator --listen 127.0.0.1:0");
    let to = format!("candidate --to 127.0.0.1:{} {words}", port_of(&invigilator));
    let candidate = Pane::over_udp(&format!("{name}-candidate"), cols, rows, &to);
    candidate.wait_for("1LIST");
    (candidate, invigilator)
}

#[test]
fn in_the_usual_terminal_each_row_is_seen_while_the_cursor_walks() {
    let (candidate, invigilator) = two("walk", USUAL, "");
    let mut person = Person { pane: &candidate, desk: Desk::new(80, 1) };
    person.fills_the_screen();
    let both = [&candidate, &invigilator].map(|pane| Watched { pane, left: 0 });
    person.presses("Home", Key::Home);
    let steps = [("Down", Key::Down), ("Up", Key::Up)].into_iter().flat_map(|step| [step; 23]);
    for (at, (name, key)) in steps.enumerate() {
        let seen = both.each_ref().map(|watched| watched.wait_for_all_of(&person.desk.screen));
        for seen in seen {
            assert_eq!(seen.rows.len(), 19);
            // The window moves no further than it must.
            let top = if at < 23 { at.saturating_sub(18) } else { (46 - at).min(5) };
            assert_eq!(seen.above, top, "after {at} steps");
        }
        person.presses(name, key);
    }
    both.iter().for_each(|watched| drop(watched.wait_for_all_of(&person.desk.screen)));
}

#[test]
fn the_demo_in_the_usual_terminal_shows_each_half() {
    let pane = Pane::screens("demo-usual", USUAL.0, USUAL.1, GOOD_LINE);
    let shown = pane.wait_for("1LIST");
    assert!(shown.lines[0].starts_with("CANDIDATE") && !shown.has("INVIGILATOR"));
    let mut person = Person { pane: &pane, desk: Desk::new(80, 1) };
    person.fills_the_screen();
    person.presses("Home", Key::Home);
    let watched = Watched { pane: &pane, left: 0 };
    for _ in 0..23 {
        assert_eq!(watched.wait_for_all_of(&person.desk.screen).rows.len(), 18);
        pane.press("C-t");
        pane.wait("the mirror, LEVEL", |shown| shown.lines[0].starts_with("INVIGILATOR") && shown.has("LEVEL, "));
        watched.wait_for_all_of(&person.desk.screen);
        pane.press("C-t");
        pane.wait("the candidate", |shown| shown.lines[0].starts_with("CANDIDATE"));
        person.presses("Down", Key::Down);
    }
    watched.wait_for_all_of(&person.desk.screen);
}

#[test]
fn larger_terminals_show_every_row_at_once() {
    for (name, size) in ["81", "120", "170"].into_iter().zip(&SIZES[1..]) {
        for width in [40, 80] {
            let (candidate, invigilator) = two(&format!("whole-{name}-{width}"), *size, &format!("--width {width}"));
            let mut person = Person { pane: &candidate, desk: Desk::new(width, 1) };
            person.fills_the_screen();
            for pane in [&candidate, &invigilator] {
                assert_eq!(Watched { pane, left: 0 }.wait_for_all_of(&person.desk.screen).rows.len(), 24);
                let edge = |line: &String| line.chars().nth(width as usize) == Some('│');
                pane.wait("an edge", |shown| shown.lines[1..26].iter().all(edge));
            }
        }
    }
}

#[test]
fn both_halves_where_there_is_room() {
    for (name, cols, rows, words, width) in [
        ("both-81", 81, 30, "", 40),
        ("both-120", 120, 40, "", 40),
        ("both-161", 161, 30, "", 80),
        ("both-170", 170, 40, "", 80),
        ("both-low", 170, 24, "--width 40", 40),
    ] {
        let pane = Pane::screens(name, cols, rows, &format!("{GOOD_LINE} {words}"));
        pane.wait("both halves", |shown| shown.lines[0].starts_with("CANDIDATE") && shown.lines[0].contains("INVIGILATOR"));
        let mut person = Person { pane: &pane, desk: Desk::new(width, 1) };
        person.fills_the_screen();
        let (left, right) = (Watched { pane: &pane, left: 0 }, Watched { pane: &pane, left: width as usize + 1 });
        let seen = [left.wait_for_all_of(&person.desk.screen), right.wait_for_rows_of(&person.desk.screen)];
        assert!(seen.iter().all(|seen| seen.rows.len() == 24.min(rows - 6)), "{name}");
    }
}

#[test]
fn a_screen_of_40_columns_has_an_edge_in_the_usual_terminal() {
    let (candidate, invigilator) = two("edge", USUAL, "--width 40");
    let mut person = Person { pane: &candidate, desk: Desk::new(40, 1) };
    person.types("WARD 7");
    for pane in [&candidate, &invigilator] {
        let edge = |line: &String| line.chars().nth(40) == Some('│');
        pane.wait("what is typed, and an edge", |shown| shown.lines[1].starts_with("WARD 7") && shown.lines[1..21].iter().all(edge));
    }
}

#[test]
fn resizing_at_any_moment_keeps_everything() {
    let (candidate, invigilator) = two("resized", USUAL, "");
    let demo = Pane::screens("resized-demo", 170, 40, GOOD_LINE);
    demo.wait_for("1LIST");
    let mut person = Person { pane: &candidate, desk: Desk::new(80, 1) };
    let mut at_demo = Person { pane: &demo, desk: Desk::new(80, 1) };
    for (step, (cols, rows)) in
        [(60, 10), (120, 40), (80, 18), (20, 5), (170, 40), (80, 24), (81, 30), (79, 40), (80, 24)].into_iter().enumerate()
    {
        let text = format!("STEP {step} AT {cols} BY {rows}: {}", "beds ".repeat(14));
        for person in [&mut person, &mut at_demo] {
            person.types(&text);
            person.pane.wait_for(&text[..20]);
            // While its size changes the terminal still has keys to hand over.
            person.types("BEFORE");
            person.presses("Enter", Key::Enter);
            person.pane.wait_for(&format!("submitted {}: ", step + 1));
        }
        [&candidate, &invigilator, &demo].iter().for_each(|pane| pane.resize(cols, rows));
        if cols < 80 || rows < 18 {
            let told = format!("it has {cols} columns and {rows} rows");
            for pane in [&candidate, &invigilator, &demo] {
                pane.wait(&told, |shown| shown.lines.concat().replace(' ', "").contains(&told.replace(' ', "")));
            }
            // Nobody types there; that the keys were read is known by the question after them.
            for pane in [&candidate, &demo] {
                let asked = |shown: &Shown| shown.lines.concat().replace(' ', "").contains("Ctrl-Qagain");
                pane.write("NOT TAKEN");
                pane.press("C-q");
                pane.wait("the question", asked);
                pane.press("Left");
                pane.wait("no question", |shown| !asked(shown));
            }
            [&candidate, &invigilator, &demo].iter().for_each(|pane| pane.resize(USUAL.0, USUAL.1));
        }
        for (pane, desk) in [(&candidate, &person.desk), (&invigilator, &person.desk), (&demo, &at_demo.desk)] {
            Watched { pane, left: 0 }.wait_for_all_of(&desk.screen);
        }
    }
    candidate.press("C-p");
    candidate.wait_for("9 LINES SUBMITTED");
}

#[test]
fn what_covers_a_screen_or_moved_its_window_stays_when_the_size_changes() {
    let (candidate, invigilator) = two("covered", USUAL, "");
    let mut person = Person { pane: &candidate, desk: Desk::new(80, 1) };
    person.fills_the_screen();
    // Too small, larger, and as it was.
    let around = |pane: &Pane, what: &str| {
        for (cols, rows) in [(60, 10), (170, 40), (80, 18), USUAL] {
            pane.resize(cols, rows);
            pane.wait("the new size", |shown| shown.has("too small") == (cols < 80) && (cols < 80 || shown.has(what)));
        }
    };
    for (key, what) in
        [("C-g", "Any key goes back."), ("C-p", "any other key goes back"), ("C-w", "Ctrl-W again: yes"), ("C-q", "Ctrl-Q again: yes")]
    {
        candidate.press(key);
        candidate.wait_for(what);
        around(&candidate, what);
        // Under a page no key is typed.
        if what.contains("goes back") {
            candidate.press("Left");
        } else {
            person.presses("Left", Key::Left);
        }
        candidate.wait("the screen again", |shown| !shown.has(what));
        Watched { pane: &candidate, left: 0 }.wait_for_all_of(&person.desk.screen);
    }
    invigilator.wait_for("▲ 5 rows above");
    invigilator.press("Up");
    invigilator.wait_for("▲ 4 rows above");
    for rows in [17, 20, 24] {
        invigilator.resize(80, rows);
    }
    invigilator.wait("the window where it was", |shown| shown.has("▲ 4 rows above") && shown.has("Home: to the cursor"));
    invigilator.press("Home");
    Watched { pane: &invigilator, left: 0 }.wait_for_all_of(&person.desk.screen);
}
