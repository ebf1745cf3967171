//! A long text that is printed a screen at a time: the ward list that comes with the programs, and texts of files.
use crate::folder::Folder;
use crate::pane::{Pane, Shown};
use crate::sizes::{two, Person, Watched, GOOD_LINE, SIZES, USUAL};
use futonrobin::Shown as _;
use std::fs;
use terminal::desk::Desk;
use terminal::keys::Key;
use terminal::listing::Text;

fn wards() -> Vec<&'static str> {
    include_str!("../../data/wards.txt").lines().collect()
}

/// What is told while so many lines wait.
fn more(lines: usize) -> String {
    format!("MORE: {lines} lines. Any key: next screen, Esc: drops the rest")
}

/// So many editable rows are in sight in a terminal of so many rows, of which so many are not the screen's.
fn in_sight(rows: usize, others: usize) -> u32 {
    (rows - others).min(24) as u32
}

/// Waits until a pane tells nothing of a text that waits, and answers what it shows then.
fn wait_for_none(pane: &Pane) -> Shown {
    pane.wait("nothing that waits", |shown| !shown.has("MORE: ") && shown.has("1LIST"))
}

/// Two ends at which the ward list is read, page by page.
struct Reading<'a> {
    person: Person<'a>,
    ends: Vec<Watched<'a>>,
    /// The first row of the list that is on the page.
    from: usize,
}

impl Reading<'_> {
    /// The page that begins with that row is at both ends as the screen has it, row by row, and at the candidate's it is all in sight.
    fn is_seen(&self) {
        let (wards, height) = (wards(), self.person.desk.in_sight as usize);
        let page = &wards[self.from..(self.from + height).min(wards.len())];
        let seen: Vec<_> = self.ends.iter().map(|end| end.wait_for_all_of(&self.person.desk.screen)).collect();
        let rows = &seen[0].rows;
        assert!(rows.windows(page.len()).any(|rows| rows == page), "{page:?} is not in {rows:?}");
        let left = wards.len() - self.from - page.len();
        if self.person.desk.listing.waits() {
            self.person.pane.wait_for(&more(left));
        } else {
            wait_for_none(self.person.pane);
        }
    }

    fn goes_on(&mut self, name: &str, key: Key) {
        self.person.presses(name, key);
        self.from += self.person.desk.in_sight as usize - 1;
        self.is_seen();
    }
}

#[test]
fn the_ward_list_at_both_ends() {
    for (at, (cols, rows)) in SIZES.into_iter().take(3).enumerate() {
        let (candidate, invigilator) = two(&format!("list-{cols}"), (cols, rows), "");
        let mut person = Person { pane: &candidate, desk: Desk::new(80, 1) };
        person.desk.in_sight = in_sight(rows, 5);
        let ends = [&candidate, &invigilator].map(|pane| Watched { pane, left: 0 }).into();
        // From another row in each size.
        for _ in 0..at * 11 {
            person.types("BED");
            person.presses("C-c", Key::Break);
        }
        person.presses("C-f", Key::Print);
        let mut reading = Reading { person, ends, from: 0 };
        reading.is_seen();
        reading.goes_on("x", Key::Char(b'x'));
        // What is pressed is not typed, whatever it is; and the same key goes on as well.
        reading.goes_on(["C-f", "F2", "NPage"][at], Key::Print);
        while reading.person.desk.listing.waits() {
            reading.goes_on("Enter", Key::Enter);
        }
        let mut person = reading.person;
        person.types("TYPED AGAIN");
        reading.ends.iter().for_each(|end| drop(end.wait_for_all_of(&person.desk.screen)));
        let calls = person.desk.screen.serial();
        invigilator.wait_for(&format!("shows call {calls} of {calls}"));
        candidate.leave();
    }
}

#[test]
fn esc_drops_the_rest_and_deletes_nothing() {
    let (candidate, invigilator) = two("dropped", USUAL, "--width 40");
    let mut person = Person { pane: &candidate, desk: Desk::new(40, 1) };
    person.desk.in_sight = in_sight(USUAL.1, 5);
    let ends = [&candidate, &invigilator].map(|pane| Watched { pane, left: 0 });
    person.presses("C-f", Key::Print);
    candidate.wait_for(&more(wards().len() - 19));
    person.presses("Escape", Key::Escape);
    wait_for_none(&candidate);
    ends.iter().for_each(|end| assert!(end.wait_for_all_of(&person.desk.screen).rows[0] == wards()[0]));
    person.types(" TYPED");
    ends.iter().for_each(|end| drop(end.wait_for_all_of(&person.desk.screen)));
    person.presses("Escape", Key::Escape);
    let seen = ends.each_ref().map(|end| end.wait_for_all_of(&person.desk.screen));
    assert!(seen.iter().all(|seen| seen.rows.iter().all(|row| !row.contains("TYPED"))), "then it deletes the line");
}

#[test]
fn other_keys_while_it_waits() {
    let (candidate, invigilator) = two("meanwhile", USUAL, "");
    let waits = |pane: &Pane| pane.wait("the first screen, and that it waits", |shown| shown.has(wards()[0]) && shown.has(&more(49)));
    candidate.press("C-f");
    waits(&candidate);
    invigilator.wait_for("shows call 1 of 1");
    candidate.press("C-g");
    candidate.wait_for("Any key goes back.");
    candidate.press("x");
    waits(&candidate);
    candidate.press("C-p");
    candidate.wait_for("NOTHING SUBMITTED YET");
    candidate.press("NPage x");
    waits(&candidate);
    candidate.press("C-q");
    candidate.wait("a question in its place", |shown| shown.has("Ctrl-Q again: yes, else: no") && !shown.has("MORE: "));
    candidate.press("Escape");
    candidate.wait("that the other key drops the rest", |shown| {
        shown.has(wards()[0]) && shown.has(wards()[18]) && !shown.has("Ctrl-Q again") && !shown.has("MORE: ") && shown.has("call 1 of 1")
    });
    candidate.write("!");
    invigilator.wait("what is typed then", |shown| shown.has("shows call 2 of 2") && shown.has(&format!("{}!", wards()[18])));
}

#[test]
fn the_demo_shows_each_page_on_both_halves() {
    for (cols, rows, width) in [(81, 30, 40), (170, 40, 80)] {
        let pane = Pane::screens(&format!("list-demo-{cols}"), cols, rows, &format!("{GOOD_LINE} --width {width}"));
        pane.wait_for("1LIST");
        let mut person = Person { pane: &pane, desk: Desk::new(width, 1) };
        person.desk.in_sight = in_sight(rows, 6);
        let mut reading = Reading { person, ends: vec![Watched { pane: &pane, left: 0 }], from: 0 };
        let mirror = |reading: &Reading| {
            pane.wait("the same on both halves, and LEVEL", |shown| {
                let half = |left: usize| shown.rows(1, left, width as usize);
                shown.has("LEVEL, ") && half(0) == half(width as usize + 1) && half(0)[0] == wards()[reading.from]
            })
        };
        reading.person.presses("C-f", Key::Print);
        reading.is_seen();
        mirror(&reading);
        // The keys of the line and of the mirror do what they do, and turn no page.
        pane.press("C-x");
        pane.wait_for("SILENT for ");
        reading.is_seen();
        pane.press("PPage NPage C-t C-x");
        mirror(&reading);
        reading.is_seen();
        reading.goes_on("x", Key::Char(b'x'));
        mirror(&reading);
        // A restart drops what waits; the list is there in the next sitting.
        pane.press("C-n");
        let empty =
            |shown: &Shown| shown.has("INVIGILATOR  sitting 2") && shown.rows(1, 0, width as usize)[..24].iter().all(String::is_empty);
        pane.wait("an empty screen on which nothing waits", |shown| empty(shown) && !shown.has("MORE: "));
        pane.press("C-f");
        pane.wait_for(&more(44));
    }
}

#[test]
fn the_demo_in_the_usual_terminal_tells_it_on_both_halves() {
    let pane = Pane::screens("list-usual", USUAL.0, USUAL.1, GOOD_LINE);
    pane.wait_for("1LIST");
    let mut person = Person { pane: &pane, desk: Desk::new(80, 1) };
    person.desk.in_sight = in_sight(USUAL.1, 6);
    person.presses("C-f", Key::Print);
    let mut reading = Reading { person, ends: vec![Watched { pane: &pane, left: 0 }], from: 0 };
    reading.is_seen();
    pane.press("C-t");
    pane.wait("the mirror, and that it waits", |shown| {
        shown.lines[0].starts_with("INVIGILATOR") && shown.has(&more(50)) && shown.has("LEVEL, ")
    });
    reading.is_seen();
    reading.goes_on("x", Key::Char(b'x'));
    pane.wait("that the key led to the screen that it changes", |shown| shown.lines[0].starts_with("CANDIDATE"));
}

/// A file with this text, and a desk of this width that has printed it at the start.
fn file(folder: &Folder, text: &str, width: u32, in_sight: u32) -> (String, Desk) {
    let file = folder.0.join("text").display().to_string();
    fs::write(&file, text).unwrap();
    let mut desk = Desk::with(Text::of_file(&file).unwrap().into(), width, 1);
    desk.in_sight = in_sight;
    desk.press(Key::Print).unwrap();
    (file, desk)
}

#[test]
fn the_text_of_a_file_is_printed_at_the_start() {
    let folder = Folder::new("text-of-a-file");
    let long = (0..40).map(|n| format!("{n} {}\n", "bed ".repeat(n))).collect::<String>();
    let (name, desk) = file(&folder, &long, 40, 24);
    let (candidate, invigilator) = two("of-a-file", SIZES[1], &format!("--width 40 --print {name}"));
    let ends = [&candidate, &invigilator].map(|pane| Watched { pane, left: 0 });
    let mut person = Person { pane: &candidate, desk };
    let mut pages = 0;
    loop {
        ends.iter().for_each(|end| drop(end.wait_for_all_of(&person.desk.screen)));
        let told = person.desk.listing.told();
        match &told {
            Some((told, _)) => drop(candidate.wait_for(told)),
            None if pages > 5 => break,
            // And again, from where the cursor is now.
            None => {}
        }
        person.presses("C-f", Key::Print);
        pages += 1;
    }
    // One that fits is there at once, and one that is empty prints nothing.
    let (name, desk) = file(&folder, "WARD 7\r\nBED 12", 40, 24);
    let pane = Pane::screens("short-file", 81, 30, &format!("{GOOD_LINE} --print {name}"));
    Watched { pane: &pane, left: 0 }.wait_for_all_of(&desk.screen);
    wait_for_none(&pane);
    pane.press("C-q");
    pane.wait_for_end();
    let (name, _) = file(&folder, "", 40, 24);
    let pane = Pane::screens("empty-file", 81, 30, &format!("{GOOD_LINE} --print {name}"));
    pane.wait_for("sitting 1  call 0");
    pane.press("C-f x");
    pane.wait("the one call of the second key", |shown| shown.has("sitting 1  call 1") && shown.rows(1, 0, 40)[0] == "x");
}
