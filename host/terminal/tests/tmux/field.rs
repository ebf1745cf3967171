//! Short answer fields: what is typed into one, what is told when it is full, and what the mirror shows of it.
use crate::pane::{Pane, Shown};
use crate::sizes::{two, Person, Watched, GOOD_LINE, SIZES, USUAL};
use futonrobin::Shown as _;
use terminal::desk::{Desk, Paper};
use terminal::field::Field;
use terminal::keys::Key;
use terminal::listing::Text;

const FULL: &str = "FIELD FULL: 5 characters";
const AT_END: &str = "END OF THE FIELD: 5 characters";
const JOINING: &str = "Ctrl-Enter, -J: off in a field";

/// A desk of this width with a field of 5 characters.
fn desk(width: u32) -> Desk {
    Desk::with(Paper { text: Text::wards(), field: Field::new(5) }, width, 1)
}

/// A candidate who types into a field, and the ends at which that is seen.
struct Answering<'a> {
    person: Person<'a>,
    ends: Vec<Watched<'a>>,
}

impl Answering<'_> {
    /// At each end stands what the screen has, with this in its first row; and at the candidate's this is told of the last key, or nothing.
    fn stands(&self, line: &str, told: &str) {
        for end in &self.ends {
            assert_eq!(end.wait_for_all_of(&self.person.desk.screen).rows[0], line);
        }
        let said = self.person.desk.field_says().map_or(String::new(), |(said, _)| said);
        assert_eq!(said, told, "at the test's own desk");
        self.person.pane.wait(&format!("'{told}', and nothing else of the field"), |shown| {
            [FULL, AT_END, JOINING].iter().all(|&said| shown.has(said) == (said == told)) && shown.has("1LIST")
        });
    }

    fn answers(&mut self) {
        self.person.types("WARD7");
        self.stands("WARD7", "");
        self.person.types("!");
        self.stands("WARD7", FULL);
        self.person.presses("Left", Key::Left);
        self.stands("WARD7", "");
        self.person.types("8");
        self.stands("WARD8", "");
        self.person.types("9");
        self.stands("WARD8", FULL);
        // Not by insert either, nor by the spaces of Tab.
        (0..3).for_each(|_| self.person.presses("Left", Key::Left));
        self.person.presses("IC", Key::Insert);
        self.stands("WARD8", "");
        self.person.types("X");
        self.stands("WARD8", FULL);
        self.person.presses("C-j", Key::CtrlEnter);
        self.stands("WARD8", JOINING);
        self.person.presses("C-e", Key::CtrlEnd);
        self.stands("WA", "");
        self.person.presses("Tab", Key::Tab);
        self.stands("WA", AT_END);
        assert_eq!(self.person.desk.screen.cursor(), (0, 5));
    }

    fn submitted(&self) -> Vec<&str> {
        self.person.desk.submitted.iter().map(|line| line.text.as_str()).collect()
    }

    /// A function key whose text has no room types what has, and submits nothing; the line is a person's to submit.
    fn submits(&mut self) {
        self.person.presses("C-Home", Key::CtrlHome);
        self.person.types("A");
        self.person.presses("F5", Key::Function(5));
        self.stands("ACONT", "");
        assert_eq!(self.submitted(), ["ACONT"]);
        self.person.presses("F10", Key::Function(10));
        self.stands("ACONT", FULL);
        self.person.presses("Enter", Key::Enter);
        self.stands("ACONT", "");
        assert_eq!(self.submitted(), ["ACONT", "SCREE"]);
    }
}

#[test]
fn a_field_at_both_ends() {
    for (cols, rows) in SIZES.into_iter().take(2) {
        let (candidate, invigilator) = two(&format!("field-{cols}"), (cols, rows), "--field 5");
        let ends = [&candidate, &invigilator].map(|pane| Watched { pane, left: 0 }).into();
        let mut answering = Answering { person: Person { pane: &candidate, desk: desk(80) }, ends };
        candidate.wait_for("room for 5 of 5");
        answering.answers();
        answering.submits();
        let calls = answering.person.desk.screen.serial();
        invigilator.wait_for(&format!("shows call {calls} of {calls}"));
        // Who was not told of the field counts by the line.
        invigilator.wait_for("room for 255");
        candidate.press("C-p");
        candidate.wait("the field, and what was submitted", |shown| {
            shown.has("A field of 5 characters: no more is typed into a line, Ctrl-Enter is off.") && shown.has("submitted 2, cut: SCREE")
        });
        candidate.press("x C-g");
        candidate.wait_for("Ctrl-Enter, -J off in a field");
        candidate.press("x");
        candidate.leave();
    }
}

#[test]
fn an_invigilator_who_knows_of_the_field_counts_by_it() {
    let invigilator = Pane::over_udp("field-known", USUAL.0, USUAL.1, "invigilator --listen 127.0.0.1:0 --field 5");
    let port = crate::two_terminals::port_of(&invigilator);
    let candidate = Pane::over_udp("field-knows", USUAL.0, USUAL.1, &format!("candidate --to 127.0.0.1:{port} --field 5"));
    candidate.wait_for("1LIST");
    candidate.write("BED");
    invigilator.wait_for("shows call 3 of 3  room for 2 of 5");
}

#[test]
fn a_field_in_the_demo() {
    for (cols, rows, width) in [(81, 30, 40), (170, 40, 80)] {
        let pane = Pane::screens(&format!("field-demo-{cols}"), cols, rows, &format!("{GOOD_LINE} --width {width} --field 5"));
        pane.wait_for("1LIST");
        let mut answering = Answering { person: Person { pane: &pane, desk: desk(width) }, ends: vec![Watched { pane: &pane, left: 0 }] };
        answering.answers();
        answering.submits();
        let both = |shown: &Shown, line: &str| [0, width as usize + 1].iter().all(|&left| shown.rows(1, left, width as usize)[0] == line);
        pane.wait("the same on both halves, and LEVEL", |shown| both(shown, "ACONT") && shown.has("LEVEL, "));
        // The next sitting has the field too, and there is room in it at both halves.
        pane.press("C-n");
        pane.wait("an empty screen at both", |shown| {
            shown.has("INVIGILATOR  sitting 2")
                && both(shown, "")
                && shown.lines.iter().map(|line| line.matches("room for 5 of 5").count()).sum::<usize>() == 2
        });
        pane.write("WARD78");
        pane.wait(FULL, |shown| both(shown, "WARD7") && shown.has(FULL));
        // It is told at the candidate's half.
        let told = pane.wait_for(FULL);
        assert!(told.lines.iter().any(|line| line.starts_with(FULL)));
    }
}

#[test]
fn a_field_in_the_demo_of_the_usual_terminal() {
    let pane = Pane::screens("field-usual", USUAL.0, USUAL.1, &format!("{GOOD_LINE} --field 5"));
    pane.wait_for("1LIST");
    let mut answering = Answering { person: Person { pane: &pane, desk: desk(80) }, ends: vec![Watched { pane: &pane, left: 0 }] };
    answering.answers();
    pane.press("C-t");
    pane.wait("the mirror, and nothing of the last key", |shown| {
        shown.lines[0].starts_with("INVIGILATOR") && shown.has("LEVEL, ") && shown.has("room for 0 of 5") && !shown.has(AT_END)
    });
    answering.person.presses("Home", Key::Home);
    answering.person.types("TO");
    answering.stands("TOWA", "");
    answering.person.types(" 9");
    answering.stands("TO WA", FULL);
    assert!(pane.shown().lines[0].starts_with("CANDIDATE"));
}

#[test]
fn a_longer_text_is_pasted_into_a_field_and_a_longer_line_typed_over() {
    let (candidate, invigilator) = two("field-pasted", USUAL, "--width 40 --field 5");
    let ends = [&candidate, &invigilator].map(|pane| Watched { pane, left: 0 }).into();
    let mut answering = Answering { person: Person { pane: &candidate, desk: desk(40) }, ends };
    answering.person.desk.in_sight = 19;
    answering.person.types(&"WARD 7, BED 12; ".repeat(20));
    answering.stands("WARD", AT_END);
    // The list is longer than the field: it is printed, and typed over, and takes nothing more.
    answering.person.presses("C-Home", Key::CtrlHome);
    answering.person.presses("C-f", Key::Print);
    answering.person.presses("Escape", Key::Escape);
    let wards = include_str!("../../data/wards.txt").lines().collect::<Vec<_>>();
    answering.stands(wards[0], "");
    answering.person.presses("Home", Key::Home);
    answering.person.types("NIGHT LIST");
    answering.stands(&format!("NIGHT LIST{}", &wards[0][10..]), "");
    answering.person.presses("End", Key::End);
    answering.person.types(".");
    answering.stands(&format!("NIGHT LIST{}", &wards[0][10..]), FULL);
}
