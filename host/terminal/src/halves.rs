//! One terminal for both: the candidate's screen, the invigilator's mirror, and a simulated line between them. Side by side where there is room, else one
//! half at a time.
use crate::bad_line::{BadLine, Faults};
use crate::candidate;
use crate::canvas::{Canvas, Part, Size, PLAIN, RED};
use crate::clock::Clock;
use crate::desk::{Desk, Paper};
use crate::front::{Front, Page, HINT};
use crate::help;
use crate::keys::Key;
use crate::panel::{in_sight, Area, Painted, Panel};
use crate::span;
use crate::submitted::{self, Submitted};
use crate::terminal::{self, Input, Program, Then};
use crate::told;
use crate::view::{Alarm, View, HINT_BACK};
use crate::window::Window;
use futonrobin::Shown;
use line::{Candidate, Follower, Invigilator, SharedKey, Taken};
use std::io;
use std::net::{Ipv4Addr, SocketAddr, SocketAddrV4};
use std::time::Instant;

/// The line to begin with: bad enough to be seen.
pub const FAULTS: Faults = Faults { loss: 10, repeat: 10, reorder: 30 };
const PERCENTAGES: [u32; 5] = [0, 10, 30, 60, 100];
/// Under both halves there is a row for the line between them.
const LINE: usize = 1;

/// Both ends are here, and no address is needed to find the other.
const HERE: SocketAddr = SocketAddr::V4(SocketAddrV4::new(Ipv4Addr::LOCALHOST, 0));

pub struct Halves {
    width: u32,
    shared: SharedKey,
    pub desk: Desk,
    candidate: Candidate,
    pub invigilator: Invigilator,
    /// From the candidate to the invigilator, and back.
    pub there: BadLine,
    pub back: BadLine,
    view: View,
    alarm: Alarm,
    front: Front,
    /// Of the candidate's screen, and of the mirror.
    windows: [Window; 2],
    words: span::Words,
    /// Where there is no room for both halves, the mirror is in sight.
    mirror_in_sight: bool,
    clock: Clock,
    now: Instant,
}

/// Presses these keys at the start.
pub fn in_terminal(width: u32, faults: Faults, seed: u64, paper: Paper, first: &[Key]) -> io::Result<()> {
    let (mut halves, size) = (Halves::new(width, faults, seed, Instant::now()).with(paper), terminal::size()?);
    let full = halves.full();
    halves.arrive(full);
    first.iter().for_each(|&key| halves.press_in(key, size));
    terminal::run(&mut halves)
}

impl Halves {
    /// Both ends before anything was sent, the candidate in sitting 1.
    pub fn new(width: u32, faults: Faults, seed: u64, now: Instant) -> Self {
        let (shared, desk) = (SharedKey::draw(), Desk::new(width, 1));
        let (candidate, invigilator) = (Candidate::new(&shared, &desk.screen, now), Invigilator::new(&shared));
        let (there, back) = (BadLine::new(faults, seed), BadLine::new(faults, !seed));
        let (view, alarm, front, windows) = (View::default(), Alarm::default(), Front::of_field(desk.field), Default::default());
        let (clock, words, mirror_in_sight) = (Clock::new(), span::Words::default(), false);
        Self { width, shared, desk, candidate, invigilator, there, back, view, alarm, front, windows, words, mirror_in_sight, clock, now }
    }

    /// With this on the candidate's desk; the field is known at the mirror too.
    pub fn with(self, paper: Paper) -> Self {
        let (words, view) = (span::Words::of_field(paper.field), View::of_field(paper.field));
        let desk = Desk::with(paper, self.width, self.desk.screen.sitting());
        Self { front: Front::of_field(desk.field), desk, words, view, ..self }
    }

    pub fn follower(&self) -> &Follower {
        &self.invigilator.follower
    }

    /// The candidate's terminal restarts: a new screen in the next sitting, and a full report first; what arrives now. What the line holds back
    /// of the screen before may still come. A text that waits for a key does so no more.
    pub fn restart(&mut self) -> Vec<Vec<u8>> {
        self.desk = Desk::with(self.desk.paper(), self.width, self.desk.screen.sitting() + 1);
        self.candidate = Candidate::new(&self.shared, &self.desk.screen, self.now);
        self.full()
    }

    /// Sends a full report; what arrives now.
    pub fn full(&mut self) -> Vec<Vec<u8>> {
        let sent = self.candidate.full(&self.desk.screen, self.now);
        self.send(sent)
    }

    fn send(&mut self, datagrams: Vec<Vec<u8>>) -> Vec<Vec<u8>> {
        datagrams.into_iter().flat_map(|datagram| self.there.send(datagram)).collect()
    }

    /// It is now this time: the invigilator may ask, the line releases what it held back, and the candidate says what is due; what arrives now.
    pub fn pass(&mut self, now: Instant) -> Vec<Vec<u8>> {
        self.now = now;
        let asked = self.invigilator.ask(now).into_iter().flat_map(|(_, question)| self.back.send(question)).collect::<Vec<_>>();
        for question in asked.into_iter().chain(self.back.release()) {
            self.candidate.receive(&question, now);
        }
        let released = self.there.release();
        let due = self.candidate.due(&self.desk.screen, now);
        released.into_iter().chain(self.send(due)).collect()
    }

    /// A key is pressed; what arrives now.
    pub fn press(&mut self, key: Key) -> Vec<Vec<u8>> {
        match self.desk.press(key) {
            Ok(reports) => {
                let sent = reports.iter().flat_map(|report| self.candidate.send(&self.desk.screen, report, self.now)).collect();
                self.send(sent)
            }
            Err(refusal) => {
                self.desk.submitted.push(Submitted::refused(refusal));
                Vec::new()
            }
        }
    }

    /// A key is pressed in a terminal of this size. Nobody types on a screen that is not shown: the key leads to it.
    fn press_in(&mut self, key: Key, size: Size) {
        self.mirror_in_sight = false;
        self.desk.in_sight = in_sight(size.rows.saturating_sub(LINE), &self.desk.screen) as u32;
        let arriving = self.press(key);
        self.arrive(arriving);
    }

    /// While a text waits, keys that would type go on with it, and such as mean nothing; those of the line and the mirror do what they do.
    fn meant(&self, input: Input) -> Input {
        match input {
            Input::Key(Key::Escape) => input,
            Input::Key(_) | Input::Unknown if self.desk.listing.waits() => Input::Key(Key::Print),
            _ => input,
        }
    }

    /// The line is changed, both ways, or the invigilator looks elsewhere.
    fn turn(&mut self, input: Input) {
        let line = &mut self.there;
        match input {
            Input::Loss => line.faults.loss = next_percentage(line.faults.loss),
            Input::Repeat => line.faults.repeat = next_percentage(line.faults.repeat),
            Input::Reorder => line.faults.reorder = next_percentage(line.faults.reorder),
            Input::Cut => line.cut = !line.cut,
            Input::Other => self.mirror_in_sight = !self.mirror_in_sight,
            Input::Back => self.view.back(&self.invigilator.follower),
            Input::Forth => self.view.forth(&self.invigilator.follower),
            _ => {}
        }
        (self.back.faults, self.back.cut) = (self.there.faults, self.there.cut);
    }

    /// A datagram of the candidate arrives.
    pub fn hear(&mut self, datagram: &[u8]) -> Taken {
        self.invigilator.receive(datagram, HERE, self.now)
    }

    fn arrive(&mut self, datagrams: Vec<Vec<u8>>) {
        for datagram in datagrams {
            self.hear(&datagram);
        }
    }

    /// The columns of each half, which is as wide as the wider one, if both have room.
    fn half(&self, size: Size) -> Option<usize> {
        let mirrored = self.view.screen(self.follower()).map_or(0, |mirror| mirror.width());
        let half = self.desk.screen.width().max(mirrored) as usize;
        (2 * half < size.cols).then_some(half)
    }

    fn paint_screens(&mut self, canvas: &mut Canvas) {
        let Size { cols, rows } = canvas.size;
        let area = |left, cols| Area { left, cols, rows: rows - LINE };
        let below = match self.half(canvas.size) {
            Some(half) => self.paint_both(canvas, area(0, half), area(half + 1, cols - half - 1)),
            None => {
                let area = area(0, cols);
                let half = if self.mirror_in_sight { self.paint_mirror(canvas, area) } else { self.paint_candidate(canvas, area) };
                canvas.cursor = half.cursor;
                half.below
            }
        };
        let lists = rows > below + LINE;
        let question = self.front.question(self.desk.other_width());
        let under = question.map_or_else(|| self.under(canvas.size, !lists), |question| vec![question]);
        canvas.text_before(below, cols, HINT, PLAIN);
        canvas.parts(below, 0..cols - HINT.len() - 2, &under);
        submitted::list(canvas, below + LINE, &self.desk.submitted);
    }

    /// Side by side; the first row under both.
    fn paint_both(&mut self, canvas: &mut Canvas, left: Area, right: Area) -> usize {
        let (candidate, mirror) = (self.paint_candidate(canvas, left), self.paint_mirror(canvas, right));
        (0..candidate.below).for_each(|row| canvas.text_to(row, left.cols..right.left, "│", PLAIN));
        canvas.cursor = candidate.cursor;
        mirror.cursor.into_iter().for_each(|(row, col)| canvas.reverse(row, col));
        candidate.below
    }

    fn paint_candidate(&mut self, canvas: &mut Canvas, area: Area) -> Painted {
        let Desk { screen, table, .. } = &self.desk;
        let status = vec![told::by(&self.candidate, screen.pair(), self.now), candidate::typing(&self.desk, &self.words)];
        let panel = Panel { title: candidate::title(screen), hint: "", shown: Some(screen), status, table };
        panel.paint(canvas, area, &mut self.windows[0])
    }

    fn paint_mirror(&mut self, canvas: &mut Canvas, area: Area) -> Painted {
        let follower = &self.invigilator.follower;
        let hint = if self.view.earlier(follower).is_some() { HINT_BACK } else { "" };
        let (title, status) = (self.view.title(follower), self.view.status(follower, self.now).into());
        let panel = Panel { title, hint, shown: self.view.screen(follower), status, table: &self.desk.table };
        panel.paint(canvas, area, &mut self.windows[1])
    }

    /// That a text waits, if one does, and the line.
    fn under(&self, size: Size, last_line: bool) -> Vec<Part> {
        self.desk.listing.told().into_iter().chain(self.line(size, last_line)).collect()
    }

    /// The key to the other half where that is not in sight, the last submitted line if it has no other row, and the line between the two.
    fn line(&self, size: Size, last_line: bool) -> Vec<Part> {
        let other = if self.mirror_in_sight { "Ctrl-T: candidate" } else { "Ctrl-T: mirror" };
        let other = self.half(size).is_none().then(|| (other.into(), PLAIN));
        let cut = self.there.cut.then(|| ("line CUT".into(), RED));
        let submitted = if last_line { submitted::in_a_row(&self.desk.submitted, size.cols / 2) } else { None };
        let (lost, held) = (self.there.lost + self.back.lost, self.there.held() + self.back.held());
        let line = [(self.there.faults.to_string(), PLAIN), (format!("lost {lost}, held back {held}"), PLAIN)];
        cut.into_iter().chain(other).chain(submitted).chain(line).collect()
    }
}

impl Program for Halves {
    fn tick(&mut self) -> io::Result<()> {
        let now = self.clock.now();
        let arriving = self.pass(now);
        self.arrive(arriving);
        Ok(())
    }

    fn front(&self) -> &Front {
        &self.front
    }

    fn paint(&mut self, canvas: &mut Canvas) {
        match self.front.page() {
            Some(Page::Help) => help::page(canvas, "THE KEYS", [&help::candidate(self.desk.field), help::DEMO]),
            Some(Page::Submitted(back)) => {
                let back = submitted::page(canvas, &self.desk.notes(), &self.desk.submitted, back);
                self.front.is_back(back);
            }
            None => self.paint_screens(canvas),
        }
    }

    fn input(&mut self, input: Input, size: Size) -> Then {
        let left = self.front.take(self.meant(input), size);
        self.desk.given(input, left, size);
        match left {
            Some(Input::Leave) => return Then::Leave,
            Some(Input::Restart) => {
                let arriving = self.restart();
                self.arrive(arriving);
            }
            Some(Input::Key(key)) => self.press_in(key, size),
            // Where both halves are in sight there is no other.
            Some(Input::Other) if self.half(size).is_some() => {}
            Some(input) => self.turn(input),
            None => {}
        }
        Then::GoOn
    }

    fn rings(&mut self) -> bool {
        self.alarm.rings(self.follower().state(self.now))
    }
}

fn next_percentage(now: u32) -> u32 {
    PERCENTAGES.into_iter().find(|&percentage| percentage > now).unwrap_or(0)
}

#[cfg(test)]
mod tests {
    use super::*;
    use crate::canvas::REVERSED;
    use crate::field::Field;
    use crate::front::NEEDED;
    use crate::glyphs::glyph;
    use crate::keys::NAMED;
    use crate::listing::Text;
    use crate::panel::{AROUND, SCREEN, STATUS};
    use crate::samples::{screen, Candidates};
    use oorandom::Rand32;
    use std::time::Duration;

    const BOTH: Size = Size { cols: 81, rows: 30 };
    const USUAL: Size = Size { cols: 80, rows: 24 };

    /// What stands in the terminal's rows.
    fn shown(halves: &mut Halves, size: Size) -> Vec<String> {
        let canvas = halves.canvas(size);
        (0..size.rows).map(|row| canvas.line(row)).collect()
    }

    /// What stands in the rows under the screens, in the candidate's half and in the mirror's.
    fn halves_of(halves: &mut Halves) -> [Vec<String>; 2] {
        let rows = shown(halves, BOTH);
        let half = |cols: std::ops::Range<usize>| {
            move |row: &String| row.chars().skip(cols.start).take(cols.len()).collect::<String>().trim_end().into()
        };
        [rows[26..29].iter().map(half(0..40)).collect(), [&rows[..1], &rows[26..29]].concat().iter().map(half(41..81)).collect()]
    }

    fn candidates(halves: &Halves) -> Candidates {
        Candidates::new(halves.shared.clone())
    }

    #[test]
    fn nothing_is_cut_where_both_halves_have_room() {
        let now = Instant::now();
        let mut halves = Halves::new(40, Faults { loss: 100, repeat: 100, reorder: 100 }, 1, now);
        (halves.there.cut, halves.there.lost) = (true, 9_999_999);
        let mut candidates = candidates(&halves);
        candidates.full(&mut halves.invigilator, &screen(1, 100), now);
        candidates.step(&mut halves.invigilator, &screen(1, 112), now);
        halves.now = now + Duration::from_secs(600);
        let [candidate, mirror] = halves_of(&mut halves);
        assert_eq!(candidate, ["NO INVIGILATOR HEARD yet", "room for 255", ""]);
        let expected = ["INVIGILATOR  sitting 1", "SILENT for 600 s  BEHIND by 12", "the screen of 600 s ago"];
        assert_eq!(mirror[..3], expected);
        assert_eq!(mirror[3], "shows call 100 of 112  room for 255  …", "but for how many sittings there were");
        let line = "line CUT  loss 100%, repeat 100%, reorder 100%  …                    Ctrl-G: help";
        assert_eq!(shown(&mut halves, BOTH)[29], line);
        (halves.there.cut, halves.there.faults, halves.there.lost) = (false, FAULTS, 99);
        let line = "loss 10%, repeat 10%, reorder 30%  lost 99, held back 0              Ctrl-G: help";
        assert_eq!(shown(&mut halves, BOTH)[29], line);
    }

    #[test]
    fn looking_back_while_an_older_sitting_is_heard() {
        let now = Instant::now();
        let mut halves = Halves::new(40, Faults::default(), 1, now);
        let mut candidates = candidates(&halves);
        for (n, pair) in [(1, 1000), (2, 7), (1, 1000)].into_iter().enumerate() {
            halves.now = now + Duration::from_millis(300) * n as u32;
            candidates.full(&mut halves.invigilator, &screen(pair.0, pair.1), halves.now);
        }
        halves.turn(Input::Back);
        let expected = [
            "NOT CURRENT: sitting 1   PageDown: newer",
            "shows call 1000 of 1000  room for 255",
            "current: sitting 2, call 7 of 7",
            "LEVEL, 0.3 s  …",
        ];
        assert_eq!(halves_of(&mut halves)[1], expected);
    }

    #[test]
    fn in_the_usual_terminal_one_half_at_a_time() {
        let mut halves = Halves::new(80, Faults::default(), 1, Instant::now());
        let first = halves.full();
        halves.arrive(first);
        b"WARD 7".iter().for_each(|&ch| assert_eq!(halves.input(Input::Key(Key::Char(ch)), USUAL), Then::GoOn));
        let candidate = shown(&mut halves, USUAL);
        assert!(candidate[0].starts_with("CANDIDATE  sitting 1  call 6") && candidate[23].ends_with("Ctrl-G: help"), "{}", candidate[0]);
        assert_eq!((candidate[1].as_str(), candidate[19].starts_with("1LIST")), ("WARD 7", true));
        assert!(candidate[20].ends_with("▼ 6 rows below") && candidate[23].starts_with("Ctrl-T: mirror"), "{}", candidate.join("\n"));
        halves.input(Input::Other, USUAL);
        let mirror = shown(&mut halves, USUAL);
        assert!(mirror[0].starts_with("INVIGILATOR  sitting 1") && mirror[23].starts_with("Ctrl-T: candidate"), "{}", mirror.join("\n"));
        assert_eq!(mirror[1..20], candidate[1..20]);
        assert_eq!(halves.canvas(USUAL).cursor, Some((1, 6)));
        halves.input(Input::Key(Key::Char(b'!')), USUAL);
        assert_eq!(shown(&mut halves, USUAL)[1], "WARD 7!", "a key leads to the screen on which it is typed");
        assert!(shown(&mut halves, USUAL)[0].starts_with("CANDIDATE"));
        halves.input(Input::Other, USUAL);
        // In a wider one both are in sight, whichever was before, and the key does nothing.
        let wider = Size { cols: 161, rows: 24 };
        halves.input(Input::Other, wider);
        assert!(shown(&mut halves, USUAL)[0].starts_with("INVIGILATOR"));
        let attrs: Vec<_> = halves.canvas(wider).row(1)[81..].iter().map(|spot| spot.attr).collect();
        assert_eq!((attrs[6], attrs[7], attrs[8]), (PLAIN, REVERSED, PLAIN), "the mirror's cursor, which is not the terminal's");
        let both = shown(&mut halves, wider);
        assert!(both[0].starts_with("CANDIDATE") && both[0].contains("INVIGILATOR") && both[1].matches("WARD 7").count() == 2);
    }

    #[test]
    fn the_other_width_is_asked_for() {
        let mut halves = Halves::new(40, Faults::default(), 1, Instant::now());
        let width = Input::Key(Key::Width);
        halves.input(Input::Key(Key::Char(b'A')), BOTH);
        halves.input(width, BOTH);
        assert_eq!((halves.desk.screen.width(), shown(&mut halves, BOTH)[29].starts_with("Clear it for 80 columns?")), (40, true));
        halves.input(width, BOTH);
        assert_eq!((halves.desk.screen.width(), halves.half(BOTH)), (80, None), "and is shown a half at a time");
        assert_eq!([Input::Leave; 2].map(|input| halves.input(input, BOTH)), [Then::GoOn, Then::Leave]);
    }

    #[test]
    fn a_text_that_waits_for_a_key() {
        for (width, size, lines) in [(40, BOTH, [44, 21]), (80, USUAL, [50, 33])] {
            let mut halves = Halves::new(width, Faults::default(), 1, Instant::now());
            let first = halves.full();
            halves.arrive(first);
            halves.input(Input::Key(Key::Print), size);
            let told = |halves: &mut Halves| shown(halves, size)[size.rows - 1].clone();
            let more = |lines: usize| format!("MORE: {lines} lines. Any key: next screen, Esc: drops the rest  …");
            assert_eq!(told(&mut halves), format!("{:w$}{HINT}", more(lines[0]), w = size.cols - HINT.len()));
            let page = |halves: &Halves| (halves.desk.screen.serial(), halves.follower().mirror().unwrap().same_as(&halves.desk.screen));
            let others =
                [Input::Loss, Input::Repeat, Input::Reorder, Input::Cut, Input::Cut, Input::Other, Input::Back, Input::Forth, Input::Help];
            others.iter().for_each(|&input| assert_eq!(halves.input(input, size), Then::GoOn));
            halves.input(Input::Unknown, size);
            assert_eq!(
                (page(&halves), halves.there.faults.loss),
                ((1, true), 10),
                "those keys do what they do, and one leads back from the page"
            );
            halves.there.faults = Faults::default();
            halves.input(Input::Unknown, size);
            assert!(told(&mut halves).starts_with(&more(lines[1])), "{}", told(&mut halves));
            assert_eq!(page(&halves), (2, true), "the mirror shows each page");
            halves.input(Input::Restart, size);
            assert!(!halves.desk.listing.waits() && !told(&mut halves).contains("MORE") && page(&halves) == (0, true));
            halves.input(Input::Key(Key::Print), size);
            assert!(told(&mut halves).starts_with("MORE: "), "the next sitting has the same text");
        }
    }

    /// Both ends with a field of so many characters, in which the screen of the first sitting is shown.
    fn with_field(characters: u8) -> Halves {
        let paper = Paper { text: Text::wards(), field: Field::new(characters) };
        let mut halves = Halves::new(40, Faults::default(), 1, Instant::now()).with(paper);
        let first = halves.full();
        halves.arrive(first);
        halves
    }

    fn types(halves: &mut Halves, text: &[u8]) {
        text.iter().for_each(|&ch| assert_eq!(halves.input(Input::Key(Key::Char(ch)), BOTH), Then::GoOn));
    }

    #[test]
    fn a_field_that_is_full() {
        let mut halves = with_field(255);
        halves.input(Input::Key(Key::Insert), BOTH);
        types(&mut halves, &[b'A'; 256]);
        halves.tick().unwrap();
        // The longest words that can stand there, in the row that is left for them.
        let [candidate, mirror] = halves_of(&mut halves);
        assert_eq!(candidate[2], "FIELD FULL: 255 characters  INSERT  …");
        assert_eq!(mirror[2..], ["shows call 257 of 257  INSERT", "room for 0 of 255  …"]);
        halves.input(Input::Key(Key::CtrlEnter), BOTH);
        assert_eq!(halves_of(&mut halves)[0][2], "Ctrl-Enter, -J: off in a field  …");
        halves.input(Input::Key(Key::Insert), BOTH);
        types(&mut halves, b"A");
        assert_eq!(halves_of(&mut halves)[0][2], "FIELD FULL: 255 characters  …");
        halves.input(Input::Loss, BOTH);
        assert_eq!(halves_of(&mut halves)[0][2], "room for 0 of 255  line in rows 1 to 7", "any key ends it");
    }

    #[test]
    fn a_field_is_kept_over_a_restart_and_known_at_the_mirror() {
        let mut halves = with_field(60);
        for _ in 0..2 {
            types(&mut halves, b"WARD 7");
            let [candidate, mirror] = halves_of(&mut halves);
            assert!(
                candidate.contains(&"room for 54 of 60".into()) && mirror.contains(&"shows call 6 of 6  room for 54 of 60".into()),
                "{mirror:?}"
            );
            halves.input(Input::Restart, BOTH);
        }
        halves.input(Input::Submitted, BOTH);
        assert_eq!(shown(&mut halves, BOTH)[1], "A field of 60 characters: no more is typed into a line, Ctrl-Enter is off.");
        for input in [Input::Unknown, Input::Help] {
            halves.input(input, BOTH);
        }
        assert!(shown(&mut halves, BOTH).iter().any(|row| row.contains("Ctrl-Enter, -J off in a field")));
    }

    /// The rows of a half that begins in this column, compared with the screen's cells.
    fn check_half(canvas: &Canvas, left: usize, screen: &impl Shown, below: usize) {
        let (width, editable) = (screen.width() as usize, screen.editable_rows() as usize);
        let text = |row: usize| canvas.row(row)[left..].iter().map(|spot| spot.ch).collect::<String>();
        let mark = |row: usize, arrow| -> usize {
            let rest = text(row).split('│').next().unwrap().split_once(arrow).map(|(_, rest)| rest.trim_start().to_string());
            rest.map_or(0, |rest| rest.split(' ').next().unwrap().parse().unwrap())
        };
        let height = below - 4 - (25 - editable);
        let (above, hidden) = (mark(0, '▲'), mark(below - 3, '▼'));
        assert_eq!(above + height + hidden, editable, "{}", text(0));
        for at in 0..height {
            let cells: String = (0..width as u32).map(|col| glyph(screen.cell((above + at) as u32, col).unwrap().ch)).collect();
            assert_eq!(text(1 + at).chars().take(width).collect::<String>(), cells, "row {at} under {above}");
        }
    }

    /// What is in sight of both ends, and the cursor of the one that has the terminal's.
    fn check(halves: &mut Halves, size: Size) {
        let canvas = halves.canvas(size);
        if !NEEDED.fits(size) || halves.front.page().is_some() {
            return;
        }
        let below = 1 + (size.rows - LINE - AROUND).min(SCREEN) + STATUS;
        let (half, mirror) = (halves.half(size), halves.view.screen(halves.follower()));
        let on_mirror = half.is_none() && halves.mirror_in_sight;
        if !on_mirror {
            check_half(&canvas, 0, &halves.desk.screen, below);
        }
        if let (Some(left), Some(mirror)) = (half.map(|half| half + 1).or(on_mirror.then_some(0)), mirror) {
            check_half(&canvas, left, mirror, below);
        }
        let (row, col) = if on_mirror { mirror.map_or((0, 0), |mirror| mirror.cursor()) } else { halves.desk.screen.cursor() };
        let (at, place) = canvas.cursor.expect("the cursor is in sight");
        assert!(place == col as usize && at <= 1 + row as usize && at >= 1, "{at}, {place} for {row}, {col}");
    }

    fn any_input(random: &mut Rand32) -> Input {
        use Input::*;
        const OTHERS: [Input; 12] = [Leave, Help, Submitted, Other, Loss, Repeat, Reorder, Cut, Restart, Back, Forth, Unknown];
        match random.rand_range(0..9) {
            0 => OTHERS[random.rand_range(0..OTHERS.len() as u32) as usize],
            1 | 2 => Key(NAMED[random.rand_range(0..NAMED.len() as u32) as usize].1),
            3 => Key(crate::keys::Key::Down),
            _ => Key(crate::keys::Key::Char(random.rand_range(33..256) as u8)),
        }
    }

    #[test]
    fn whatever_is_pressed_in_whatever_size_what_is_in_sight_is_right() {
        let mut random = Rand32::new(24);
        for run in 0..60 {
            let mut now = Instant::now();
            let paper = Paper { text: Text::wards(), field: if run % 3 == 0 { Field::new(1 + run as u8) } else { None } };
            let mut halves = Halves::new(if run % 2 == 0 { 40 } else { 80 }, FAULTS, run, now).with(paper);
            let mut size = USUAL;
            for _ in 0..150 {
                if random.rand_range(0..6) == 0 {
                    size = Size { cols: random.rand_range(70..180) as usize, rows: random.rand_range(0..42) as usize };
                }
                halves.input(any_input(&mut random), size);
                now += Duration::from_millis(100);
                let arriving = halves.pass(now);
                halves.arrive(arriving);
                check(&mut halves, size);
            }
        }
    }

    #[test]
    fn a_machine_that_slept_wakes_with_an_old_screen() {
        let mut halves = Halves::new(40, Faults::default(), 1, Instant::now());
        let first = halves.full();
        halves.arrive(first);
        halves.tick().unwrap();
        assert!(halves_of(&mut halves)[1][1].starts_with("LEVEL, 0.") && !halves.rings());
        halves.turn(Input::Cut);
        halves.clock.slept(Duration::from_secs(3_600));
        halves.tick().unwrap();
        assert!(halves_of(&mut halves)[1][1].starts_with("SILENT for 3600 s"));
        assert!(halves.rings() && !halves.rings(), "it rings once");
    }

    #[test]
    fn a_cut_line_is_cut_both_ways() {
        let mut halves = Halves::new(40, Faults::default(), 1, Instant::now());
        halves.turn(Input::Cut);
        halves.turn(Input::Loss);
        assert!(halves.back.cut && halves.back.faults == halves.there.faults && halves.there.faults.loss == 10);
    }
}
