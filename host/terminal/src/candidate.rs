//! The candidate's program, over UDP.
use crate::bad_line::{BadLine, Faults, Passed};
use crate::canvas::{wrapped, Canvas, Part, Size, PLAIN, RED, STRONG, YELLOW};
use crate::clock::Clock;
use crate::desk::{Desk, Paper};
use crate::front::{Front, Page, HINT};
use crate::help;
use crate::keys::Key;
use crate::panel::{in_sight, Area, Panel, AROUND, SCREEN};
use crate::sitting::{self, Told};
use crate::span;
use crate::submitted::{self, Submitted};
use crate::terminal::{self, Input, Program, Then};
use crate::told;
use crate::udp::{drain, socket_to};
use crate::window::Window;
use futonrobin::{Refusal, Screen, Shown};
use line::SharedKey;
use std::io;
use std::net::{SocketAddr, UdpSocket};
use std::thread::sleep;
use std::time::{Duration, Instant};

const TICK: Duration = Duration::from_millis(20);

/// With keys from a file, so many datagrams go out before a pause, so that a receiver's buffer holds them.
const BURST: u64 = 32;
const PAUSE: Duration = Duration::from_millis(1);
/// How long the last screen is offered to an invigilator that does not tell that it shows it.
const PATIENCE: Duration = Duration::from_secs(10);

/// How the program is started.
pub struct Start {
    pub to: SocketAddr,
    pub shared: SharedKey,
    pub width: u32,
    pub faults: Faults,
    pub seed: u64,
    pub sitting: sitting::Chosen,
    pub paper: Paper,
}

struct Candidate {
    desk: Desk,
    end: line::Candidate,
    /// What is sent goes through it.
    bad_line: BadLine,
    socket: UdpSocket,
    to: SocketAddr,
    clock: Clock,
    now: Instant,
    /// What there is to know about the sitting's number.
    notice: Vec<Told>,
    /// Why the last datagram could not be sent.
    problem: Option<io::Error>,
    front: Front,
    window: Window,
    words: span::Words,
}

impl Candidate {
    /// The first that goes out is a full report: a mirror that shows an earlier sitting takes nothing else for the beginning of this one.
    fn new(Start { to, shared, width, faults, seed, sitting, paper }: Start) -> io::Result<Self> {
        let (desk, mut clock) = (Desk::with(paper, width, sitting.number), Clock::new());
        let now = clock.now();
        let end = line::Candidate::new(&shared, &desk.screen, now);
        let (bad_line, socket) = (BadLine::new(faults, seed), socket_to(to)?);
        let (front, window, words) = (Front::of_field(desk.field), Window::default(), span::Words::of_field(desk.field));
        let mut candidate = Self { desk, end, bad_line, socket, to, clock, now, notice: sitting.told, problem: None, front, window, words };
        candidate.full();
        Ok(candidate)
    }

    fn press(&mut self, key: Key) -> Result<(), Refusal> {
        self.now = self.clock.now();
        for report in self.desk.press(key)? {
            let sent = self.end.send(&self.desk.screen, &report, self.now);
            self.send(sent);
        }
        Ok(())
    }

    /// Presses a key in a terminal of this size.
    fn press_in(&mut self, key: Key, size: Size) {
        self.desk.in_sight = in_sight(size.rows, &self.desk.screen) as u32;
        if let Err(refusal) = self.press(key) {
            self.desk.submitted.push(Submitted::refused(refusal));
        }
    }

    /// While a text waits and can be seen, what means nothing else here goes on with it.
    fn meant(&self, input: Input) -> Input {
        match input {
            _ if !self.desk.listing.waits() || self.front.page().is_some() => input,
            Input::Leave | Input::Help | Input::Submitted | Input::Key(Key::Escape) => input,
            _ => Input::Key(Key::Print),
        }
    }

    fn full(&mut self) {
        let sent = self.end.full(&self.desk.screen, self.now);
        self.send(sent);
    }

    fn send(&mut self, datagrams: Vec<Vec<u8>>) {
        for datagram in datagrams {
            let leaving = self.bad_line.send(datagram);
            self.leave(leaving);
        }
    }

    /// A datagram that the network does not take is a lost one, and the status line says why.
    fn leave(&mut self, datagrams: impl IntoIterator<Item = Vec<u8>>) {
        for datagram in datagrams {
            self.problem = self.socket.send_to(&datagram, self.to).err();
        }
    }

    /// What the invigilator says; then what the line held back, and what is due.
    fn pass(&mut self) -> io::Result<()> {
        self.now = self.clock.now();
        let (end, now) = (&mut self.end, self.now);
        drain(&self.socket, |bytes, _| end.receive(bytes, now))?;
        // What is told is said to be as old as it is after all this was taken.
        self.now = self.clock.now();
        let released = self.bad_line.release();
        self.leave(released);
        let due = self.end.due(&self.desk.screen, self.now);
        self.send(due);
        Ok(())
    }

    fn is_shown(&self) -> bool {
        self.end.is_shown(self.desk.screen.pair())
    }

    /// The screen, and under it what there is to know about the sitting and the submitted lines, where they have room. Before anything is typed the
    /// screen, which is empty, makes room for the first.
    fn paint_screen(&mut self, canvas: &mut Canvas) {
        let Size { cols, rows } = canvas.size;
        let new = self.desk.screen.serial() == 0;
        let notice = self.notice_in(cols, if new { rows - AROUND - 2 } else { self.rows_for_notice(rows) });
        let status = self.status(rows <= SCREEN + AROUND, notice.is_empty(), cols);
        let area = Area { left: 0, cols, rows: if new { rows - notice.len() } else { rows } };
        let screen = &self.desk.screen;
        let panel = Panel { title: title(screen), hint: HINT, shown: Some(screen), status, table: &self.desk.table };
        let painted = panel.paint(canvas, area, &mut self.window);
        canvas.cursor = painted.cursor;
        notice.iter().enumerate().for_each(|(at, line)| canvas.text(painted.below + at, 0, line, STRONG));
        submitted::list(canvas, painted.below + notice.len(), &self.desk.submitted);
    }

    /// The last submitted line has a row before them.
    fn rows_for_notice(&self, rows: usize) -> usize {
        rows.saturating_sub(SCREEN + AROUND + !self.desk.submitted.is_empty() as usize)
    }

    /// What there is to know about the sitting, without the reasons if they have no room.
    fn notice_in(&self, cols: usize, rows: usize) -> Vec<String> {
        let whole = self.told_in(cols);
        if whole.len() <= rows {
            whole
        } else {
            self.notice.iter().map(|told| told.what.clone()).take(rows).collect()
        }
    }

    /// What is known of the invigilator, or what is asked; what the field says of the last key, and how one types; and what has no row of its own. While a
    /// text waits nobody types: that it does stands first, and the invigilator next.
    fn status(&self, last_line: bool, note: bool, cols: usize) -> Vec<Vec<Part>> {
        let waits = self.desk.listing.told();
        let words = if waits.is_some() { self.invigilator() } else { typing(&self.desk, &self.words) };
        let told = self.front.question(self.desk.other_width()).or(waits);
        let first = told.map_or_else(|| self.invigilator(), |told| vec![told]);
        let note = (note && !self.notice.is_empty()).then(|| ("note on the sitting: Ctrl-P".into(), YELLOW));
        let submitted = if last_line { submitted::in_a_row(&self.desk.submitted, cols) } else { None };
        vec![first, words.into_iter().chain(note).collect(), submitted.into_iter().collect()]
    }

    /// What there is to know about the sitting: what follows, and why.
    fn told_in(&self, cols: usize) -> Vec<String> {
        let why = |told: &Told| wrapped(&told.why, cols - 2).into_iter().map(|line| format!("  {line}")).collect::<Vec<_>>();
        self.notice.iter().flat_map(|told| [vec![told.what.clone()], why(told)].concat()).collect()
    }

    /// Prints how it went; whether the invigilator shows the last screen.
    fn verdict(&self) -> bool {
        let Passed { datagrams, bytes, longest } = self.bad_line.passed;
        println!("candidate: {} calls, {datagrams} datagrams sent, {} lost on the line", self.desk.screen.serial(), self.bad_line.lost);
        println!("candidate: {bytes} bytes in them, {longest} in the longest; garbage {}", self.end.garbage);
        println!("candidate: the invigilator {} the last screen", if self.is_shown() { "shows" } else { "HAS NOT TOLD THAT IT SHOWS" });
        self.is_shown()
    }

    /// What is known of the invigilator, and where it should be if nothing is.
    fn invigilator(&self) -> Vec<Part> {
        let problem = self.problem.as_ref().map(|problem| (format!("cannot send to {}: {}", self.to, in_words(problem)), RED));
        let told = told::by(&self.end, self.desk.screen.pair(), self.now);
        let at = (problem.is_none() && self.end.told().is_none()).then(|| (format!("at {}", self.to), PLAIN));
        problem.into_iter().chain(told).chain(at).collect()
    }
}

/// Without the system's number of it.
fn in_words(problem: &io::Error) -> String {
    let told = problem.to_string();
    told.split(" (os error").next().unwrap_or(&told).into()
}

/// What the field says of the last key, and how one types.
pub fn typing(desk: &Desk, words: &span::Words) -> Vec<Part> {
    desk.field_says().into_iter().chain(words.of(&desk.screen)).collect()
}

/// Who it is, and where the screen stands.
pub fn title(screen: &Screen) -> Vec<Part> {
    let (sitting, call) = (format!("sitting {}", screen.sitting()), format!("call {}", screen.serial()));
    vec![("CANDIDATE".into(), STRONG), (sitting, STRONG), (call, PLAIN)]
}

impl Program for Candidate {
    fn tick(&mut self) -> io::Result<()> {
        self.pass()
    }

    fn front(&self) -> &Front {
        &self.front
    }

    fn paint(&mut self, canvas: &mut Canvas) {
        match self.front.page() {
            Some(Page::Help) => help::page(canvas, "CANDIDATE: THE KEYS", [&help::candidate(self.desk.field), &[]]),
            Some(Page::Submitted(back)) => {
                let notes = [self.desk.notes(), self.told_in(canvas.size.cols)].concat();
                let back = submitted::page(canvas, &notes, &self.desk.submitted, back);
                self.front.is_back(back);
            }
            None => self.paint_screen(canvas),
        }
    }

    fn input(&mut self, input: Input, size: Size) -> Then {
        let left = self.front.take(self.meant(input), size);
        self.desk.given(input, left, size);
        match left {
            Some(Input::Leave) => return Then::Leave,
            Some(Input::Key(key)) => self.press_in(key, size),
            _ => {}
        }
        Then::GoOn
    }
}

/// Presses these keys at the start.
pub fn in_terminal(start: Start, first: &[Key]) -> io::Result<()> {
    let (mut candidate, size) = (Candidate::new(start)?, terminal::size()?);
    first.iter().for_each(|&key| candidate.press_in(key, size));
    terminal::run(&mut candidate)
}

/// Presses the keys one after the other. It holds if the invigilator tells at the end that it shows the last screen.
pub fn with_keys(start: Start, keys: &[Key]) -> io::Result<bool> {
    let Start { to, faults, seed, sitting, .. } = &start;
    println!("candidate: sitting {} to {to}, {} keys, {faults}, seed {seed}", sitting.number, keys.len());
    sitting.told.iter().for_each(|told| println!("candidate: {told}"));
    let mut candidate = Candidate::new(start)?;
    let mut paused = 0;
    for &key in keys {
        candidate.press(key).map_err(io::Error::other)?;
        if candidate.bad_line.passed.datagrams - paused >= BURST {
            paused = candidate.bad_line.passed.datagrams;
            candidate.pass()?;
            sleep(PAUSE);
        }
    }
    let begun = Instant::now();
    while !candidate.is_shown() && begun.elapsed() < PATIENCE {
        candidate.full();
        while let Some(released) = candidate.bad_line.release() {
            candidate.leave([released]);
        }
        sleep(TICK);
        candidate.pass()?;
    }
    Ok(candidate.verdict())
}

#[cfg(test)]
mod tests {
    use super::*;
    use crate::field::Field;
    use crate::listing::Text;

    const USUAL: Size = Size { cols: 80, rows: 24 };

    /// A candidate in sitting 7 with so many notices, to which nobody listens; and the key with which one could.
    struct Scene {
        candidate: Candidate,
        shared: SharedKey,
    }

    impl Scene {
        fn new(notices: usize) -> Self {
            Self::with(notices, Text::wards().into())
        }

        fn with(notices: usize, paper: Paper) -> Self {
            let told = (0..notices).map(|n| Told { what: format!("notice {n}"), why: format!("because of {n}") }).collect();
            let (shared, sitting) = (SharedKey::draw(), sitting::Chosen { number: 7, told });
            let (to, faults) = (([127, 0, 0, 1], 9).into(), Faults::default());
            let start = Start { to, shared: shared.clone(), width: 40, faults, seed: 1, sitting, paper };
            Self { candidate: Candidate::new(start).unwrap(), shared }
        }

        fn rows(&mut self, rows: usize) -> Vec<String> {
            self.candidate.problem = None;
            let canvas = self.candidate.canvas(Size { cols: 80, rows });
            (0..rows).map(|row| canvas.line(row)).collect()
        }

        /// What stands under the three rows of status, in a terminal of so many rows.
        fn below(&mut self, rows: usize) -> Vec<String> {
            let shown = self.rows(rows);
            let strip = shown.iter().position(|row| row.starts_with("1LIST")).unwrap();
            shown[strip + 4..].to_vec()
        }

        fn types(&mut self, text: &str) {
            for ch in text.bytes() {
                self.candidate.input(Input::Key(Key::Char(ch)), USUAL);
            }
        }
    }

    fn said(candidate: &Candidate) -> String {
        candidate.invigilator().into_iter().map(|(text, _)| text).collect::<Vec<_>>().join(", ")
    }

    #[test]
    fn what_the_invigilator_shows_is_told() {
        let Scene { mut candidate, shared } = Scene::new(0);
        candidate.problem = None;
        assert_eq!((said(&candidate).as_str(), candidate.is_shown()), ("NO INVIGILATOR HEARD yet, at 127.0.0.1:9", false));
        let (mut invigilator, now) = (line::Invigilator::new(&shared), candidate.now);
        let sent = candidate.end.full(&candidate.desk.screen, now);
        invigilator.receive(&sent[0], candidate.to, now);
        candidate.end.receive(&invigilator.ask(now)[0].1, now);
        candidate.now += Duration::from_millis(2_500);
        assert_eq!((said(&candidate).as_str(), candidate.is_shown()), ("the invigilator shows call 0 of 0, as of 2.5 s ago", true));
        candidate.clock.slept(Duration::from_secs(3_600));
        candidate.pass().unwrap();
        candidate.problem = None;
        assert!(said(&candidate).starts_with("NO INVIGILATOR HEARD for 360"), "{}", said(&candidate));
        candidate.press(Key::Char(b'A')).unwrap();
        assert!(!candidate.is_shown());
        candidate.problem = Some(io::ErrorKind::NetworkUnreachable.into());
        let both = said(&candidate);
        assert!(
            both.starts_with("cannot send to 127.0.0.1:9: network unreachable, ") && both.contains(", NO INVIGILATOR HEARD for "),
            "{both}"
        );
    }

    #[test]
    fn in_the_usual_terminal() {
        let mut scene = Scene::new(0);
        scene.types("10 WARD 7");
        scene.candidate.input(Input::Key(Key::Insert), USUAL);
        let shown = scene.rows(24);
        assert_eq!(
            (shown[0].as_str(), shown[1].split('│').next()),
            (
                "CANDIDATE  sitting 7  call 10                                       Ctrl-G: help",
                Some("10 WARD 7                               ")
            )
        );
        assert!(shown[1..21].iter().all(|row| row.chars().nth(40) == Some('│')), "a screen of 40 columns has an edge");
        let mark = format!("{:66}▼ 5 rows below", "NO INVIGILATOR HEARD yet  at 127.0.0.1:9");
        assert_eq!(shown[20..], [shown[20].as_str(), &mark, "INSERT  room for 246", ""]);
        scene.candidate.input(Input::Key(Key::Enter), USUAL);
        assert_eq!(scene.rows(24)[23], "submitted 1: 10 WARD 7");
        assert_eq!(scene.below(30), ["submitted 1: 10 WARD 7"], "where there are more rows it is in the list");
        assert_eq!(scene.rows(30)[28], "");
    }

    #[test]
    fn what_covers_the_screen() {
        let mut scene = Scene::new(1);
        scene.types("A");
        scene.candidate.input(Input::Help, USUAL);
        assert_eq!(scene.rows(24)[0], "CANDIDATE: THE KEYS");
        scene.candidate.input(Input::Key(Key::Escape), USUAL);
        assert!(scene.rows(24)[1].starts_with("A "), "the key that leads back is not typed");
        scene.candidate.input(Input::Submitted, USUAL);
        assert_eq!(scene.rows(24)[..3], ["NOTHING SUBMITTED YET", "notice 0", "  because of 0"]);
        assert_eq!(scene.candidate.input(Input::Leave, USUAL), Then::GoOn);
        let question = "Leave? What was typed is lost. Ctrl-Q again: yes, else: no";
        assert_eq!(scene.rows(24)[21], format!("{question:66}▼ 5 rows below"), "all of it");
        scene.types("B");
        assert!(scene.rows(24)[1].starts_with("AB ") && !scene.rows(24)[21].starts_with("Leave? "));
        assert_eq!([Input::Leave; 2].map(|input| scene.candidate.input(input, USUAL)), [Then::GoOn, Then::Leave]);
    }

    #[test]
    fn a_text_that_waits_for_a_key() {
        let (mut scene, wards) = (Scene::new(1), include_str!("../data/wards.txt").lines().collect::<Vec<_>>());
        let pressed = |scene: &mut Scene, input: Input| assert_eq!(scene.candidate.input(input, USUAL), Then::GoOn);
        // The first and the last row in sight, which are these of the list, and what is told.
        let page = |scene: &mut Scene, from: usize, told: &str| {
            let shown = scene.rows(24);
            let right = shown[1].starts_with(wards[from]) && shown[19].starts_with(wards[from + 18]) && shown[21].starts_with(told);
            assert!(right, "{from}, {told}:\n{}", shown.join("\n"));
            shown
        };
        pressed(&mut scene, Input::Key(Key::Print));
        let shown = page(&mut scene, 0, "MORE: 49 lines. Any key: next screen, Esc: drops the rest         ▼ 5 rows below");
        assert_eq!(shown[22..], ["NO INVIGILATOR HEARD yet  at 127.0.0.1:9  note on the sitting: Ctrl-P", ""]);
        // Pages and questions are no reason to go on, nor is the key that leads back from them.
        let others = [Input::Help, Input::Unknown, Input::Submitted, Input::Back, Input::Forth, Input::Key(Key::Enter), Input::Leave];
        others.into_iter().for_each(|input| pressed(&mut scene, input));
        page(&mut scene, 0, "Leave? What was typed is lost. ");
        // Whatever else is pressed goes on, and nothing is asked.
        pressed(&mut scene, Input::Key(Key::Width));
        page(&mut scene, 18, "MORE: 31 lines. ");
        pressed(&mut scene, Input::Forth);
        page(&mut scene, 36, "MORE: 13 lines. ");
        pressed(&mut scene, Input::Key(Key::Escape));
        let typing = format!("room for {}  note on the sitting: Ctrl-P", 255 - wards[54].len());
        assert_eq!(page(&mut scene, 36, "NO INVIGILATOR HEARD yet  at ")[22], typing);
        scene.types("!");
        assert!(scene.rows(24)[19].starts_with(&format!("{}!", wards[54])));
        assert_eq!(scene.candidate.desk.screen.serial(), 4);
    }

    #[test]
    fn a_field_that_is_full() {
        let mut scene = Scene::with(1, Paper { text: Text::wards(), field: Field::new(5) });
        let status = |scene: &mut Scene| scene.rows(24)[22].clone();
        scene.types("WARD");
        assert_eq!(status(&mut scene), "room for 1 of 5  note on the sitting: Ctrl-P");
        scene.types("78");
        let full = "FIELD FULL: 5 characters  room for 0 of 5  note on the sitting: Ctrl-P";
        assert_eq!((scene.rows(24)[1].starts_with("WARD7 "), status(&mut scene).as_str()), (true, full));
        assert_eq!(scene.rows(24)[0], "CANDIDATE  sitting 7  call 6                                        Ctrl-G: help");
        // It is not lost on a key that nobody sees the effect of.
        let small = Size { rows: 10, ..USUAL };
        assert_eq!(scene.candidate.input(Input::Key(Key::Left), small), Then::GoOn);
        assert_eq!(status(&mut scene), full);
        // Nor on one that means nothing here, as a character of a pasted text that code page 437 has not.
        scene.candidate.input(Input::Unknown, USUAL);
        assert_eq!(status(&mut scene), full);
        // Any other key ends it, those of a page among them.
        for inputs in [&[Input::Help, Input::Unknown][..], &[Input::Back], &[Input::Leave], &[Input::Key(Key::Left)]] {
            scene.types("9");
            inputs.iter().for_each(|&input| assert_eq!(scene.candidate.input(input, USUAL), Then::GoOn));
            assert_eq!(status(&mut scene), "room for 0 of 5  note on the sitting: Ctrl-P");
            scene.candidate.input(Input::Key(Key::End), USUAL);
        }
        scene.candidate.input(Input::Key(Key::CtrlEnter), USUAL);
        assert_eq!(status(&mut scene), "Ctrl-Enter, -J: off in a field  room for 0 of 5  note on the sitting: Ctrl-P");
        scene.candidate.input(Input::Help, USUAL);
        assert!(scene.rows(24).iter().any(|row| row.contains("Ctrl-Enter, -J off in a field")));
        for input in [Input::Unknown, Input::Submitted] {
            assert_eq!(scene.candidate.input(input, USUAL), Then::GoOn);
        }
        // What is off loses nothing: so nothing is asked before one leaves.
        let mut untouched = Scene::with(1, Paper { text: Text::wards(), field: Field::new(5) });
        assert_eq!(untouched.candidate.input(Input::Key(Key::CtrlEnter), USUAL), Then::GoOn);
        assert_eq!(untouched.candidate.input(Input::Leave, USUAL), Then::Leave);
        let told = "A field of 5 characters: no more is typed into a line, Ctrl-Enter is off.";
        assert_eq!(scene.rows(24)[..4], ["NOTHING SUBMITTED YET", told, "notice 0", "  because of 0"]);
    }

    #[test]
    fn what_there_is_to_know_about_the_sitting() {
        let mut scene = Scene::new(2);
        let whole = ["notice 0", "  because of 0", "notice 1", "  because of 1"];
        assert_eq!(scene.below(24), whole, "the empty screen makes room");
        assert_eq!(scene.below(33), whole);
        scene.types("A");
        assert_eq!(scene.below(24), [""; 0], "and has its rows when something is typed");
        assert_eq!(scene.rows(24)[22], "room for 254  note on the sitting: Ctrl-P");
        assert_eq!(scene.below(30), ["notice 0"]);
        assert_eq!(scene.below(31), ["notice 0", "notice 1"]);
        assert_eq!(scene.below(33), whole);
        scene.candidate.input(Input::Key(Key::Function(2)), USUAL);
        assert_eq!(scene.below(31), ["notice 0", "submitted 1: ARUN"], "the last submitted line has a row in any case");
    }
}
