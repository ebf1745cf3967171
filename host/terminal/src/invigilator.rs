//! The invigilator's program, over UDP.
use crate::canvas::{Canvas, Part, Size, PLAIN, RED, STRONG, YELLOW};
use crate::clock::Clock;
use crate::desk::Paper;
use crate::field::Field;
use crate::front::{Front, Page, HINT};
use crate::help;
use crate::keys::Key;
use crate::panel::{Area, Panel};
use crate::terminal::{self, Input, Program, Then};
use crate::udp::{drain, socket_at};
use crate::view::{self, Alarm, View, HINT_BACK};
use crate::window::Window;
use crate::witness::Witnesses;
use futonrobin::{KeyTable, Shown};
use line::fresh::seconds;
use line::invigilator::Counts;
use line::{Follower, SharedKey, State, Taken};
use std::io;
use std::net::{SocketAddr, UdpSocket};
use std::thread::sleep;
use std::time::{Duration, Instant};

/// With keys from a file: how long to wait for something new, and for that when the last screen is shown.
const PATIENCE: Duration = Duration::from_secs(30);
const LAST: Duration = Duration::from_millis(500);

struct Invigilator {
    end: line::Invigilator,
    view: View,
    alarm: Alarm,
    front: Front,
    window: Window,
    socket: UdpSocket,
    listen: SocketAddr,
    table: KeyTable,
    clock: Clock,
    now: Instant,
}

impl Invigilator {
    fn new(listen: SocketAddr, shared: &SharedKey) -> io::Result<Self> {
        let (socket, mut clock) = (socket_at(listen)?, Clock::new());
        let (listen, now) = (socket.local_addr()?, clock.now());
        let (end, table) = (line::Invigilator::new(shared), KeyTable::standard());
        let (view, alarm, front, window) = (View::default(), Alarm::default(), Front::new(false), Window::default());
        Ok(Self { end, view, alarm, front, window, socket, listen, table, clock, now })
    }

    /// Takes what has come, hands on each report with where it came from, and asks.
    fn pass(&mut self, mut arrived: impl FnMut(&Follower, SocketAddr)) -> io::Result<()> {
        self.now = self.clock.now();
        let (end, now) = (&mut self.end, self.now);
        drain(&self.socket, |bytes, from| {
            if [Taken::Arrived, Taken::Older].contains(&end.receive(bytes, from, now)) {
                arrived(&end.follower, from);
            }
        })?;
        // What is shown is told to be as old as it is after all this was taken.
        self.now = self.clock.now();
        for (to, question) in self.end.ask(self.now) {
            // One that is lost is asked again.
            let _ = self.socket.send_to(&question, to);
        }
        Ok(())
    }

    fn status(&self) -> Vec<Vec<Part>> {
        let [first, second, third] = self.view.status(&self.end.follower, self.now);
        vec![first, [self.address(), second].concat(), [self.troubles(), third, self.unreadable()].concat()]
    }

    /// Where it listens, while nobody is heard.
    fn address(&self) -> Vec<Part> {
        if self.end.follower.state(self.now) != State::Waiting {
            return Vec::new();
        }
        let unopened = (self.end.counts.garbage > 0).then(|| ("what comes does not open under this key".into(), RED));
        [(format!("listening at {}", self.listen), STRONG)].into_iter().chain(unopened).collect()
    }

    /// What should not be, and what the person at the window should know.
    fn troubles(&self) -> Vec<Part> {
        let Counts { twice, .. } = self.end.counts;
        let twice = (twice > 0).then(|| (format!("SITTING USED TWICE: {twice} datagrams"), RED));
        let by_hand = self.window.is_moved_by_hand().then(|| ("Home: to the cursor".into(), YELLOW));
        twice.into_iter().chain(by_hand).collect()
    }

    /// What did not open, or says nothing that a candidate says.
    fn unreadable(&self) -> Vec<Part> {
        let Counts { garbage, .. } = self.end.counts;
        (garbage > 0).then(|| (format!("unreadable datagrams: {garbage}"), PLAIN)).into_iter().collect()
    }

    /// The counts, for a run without a terminal.
    fn counts(&self) -> String {
        let Counts { arrived, older, twice, garbage } = self.end.counts;
        let twice = if twice > 0 { format!("SITTING USED TWICE {twice}, ") } else { String::new() };
        format!("{twice}arrived {arrived}, older {older}, garbage {garbage}")
    }
}

impl Program for Invigilator {
    fn tick(&mut self) -> io::Result<()> {
        self.pass(|_, _| ())
    }

    fn front(&self) -> &Front {
        &self.front
    }

    fn paint(&mut self, canvas: &mut Canvas) {
        if self.front.page() == Some(Page::Help) {
            return help::page(canvas, "INVIGILATOR: THE KEYS", [help::INVIGILATOR, &[]]);
        }
        let follower = &self.end.follower;
        let (status, title, shown) = (self.status(), self.view.title(follower), self.view.screen(follower));
        let hint = if self.view.earlier(follower).is_some() { HINT_BACK } else { HINT };
        let panel = Panel { title, hint, shown, status, table: &self.table };
        let area = Area { left: 0, cols: canvas.size.cols, rows: canvas.size.rows };
        canvas.cursor = panel.paint(canvas, area, &mut self.window).cursor;
    }

    fn input(&mut self, input: Input, size: Size) -> Then {
        // There is no page of submitted lines here, and no function key types anything.
        let input = match input {
            Input::Submitted => Input::Unknown,
            Input::Key(Key::Function(1)) => Input::Help,
            _ => input,
        };
        match self.front.take(input, size) {
            Some(Input::Leave) => return Then::Leave,
            Some(Input::Back) => self.view.back(&self.end.follower),
            Some(Input::Forth) => self.view.forth(&self.end.follower),
            Some(Input::Key(Key::Up)) => self.window.up(),
            Some(Input::Key(Key::Down)) => self.window.down(),
            Some(Input::Key(Key::Home)) => self.window.follow(),
            _ => {}
        }
        Then::GoOn
    }

    fn rings(&mut self) -> bool {
        self.alarm.rings(self.end.follower.state(self.now))
    }
}

/// Where it is known that the candidate types into a field, the room is counted by that.
pub fn in_terminal(listen: SocketAddr, shared: &SharedKey, field: Option<Field>) -> io::Result<()> {
    let mut invigilator = Invigilator::new(listen, shared)?;
    invigilator.view = View::of_field(field);
    terminal::run(&mut invigilator)
}

/// Knows the candidate's keys, the text that one of them prints and the field that it types into, and compares the mirror after every report. It
/// holds if none was wrong and the last screen was shown.
pub fn with_keys(listen: SocketAddr, shared: &SharedKey, keys: &[Key], paper: Paper) -> io::Result<bool> {
    let (mut invigilator, mut watch) = (Invigilator::new(listen, shared)?, Watch::new(Witnesses::new(keys, paper)));
    println!("invigilator: listening on {}", invigilator.listen);
    let begun = Instant::now();
    loop {
        invigilator.pass(|follower, from| watch.arrival(follower, from))?;
        let follower = &invigilator.end.follower;
        let state = follower.state(invigilator.now);
        watch.look(state);
        let ended = watch.witnesses.ended(follower);
        if state.quiet().unwrap_or(begun.elapsed()) > if ended { LAST } else { PATIENCE } {
            println!("invigilator: {}, level after {} of them", invigilator.counts(), watch.level);
            return Ok(watch.verdict(follower, ended));
        }
        sleep(Duration::from_millis(1));
    }
}

/// What was seen of the mirror.
struct Watch {
    witnesses: Witnesses,
    wrong: u64,
    /// After how many reports it showed the newest call of which it had heard one.
    level: u64,
    /// How often it was looked at, how often it was called level then, and the greatest age at which it was.
    looks: u64,
    called: u64,
    oldest: Duration,
    /// How many calls the mirror has shown when that is told next.
    next: u32,
}

/// After so many further calls it is told that the mirror goes on.
const STRETCH: u32 = 10_000;

impl Watch {
    fn new(witnesses: Witnesses) -> Self {
        Self { witnesses, wrong: 0, level: 0, looks: 0, called: 0, oldest: Duration::ZERO, next: STRETCH }
    }

    fn arrival(&mut self, follower: &Follower, from: SocketAddr) {
        let before = self.witnesses.sittings();
        match self.witnesses.check(follower) {
            Ok(level) => self.level += level as u64,
            Err(difference) => self.is_wrong(&difference),
        }
        let Some(mirror) = follower.mirror() else { return };
        if self.witnesses.sittings() > before {
            println!("invigilator: follows sitting {} from {from}", mirror.sitting());
            self.next = STRETCH;
        }
        if mirror.serial() >= self.next {
            println!("invigilator: has shown {} calls of it", mirror.serial());
            self.next = mirror.serial().saturating_add(STRETCH);
        }
    }

    fn look(&mut self, state: State) {
        self.looks += 1;
        if let (true, State::Shows { age: Some(age), .. }) = (state.is_level(), state) {
            self.called += 1;
            self.oldest = self.oldest.max(age);
        }
    }

    fn is_wrong(&mut self, difference: &str) {
        self.wrong += 1;
        println!("WRONG: {difference}");
    }

    fn verdict(&mut self, follower: &Follower, ended: bool) -> bool {
        follower.earlier().for_each(|earlier| println!("invigilator: kept {} heard of", view::last_screen(earlier)));
        self.witnesses.check_earlier(follower).iter().for_each(|difference| self.is_wrong(difference));
        let call = follower.mirror().map_or(0, |mirror| mirror.serial());
        println!("invigilator: called LEVEL at {} of {} looks, at most {} old", self.called, self.looks, seconds(self.oldest));
        println!("invigilator: {} at call {call}, wrong arrivals {}", if ended { "ended" } else { "NOT ENDED" }, self.wrong);
        ended && self.wrong == 0
    }
}

#[cfg(test)]
mod tests {
    use super::*;
    use crate::samples::{screen, Candidates};
    use futonrobin::Screen;

    const LAST: u32 = u32::MAX;
    const USUAL: Size = Size { cols: 80, rows: 24 };

    fn listening() -> (Invigilator, Candidates) {
        let shared = SharedKey::draw();
        (Invigilator::new(([127, 0, 0, 1], 0).into(), &shared).unwrap(), Candidates::new(shared))
    }

    fn shown(invigilator: &mut Invigilator, size: Size) -> Vec<String> {
        let canvas = invigilator.canvas(size);
        (0..size.rows).map(|row| canvas.line(row)).collect()
    }

    /// The title, and the rows under the mirror in a terminal in which it has room, so much later.
    fn rows(invigilator: &mut Invigilator, later: Duration) -> [String; 4] {
        invigilator.now += later;
        let rows = shown(invigilator, Size { cols: 80, rows: 29 });
        invigilator.now -= later;
        [0, 26, 27, 28].map(|row| rows[row].clone())
    }

    fn titled(left: &str, right: &str) -> String {
        format!("{left:<width$}{right}", width = 80 - right.len())
    }

    #[test]
    fn where_it_listens() {
        let (mut invigilator, _) = listening();
        let at = format!("listening at {}", invigilator.listen);
        let title = titled("INVIGILATOR", HINT);
        assert_eq!(rows(&mut invigilator, Duration::ZERO), [&title, "WAITING for a candidate", &at, ""]);
        let (now, mut another) = (invigilator.now, Candidates::new(SharedKey::draw()));
        another.full(&mut invigilator.end, &screen(5, 3), now);
        let at = at + "  what comes does not open under this key";
        assert_eq!(rows(&mut invigilator, Duration::ZERO)[1..], ["WAITING for a candidate", &at, "unreadable datagrams: 1"]);
    }

    #[test]
    fn the_age_is_told() {
        let (mut invigilator, mut candidates) = listening();
        let now = invigilator.now;
        candidates.full(&mut invigilator.end, &screen(5, 3), now);
        let (title, calls) = (titled("INVIGILATOR  sitting 5", HINT), "shows call 3 of 3  room for 255");
        let told = |state: &str| [title.clone(), state.into(), calls.into(), "1 sitting so far".into()];
        assert_eq!(rows(&mut invigilator, Duration::from_millis(150)), told("LEVEL, 0.2 s"));
        assert_eq!(rows(&mut invigilator, Duration::from_millis(2_500)), told("OLD  the screen of 2.5 s ago"));
        assert_eq!(rows(&mut invigilator, Duration::from_secs(60)), told("SILENT for 60 s  OLD  the screen of 60 s ago"));
    }

    #[test]
    fn the_largest_numbers() {
        let (mut invigilator, mut candidates) = listening();
        let now = invigilator.now;
        candidates.full(&mut invigilator.end, &screen(LAST - 1, LAST), now);
        candidates.step(&mut invigilator.end, &screen(LAST, LAST), now);
        candidates.full(&mut invigilator.end, &screen(LAST - 1, LAST), now);
        let expected = [
            &titled("INVIGILATOR  sitting 4294967294", HINT),
            "BEGUN: sitting 4294967295  the screen of 4.0 s ago",
            "no screen of it came yet  room for 0",
            "older sitting 4294967294 heard 4.0 s ago  2 sittings so far",
        ];
        assert_eq!(rows(&mut invigilator, Duration::from_secs(4)), expected);
        let silent = rows(&mut invigilator, Duration::from_secs(9_999_999));
        assert_eq!(silent[1], "SILENT for 9999999 s  BEGUN: sitting 4294967295  the screen of 9999999 s ago");
        (invigilator.end.counts.twice, invigilator.end.counts.garbage) = (9_999, 1_234_567);
        let twice = rows(&mut invigilator, Duration::from_secs(4));
        let expected = [
            "BEGUN: sitting 4294967295  the screen of 4.0 s ago",
            "no screen of it came yet  room for 0",
            "SITTING USED TWICE: 9999 datagrams  older sitting 4294967294 heard 4.0 s ago  …",
        ];
        assert_eq!(twice[1..], expected);
    }

    #[test]
    fn a_machine_that_slept_wakes_with_an_old_screen_and_rings() {
        let (mut invigilator, mut candidates) = listening();
        let now = invigilator.now;
        candidates.full(&mut invigilator.end, &screen(5, 3), now);
        assert!(!invigilator.rings());
        invigilator.clock.slept(Duration::from_secs(3_600));
        invigilator.tick().unwrap();
        let [_, state, ..] = rows(&mut invigilator, Duration::ZERO);
        assert!(state.starts_with("SILENT for 3600 s  OLD  the screen of 360"), "{state}");
        assert!(invigilator.rings() && !invigilator.rings(), "once");
        let now = invigilator.now;
        candidates.full(&mut invigilator.end, &screen(5, 4), now);
        assert!(!invigilator.rings());
        invigilator.now += Duration::from_secs(5);
        assert!(invigilator.rings(), "and once more");
    }

    #[test]
    fn the_largest_numbers_when_looking_back() {
        let (mut invigilator, mut candidates) = listening();
        let now = invigilator.now;
        for pair in [(LAST - 1, LAST), (LAST, 1_000_000_000)] {
            candidates.full(&mut invigilator.end, &screen(pair.0, pair.1), now);
        }
        candidates.step(&mut invigilator.end, &screen(LAST, LAST), now);
        invigilator.input(Input::Back, USUAL);
        let expected = [
            &titled("NOT CURRENT: sitting 4294967294", HINT_BACK),
            "shows call 4294967295 of 4294967295  room for 0",
            "current: sitting 4294967295, call 1000000000 of 4294967295  BEHIND by 3294967295",
            "its screen of 0.0 s ago  2 sittings so far",
        ];
        assert_eq!(rows(&mut invigilator, Duration::ZERO), expected);
    }

    #[test]
    fn insert_stands_there_after_a_print_that_ended_with_13() {
        let (mut invigilator, mut candidates) = listening();
        let (now, mut printed) = (invigilator.now, Screen::new(80, 5));
        printed.set_insert(true).unwrap();
        printed.print_checked(b"WARD 7\r").unwrap();
        candidates.full(&mut invigilator.end, &printed, now);
        let rows = shown(&mut invigilator, USUAL);
        assert!(rows[22].ends_with("INSERT  room for 255"), "{}", rows[22]);
    }

    #[test]
    fn modes_continuation_and_a_window_by_hand() {
        let (mut invigilator, mut candidates) = listening();
        let (now, mut typed) = (invigilator.now, Screen::new(80, 5));
        (0..23).for_each(|row| typed.print_checked(format!("ROW {row}\r").as_bytes()).unwrap());
        typed.print_checked(b"LAST").unwrap();
        typed.set_insert(true).unwrap();
        typed.set_cursor(21, 3).unwrap();
        typed.ctrl_enter().unwrap();
        candidates.full(&mut invigilator.end, &typed, now);
        let rows = shown(&mut invigilator, USUAL);
        assert!(rows[0].ends_with("▲ 4 rows above  Ctrl-G: help") && rows[21].ends_with("▼ 1 row below"), "{}", rows.join("\n"));
        assert_eq!((rows[1].as_str(), rows[19].as_str()), ("ROW 4", "ROW 22"));
        assert!(rows[22].ends_with("INSERT  room for 169  line in rows 22 to 23"), "{}", rows[22]);
        assert!(invigilator.canvas(USUAL).row(18)[79].underlined);
        for _ in 0..2 {
            invigilator.input(Input::Key(Key::Up), USUAL);
        }
        let rows = shown(&mut invigilator, USUAL);
        assert_eq!((rows[1].as_str(), invigilator.canvas(USUAL).cursor), ("ROW 2", None));
        assert!(rows[23].starts_with("Home: to the cursor"), "{}", rows[23]);
        invigilator.input(Input::Key(Key::Home), USUAL);
        assert_eq!(invigilator.canvas(USUAL).cursor, Some((19, 0)));
        invigilator.input(Input::Key(Key::Function(1)), USUAL);
        assert_eq!(shown(&mut invigilator, USUAL)[0], "INVIGILATOR: THE KEYS");
        assert_eq!([Input::Key(Key::Char(b'A')), Input::Leave].map(|input| invigilator.input(input, USUAL)), [Then::GoOn, Then::Leave]);
    }
}
