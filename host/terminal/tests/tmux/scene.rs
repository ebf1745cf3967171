//! The two programs with something between them; and what the invigilator's says of the age of its screen, compared with the true screen.
use crate::between::Between;
use crate::pane::{key, Pane, Shown, DEADLINE};
use crate::two_terminals::{first_row, port_of, COLS, ROWS};
use std::cell::Cell;
use std::path::Path;
use std::thread::sleep;
use std::time::{Duration, Instant};

/// What is typed, a character after the other. It stays in one row, and how much of it stands there tells which screen it is.
const TEXT: &str = "abcdefghijklmnopqrstuvwxyzABCDEFGHIJKLMNOPQRSTUVWXYZ0123456789zyxwvutsrqponmlkj";
const LOOKS: Duration = Duration::from_millis(60);
/// What is shown may be called level only while it is younger.
pub const LEVEL: Duration = Duration::from_secs(2);
/// What is said was painted so long before it is read, or less.
pub const PAINTING: Duration = Duration::from_millis(500);

/// How often the candidate types, while the invigilator's terminal is watched.
pub const NEVER: Duration = Duration::MAX;
pub const SLOWLY: Duration = Duration::from_millis(800);
pub const FAST: Duration = Duration::ZERO;

pub struct Scene {
    pub between: Between,
    pub candidate: Pane,
    pub invigilator: Pane,
    /// By how much of the text stood on the candidate's screen: the moment at which surely more stood there.
    gone: Vec<Instant>,
    last: Instant,
    /// When the invigilator's terminal was read last.
    looked: Cell<Instant>,
}

/// What stands in the invigilator's terminal at one moment.
pub struct Look {
    /// It was read then or later.
    pub at: Instant,
    pub shown: Shown,
    /// What is said of the age of the screen.
    pub age: Option<Duration>,
    /// How many characters stand there, and how many the candidate has typed.
    pub length: usize,
    pub typed: usize,
}

impl Look {
    pub fn says(&self, text: &str) -> bool {
        self.shown.has(text)
    }

    pub fn is_level(&self) -> bool {
        self.says("LEVEL")
    }

    /// Whether all that was typed is there, and said to be.
    pub fn is_level_with_all(&self) -> bool {
        self.is_level() && self.length == self.typed
    }
}

impl Scene {
    pub fn new(name: &str) -> Self {
        Self::with_key(name, key())
    }

    pub fn with_key(name: &str, key: &Path) -> Self {
        Self::of_size(name, key, (COLS, ROWS), "X=")
    }

    /// Both programs in terminals of this size, with a variable of the environment.
    pub fn of_size(name: &str, key: &Path, size: (usize, usize), variable: &str) -> Self {
        let (invigilator, port) = start_invigilator(&format!("{name}-invigilator"), key, size, variable);
        let between = Between::new(port);
        let candidate = start_candidate(&format!("{name}-candidate"), &between, key, size, variable);
        let now = Instant::now();
        Self { between, candidate, invigilator, gone: Vec::new(), last: now, looked: Cell::new(now) }
    }

    /// A scene in which so many characters are typed and shown, and LEVEL.
    pub fn begun(name: &str, characters: usize) -> Self {
        let mut scene = Self::new(name);
        scene.begins(characters);
        scene
    }

    /// So many characters are typed, and shown.
    pub fn begins(&mut self, characters: usize) {
        self.types(characters);
        self.watch("what was typed, and LEVEL", NEVER, Look::is_level_with_all);
    }

    /// So many characters more.
    pub fn types(&mut self, characters: usize) {
        for _ in 0..characters {
            let length = self.gone.len();
            self.candidate.write(&TEXT[length..=length]);
            self.candidate.wait("the next character", |shown| first_row(shown) == &TEXT[..=length]);
            self.last = Instant::now();
            self.gone.push(self.last);
        }
    }

    /// Looks, and meanwhile lets the candidate type, until that is seen. What is said at a look must be true.
    pub fn watch(&mut self, what: &str, pace: Duration, mut seen: impl FnMut(&Look) -> bool) -> Look {
        let begun = Instant::now();
        loop {
            if self.last.elapsed() >= pace && self.gone.len() < TEXT.len() {
                self.types(1);
            }
            let look = self.look();
            if seen(&look) {
                return look;
            }
            assert!(begun.elapsed() < DEADLINE, "never seen: {what}. Shown is\n{}", look.shown.lines.join("\n"));
            sleep(LOOKS);
        }
    }

    pub fn look(&self) -> Look {
        // Where the whole machine stood still since the last look, what is read may have been painted before that.
        let at = Instant::now().min(self.looked.get() + PAINTING);
        let shown = self.invigilator.shown();
        self.looked.set(Instant::now());
        let age = number(&shown, "LEVEL, ").or_else(|| number(&shown, "the screen of ")).map(Duration::from_secs_f64);
        let look = Look { at, age, length: first_row(&shown).len(), typed: self.gone.len(), shown };
        if let Err(why) = self.check(&look) {
            panic!("{why}. {} characters are typed; shown is\n{}", look.typed, look.shown.lines.join("\n"));
        }
        look
    }

    /// What is shown is a screen that the candidate has had; and if an age is said, it was that screen then or later.
    fn check(&self, look: &Look) -> Result<(), String> {
        if TEXT.get(..look.length) != Some(first_row(&look.shown)) || look.length > look.typed {
            return Err("the candidate never had that screen".into());
        }
        if look.is_level() && look.age.is_none_or(|age| age >= LEVEL) {
            return Err("LEVEL is said without an age, or with a large one".into());
        }
        let gone_for = self.gone.get(look.length).map_or(Duration::ZERO, |gone| look.at.saturating_duration_since(*gone));
        match look.age {
            Some(age) if gone_for > age + PAINTING => {
                Err(format!("that screen was gone {gone_for:?} ago, and it is said to be of {age:?} ago"))
            }
            _ => Ok(()),
        }
    }
}

/// An invigilator with this key on any free port, and that port.
pub fn invigilator(name: &str, key: &Path) -> (Pane, u16) {
    start_invigilator(name, key, (COLS, ROWS), "X=")
}

fn start_invigilator(name: &str, key: &Path, size: (usize, usize), variable: &str) -> (Pane, u16) {
    let pane = start(name, key, size, variable, "invigilator --listen 127.0.0.1:0");
    let port = port_of(&pane);
    (pane, port)
}

fn start(name: &str, key: &Path, (cols, rows): (usize, usize), variable: &str, words: &str) -> Pane {
    Pane::start(name, cols, rows, &format!("env {variable} {} {words} --key {}", env!("CARGO_BIN_EXE_screens"), key.display()))
}

/// A candidate with this key that sends to what is between.
pub fn candidate(name: &str, between: &Between, key: &Path) -> Pane {
    start_candidate(name, between, key, (COLS, ROWS), "X=")
}

fn start_candidate(name: &str, between: &Between, key: &Path, size: (usize, usize), variable: &str) -> Pane {
    let pane = start(name, key, size, variable, &format!("candidate --to 127.0.0.1:{}", between.port()));
    pane.wait_for("1LIST");
    pane
}

/// The number after these words, if it is shown.
pub fn number(shown: &Shown, words: &str) -> Option<f64> {
    let after = shown.lines.iter().find_map(|line| line.split_once(words))?.1;
    after.split(|c: char| !c.is_ascii_digit() && c != '.').next()?.parse().ok()
}
