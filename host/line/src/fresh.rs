//! How old what is shown is, and how far behind: by the pairs and echoes in what the candidate says, and by nothing else.
//!
//! An echo of a question with a pair means: at a moment after the question was asked, the candidate's screen had that pair. In a sitting a larger
//! serial is later. So if what is shown is of the same sitting and has that pair or a larger one, it was the candidate's screen when the question was
//! asked, or later than that. When a datagram arrives says nothing about it, and is used for silence alone.
use futonrobin::Pair;
use std::fmt;
use std::time::{Duration, Instant};

/// What is shown is called level only while it is younger.
pub const LEVEL_UNDER: Duration = Duration::from_secs(2);
/// A candidate is called silent if nothing new of it came for so long; it answers several times a second.
pub const SILENT_AFTER: Duration = Duration::from_secs(5);

#[derive(Default)]
pub struct Fresh {
    /// The newest pair that the candidate's screen has had.
    heard: Option<Pair>,
    shown: Option<Pair>,
    /// The latest question that was echoed with the newest sitting: when it was asked, and the smallest pair that came with it.
    echo: Option<(Instant, Pair)>,
    /// What is shown was the candidate's screen then or later.
    known: Option<Instant>,
    /// When something came that was later than all before.
    came: Option<Instant>,
    /// A smaller sitting that has echoed a question, and when that was asked.
    older: Option<(u32, Instant)>,
}

#[derive(Clone, Copy, PartialEq, Eq, Debug)]
pub enum State {
    /// Nothing has come yet.
    Waiting,
    /// This sitting was heard of, and no full report of it came; if anything is shown, it is of a smaller one.
    Begun { sitting: u32, quiet: Duration },
    /// A screen of the newest sitting is shown.
    Shows {
        /// So many later calls were heard of.
        behind: u32,
        /// So long ago, or later, it was the candidate's screen; `None` before the first echo.
        age: Option<Duration>,
        /// So long nothing new came.
        quiet: Duration,
    },
}

impl Fresh {
    /// The candidate said that its screen has this pair, after the question that was asked then.
    pub fn hears(&mut self, pair: Pair, asked: Option<Instant>) {
        self.heard = self.heard.max(Some(pair));
        let newest = self.heard.is_none_or(|heard| heard.sitting == pair.sitting);
        match asked {
            Some(asked) if newest => self.echo = Some(self.later_echo(asked, pair)),
            Some(asked) if self.older.is_none_or(|(_, before)| before <= asked) => self.older = Some((pair.sitting, asked)),
            _ => {}
        }
        self.settle();
    }

    fn later_echo(&self, asked: Instant, pair: Pair) -> (Instant, Pair) {
        match self.echo {
            Some((before, had)) if had.sitting == pair.sitting && before > asked => (before, had),
            Some((before, had)) if had.sitting == pair.sitting && before == asked => (asked, had.min(pair)),
            _ => (asked, pair),
        }
    }

    /// Something came that was later than all before.
    pub fn comes(&mut self, now: Instant) {
        self.came = Some(now);
    }

    /// This is shown now.
    pub fn shows(&mut self, pair: Pair) {
        if self.shown.is_some_and(|shown| shown.sitting != pair.sitting) {
            self.known = None;
        }
        self.shown = Some(pair);
        self.heard = self.heard.max(Some(pair));
        self.settle();
    }

    fn settle(&mut self) {
        if let (Some(shown), Some((asked, pair))) = (self.shown, self.echo) {
            if shown.sitting == pair.sitting && shown.serial >= pair.serial {
                self.known = self.known.max(Some(asked));
            }
        }
    }

    pub fn heard(&self) -> Option<Pair> {
        self.heard
    }

    pub fn state(&self, now: Instant) -> State {
        let since = |then: Instant| now.saturating_duration_since(then);
        let quiet = self.came.map_or(Duration::ZERO, since);
        match (self.heard, self.shown) {
            (None, _) => State::Waiting,
            (Some(heard), Some(shown)) if heard.sitting == shown.sitting => {
                State::Shows { behind: heard.serial - shown.serial, age: self.known.map(since), quiet }
            }
            (Some(heard), _) => State::Begun { sitting: heard.sitting, quiet },
        }
    }

    /// What is to be said of the age of what is shown, unless it is level and that is said with it.
    pub fn of_when(&self, now: Instant) -> String {
        match self.known {
            _ if self.shown.is_none() || self.state(now).is_level() => String::new(),
            Some(known) => format!("the screen of {} ago", seconds(now.saturating_duration_since(known))),
            None => "the screen of an unknown time".into(),
        }
    }

    /// A smaller sitting that was there so long ago, or later.
    pub fn older(&self, now: Instant) -> Option<(u32, Duration)> {
        let (sitting, asked) = self.older?;
        Some((sitting, now.saturating_duration_since(asked))).filter(|(_, ago)| *ago < SILENT_AFTER)
    }
}

impl State {
    /// Whether what is shown is the newest that was heard of, and young enough to be called so.
    pub fn is_level(&self) -> bool {
        matches!(self, State::Shows { behind: 0, age: Some(age), .. } if tenths(*age) < tenths(LEVEL_UNDER))
    }

    /// How long nothing came that was later than all before; `None` before anything came.
    pub fn quiet(&self) -> Option<Duration> {
        match self {
            State::Waiting => None,
            State::Begun { quiet, .. } | State::Shows { quiet, .. } => Some(*quiet),
        }
    }

    pub fn is_silent(&self) -> bool {
        self.quiet().is_some_and(|quiet| quiet >= SILENT_AFTER)
    }
}

/// What can be true of a screen.
#[derive(Clone, Copy, PartialEq, Eq, Debug)]
pub enum Word {
    Waiting,
    Begun,
    Level,
    Old,
    Behind,
    Silent,
}

impl State {
    /// What is true, and how it is said; two where two are true.
    pub fn words(&self) -> Vec<(Word, String)> {
        let silent = self.quiet().filter(|_| self.is_silent()).map(|quiet| (Word::Silent, format!("SILENT for {} s", quiet.as_secs())));
        let place = match self {
            State::Waiting => Some((Word::Waiting, "WAITING for a candidate".into())),
            State::Shows { age: Some(age), .. } if self.is_level() => return vec![(Word::Level, format!("LEVEL, {}", seconds(*age)))],
            State::Begun { sitting, .. } => Some((Word::Begun, format!("BEGUN: sitting {sitting}"))),
            State::Shows { behind: 0, .. } => Some((Word::Old, "OLD".into())),
            State::Shows { behind, .. } => Some((Word::Behind, format!("BEHIND by {behind}"))),
        };
        [silent, place].into_iter().flatten().collect()
    }
}

/// The words, a comma between two.
impl fmt::Display for State {
    fn fmt(&self, f: &mut fmt::Formatter) -> fmt::Result {
        let said: Vec<_> = self.words().into_iter().map(|(_, said)| said).collect();
        f.write_str(&said.join(", "))
    }
}

/// A time that was not longer than this, in tenths of a second below ten, else in whole seconds: it is never said shorter than it was.
pub fn seconds(time: Duration) -> String {
    match tenths(time) {
        short if short < 100 => format!("{}.{} s", short / 10, short % 10),
        long => format!("{} s", long.div_ceil(10)),
    }
}

fn tenths(time: Duration) -> u128 {
    time.as_nanos().div_ceil(100_000_000)
}

#[cfg(test)]
mod tests {
    use super::*;

    const fn pair(sitting: u32, serial: u32) -> Pair {
        Pair { sitting, serial }
    }

    fn millis(n: u64) -> Duration {
        Duration::from_millis(n)
    }

    /// What is said at a time after the start.
    fn said(fresh: &Fresh, at: Instant) -> String {
        [fresh.state(at).to_string(), fresh.of_when(at)].join("; ").trim_end_matches("; ").into()
    }

    #[test]
    fn times_are_never_said_shorter() {
        for (time, text) in
            [(0, "0.0 s"), (1, "0.1 s"), (100, "0.1 s"), (101, "0.2 s"), (9_900, "9.9 s"), (9_901, "10 s"), (10_001, "11 s")]
        {
            assert_eq!(seconds(millis(time)), text);
        }
    }

    #[test]
    fn level_is_said_with_its_age_and_while_that_is_under_two_seconds() {
        let (mut fresh, begun) = (Fresh::default(), Instant::now());
        assert_eq!(said(&fresh, begun), "WAITING for a candidate");
        fresh.comes(begun);
        fresh.hears(pair(5, 3), None);
        assert_eq!(said(&fresh, begun), "BEGUN: sitting 5");
        fresh.shows(pair(5, 3));
        assert_eq!(said(&fresh, begun), "OLD; the screen of an unknown time");
        fresh.hears(pair(5, 3), Some(begun));
        for (after, text) in [
            (0, "LEVEL, 0.0 s"),
            (150, "LEVEL, 0.2 s"),
            (1_900, "LEVEL, 1.9 s"),
            (1_901, "OLD; the screen of 2.0 s ago"),
            (4_999, "OLD; the screen of 5.0 s ago"),
            (5_000, "SILENT for 5 s, OLD; the screen of 5.0 s ago"),
            (60_000, "SILENT for 60 s, OLD; the screen of 60 s ago"),
        ] {
            assert_eq!(said(&fresh, begun + millis(after)), text);
        }
    }

    #[test]
    fn the_time_of_arrival_makes_nothing_younger() {
        let (mut fresh, begun) = (Fresh::default(), Instant::now());
        fresh.hears(pair(5, 3), Some(begun));
        fresh.shows(pair(5, 3));
        // All that comes is delayed by 20 seconds.
        let now = begun + millis(20_000);
        fresh.comes(now);
        assert_eq!(said(&fresh, now), "OLD; the screen of 20 s ago");
        fresh.hears(pair(5, 3), Some(begun + millis(200)));
        assert_eq!(said(&fresh, now), "OLD; the screen of 20 s ago");
        fresh.hears(pair(5, 3), Some(begun + millis(100)));
        assert_eq!(said(&fresh, now + millis(300)), "OLD; the screen of 21 s ago", "an earlier question changes nothing");
    }

    #[test]
    fn behind_by_a_pair_alone() {
        let (mut fresh, begun) = (Fresh::default(), Instant::now());
        fresh.comes(begun);
        fresh.hears(pair(5, 3), Some(begun));
        fresh.shows(pair(5, 3));
        // A sign of life tells of four further calls; their reports are lost.
        let asked = begun + millis(500);
        fresh.hears(pair(5, 7), Some(asked));
        assert_eq!(said(&fresh, begun + millis(800)), "BEHIND by 4; the screen of 0.8 s ago");
        assert_eq!(said(&fresh, begun + millis(5_800)), "SILENT for 5 s, BEHIND by 4; the screen of 5.8 s ago");
        fresh.shows(pair(5, 6));
        assert_eq!(
            said(&fresh, begun + millis(800)),
            "BEHIND by 1; the screen of 0.8 s ago",
            "it may have been so only before the last question"
        );
        fresh.shows(pair(5, 8));
        assert_eq!(said(&fresh, begun + millis(800)), "LEVEL, 0.3 s", "it was so after the last question");
        // The same question came back first with a smaller pair, and arrives later.
        fresh.hears(pair(5, 9), Some(asked + millis(100)));
        fresh.hears(pair(5, 8), Some(asked + millis(100)));
        assert_eq!(said(&fresh, begun + millis(800)), "BEHIND by 1; the screen of 0.2 s ago");
    }

    #[test]
    fn another_sitting_knows_nothing_of_the_one_before() {
        let (mut fresh, begun) = (Fresh::default(), Instant::now());
        fresh.comes(begun);
        fresh.hears(pair(5, 30), Some(begun));
        fresh.shows(pair(5, 30));
        fresh.hears(pair(6, 0), None);
        assert_eq!(said(&fresh, begun + millis(500)), "BEGUN: sitting 6; the screen of 0.5 s ago");
        assert_eq!(said(&fresh, begun + SILENT_AFTER), "SILENT for 5 s, BEGUN: sitting 6; the screen of 5.0 s ago");
        fresh.shows(pair(6, 0));
        assert_eq!(said(&fresh, begun), "OLD; the screen of an unknown time", "the echo was of sitting 5");
        fresh.hears(pair(5, 40), Some(begun + millis(900)));
        assert_eq!(said(&fresh, begun + millis(900)), "OLD; the screen of an unknown time");
        fresh.hears(pair(6, 0), Some(begun + millis(400)));
        assert_eq!(said(&fresh, begun + millis(900)), "LEVEL, 0.5 s", "although the older one has echoed a later question");
    }

    #[test]
    fn an_older_sitting_is_told_by_its_echoes() {
        let (mut fresh, begun) = (Fresh::default(), Instant::now());
        fresh.shows(pair(6, 0));
        fresh.hears(pair(5, 9), None);
        assert_eq!(fresh.older(begun), None, "it may be a replay");
        fresh.hears(pair(5, 9), Some(begun));
        assert_eq!(fresh.older(begun + millis(1_500)), Some((5, millis(1_500))));
        assert_eq!(fresh.older(begun + SILENT_AFTER), None);
        fresh.hears(pair(5, 9), Some(begun + millis(4_000)));
        fresh.hears(pair(5, 9), Some(begun + millis(3_000)));
        assert_eq!(fresh.older(begun + SILENT_AFTER), Some((5, millis(1_000))), "it has answered a later question");
    }
}
