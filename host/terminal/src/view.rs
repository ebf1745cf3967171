//! What the invigilator looks at, the mirror or the last screen of an earlier sitting; and the words beside it.
use crate::canvas::{Part, GREEN, PLAIN, RED, REVERSED, STRONG, YELLOW};
use crate::field::Field;
use crate::span;
use futonrobin::{Mirror, Shown};
use line::fresh::seconds;
use line::{Follower, State, Word};
use std::time::{Duration, Instant};

/// What leads back while an earlier screen is looked at.
pub const HINT_BACK: &str = "PageDown: newer";

/// Looks at the mirror, unless an earlier sitting is chosen.
#[derive(Default)]
pub struct View {
    chosen: Option<u32>,
    words: span::Words,
}

impl View {
    /// At a mirror of which it is known that one types into a field, if so.
    pub fn of_field(field: Option<Field>) -> Self {
        Self { chosen: None, words: span::Words::of_field(field) }
    }

    /// To the sitting before the one that is looked at; from the earliest nowhere.
    pub fn back(&mut self, follower: &Follower) {
        let before = |mirror: &&Mirror| self.chosen.is_none_or(|chosen| mirror.sitting() < chosen);
        self.chosen = follower.earlier().rfind(before).map(|mirror| mirror.sitting()).or(self.chosen);
    }

    /// To the sitting after it; from the latest of the earlier ones to the mirror.
    pub fn forth(&mut self, follower: &Follower) {
        let after = |mirror: &&Mirror| self.chosen.is_some_and(|chosen| mirror.sitting() > chosen);
        self.chosen = follower.earlier().find(after).map(|mirror| mirror.sitting());
    }

    /// The last screen of an earlier sitting, if one is looked at.
    pub fn earlier<'a>(&self, follower: &'a Follower) -> Option<&'a Mirror> {
        follower.earlier().find(|mirror| self.chosen == Some(mirror.sitting()))
    }

    /// What is looked at, if there is anything yet.
    pub fn screen<'a>(&self, follower: &'a Follower) -> Option<&'a Mirror> {
        self.earlier(follower).or(follower.mirror())
    }

    /// Which sitting is looked at, in reverse if it is not the current one.
    pub fn title(&self, follower: &Follower) -> Vec<Part> {
        match (self.earlier(follower), follower.mirror()) {
            (Some(earlier), _) => vec![(format!("NOT CURRENT: sitting {}", earlier.sitting()), REVERSED)],
            (None, Some(mirror)) => vec![("INVIGILATOR".into(), STRONG), (format!("sitting {}", mirror.sitting()), STRONG)],
            (None, None) => vec![("INVIGILATOR".into(), STRONG)],
        }
    }

    /// What stands under the screen, in groups: at the mirror its state and age, its calls and modes, and the sittings; at an earlier screen its calls
    /// and modes, then what is true of the mirror now, which goes on.
    pub fn status(&self, follower: &Follower, now: Instant) -> [Vec<Part>; 3] {
        let modes = self.screen(follower).map_or(Vec::new(), |shown| self.words.of(shown));
        match self.earlier(follower) {
            None => [state(follower, now), [calls(follower, now), modes].concat(), sittings(follower, now)],
            Some(earlier) => {
                let own = [vec![(format!("shows {}", calls_of(earlier)), PLAIN)], modes].concat();
                [own, current(follower, now), sittings(follower, now)]
            }
        }
    }
}

/// Rings once for each time that the candidate falls silent.
#[derive(Default)]
pub struct Alarm {
    silent: bool,
}

impl Alarm {
    pub fn rings(&mut self, state: State) -> bool {
        let before = std::mem::replace(&mut self.silent, state.is_silent());
        self.silent && !before
    }
}

/// The words of the state, each in its colour, and the age of what is shown, unless that is said with them.
fn state(follower: &Follower, now: Instant) -> Vec<Part> {
    let words: Vec<_> = follower.state(now).words().into_iter().map(|(word, said)| (said, colour(word))).collect();
    let age = Some(follower.of_when(now)).filter(|age| !age.is_empty()).map(|age| (age, words[0].1));
    words.into_iter().chain(age).collect()
}

fn colour(word: Word) -> u8 {
    match word {
        Word::Waiting => STRONG,
        Word::Level => GREEN,
        Word::Old | Word::Behind | Word::Begun => YELLOW,
        Word::Silent => RED,
    }
}

/// The shown call and the newest, which are of one sitting unless another has begun.
fn calls(follower: &Follower, now: Instant) -> Vec<Part> {
    match (follower.state(now), follower.shown(), follower.heard()) {
        (State::Begun { .. }, ..) => vec![("no screen of it came yet".into(), YELLOW)],
        (_, Some(shown), Some(heard)) => vec![(format!("shows call {} of {}", shown.serial, heard.serial), PLAIN)],
        _ => Vec::new(),
    }
}

/// What is true of the mirror while an earlier screen is looked at.
fn current(follower: &Follower, now: Instant) -> Vec<Part> {
    let of = match (follower.state(now), follower.shown(), follower.heard()) {
        (State::Shows { .. }, Some(shown), Some(heard)) => {
            format!("current: sitting {}, call {} of {}", shown.sitting, shown.serial, heard.serial)
        }
        _ => "current:".into(),
    };
    let state = state(follower, now).into_iter().map(|(said, attr)| (said.replace("the screen", "its screen"), attr));
    [(of, PLAIN)].into_iter().chain(state).collect()
}

/// How far an earlier sitting is known, and how many calls of it were heard of.
fn calls_of(mirror: &Mirror) -> String {
    format!("call {} of {}", mirror.serial(), mirror.newest().serial)
}

/// Which one, how far it is known, and how many calls of it were heard of.
pub fn last_screen(mirror: &Mirror) -> String {
    format!("sitting {}, {}", mirror.sitting(), calls_of(mirror))
}

/// That a smaller sitting than the newest is still there, if one is; and how many there were.
fn sittings(follower: &Follower, now: Instant) -> Vec<Part> {
    let told = |(sitting, ago): (u32, Duration)| (format!("older sitting {sitting} heard {} ago", seconds(ago)), YELLOW);
    let how_many = match follower.sittings() {
        (0, _) => None,
        (1, _) => Some("1 sitting so far".into()),
        (count, kept) if kept < count => Some(format!("{count} sittings so far, {kept} kept")),
        (count, _) => Some(format!("{count} sittings so far")),
    };
    follower.older_heard(now).map(told).into_iter().chain(how_many.map(|many| (many, PLAIN))).collect()
}

#[cfg(test)]
mod tests {
    use super::*;
    use crate::samples::{screen, Candidates};
    use futonrobin::Screen;
    use line::{Invigilator, SharedKey};

    /// A follower that was sent a full report of each of these sittings, and has asked.
    fn heard(sittings: impl IntoIterator<Item = u32>, now: Instant) -> Follower {
        let shared = SharedKey::draw();
        let (mut invigilator, mut candidates) = (Invigilator::new(&shared), Candidates::new(shared));
        for sitting in sittings {
            let mut screen = Screen::new(40, sitting);
            screen.print_checked(sitting.to_string().as_bytes()).unwrap();
            candidates.full(&mut invigilator, &screen, now);
        }
        invigilator.follower
    }

    fn text(view: &View, follower: &Follower) -> String {
        String::from_utf8(view.screen(follower).unwrap().snapshot()).unwrap()
    }

    fn title(view: &View, follower: &Follower) -> String {
        joined(&view.title(follower))
    }

    fn joined(parts: &[Part]) -> String {
        parts.iter().map(|(text, _)| text.as_str()).collect::<Vec<_>>().join("  ")
    }

    fn status(view: &View, follower: &Follower, now: Instant) -> [String; 3] {
        view.status(follower, now).map(|group| joined(&group))
    }

    #[test]
    fn back_and_forth() {
        let now = Instant::now();
        let (follower, mut view) = (heard([3, 5, 9], now), View::default());
        assert_eq!((text(&view, &follower), title(&view, &follower)), ("9".into(), "INVIGILATOR  sitting 9".into()));
        assert_eq!(status(&view, &follower, now), ["LEVEL, 0.0 s", "shows call 1 of 1  room for 254", "3 sittings so far"]);
        view.forth(&follower);
        assert_eq!(text(&view, &follower), "9", "there is nothing after now");
        view.back(&follower);
        assert_eq!((text(&view, &follower), view.title(&follower)), ("5".into(), vec![("NOT CURRENT: sitting 5".into(), REVERSED)]));
        let back = ["shows call 1 of 1  room for 254", "current: sitting 9, call 1 of 1  LEVEL, 0.0 s", "3 sittings so far"];
        assert_eq!(status(&view, &follower, now), back);
        view.back(&follower);
        assert_eq!(text(&view, &follower), "3");
        view.back(&follower);
        assert_eq!(text(&view, &follower), "3", "there is nothing before it");
        view.forth(&follower);
        assert_eq!(text(&view, &follower), "5");
        view.forth(&follower);
        assert_eq!((text(&view, &follower), view.earlier(&follower)), ("9".into(), None));
    }

    #[test]
    fn looking_back_while_the_candidate_restarts() {
        let now = Instant::now();
        let (mut follower, mut view) = (heard([3, 5], now), View::default());
        view.back(&follower);
        follower = heard([3, 5, 9], now);
        assert_eq!(text(&view, &follower), "3", "it stays where it was");
        follower = heard(3..30, now);
        assert_eq!(text(&view, &follower), "29", "what is no longer kept is no longer looked at");
        assert_eq!(status(&view, &follower, now)[2], "27 sittings so far, 16 kept");
    }

    #[test]
    fn before_anything_was_heard() {
        let (follower, mut view) = (Follower::default(), View::default());
        view.back(&follower);
        assert!(view.screen(&follower).is_none());
        assert_eq!(title(&view, &follower), "INVIGILATOR");
        assert_eq!(status(&view, &follower, Instant::now()), ["WAITING for a candidate", "", ""]);
    }

    #[test]
    fn each_state_has_its_colour_and_two_are_both_told() {
        let now = Instant::now();
        let shared = SharedKey::draw();
        let (mut invigilator, mut candidates) = (Invigilator::new(&shared), Candidates::new(shared));
        let told = |invigilator: &Invigilator, later| state(&invigilator.follower, now + Duration::from_millis(later));
        let part = |text: &str, attr| (text.to_string(), attr);
        assert_eq!(told(&invigilator, 0), [part("WAITING for a candidate", STRONG)]);
        candidates.full(&mut invigilator, &screen(5, 3), now);
        assert_eq!(told(&invigilator, 200), [part("LEVEL, 0.2 s", GREEN)]);
        assert_eq!(told(&invigilator, 2_500), [part("OLD", YELLOW), part("the screen of 2.5 s ago", YELLOW)]);
        candidates.step(&mut invigilator, &screen(5, 9), now);
        assert_eq!(told(&invigilator, 200), [part("BEHIND by 6", YELLOW), part("the screen of 0.2 s ago", YELLOW)]);
        let both = [part("SILENT for 7 s", RED), part("BEHIND by 6", YELLOW), part("the screen of 7.0 s ago", RED)];
        assert_eq!(told(&invigilator, 7_000), both);
        let back = current(&invigilator.follower, now + Duration::from_millis(7_000));
        let expected =
            [part("current: sitting 5, call 3 of 9", PLAIN), both[0].clone(), both[1].clone(), part("its screen of 7.0 s ago", RED)];
        assert_eq!(back, expected);
        candidates.step(&mut invigilator, &screen(6, 1), now);
        assert_eq!(told(&invigilator, 7_000)[..2], [part("SILENT for 7 s", RED), part("BEGUN: sitting 6", YELLOW)]);
        assert_eq!(current(&invigilator.follower, now)[..2], [part("current:", PLAIN), part("BEGUN: sitting 6", YELLOW)]);
    }

    #[test]
    fn it_rings_once_for_each_silence() {
        let quiet = |seconds| State::Shows { behind: 0, age: None, quiet: Duration::from_secs(seconds) };
        let mut alarm = Alarm::default();
        let states = [
            State::Waiting,
            quiet(0),
            quiet(4),
            quiet(5),
            quiet(6),
            quiet(0),
            quiet(5),
            State::Begun { sitting: 7, quiet: Duration::from_secs(6) },
            quiet(0),
        ];
        assert_eq!(states.map(|state| alarm.rings(state)), [false, false, false, true, false, false, true, false, false]);
    }
}
