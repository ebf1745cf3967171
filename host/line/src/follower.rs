//! The invigilator's mirror, which follows the candidate from sitting to sitting.
use crate::fresh::{Fresh, State};
use crate::seal::Start;
use crate::sittings::Sittings;
use futonrobin::{Mirror, Pair, Refusal, Report, Shown};
use std::time::{Duration, Instant};

#[derive(Default)]
pub struct Follower {
    /// The one that is shown, from the first good report on. Every report arrives at it, of whatever sitting.
    mirror: Option<Mirror>,
    sittings: Sittings,
    fresh: Fresh,
}

impl Follower {
    /// The candidate's screen had this pair after the question that was asked then. With `new`, that was the latest that came from it so far, and
    /// came then.
    pub(crate) fn hears(&mut self, pair: Pair, asked: Option<Instant>, new: Option<Instant>) {
        self.fresh.hears(pair, asked);
        if let Some(now) = new {
            self.fresh.comes(now);
        }
    }

    /// Whether what is kept of this sitting is another start's.
    pub(crate) fn is_anothers(&self, sitting: u32, start: Start) -> bool {
        self.sittings.is_anothers(sitting, start)
    }

    /// A report of this start, whose new screen had this width. The pair that it reports, unless it is none or the mirror refuses it.
    pub(crate) fn report(&mut self, start: Start, width: u8, report: &[u8]) -> Result<Pair, Refusal> {
        let report = Report::from_bytes(report)?;
        self.sittings.arrive(start, width.into(), &report)?;
        let mirror = self.mirror.get_or_insert_with(|| Mirror::new(width.into(), report.sitting()));
        mirror.arrive(&report)?;
        let shown = mirror.pair();
        self.sittings.make_room(shown.sitting);
        self.fresh.shows(shown);
        self.fresh.hears(report.pair(), None);
        Ok(report.pair())
    }

    pub fn mirror(&self) -> Option<&Mirror> {
        self.mirror.as_ref()
    }

    /// The last screens of the sittings before the shown one.
    pub fn earlier(&self) -> impl DoubleEndedIterator<Item = &Mirror> {
        self.mirror.iter().flat_map(|mirror| self.sittings.before(mirror.sitting()))
    }

    /// How many sittings there were reports of, and how many of them are kept.
    pub fn sittings(&self) -> (usize, usize) {
        (self.sittings.count, self.sittings.kept())
    }

    /// The width of a sitting's new screen.
    pub fn width_of(&self, sitting: u32) -> Option<u32> {
        self.sittings.width(sitting)
    }

    pub fn shown(&self) -> Option<Pair> {
        self.mirror().map(|mirror| mirror.pair())
    }

    /// The newest pair that the candidate's screen is known to have had.
    pub fn heard(&self) -> Option<Pair> {
        self.fresh.heard()
    }

    /// How far what is shown may be trusted to be the newest.
    pub fn state(&self, now: Instant) -> State {
        self.fresh.state(now)
    }

    /// What is to be said of the age of what is shown, unless it is level and that is said with it.
    pub fn of_when(&self, now: Instant) -> String {
        self.fresh.of_when(now)
    }

    /// A smaller sitting that was there so long ago, or later.
    pub fn older_heard(&self, now: Instant) -> Option<(u32, Duration)> {
        self.fresh.older(now)
    }
}

#[cfg(test)]
mod tests {
    use super::*;
    use futonrobin::Screen;

    const START: Start = Start::from_bytes([1; 16]);

    fn typed(text: &[u8], width: u32, sitting: u32) -> Screen {
        let mut screen = Screen::new(width, sitting);
        text.iter().for_each(|&ch| screen.type_char(ch).unwrap());
        screen
    }

    /// A full report of a screen of 40 columns on which that was typed.
    fn full(follower: &mut Follower, text: &[u8], sitting: u32) -> Result<Pair, Refusal> {
        follower.report(START, 40, typed(text, 40, sitting).report_full().as_bytes())
    }

    fn step(follower: &mut Follower, text: &[u8], sitting: u32) -> Result<Pair, Refusal> {
        follower.report(START, 40, typed(text, 40, sitting).report_step().as_bytes())
    }

    fn text(follower: &Follower) -> Vec<u8> {
        follower.mirror().unwrap().snapshot()
    }

    fn earlier(follower: &Follower) -> Vec<(Pair, Vec<u8>)> {
        follower.earlier().map(|mirror| (mirror.pair(), mirror.snapshot())).collect()
    }

    #[test]
    fn what_is_no_report_or_refused_is_never_first() {
        let (mut follower, report) = (Follower::default(), typed(b"A", 40, 5).report_full());
        for bytes in [&b""[..], b"garbage", &report.as_bytes()[1..]] {
            assert!(follower.report(START, 40, bytes).is_err());
        }
        // A step of a screen of 80 columns, said to have begun with 40.
        assert_eq!(follower.report(START, 40, typed(b"A", 80, 5).report_step().as_bytes()), Err(Refusal::WidthWithoutRows));
        assert_eq!((follower.shown(), follower.heard(), follower.sittings()), (None, None, (0, 0)));
        let pair = Pair { sitting: 5, serial: 1 };
        assert_eq!(follower.report(START, 40, report.as_bytes()), Ok(pair));
        assert_eq!((follower.shown(), follower.heard(), follower.sittings()), (Some(pair), Some(pair), (1, 1)));
    }

    #[test]
    fn a_restart_is_followed_and_its_last_screen_kept() {
        let mut follower = Follower::default();
        full(&mut follower, b"OLD", 5).unwrap();
        assert_eq!((follower.sittings(), earlier(&follower)), ((1, 1), vec![]));
        full(&mut follower, b"", 6).unwrap();
        assert_eq!((follower.sittings(), text(&follower)), ((2, 2), vec![]));
        assert_eq!(earlier(&follower), [(Pair { sitting: 5, serial: 3 }, b"OLD".to_vec())]);
        step(&mut follower, b"N", 6).unwrap();
        assert_eq!((text(&follower), follower.heard()), (b"N".to_vec(), Some(Pair { sitting: 6, serial: 1 })));
    }

    #[test]
    fn between_its_first_sign_and_its_first_full_report() {
        let (mut follower, now) = (Follower::default(), Instant::now());
        full(&mut follower, b"OLD", 5).unwrap();
        step(&mut follower, b"N", 6).unwrap();
        assert!(matches!(follower.state(now), State::Begun { sitting: 6, .. }));
        assert_eq!((text(&follower), earlier(&follower)), (b"OLD".to_vec(), vec![]));
        // The mirror goes on with the sitting that it shows.
        step(&mut follower, b"OLD!", 5).unwrap();
        assert!(matches!(follower.state(now), State::Begun { sitting: 6, .. }));
        assert_eq!(text(&follower), b"OLD!");
        full(&mut follower, b"NEW", 6).unwrap();
        assert_eq!(text(&follower), b"NEW");
        assert_eq!(earlier(&follower), [(Pair { sitting: 5, serial: 4 }, b"OLD!".to_vec())]);
    }

    #[test]
    fn late_reports_of_an_earlier_sitting_still_count_for_its_last_screen() {
        let mut follower = Follower::default();
        full(&mut follower, b"OL", 5).unwrap();
        full(&mut follower, b"", 6).unwrap();
        step(&mut follower, b"OLD", 5).unwrap();
        assert_eq!(text(&follower), b"", "it is never shown as the newest");
        assert_eq!(earlier(&follower), [(Pair { sitting: 5, serial: 3 }, b"OLD".to_vec())]);
    }

    #[test]
    fn the_width_of_another_sitting() {
        let mut follower = Follower::default();
        full(&mut follower, b"A", 5).unwrap();
        follower.report(START, 80, typed(b"", 80, 6).report_full().as_bytes()).unwrap();
        assert_eq!((follower.mirror().unwrap().width(), follower.width_of(5), follower.width_of(6)), (80, Some(40), Some(80)));
        // A step of 80 columns whose sitting is said to have begun with 40.
        assert!(follower.report(START, 40, typed(b"A", 80, 7).report_step().as_bytes()).is_err());
        assert_eq!((follower.heard(), follower.sittings()), (Some(Pair { sitting: 6, serial: 0 }), (2, 2)));
    }

    #[test]
    fn what_is_shown_is_known_by_an_echo() {
        let (mut follower, begun) = (Follower::default(), Instant::now());
        full(&mut follower, b"ABC", 5).unwrap();
        assert_eq!(follower.of_when(begun), "the screen of an unknown time");
        follower.hears(Pair { sitting: 5, serial: 3 }, Some(begun), Some(begun));
        assert!(follower.state(begun).is_level());
        follower.hears(Pair { sitting: 5, serial: 4 }, None, None);
        assert_eq!(follower.state(begun).to_string(), "BEHIND by 1");
    }
}
