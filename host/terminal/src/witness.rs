//! Witnesses of a session: they know all keys, and so the screen after each number of accepted calls.
use crate::desk::{Desk, Paper};
use crate::keys::Key;
use futonrobin::{Mirror, Refusal, Screen, Shown};
use line::Follower;
use std::collections::{BTreeMap, VecDeque};

/// One for each sitting that the mirror has shown; in each the same keys are pressed from the beginning.
pub struct Witnesses {
    session: Session,
    of: BTreeMap<u32, Witness>,
}

impl Witnesses {
    /// They know the text too that a key prints, and the field.
    pub fn new(keys: &[Key], paper: Paper) -> Self {
        Self { session: Session::new(keys, paper), of: BTreeMap::new() }
    }

    /// Looks at the mirror after a report, with the witness of the sitting that it shows; whether it shows the newest call that a report told of.
    pub fn check(&mut self, follower: &Follower) -> Result<bool, String> {
        let mirror = follower.mirror().ok_or("there is no mirror")?;
        let known = self.of.entry(mirror.sitting());
        known.or_insert_with(|| Witness::of(follower, mirror.sitting(), &self.session)).check(mirror)?;
        Ok(mirror.is_level())
    }

    /// Looks at the last screens of earlier sittings, those of which no full report came among them; what is wrong with them. A smaller one than all
    /// that the mirror has shown may be another candidate's, of whose keys nothing is known here.
    pub fn check_earlier(&self, follower: &Follower) -> Vec<String> {
        let first = self.of.keys().next();
        let known = follower.earlier().filter(|mirror| first.is_some_and(|&first| mirror.sitting() >= first));
        known.filter_map(|mirror| Witness::of(follower, mirror.sitting(), &self.session).check(mirror).err()).collect()
    }

    /// Whether the mirror shows the last screen that the keys make.
    pub fn ended(&self, follower: &Follower) -> bool {
        follower.mirror().is_some_and(|mirror| self.of.get(&mirror.sitting()).is_some_and(|witness| witness.total == mirror.serial()))
    }

    /// How many sittings the mirror has shown.
    pub fn sittings(&self) -> usize {
        self.of.len()
    }
}

/// What is pressed in each sitting.
struct Session {
    keys: Vec<Key>,
    paper: Paper,
    /// How many calls all keys make at 40 and at 80 columns: a text has more pages where rows are shorter. They are counted before anything arrives, since
    /// that takes as long as to press all keys.
    totals: [u32; 2],
}

impl Session {
    fn new(keys: &[Key], paper: Paper) -> Self {
        let mut session = Self { keys: keys.to_vec(), paper, totals: [0; 2] };
        session.totals = [40, 80].map(|width| session.count(width));
        session
    }

    fn desk(&self, width: u32, sitting: u32) -> Desk {
        Desk::with(self.paper.clone(), width, sitting)
    }

    /// Up to the first that is refused, if one is.
    fn count(&self, width: u32) -> u32 {
        let mut desk = self.desk(width, 0);
        let _ = self.keys.iter().try_for_each(|&key| desk.press_and(key, |_| ()));
        desk.screen.serial()
    }
}

/// The witness of one sitting.
struct Witness {
    /// The screen that the mirror should show; and those after it, as far as the keys that were pressed lead. A key may make several calls.
    screen: Screen,
    ahead: VecDeque<Screen>,
    desk: Desk,
    keys: std::vec::IntoIter<Key>,
    /// How many calls all keys make.
    total: u32,
}

impl Witness {
    fn of(follower: &Follower, sitting: u32, session: &Session) -> Self {
        Self::new(follower.width_of(sitting).expect("the sitting was heard of"), sitting, session)
    }

    fn new(width: u32, sitting: u32, session: &Session) -> Self {
        let desk = session.desk(width, sitting);
        let total = session.totals[(desk.screen.width() == 80) as usize];
        Self { screen: desk.screen.clone(), ahead: VecDeque::new(), desk, total, keys: session.keys.clone().into_iter() }
    }

    /// The mirror must show the screen after the calls that it names, and have heard of none that was not made.
    fn check(&mut self, mirror: &Mirror) -> Result<(), String> {
        let (shown, newest, before) = (mirror.pair(), mirror.newest(), self.screen.pair());
        let made = shown.serial.max(newest.serial) <= self.total;
        if shown > newest || shown < before || shown.sitting != before.sitting || !made {
            let total = self.total;
            return Err(format!("the mirror shows {shown}, has heard of {newest} and has shown {before}; the keys make {total} calls"));
        }
        self.reach(shown.serial).map_err(|refusal| refusal.to_string())?;
        if !mirror.same_as(&self.screen) {
            return Err(format!("the mirror does not show {shown}: {}", difference(mirror, &self.screen)));
        }
        Ok(())
    }

    /// Goes on to the screen after so many calls.
    fn reach(&mut self, serial: u32) -> Result<(), Refusal> {
        while self.screen.serial() < serial {
            match self.ahead.pop_front() {
                Some(next) => self.screen = next,
                None => {
                    let key = self.keys.next().expect("the keys make more calls");
                    self.desk.press_and(key, |screen| self.ahead.push_back(screen.clone()))?;
                }
            }
        }
        Ok(())
    }
}

fn difference(mirror: &Mirror, screen: &impl Shown) -> String {
    let places = (0..25).flat_map(|row| (0..mirror.width().min(screen.width())).map(move |col| (row, col)));
    let cells: Vec<_> = places.filter(|&(row, col)| mirror.cell(row, col) != screen.cell(row, col)).collect();
    match cells.first() {
        Some((row, col)) => format!("{} wrong cells, the first in row {row}, column {col}", cells.len()),
        None => "width, cursor, modes or flags are wrong".into(),
    }
}

#[cfg(test)]
mod tests {
    use super::*;
    use crate::field::Field;
    use crate::listing::Text;
    use crate::samples::Candidates;
    use futonrobin::Report;
    use line::{Invigilator, SharedKey};
    use std::time::Instant;

    fn keys() -> Vec<Key> {
        b"WARD 7".map(Key::Char).to_vec()
    }

    fn witness(keys: &[Key]) -> Witness {
        Witness::new(80, 5, &Session::new(keys, Text::wards().into()))
    }

    /// A mirror that has got the full report of a screen.
    fn mirror_of(screen: &Screen) -> Mirror {
        let mut mirror = Mirror::new(80, 5);
        mirror.arrive(screen.report_full()).unwrap();
        mirror
    }

    fn typed(text: &[u8], sitting: u32) -> Screen {
        let mut screen = Screen::new(80, sitting);
        text.iter().for_each(|&ch| screen.type_char(ch).unwrap());
        screen
    }

    #[test]
    fn the_right_screen_is_taken() {
        let mut witness = witness(&keys());
        for n in 0..=6 {
            assert_eq!(witness.check(&mirror_of(&typed(&b"WARD 7"[..n], 5))), Ok(()));
        }
    }

    /// The ward list, with a key that turns its page, one that drops the rest, and one that types: at 40 and at 80 columns.
    #[test]
    fn the_calls_of_a_text_that_is_printed_a_screen_at_a_time() {
        // So many ignored bytes need two calls on one page.
        let text = [&b"FIRST\r\n"[..], &[7; 70_000], &b"NEXT\r\n".repeat(90)].concat();
        let keys = [Key::Print, Key::Function(1), Key::Char(b'A'), Key::Escape, Key::Char(b'B'), Key::Print, Key::Escape];
        for width in [40, 80] {
            let session = Session::new(&keys, Text::from(&text[..]).into());
            let (mut witness, mut desk) = (Witness::new(width, 5, &session), session.desk(width, 5));
            let mut mirror = Mirror::new(width, 5);
            let reports: Vec<_> = keys.iter().flat_map(|&key| desk.press(key).unwrap()).collect();
            assert_eq!(session.totals, [7; 2], "two of each print, one of each page and one of the key that types");
            for report in &reports {
                mirror.arrive(report).unwrap();
                assert_eq!(witness.check(&mirror), Ok(()));
            }
            assert!(mirror.same_as(&desk.screen) && mirror.serial() == 7 && !desk.listing.waits());
        }
    }

    #[test]
    fn a_text_that_the_other_end_does_not_print_is_seen() {
        let mut desk = Desk::with(Text::from(&b"WARD 7"[..]).into(), 80, 5);
        desk.press(Key::Print).unwrap();
        assert!(witness(&[Key::Print]).check(&mirror_of(&desk.screen)).unwrap_err().contains("the mirror does not show call 1"));
    }

    /// Keys that a field keeps from what they do, and the calls that they make of it.
    #[test]
    fn a_field_that_both_ends_know() {
        let keys = [keys(), [Key::CtrlEnter, Key::Home, Key::Insert, Key::Tab, Key::Insert, Key::Function(10)].into()].concat();
        let paper = Paper { text: Text::wards(), field: Field::new(5) };
        let session = Session::new(&keys, paper.clone());
        let (mut witness, mut desk, mut mirror) = (Witness::new(80, 5, &session), Desk::with(paper, 80, 5), Mirror::new(80, 5));
        for &key in &keys {
            for report in desk.press(key).unwrap() {
                mirror.arrive(report).unwrap();
                assert_eq!(witness.check(&mirror), Ok(()));
            }
        }
        assert_eq!((mirror.serial(), session.totals[1], mirror.snapshot()), (16, 16, b" SCRE".to_vec()));
    }

    #[test]
    fn a_field_that_the_other_end_does_not_have_is_seen() {
        let mut desk = Desk::with(Paper { text: Text::wards(), field: Field::new(5) }, 80, 5);
        keys().iter().for_each(|&key| drop(desk.press(key).unwrap()));
        let told = witness(&keys()).check(&mirror_of(&desk.screen)).unwrap_err();
        assert!(told.ends_with("1 wrong cells, the first in row 0, column 5"), "{told}");
    }

    #[test]
    fn one_wrong_cell_is_seen() {
        let told = witness(&keys()).check(&mirror_of(&typed(b"WARD 8", 5))).unwrap_err();
        assert!(told.ends_with("1 wrong cells, the first in row 0, column 5"), "{told}");
    }

    #[test]
    fn a_wrong_cursor_is_seen() {
        let keys = [b"BED".map(Key::Char).to_vec(), vec![Key::Left]].concat();
        let mut screen = typed(b"BED", 5);
        screen.home().unwrap();
        assert!(witness(&keys).check(&mirror_of(&screen)).unwrap_err().contains("are wrong"));
    }

    #[test]
    fn a_call_that_was_not_made_is_seen() {
        let report: Report = typed(b"WARD 7!", 5).report_step();
        let mut mirror = mirror_of(&typed(b"WARD 7", 5));
        mirror.arrive(&report).unwrap();
        assert!(witness(&keys()).check(&mirror).unwrap_err().contains("the keys make 6 calls"));
    }

    #[test]
    fn a_screen_of_another_sitting_is_seen() {
        assert!(witness(&keys()).check(&mirror_of(&typed(b"WARD 7", 6))).unwrap_err().contains("call 6 of sitting 6"));
    }

    /// What was said of the mirror after each report: whether it is right, whether it has ended, how many earlier screens are wrong.
    struct Scene {
        candidates: Candidates,
        invigilator: Invigilator,
        witnesses: Witnesses,
    }

    impl Scene {
        fn new() -> Self {
            let shared = SharedKey::draw();
            Self {
                invigilator: Invigilator::new(&shared),
                candidates: Candidates::new(shared),
                witnesses: Witnesses::new(&keys(), Text::wards().into()),
            }
        }

        fn full(&mut self, screen: &Screen) -> (Result<bool, String>, bool, usize) {
            self.candidates.full(&mut self.invigilator, screen, Instant::now());
            self.look()
        }

        fn step(&mut self, screen: &Screen) -> (Result<bool, String>, bool, usize) {
            self.candidates.step(&mut self.invigilator, screen, Instant::now());
            self.look()
        }

        fn look(&mut self) -> (Result<bool, String>, bool, usize) {
            let follower = &self.invigilator.follower;
            (self.witnesses.check(follower), self.witnesses.ended(follower), self.witnesses.check_earlier(follower).len())
        }
    }

    #[test]
    fn each_sitting_has_its_witness() {
        let mut scene = Scene::new();
        assert_eq!(scene.full(&typed(b"WARD", 5)), (Ok(true), false, 0));
        assert_eq!(scene.step(&typed(b"WARD 7", 6)), (Ok(false), false, 0), "sitting 6 has begun");
        assert_eq!(scene.full(&typed(b"WARD 7", 6)), (Ok(true), true, 0));
        assert_eq!(scene.full(&typed(b"WARD 8", 5)), (Ok(true), true, 1), "a late and wrong report is a matter of the earlier screen");
    }

    #[test]
    fn earlier_sittings_that_were_never_shown() {
        let mut scene = Scene::new();
        assert_eq!(scene.full(&typed(b"WARD", 5)), (Ok(true), false, 0));
        assert_eq!(scene.step(&typed(b"W", 6)), (Ok(false), false, 0));
        assert_eq!(scene.step(&typed(b"B", 7)), (Ok(false), false, 0));
        assert_eq!(scene.full(&typed(b"WARD 7", 8)), (Ok(true), true, 1), "6 is as the keys make it, 7 is not");
        assert_eq!(scene.full(&typed(b"BED", 4)), (Ok(true), true, 1), "4 may be another's");
    }
}
