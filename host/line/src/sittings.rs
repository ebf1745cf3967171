//! The sittings that were heard of, each with a mirror of its own, which gets the reports of that sitting alone. The mirror that follows the
//! candidate leaves an earlier sitting for good; here its last screen stays, and reports of it that come late still count.
use crate::seal::Start;
use futonrobin::{Mirror, Refusal, Report, Shown};

/// So many are kept, so that nobody who sends numbers can fill the memory.
pub const KEPT: usize = 16;

#[derive(Default)]
pub struct Sittings {
    /// The smallest number first.
    kept: Vec<Sitting>,
    /// How many there were.
    pub count: usize,
    /// The largest that is no longer kept.
    gone: Option<u32>,
    /// The one that is shown, and the one that was shown before it.
    shown: Option<u32>,
    before: Option<u32>,
}

struct Sitting {
    /// The start whose reports these are.
    start: Start,
    /// Of its new screen.
    width: u32,
    mirror: Mirror,
}

impl Sittings {
    /// Whether what is kept of this sitting is another start's.
    pub fn is_anothers(&self, number: u32, start: Start) -> bool {
        self.place(number).is_ok_and(|at| self.kept[at].start != start)
    }

    /// A report of this start arrives at the mirror of its sitting, which begins at this width if it is the first one.
    pub fn arrive(&mut self, start: Start, width: u32, report: &Report) -> Result<(), Refusal> {
        match self.place(report.sitting()) {
            Ok(at) => self.kept[at].mirror.arrive(report).map(drop),
            Err(at) => {
                let mut mirror = Mirror::new(width, report.sitting());
                mirror.arrive(report)?;
                self.kept.insert(at, Sitting { start, width, mirror });
                // A smaller one than one that is gone may be gone itself, and was counted then.
                self.count += (Some(report.sitting()) > self.gone) as usize;
                Ok(())
            }
        }
    }

    /// After an arrival, with the one that is then shown: if there are too many, the smallest goes, be it the one that has just come. The one that is
    /// shown stays, and so does the one before it, which may be the one that is marked.
    pub fn make_room(&mut self, shown: u32) {
        if self.shown != Some(shown) {
            self.before = self.shown.replace(shown);
        }
        let held = [self.shown, self.before];
        let smallest = self.kept.iter().position(|sitting| !held.contains(&Some(sitting.mirror.sitting())));
        if let Some(at) = smallest.filter(|_| self.kept.len() > KEPT) {
            self.gone = self.gone.max(Some(self.kept.remove(at).mirror.sitting()));
        }
    }

    fn place(&self, number: u32) -> Result<usize, usize> {
        self.kept.binary_search_by_key(&number, |sitting| sitting.mirror.sitting())
    }

    /// The width of a sitting's new screen.
    pub fn width(&self, number: u32) -> Option<u32> {
        Some(self.kept[self.place(number).ok()?].width)
    }

    /// The last screens of the sittings before this one.
    pub fn before(&self, number: u32) -> impl DoubleEndedIterator<Item = &Mirror> {
        let end = self.place(number).unwrap_or_else(|at| at);
        self.kept[..end].iter().map(|sitting| &sitting.mirror)
    }

    /// How many are kept.
    pub fn kept(&self) -> usize {
        self.kept.len()
    }
}

#[cfg(test)]
mod tests {
    use super::*;
    use futonrobin::Screen;

    const START: Start = Start::from_bytes([1; 16]);

    #[test]
    fn each_sitting_has_its_own_last_screen() {
        let (mut sittings, mut first, mut second) = (Sittings::default(), Screen::new(40, 5), Screen::new(80, 9));
        first.print_checked(b"FIRST").unwrap();
        sittings.arrive(START, 40, &first.report_step()).unwrap();
        second.print_checked(b"SECOND").unwrap();
        sittings.arrive(START, 80, &second.report_step()).unwrap();
        // Late, and applied nevertheless.
        first.print_checked(b", TO THE END").unwrap();
        sittings.arrive(START, 40, &first.report_step()).unwrap();
        assert_eq!(sittings.before(9).map(|mirror| mirror.snapshot()).collect::<Vec<_>>(), [b"FIRST, TO THE END"]);
        assert_eq!(sittings.before(10).next_back().unwrap().snapshot(), b"SECOND");
        assert_eq!((sittings.width(5), sittings.width(9), sittings.width(6), sittings.count), (Some(40), Some(80), None, 2));
    }

    #[test]
    fn what_contradicts_its_width_begins_nothing() {
        let (mut sittings, mut screen) = (Sittings::default(), Screen::new(80, 5));
        screen.type_char(b'A').unwrap();
        assert_eq!(sittings.arrive(START, 40, &screen.report_step()), Err(Refusal::WidthWithoutRows));
        assert_eq!((sittings.kept(), sittings.count), (0, 0));
    }

    #[test]
    fn what_is_kept_is_of_one_start() {
        let (mut sittings, other) = (Sittings::default(), Start::from_bytes([2; 16]));
        sittings.arrive(START, 40, &Screen::new(40, 5).report_full()).unwrap();
        assert_eq!([(5, START), (5, other), (6, other)].map(|(number, start)| sittings.is_anothers(number, start)), [false, true, false]);
    }

    /// A full report of this sitting comes, and then that one is shown; how many are kept, and how many were counted.
    fn hear(sittings: &mut Sittings, number: u32, shown: u32) -> (usize, usize) {
        sittings.arrive(START, 40, &Screen::new(40, number).report_full()).unwrap();
        sittings.make_room(shown);
        (sittings.kept(), sittings.count)
    }

    fn numbers(sittings: &Sittings) -> Vec<u32> {
        sittings.kept.iter().map(|sitting| sitting.mirror.sitting()).collect()
    }

    /// 30 is shown, and 20 were heard: 10, 20, 40 and 50 are gone.
    fn twenty() -> Sittings {
        let mut sittings = Sittings::default();
        for number in (10..=200).step_by(10) {
            hear(&mut sittings, number, 30);
        }
        sittings
    }

    fn thirty_and(first: u32, last: u32) -> Vec<u32> {
        [30].into_iter().chain((first..=last).step_by(10)).collect()
    }

    #[test]
    fn the_smallest_go_but_not_the_one_that_is_shown() {
        let mut sittings = twenty();
        for gone in [10, 50, 10, 50] {
            assert_eq!(hear(&mut sittings, gone, 30), (KEPT, 20), "neither kept nor counted again");
        }
        assert_eq!(numbers(&sittings), thirty_and(60, 200));
    }

    #[test]
    fn nor_the_one_that_was_shown_before_it() {
        let mut sittings = twenty();
        assert_eq!(hear(&mut sittings, 200, 200), (KEPT, 20));
        for gone in [50, 10, 50] {
            assert_eq!(hear(&mut sittings, gone, 200), (KEPT, 20), "neither kept nor counted again");
        }
        assert_eq!(numbers(&sittings), thirty_and(60, 200));
        assert_eq!((hear(&mut sittings, 55, 200), hear(&mut sittings, 55, 200)), ((KEPT, 21), (KEPT, 21)), "it is counted once");
        assert_eq!(hear(&mut sittings, 210, 210), (KEPT, 22));
        assert_eq!(numbers(&sittings), (60..=210).step_by(10).collect::<Vec<_>>(), "30 was shown before 200, which was before 210");
    }

    #[test]
    fn one_that_was_gone_is_kept_when_it_is_shown() {
        let mut sittings = twenty();
        assert_eq!(hear(&mut sittings, 50, 50), (KEPT, 20), "a full report of it came after all");
        assert_eq!(numbers(&sittings), [&[30, 50][..], &thirty_and(70, 200)[1..]].concat());
    }
}
