//! Where candidates are, and who is asked there. An address proves nothing: anybody can send again from anywhere what was sent before.
use crate::fresh::SILENT_AFTER;
use crate::message::Mark;
use crate::seal::Start;
use std::net::SocketAddr;
use std::time::Instant;

/// So many sittings are remembered, those with the largest numbers.
pub const KEPT: usize = 8;

#[derive(Clone, Copy, PartialEq, Eq, Debug)]
pub struct Place {
    pub sitting: u32,
    /// The latest datagram of the sitting.
    pub datagram: Mark,
    /// Where it came from, and since when the latest come from there.
    pub from: SocketAddr,
    since: Instant,
    /// Whether anybody was asked there; and not since the latest came.
    asked: bool,
    owed: bool,
    /// When the last question was asked there of which an echo came back. An echo of one that was asked elsewhere does not vouch for the place.
    vouched: Option<Instant>,
}

#[derive(Default)]
pub struct Places {
    /// The largest sitting is the last one.
    kept: Vec<Place>,
}

impl Places {
    /// Whether another start has said that this is its sitting. To a mirror the two screens would be one.
    pub fn is_anothers(&self, sitting: u32, start: Start) -> bool {
        self.kept.iter().any(|place| place.sitting == sitting && place.datagram.start != start)
    }

    /// A datagram of this sitting came from there, and echoes the question that was asked then. Whether it is later than all before, by sitting and
    /// then counter: only then the candidate is followed there.
    pub fn come(&mut self, sitting: u32, datagram: Mark, from: SocketAddr, echoed: Option<Instant>, now: Instant) -> bool {
        let new = Place { sitting, datagram, from, since: now, asked: false, owed: true, vouched: None };
        let place = match self.kept.binary_search_by_key(&sitting, |place| place.sitting) {
            Ok(at) if self.kept[at].datagram.counter >= datagram.counter => return false,
            Ok(at) if self.kept[at].from == from => &mut self.kept[at],
            Ok(at) => {
                self.kept[at] = new;
                &mut self.kept[at]
            }
            Err(at) => {
                self.kept.insert(at, new);
                &mut self.kept[at]
            }
        };
        (place.datagram, place.owed) = (datagram, true);
        place.vouched = place.vouched.max(echoed.filter(|asked| *asked >= place.since));
        self.kept.drain(..self.kept.len().saturating_sub(KEPT));
        self.latest().is_some_and(|latest| latest.sitting == sitting)
    }

    /// Where the candidate is that is followed.
    pub fn latest(&self) -> Option<&Place> {
        self.kept.last()
    }

    /// Whether the candidate that is followed came from where nobody was asked yet.
    pub fn has_moved(&self) -> bool {
        self.latest().is_some_and(|latest| !latest.asked)
    }

    /// Who is to be asked now, the latest first: whoever has said something since the last question, or has answered one that was asked there. A
    /// candidate of a smaller sitting is asked too, so that it can say that its screen is not shown.
    pub fn to_ask(&mut self, now: Instant) -> Vec<Place> {
        let answers = |place: &Place| place.vouched.is_some_and(|asked| now.saturating_duration_since(asked) < SILENT_AFTER);
        let asked = self.kept.iter().rev().filter(|place| place.owed || answers(place)).copied().collect();
        self.kept.iter_mut().for_each(|place| (place.asked, place.owed) = (true, false));
        asked
    }
}

#[cfg(test)]
mod tests {
    use super::*;
    use std::time::Duration;

    fn address(n: u8) -> SocketAddr {
        ([192, 0, 2, n], 4_000).into()
    }

    /// Datagrams of sittings, each of a start of its own, and who is then asked.
    struct Scene {
        places: Places,
        begun: Instant,
    }

    impl Scene {
        fn new() -> Self {
            Self { places: Places::default(), begun: Instant::now() }
        }

        fn at(&self, millis: u64) -> Instant {
            self.begun + Duration::from_millis(millis)
        }

        fn come(&mut self, sitting: u32, counter: u64, from: u8, echoed: Option<u64>, millis: u64) -> bool {
            let datagram = Mark { start: Start::from_bytes([sitting as u8; 16]), counter };
            let (echoed, now) = (echoed.map(|millis| self.at(millis)), self.at(millis));
            self.places.come(sitting, datagram, address(from), echoed, now)
        }

        fn asked(&mut self, millis: u64) -> Vec<SocketAddr> {
            let now = self.at(millis);
            self.places.to_ask(now).iter().map(|place| place.from).collect()
        }
    }

    #[test]
    fn a_place_that_does_not_answer_gets_a_question_for_each_later_datagram() {
        let mut scene = Scene::new();
        assert!(scene.come(7, 5, 1, None, 0) && scene.places.has_moved());
        assert_eq!((scene.asked(0), scene.asked(200)), (vec![address(1)], vec![]));
        assert!(!scene.come(7, 5, 1, None, 300) && !scene.come(7, 4, 2, None, 300), "repeated, and late");
        assert_eq!(scene.asked(400), []);
        assert!(scene.come(7, 6, 1, None, 500) && !scene.places.has_moved());
        assert_eq!((scene.asked(600), scene.asked(800)), (vec![address(1)], vec![]));
    }

    #[test]
    fn one_that_answers_is_asked_for_five_seconds_more() {
        let mut scene = Scene::new();
        scene.come(7, 0, 1, None, 0);
        scene.asked(10);
        scene.come(7, 1, 1, Some(10), 20);
        assert!(!scene.places.has_moved());
        assert_eq!((scene.asked(200), scene.asked(5_009), scene.asked(5_010)), (vec![address(1)], vec![address(1)], vec![]));
    }

    #[test]
    fn an_echo_does_not_vouch_for_another_place_than_where_was_asked() {
        let mut scene = Scene::new();
        scene.come(7, 0, 1, None, 0);
        scene.asked(10);
        // What answers from elsewhere may have been sent on by somebody: it is followed, and asked once.
        assert!(scene.come(7, 1, 2, Some(10), 20) && scene.places.has_moved());
        assert_eq!((scene.asked(30), scene.asked(230)), (vec![address(2)], vec![]));
        scene.come(7, 2, 2, Some(10), 240);
        assert_eq!((scene.asked(250), scene.asked(450)), (vec![address(2)], vec![]));
        scene.come(7, 3, 2, Some(30), 460);
        assert_eq!((scene.asked(470), scene.asked(670)), (vec![address(2)], vec![address(2)]));
    }

    #[test]
    fn the_larger_sitting_is_followed_and_the_smaller_one_asked_too() {
        let mut scene = Scene::new();
        scene.come(7, 9, 1, None, 0);
        assert!(scene.come(8, 0, 2, None, 10), "although its counter is smaller");
        assert_eq!(scene.places.latest().map(|place| (place.sitting, place.from)), Some((8, address(2))));
        assert!(!scene.come(7, 10, 1, None, 20), "it is not later than all before");
        assert_eq!((scene.asked(30), scene.asked(230)), (vec![address(2), address(1)], vec![]));
    }

    #[test]
    fn a_second_start_of_a_sitting_is_seen() {
        let mut scene = Scene::new();
        scene.come(7, 0, 1, None, 0);
        assert!(!scene.places.is_anothers(7, Start::from_bytes([7; 16])) && !scene.places.is_anothers(8, Start::from_bytes([7; 16])));
        assert!(scene.places.is_anothers(7, Start::from_bytes([8; 16])));
    }

    #[test]
    fn the_largest_sittings_are_kept() {
        let mut scene = Scene::new();
        for sitting in (1..=20).rev() {
            scene.come(sitting, 0, 1, None, 0);
            scene.come(100 + sitting, 0, 1, None, 0);
        }
        let kept: Vec<_> = scene.places.kept.iter().map(|place| place.sitting).collect();
        assert_eq!(kept, (113..=120).collect::<Vec<_>>());
    }
}
