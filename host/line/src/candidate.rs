//! The candidate's end: what it says, and when. Bytes come in and go out, and the time comes in; the screen is its owner's.
use crate::echoes::{Echoes, Sent};
use crate::message::{Mark, Piece, Question, Said};
use crate::pieces::Cutter;
use crate::seal::{End, Opener, Sealer, SharedKey};
use futonrobin::{Kind, Pair, Report, Screen, Shown};
use std::time::{Duration, Instant};

/// While no invigilator has heard anything of the last while, a full report after so long without one.
const UNHEARD: Duration = Duration::from_secs(1);
/// A full report at least so often, or after so many steps, whichever comes first.
const OFTEN: Duration = Duration::from_secs(3);
const STEPS: u32 = 25;
/// A report that was sent so long ago has been heard, or is lost.
const SETTLED: Duration = Duration::from_millis(100);
/// At most so often a question is answered with a full report. That is less often than one is asked: where a network drops all but the shortest, signs
/// still tell how far the mirror is behind.
const FULL_AGAIN: Duration = Duration::from_millis(300);

pub struct Candidate {
    sealer: Sealer,
    opener: Opener,
    cutter: Cutter,
    /// Of the new screen of this sitting.
    width: u8,
    echoes: Echoes,
    sent: Sent,
    /// The question that echoes the latest datagram of this start, and when that was sent.
    told: Option<(Question, Instant)>,
    /// When the last question came that was taken.
    came: Option<Instant>,
    /// The last question, if nothing was said since.
    unanswered: Option<Question>,
    /// When the last report was sent, the last full one, and how many steps since.
    last: Instant,
    last_full: Option<Instant>,
    steps: u32,
    pub garbage: u64,
}

impl Candidate {
    /// For a sitting that begins with this new screen. It is a start of its own, and nothing was sent yet.
    pub fn new(shared: &SharedKey, screen: &Screen, now: Instant) -> Self {
        Self {
            sealer: Sealer::new(shared, End::Candidate),
            opener: Opener::new(shared, End::Invigilator),
            cutter: Cutter::default(),
            width: screen.width() as u8,
            echoes: Echoes::default(),
            sent: Sent::default(),
            told: None,
            came: None,
            unanswered: None,
            last: now,
            last_full: None,
            steps: 0,
            garbage: 0,
        }
    }

    /// Something came. What does not open is garbage. A question that echoes no datagram of this start is of another time; one that is no later than
    /// one before of its start, or echoes an earlier datagram than those of four other starts, says nothing.
    pub fn receive(&mut self, datagram: &[u8], now: Instant) {
        let opened = self.opener.open(datagram).and_then(|opened| Some((Question::read(&opened.body)?, opened)));
        let Some((question, opened)) = opened else {
            self.garbage += 1;
            return;
        };
        let own = question.echo.start == self.sealer.start() && question.echo.counter < self.sealer.next();
        let asked = Mark { start: opened.start, counter: opened.counter };
        if !own || !self.echoes.hear(asked, question.echo.counter) {
            return;
        }
        (self.unanswered, self.came) = (Some(question), Some(now));
        let sent = self.sent.when(question.echo.counter);
        if let Some(when) = sent.filter(|when| self.told.is_none_or(|(_, before)| before <= *when)) {
            self.told = Some((question, when));
        }
    }

    /// What an invigilator has asked that had heard of this screen: it was so at that moment or later.
    pub fn told(&self) -> Option<(Question, Instant)> {
        self.told
    }

    /// How long no invigilator was heard; `None` before the first.
    pub fn quiet(&self, now: Instant) -> Option<Duration> {
        self.came.map(|came| now.saturating_duration_since(came))
    }

    /// Whether an invigilator has said that it shows this. It cannot have said so before the screen had that pair.
    pub fn is_shown(&self, pair: Pair) -> bool {
        self.told.is_some_and(|(question, _)| question.shown == Some(pair))
    }

    /// How many keys of invigilators' starts are kept.
    pub fn keys_kept(&self) -> usize {
        self.opener.kept()
    }

    /// The datagrams of a report.
    pub fn send(&mut self, screen: &Screen, report: &Report, now: Instant) -> Vec<Vec<u8>> {
        self.last = now;
        if report.kind() == Kind::Full {
            (self.last_full, self.steps) = (Some(now), 0);
        } else {
            self.steps += 1;
        }
        let pieces = self.cutter.pieces(self.width, report.as_bytes());
        let count = pieces.len() as u8;
        (0..count).zip(&pieces).map(|(index, bytes)| self.say(screen, Some(Piece { index, count, bytes }), now)).collect()
    }

    pub fn full(&mut self, screen: &Screen, now: Instant) -> Vec<Vec<u8>> {
        self.send(screen, &screen.report_full(), now)
    }

    /// What is due: a full report, the answer to a question, or nothing.
    pub fn due(&mut self, screen: &Screen, now: Instant) -> Vec<Vec<u8>> {
        let question = self.unanswered.take();
        if self.full_is_due(now) || question.is_some_and(|question| self.would_help(question, screen.pair(), now)) {
            self.full(screen, now)
        } else {
            question.map(|_| self.say(screen, None, now)).into_iter().collect()
        }
    }

    /// Echoes and pair are taken in one step, from the screen as it is now.
    fn say(&mut self, screen: &Screen, piece: Option<Piece>, now: Instant) -> Vec<u8> {
        self.unanswered = None;
        self.sent.send(self.sealer.next(), now);
        self.sealer.seal(&Said { pair: screen.pair(), echoes: self.echoes.all(), piece }.write())
    }

    fn full_is_due(&self, now: Instant) -> bool {
        let long_ago = |then: Instant, long: Duration| now.saturating_duration_since(then) >= long;
        let unheard = self.told.is_none_or(|(_, when)| long_ago(when, UNHEARD)) && long_ago(self.last, UNHEARD);
        unheard || self.steps >= STEPS || self.last_full.is_none_or(|last| long_ago(last, OFTEN))
    }

    /// Whether a full report would bring the one that asks forward.
    fn would_help(&self, question: Question, now_has: Pair, now: Instant) -> bool {
        let ago = |then: Instant| now.saturating_duration_since(then);
        let missing = match question.shown {
            Some(shown) if shown.sitting > now_has.sitting || shown == now_has => false,
            Some(shown) if shown.sitting == now_has.sitting => question.heard > shown || ago(self.last) >= SETTLED,
            _ => true,
        };
        missing && self.last_full.is_none_or(|last| ago(last) >= FULL_AGAIN)
    }
}

#[cfg(test)]
mod tests {
    use super::*;
    use crate::seal::Start;

    /// A candidate in sitting 7, and what the other end needs to speak with it.
    struct Scene {
        shared: SharedKey,
        screen: Screen,
        candidate: Candidate,
        asking: Sealer,
        opener: Opener,
        begun: Instant,
        now: Instant,
    }

    /// What a datagram says, without the bytes of a piece.
    #[derive(PartialEq, Eq, Debug)]
    struct Heard {
        serial: u32,
        echoes: Vec<Mark>,
        piece: Option<(u8, u8)>,
    }

    impl Scene {
        fn new() -> Self {
            let (shared, begun) = (SharedKey::draw(), Instant::now());
            let screen = Screen::new(40, 7);
            let candidate = Candidate::new(&shared, &screen, begun);
            let (asking, opener) = (Sealer::new(&shared, End::Invigilator), Opener::new(&shared, End::Candidate));
            Self { screen, candidate, asking, opener, begun, now: begun, shared }
        }

        fn at(&self, millis: u64) -> Instant {
            self.begun + Duration::from_millis(millis)
        }

        fn press(&mut self, millis: u64) -> Vec<Heard> {
            self.now = self.at(millis);
            self.screen.type_char(b'A').unwrap();
            let sent = self.candidate.send(&self.screen, &self.screen.report_step(), self.now);
            self.hear(sent)
        }

        fn due(&mut self, millis: u64) -> Vec<Heard> {
            self.now = self.at(millis);
            let sent = self.candidate.due(&self.screen, self.now);
            self.hear(sent)
        }

        /// A question comes from one that shows this serial of sitting 7 and has heard of that one, and of all that was sent.
        fn ask(&mut self, shown: u32, heard: u32) -> Mark {
            let pair = |serial| Pair { sitting: 7, serial };
            self.question(Some(pair(shown)), pair(heard), self.last())
        }

        /// The last datagram that was sent.
        fn last(&self) -> Mark {
            Mark { start: self.candidate.sealer.start(), counter: self.candidate.sealer.next() - 1 }
        }

        fn question(&mut self, shown: Option<Pair>, heard: Pair, echo: Mark) -> Mark {
            let asked = Mark { start: self.asking.start(), counter: self.asking.next() };
            self.candidate.receive(&self.asking.seal(&Question { shown, heard, echo }.write()), self.now);
            asked
        }

        fn hear(&mut self, sent: Vec<Vec<u8>>) -> Vec<Heard> {
            sent.iter().map(|datagram| self.open(datagram)).collect()
        }

        fn open(&mut self, datagram: &[u8]) -> Heard {
            let opened = self.opener.open(datagram).unwrap();
            let said = Said::read(&opened.body).unwrap();
            Heard { serial: said.pair.serial, echoes: said.echoes.clone(), piece: said.piece.map(|piece| (piece.index, piece.count)) }
        }
    }

    fn report(serial: u32, echoes: &[Mark]) -> Vec<Heard> {
        vec![Heard { serial, echoes: echoes.to_vec(), piece: Some((0, 1)) }]
    }

    fn sign(serial: u32, echoes: &[Mark]) -> Vec<Heard> {
        vec![Heard { serial, echoes: echoes.to_vec(), piece: None }]
    }

    #[test]
    fn full_reports_while_nobody_asks() {
        let mut scene = Scene::new();
        assert_eq!(scene.due(0), report(0, &[]), "the first");
        assert_eq!(scene.due(999), []);
        assert_eq!(scene.due(1_000), report(0, &[]), "nobody asks");
        for n in 1..=24 {
            scene.press(1_000 + 80 * n);
            assert_eq!(scene.due(1_000 + 80 * n), []);
        }
        scene.press(3_000);
        assert_eq!(scene.due(3_000), report(25, &[]), "25 steps");
        for n in 1..=5 {
            scene.press(3_000 + 599 * n);
            assert_eq!(scene.due(3_000 + 599 * n), []);
        }
        assert_eq!(scene.due(6_000), report(30, &[]), "three seconds");
    }

    #[test]
    fn a_question_is_echoed_with_the_pair_of_that_moment() {
        let mut scene = Scene::new();
        scene.due(0);
        let first = scene.ask(0, 0);
        assert_eq!(scene.due(400), sign(0, &[first]), "all is shown");
        assert_eq!(scene.due(401), [], "it is answered once");
        assert_eq!(scene.press(450), report(1, &[first]), "every datagram echoes");
        let second = scene.ask(0, 0);
        assert_eq!(scene.press(470), report(2, &[second]));
        assert_eq!(scene.due(471), [], "the report was the answer");
    }

    #[test]
    fn a_full_report_where_it_helps() {
        let mut scene = Scene::new();
        scene.due(0);
        scene.press(400);
        scene.press(410);
        let echo = scene.ask(0, 0);
        assert_eq!(scene.due(420), sign(2, &[echo]), "the steps may be on the way");
        let echo = scene.ask(0, 2);
        assert_eq!(scene.due(430), report(2, &[echo]), "the first step is lost");
        let echo = scene.ask(0, 2);
        assert_eq!(scene.due(729), sign(2, &[echo]), "the full report may be on the way");
        let echo = scene.ask(0, 0);
        assert_eq!(scene.due(730), report(2, &[echo]), "all that was sent is lost");
        let other = Pair { sitting: 8, serial: 1 };
        let echo = scene.question(Some(other), other, scene.last());
        assert_eq!(scene.due(1_200), sign(2, &[echo]), "it would not be shown");
        let echo = scene.question(None, Pair { sitting: 7, serial: 2 }, scene.last());
        assert_eq!(scene.due(1_300), report(2, &[echo]), "nothing is shown yet");
        let echo = scene.question(Some(Pair { sitting: 6, serial: 9 }), Pair { sitting: 7, serial: 2 }, scene.last());
        assert_eq!(scene.due(1_600), report(2, &[echo]), "the sitting before is shown");
    }

    #[test]
    fn repeated_and_foreign_questions_say_nothing() {
        let mut scene = Scene::new();
        scene.due(0);
        let question = Question { shown: None, heard: Pair { sitting: 7, serial: 0 }, echo: scene.last() };
        let [first, second] = [(); 2].map(|()| scene.asking.seal(&question.write()));
        scene.candidate.receive(&second, scene.at(400));
        let echo = Mark { start: scene.asking.start(), counter: 1 };
        assert_eq!(scene.due(500), report(0, &[echo]));
        [&first, &second].into_iter().for_each(|late| scene.candidate.receive(late, scene.begun));
        assert_eq!((scene.due(700), scene.candidate.told()), (vec![], Some((question, scene.begun))));
        let own = scene.candidate.full(&scene.screen, scene.begun).remove(0);
        let mut forged = Sealer::new(&SharedKey::draw(), End::Invigilator);
        let mut no_question = Sealer::new(&scene.shared, End::Invigilator);
        for garbage in [&b""[..], b"FR", &own, &forged.seal(&question.write()), &no_question.seal(b"?")] {
            scene.candidate.receive(garbage, scene.begun);
        }
        assert_eq!((scene.due(800), scene.candidate.garbage), (vec![], 5));
    }

    #[test]
    fn what_is_told_was_so_after_the_echoed_datagram_was_sent() {
        let mut scene = Scene::new();
        let pair = |sitting, serial| Pair { sitting, serial };
        scene.due(0);
        let first = scene.last();
        // Of an earlier sitting, of another start, or of a datagram that was not sent yet.
        let other = Mark { start: Start::draw(), counter: 0 };
        for (shown, heard, echo) in [(pair(6, 20), pair(6, 20), other), (pair(7, 0), pair(7, 0), Mark { counter: 1, ..first })] {
            scene.question(Some(shown), heard, echo);
            assert!(scene.candidate.told().is_none() && !scene.candidate.is_shown(shown));
            assert_eq!(scene.due(10), [], "nor is it answered");
        }
        let asked = scene.question(Some(pair(6, 20)), pair(7, 0), scene.last());
        assert_eq!(scene.candidate.told().map(|(question, when)| (question.shown, when)), Some((Some(pair(6, 20)), scene.begun)));
        assert_eq!(scene.due(300), report(0, &[asked]), "a full report leads it from another sitting to this one");
        scene.press(400);
        scene.ask(1, 1);
        assert!(scene.candidate.is_shown(pair(7, 1)) && !scene.candidate.is_shown(pair(7, 0)));
        // Another invigilator, whose question was long on its way.
        scene.asking = Sealer::new(&scene.shared, End::Invigilator);
        scene.question(Some(pair(7, 0)), pair(7, 0), first);
        assert_eq!(scene.candidate.told().map(|(_, when)| when), Some(scene.at(400)), "what is known already is newer");
        assert!(scene.candidate.is_shown(pair(7, 1)));
    }

    #[test]
    fn a_slow_line_is_not_silent() {
        let mut scene = Scene::new();
        assert_eq!(scene.candidate.quiet(scene.at(0)), None);
        scene.due(0);
        let first = scene.last();
        scene.due(6_000);
        let asked = scene.question(None, Pair { sitting: 7, serial: 0 }, first);
        assert_eq!(scene.candidate.told().map(|(_, when)| when), Some(scene.begun), "what it tells was so six seconds ago or later");
        assert_eq!(scene.candidate.quiet(scene.at(7_500)), Some(Duration::from_millis(1_500)), "but it was heard just now");
        // Neither one that is sent again, nor garbage, nor one of another time is heard.
        let mut again = Sealer::new(&scene.shared, End::Invigilator);
        let question = Question { shown: None, heard: Pair { sitting: 7, serial: 0 }, echo: Mark { start: Start::draw(), counter: 0 } };
        for datagram in [again.seal(&question.write()), again.seal(b"?"), b"FR".to_vec()] {
            scene.candidate.receive(&datagram, scene.at(7_500));
        }
        assert_eq!(asked.counter, 0);
        assert_eq!(scene.candidate.quiet(scene.at(7_500)), Some(Duration::from_millis(1_500)));
    }

    #[test]
    fn an_old_question_does_not_keep_full_reports_away() {
        let mut scene = Scene::new();
        scene.due(0);
        let first = scene.last();
        for second in [1, 2] {
            scene.asking = Sealer::new(&scene.shared, End::Invigilator);
            let asked = scene.question(Some(Pair { sitting: 7, serial: 0 }), Pair { sitting: 7, serial: 0 }, first);
            let said = scene.due(1_000 * second);
            assert_eq!((said.len(), said[0].piece, said[0].echoes[0]), (1, Some((0, 1)), asked));
        }
    }

    #[test]
    fn a_screen_that_cannot_be_deflated_goes_in_pieces() {
        let mut scene = Scene::new();
        let mut random = oorandom::Rand32::new(3);
        scene.screen.set_width(80).unwrap();
        for _ in 0..24 * 79 {
            scene.screen.set_attr(random.rand_u32() as u8).unwrap();
            scene.screen.print_checked(&[random.rand_range(33..256) as u8]).unwrap();
        }
        let now = scene.at(50);
        let sent = scene.candidate.full(&scene.screen, now);
        assert!(sent.len() > 1 && sent.iter().all(|datagram| datagram.len() <= crate::LONGEST));
        let count = sent.len() as u8;
        let pieces: Vec<_> = scene.hear(sent).iter().map(|heard| heard.piece.unwrap()).collect();
        assert_eq!(pieces, (0..count).map(|index| (index, count)).collect::<Vec<_>>());
    }
}
