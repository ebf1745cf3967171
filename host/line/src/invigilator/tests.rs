use super::*;
use crate::candidate::Candidate;
use crate::fresh::State;
use crate::message::Piece;
use crate::pieces::Cutter;
use futonrobin::{Pair, Report, Screen, Shown};

struct Scene {
    shared: SharedKey,
    invigilator: Invigilator,
    /// One that has the key and may say anything.
    insider: Sealer,
    begun: Instant,
}

/// A candidate with its screen.
struct Seat {
    screen: Screen,
    candidate: Candidate,
    begun: Instant,
}

fn address(n: u8) -> SocketAddr {
    SocketAddr::from(([192, 0, 2, n], 4_000))
}

fn pair(sitting: u32, serial: u32) -> Pair {
    Pair { sitting, serial }
}

impl Scene {
    fn new() -> Self {
        let shared = SharedKey::draw();
        let insider = Sealer::new(&shared, End::Candidate);
        Self { invigilator: Invigilator::new(&shared), insider, shared, begun: Instant::now() }
    }

    fn at(&self, millis: u64) -> Instant {
        self.begun + Duration::from_millis(millis)
    }

    fn seat(&self, sitting: u32) -> Seat {
        let screen = Screen::new(40, sitting);
        Seat { candidate: Candidate::new(&self.shared, &screen, self.begun), screen, begun: self.begun }
    }

    /// These datagrams come from there.
    fn come(&mut self, sent: &[Vec<u8>], from: u8, millis: u64) -> Vec<Taken> {
        let now = self.at(millis);
        sent.iter().map(|datagram| self.invigilator.receive(datagram, address(from), now)).collect()
    }

    fn ask(&mut self, millis: u64) -> Vec<(SocketAddr, Vec<u8>)> {
        self.invigilator.ask(self.at(millis))
    }

    /// Whom it asks then.
    fn asks(&mut self, millis: u64) -> Vec<SocketAddr> {
        self.ask(millis).into_iter().map(|(to, _)| to).collect()
    }

    fn said(&self, millis: u64) -> String {
        let (follower, at) = (&self.invigilator.follower, self.at(millis));
        [follower.state(at).to_string(), follower.of_when(at)].join("; ").trim_end_matches("; ").into()
    }

    fn counts(&self) -> (u64, u64, u64) {
        let Counts { arrived, older, garbage, .. } = self.invigilator.counts;
        (arrived, older, garbage)
    }

    fn sealed(&mut self, body: &[u8]) -> Vec<Vec<u8>> {
        vec![self.insider.seal(body)]
    }

    /// A whole report, said to be of a sitting that began at this width.
    fn report(&mut self, width: u8, report: &Report) -> Vec<Vec<u8>> {
        let pieces = Cutter::default().pieces(width, report.as_bytes());
        let piece = Piece { index: 0, count: 1, bytes: &pieces[0] };
        self.sealed(&Said { pair: report.pair(), echoes: vec![], piece: Some(piece) }.write())
    }
}

impl Seat {
    fn at(&self, millis: u64) -> Instant {
        self.begun + Duration::from_millis(millis)
    }

    fn full(&mut self, millis: u64) -> Vec<Vec<u8>> {
        self.candidate.full(&self.screen, self.at(millis))
    }

    fn press(&mut self, millis: u64) -> Vec<Vec<u8>> {
        self.screen.type_char(b'A').unwrap();
        self.candidate.send(&self.screen, &self.screen.report_step(), self.at(millis))
    }

    /// What it says when these questions have come, wherever they were sent to.
    fn answer(&mut self, questions: &[(SocketAddr, Vec<u8>)], millis: u64) -> Vec<Vec<u8>> {
        let now = self.at(millis);
        questions.iter().for_each(|(_, question)| self.candidate.receive(question, now));
        self.candidate.due(&self.screen, now)
    }

    /// Fills the screen with what cannot be deflated.
    fn scribble(&mut self) {
        let mut random = oorandom::Rand32::new(3);
        self.screen.set_width(80).unwrap();
        for _ in 0..24 * 79 {
            self.screen.set_attr(random.rand_u32() as u8).unwrap();
            self.screen.print_checked(&[random.rand_range(33..256) as u8]).unwrap();
        }
    }
}

#[test]
fn what_a_datagram_is_taken_for() {
    let mut scene = Scene::new();
    let (mut before, mut seat) = (scene.seat(6), scene.seat(7));
    assert_eq!(scene.come(&seat.full(0), 1, 0), [Taken::Arrived]);
    assert_eq!(scene.come(&seat.press(10), 1, 10), [Taken::Arrived]);
    let question = scene.ask(20);
    assert_eq!(scene.come(&seat.answer(&question, 30), 1, 30), [Taken::Sign], "all is shown");
    assert_eq!(scene.come(&before.full(40), 1, 40), [Taken::Older]);
    assert_eq!((scene.counts(), scene.invigilator.follower.shown()), ((2, 1, 0), Some(pair(7, 1))));
    seat.scribble();
    let sent = seat.full(50);
    let (last, others) = sent.split_last().unwrap();
    assert!(!others.is_empty());
    assert_eq!(scene.come(others, 1, 50), vec![Taken::Piece; others.len()]);
    assert!(scene.invigilator.halves_kept() > 0 && scene.invigilator.follower.shown() == Some(pair(7, 1)));
    assert_eq!(scene.come(&[last.clone()], 1, 50), [Taken::Arrived]);
    assert!(scene.invigilator.follower.mirror().unwrap().same_as(&seat.screen));
    assert_eq!((scene.invigilator.halves_kept(), scene.invigilator.keys_kept(), scene.counts()), (0, 2, (3, 1, 0)));
}

#[test]
fn what_does_not_open_changes_nothing() {
    let mut scene = Scene::new();
    let mut seat = scene.seat(7);
    let forged = Candidate::new(&SharedKey::draw(), &seat.screen, scene.begun).full(&seat.screen, scene.begun);
    let mut damaged = seat.full(0);
    damaged[0][40] ^= 1;
    let garbage = [vec![], b"FR\x03".to_vec(), forged[0].clone(), damaged[0].clone()];
    assert_eq!(scene.come(&garbage, 2, 0), [Taken::Garbage; 4]);
    assert_eq!((scene.asks(300), scene.said(300), scene.invigilator.candidate_at()), (vec![], "WAITING for a candidate".into(), None));
    scene.come(&seat.full(400), 1, 400);
    scene.asks(400);
    assert_eq!(scene.come(&garbage, 2, 450), [Taken::Garbage; 4]);
    assert_eq!((scene.asks(450), scene.invigilator.candidate_at()), (vec![], Some(address(1))), "an address alone proves nothing");
    assert_eq!((scene.counts(), scene.invigilator.keys_kept()), ((1, 0, 8), 1));
    assert_eq!(scene.said(6_000), "SILENT for 5 s, OLD; the screen of an unknown time");
}

#[test]
fn nobody_is_asked_before_anything_has_opened_and_one_who_answers_every_200_ms() {
    let mut scene = Scene::new();
    let mut seat = scene.seat(7);
    assert_eq!((scene.asks(0), scene.asks(1_000)), (vec![], vec![]));
    scene.come(&seat.full(1_010), 1, 1_010);
    let to = vec![address(1)];
    let questions = scene.ask(1_010);
    assert_eq!((questions.len(), scene.asks(1_400)), (1, vec![]), "once, until it answers");
    scene.come(&seat.answer(&questions, 1_420), 1, 1_420);
    assert_eq!((scene.asks(1_420), scene.asks(1_619), scene.asks(1_620)), (to.clone(), vec![], to.clone()));
    scene.come(&seat.press(1_700), 1, 1_700);
    assert_eq!((scene.asks(1_700), scene.asks(1_819), scene.asks(1_820)), (vec![], vec![], to.clone()), "what comes changes nothing");
    assert_eq!((scene.asks(6_009), scene.asks(6_209)), (to, vec![]), "for five seconds after the last question that it answered");
}

#[test]
fn a_replay_to_a_new_start_has_one_question_sent_and_no_more() {
    let mut scene = Scene::new();
    let replayed = scene.seat(7).full(0);
    scene.come(&replayed, 9, 0);
    assert_eq!(scene.asks(0), [address(9)]);
    for n in 1..50 {
        scene.come(&replayed, 9, 300 * n);
        assert_eq!(scene.asks(300 * n), []);
    }
}

#[test]
fn a_question_says_what_is_shown_and_heard() {
    let mut scene = Scene::new();
    let (mut seat, mut opener) = (scene.seat(7), Opener::new(&scene.shared, End::Invigilator));
    let mut asked = |scene: &mut Scene, millis| {
        let question = Question::read(&opener.open(&scene.ask(millis)[0].1).unwrap().body).unwrap();
        (question.shown, question.heard, question.echo.counter)
    };
    let first = seat.full(0);
    scene.come(&first, 1, 0);
    assert_eq!(asked(&mut scene, 0), (Some(pair(7, 0)), pair(7, 0), 0));
    seat.press(10);
    scene.come(&seat.press(20), 1, 20);
    scene.come(&first, 1, 30);
    assert_eq!(asked(&mut scene, 200), (Some(pair(7, 0)), pair(7, 2), 2), "the first step is lost");
    let mut first = Scene::new();
    let sign = first.sealed(&Said { pair: pair(7, 2), echoes: vec![], piece: None }.write());
    assert_eq!(first.come(&sign, 1, 0), [Taken::Sign]);
    let mut opener = Opener::new(&first.shared, End::Invigilator);
    let opened = opener.open(&first.ask(0)[0].1).unwrap();
    let question = Question::read(&opened.body).unwrap();
    assert_eq!((question.shown, question.heard), (None, pair(7, 2)));
}

#[test]
fn a_candidate_at_another_address_is_followed_by_a_later_datagram_alone() {
    let mut scene = Scene::new();
    let mut seat = scene.seat(7);
    let (first, second, third, fourth) = (seat.full(0), seat.press(10), seat.press(20), seat.press(30));
    scene.come(&second, 1, 10);
    scene.come(&third, 1, 20);
    assert_eq!(scene.asks(20), [address(1)]);
    for replayed in [&first, &second, &third] {
        scene.come(replayed, 2, 50);
        assert_eq!((scene.invigilator.candidate_at(), scene.asks(50)), (Some(address(1)), vec![]));
    }
    assert_eq!(scene.asks(220), [], "nor is the other one asked later");
    scene.come(&fourth, 3, 230);
    assert_eq!((scene.invigilator.candidate_at(), scene.asks(230)), (Some(address(3)), vec![address(3)]), "at once");
}

#[test]
fn a_larger_sitting_is_followed_at_once_and_a_smaller_one_is_asked_too() {
    let mut scene = Scene::new();
    let (mut smaller, mut larger) = (scene.seat(7), scene.seat(8));
    let replayed = smaller.full(0);
    (0..9).for_each(|_| drop(smaller.press(0)));
    scene.come(&smaller.full(0), 1, 0);
    assert_eq!(scene.asks(0), [address(1)]);
    scene.come(&larger.full(10), 2, 10);
    assert_eq!((scene.asks(10), scene.invigilator.candidate_at()), (vec![address(2)], Some(address(2))), "although its counter is smaller");
    scene.come(&smaller.press(100), 1, 100);
    assert_eq!((scene.asks(110), scene.asks(210)), (vec![], vec![address(1)]), "not at once");
    scene.come(&replayed, 3, 300);
    assert_eq!(
        (scene.asks(500), scene.invigilator.candidate_at()),
        (vec![], Some(address(2))),
        "not where an earlier datagram of it comes from"
    );
    scene.come(&smaller.press(600), 2, 600);
    scene.come(&larger.press(600), 2, 600);
    assert_eq!(scene.asks(700), [address(2), address(2)], "each gets its own, also at one address");
}

#[test]
fn of_a_sitting_that_is_used_twice_the_second_start_is_counted_and_nothing_taken_of_it() {
    let mut scene = Scene::new();
    let (mut seat, mut again) = (scene.seat(7), scene.seat(7));
    (0..40).for_each(|_| drop(again.press(0)));
    scene.come(&seat.full(0), 1, 0);
    let question = scene.ask(0);
    scene.come(&seat.answer(&question, 0), 1, 0);
    assert_eq!(scene.come(&again.full(10), 2, 10), [Taken::Twice]);
    assert_eq!((scene.said(10), scene.invigilator.counts.twice), ("LEVEL, 0.1 s".into(), 1));
    assert_eq!((scene.invigilator.follower.heard(), scene.invigilator.candidate_at()), (Some(pair(7, 0)), Some(address(1))));
    let sign = scene.sealed(&Said { pair: pair(8, 0), echoes: vec![], piece: None }.write());
    let mut seat = scene.seat(8);
    assert_eq!((scene.come(&sign, 1, 20), scene.come(&seat.full(30), 2, 30)), (vec![Taken::Sign], vec![Taken::Twice]), "a sign came first");
}

#[test]
fn nor_when_so_many_larger_sittings_were_heard_that_its_place_is_forgotten() {
    let mut scene = Scene::new();
    let (mut seat, mut again) = (scene.seat(7), scene.seat(7));
    scene.come(&seat.press(0), 1, 0);
    again.press(0);
    let step = again.press(0);
    for sitting in 8..20 {
        let mut larger = scene.seat(sitting);
        scene.come(&larger.full(0), 1, 0);
        assert_eq!(scene.come(&step, 2, 0), [Taken::Twice]);
    }
    let mirror = scene.invigilator.follower.earlier().next().unwrap();
    assert!(mirror.pair() == pair(7, 1) && mirror.same_as(&seat.screen), "its last screen is that of one start alone");
}

/// Some starts of an invigilator ask a candidate, one after the other, and what they asked is recorded.
fn recorded_questions(scene: &Scene, seat: &mut Seat, starts: u64) -> Vec<Vec<u8>> {
    let question = |n: u64| {
        let mut earlier = Invigilator::new(&scene.shared);
        earlier.receive(&seat.full(400 * n)[0], address(1), scene.at(400 * n));
        let question = earlier.ask(scene.at(400 * n)).remove(0);
        seat.answer(std::slice::from_ref(&question), 400 * n);
        question.1
    };
    (0..starts).map(question).collect()
}

#[test]
fn recorded_questions_of_earlier_starts_do_not_push_the_true_one_out() {
    for starts in 3..8 {
        let mut scene = Scene::new();
        let mut seat = scene.seat(7);
        let recorded = recorded_questions(&scene, &mut seat, starts);
        let (begun, mut said) = (10_000, 0);
        for n in 0..500 {
            let millis = begun + 20 * n;
            if n % 50 == 0 {
                scene.come(&seat.press(millis), 1, millis);
            }
            // Right after each question all the recorded ones come again.
            let questions: Vec<_> = scene.ask(millis).into_iter().chain(recorded.iter().map(|old| (address(1), old.clone()))).collect();
            let answers = seat.answer(&questions, millis);
            said += answers.len();
            scene.come(&answers, 1, millis);
            assert!(n < 5 || scene.said(millis).starts_with("LEVEL, 0."), "{} after {n} turns", scene.said(millis));
        }
        assert!(said <= 60, "{said} answers to 50 questions");
    }
}

#[test]
fn copies_that_come_sooner_lead_the_questions_away_and_it_is_told_until_they_end() {
    let mut scene = Scene::new();
    let mut seat = scene.seat(7);
    let raced = 1_000..9_000;
    let mut questions = Vec::new();
    for millis in (0..12_000).step_by(20) {
        let typed = if millis % 1_000 == 0 { seat.press(millis) } else { vec![] };
        let sent = [typed, seat.answer(&std::mem::take(&mut questions), millis)].concat();
        if raced.contains(&millis) {
            scene.come(&sent, 9, millis);
        }
        scene.come(&sent, 1, millis);
        // Those that go elsewhere are not passed on.
        questions = scene.ask(millis).into_iter().filter(|(to, _)| *to == address(1)).collect();
        let said = scene.said(millis);
        match millis {
            200..1_000 | 11_000.. => assert!(said.starts_with("LEVEL, 0."), "{said} at {millis}"),
            3_000..9_000 => assert!(said.contains("the screen of ") && !said.contains("LEVEL"), "{said} at {millis}"),
            _ => {}
        }
    }
}

#[test]
fn both_candidates_are_asked_and_the_smaller_one_is_known_to_be_there() {
    let mut scene = Scene::new();
    let (mut smaller, mut larger) = (scene.seat(7), scene.seat(8));
    scene.come(&larger.full(0), 2, 0);
    scene.come(&smaller.full(0), 1, 0);
    let questions = scene.ask(0);
    assert_eq!(questions.len(), 2);
    scene.come(&smaller.answer(&questions[1..], 10), 1, 100);
    let follower = &scene.invigilator.follower;
    assert_eq!(follower.older_heard(scene.at(100)), Some((7, Duration::from_millis(100))));
    assert_eq!((scene.said(100), follower.shown()), ("OLD; the screen of an unknown time".into(), Some(pair(8, 0))));
    assert_eq!(smaller.candidate.told().map(|(question, _)| question.heard), Some(pair(8, 0)), "it learns that it is not the newest");
    scene.come(&larger.answer(&questions[..1], 10), 2, 150);
    assert_eq!(scene.said(150), "LEVEL, 0.2 s");
}

#[test]
fn the_age_is_the_time_since_the_question_whenever_the_answer_comes() {
    let mut scene = Scene::new();
    let mut seat = scene.seat(7);
    scene.come(&seat.full(0), 1, 0);
    assert_eq!(scene.said(0), "OLD; the screen of an unknown time");
    let first = seat.answer(&scene.ask(0), 10);
    scene.come(&first, 1, 10);
    let answer = seat.answer(&scene.ask(500), 510);
    let later = seat.answer(&scene.ask(1_000), 1_010);
    scene.come(&answer, 1, 1_700);
    assert_eq!(scene.said(1_700), "LEVEL, 1.2 s");
    scene.come(&later, 1, 2_600);
    assert_eq!(scene.said(2_600), "LEVEL, 1.6 s");
    scene.come(&answer, 1, 2_700);
    scene.come(&later, 1, 2_901);
    assert_eq!(scene.said(2_901), "OLD; the screen of 2.0 s ago", "a replay makes it no younger");
}

#[test]
fn a_replay_does_not_end_the_silence() {
    let mut scene = Scene::new();
    let mut seat = scene.seat(7);
    let (first, second) = (seat.full(0), seat.press(10));
    scene.come(&first, 1, 0);
    scene.come(&second, 1, 10);
    for replayed in [&first, &second] {
        scene.come(replayed, 1, 5_000);
        assert_eq!(scene.said(5_010), "SILENT for 5 s, OLD; the screen of an unknown time");
    }
    scene.come(&seat.press(5_020), 1, 5_020);
    assert_eq!(scene.said(5_020), "OLD; the screen of an unknown time");
}

#[test]
fn what_another_start_has_asked_does_not_count() {
    let mut scene = Scene::new();
    let mut seat = scene.seat(7);
    let first = seat.full(0);
    scene.come(&first, 1, 0);
    let questions = scene.ask(0);
    // It restarts, and has asked as many questions as the start before when the echo of that one comes.
    scene.invigilator = Invigilator::new(&scene.shared);
    scene.come(&first, 1, 10);
    let own = scene.ask(10);
    assert_eq!(scene.come(&seat.answer(&questions, 20), 1, 20), [Taken::Sign]);
    assert_eq!(scene.said(20), "OLD; the screen of an unknown time");
    scene.come(&seat.answer(&own, 30), 1, 30);
    assert_eq!(scene.said(30), "LEVEL, 0.1 s");
}

#[test]
fn an_echo_of_what_was_not_asked_yet_does_not_count() {
    let mut scene = Scene::new();
    let first = scene.report(40, &Screen::new(40, 7).report_full());
    scene.come(&first, 1, 0);
    scene.ask(0);
    let start = scene.invigilator.sealer.start();
    let early = scene.sealed(&Said { pair: pair(7, 0), echoes: vec![Mark { start, counter: 1 }], piece: None }.write());
    assert_eq!(scene.come(&early, 1, 10), [Taken::Sign]);
    assert!(matches!(scene.invigilator.follower.state(scene.at(10)), State::Shows { behind: 0, age: None, .. }));
}

#[test]
fn its_own_questions_are_garbage() {
    let mut scene = Scene::new();
    let mut seat = scene.seat(7);
    scene.come(&seat.full(0), 1, 0);
    let (_, question) = scene.ask(0).remove(0);
    assert_eq!(scene.come(&[question], 2, 10), [Taken::Garbage]);
    assert_eq!((scene.counts(), scene.invigilator.candidate_at()), ((1, 0, 1), Some(address(1))));
    let mut other = Invigilator::new(&scene.shared);
    other.receive(&seat.full(20)[0], address(1), scene.at(20));
    let (_, question) = other.ask(scene.at(20)).remove(0);
    assert_eq!(scene.come(&[question], 2, 20), [Taken::Garbage], "and so are another's");
}

#[test]
fn nonsense_under_the_right_key_is_garbage() {
    let mut scene = Scene::new();
    let screen = Screen::new(40, 7);
    let sign = Said { pair: screen.pair(), echoes: vec![], piece: None };
    let piece = |index, count, bytes| Said { piece: Some(Piece { index, count, bytes }), ..sign.clone() }.write();
    let question = Question { shown: None, heard: screen.pair(), echo: Mark { start: Start::draw(), counter: 0 } }.write();
    let bodies = [vec![], b"?".to_vec(), question, [sign.write(), vec![0]].concat(), piece(1, 1, b""), piece(0, 1, b"never deflated")];
    for body in &bodies {
        let sealed = scene.sealed(body);
        assert_eq!(scene.come(&sealed, 1, 0), [Taken::Garbage]);
    }
    for width in [0, 39, 41, 79, 81, 255] {
        let report = scene.report(width, &screen.report_full());
        assert_eq!(scene.come(&report, 1, 0), [Taken::Garbage], "{width} columns");
    }
    assert_eq!((scene.counts(), scene.invigilator.follower.shown()), ((0, 0, 12), None));
    for width in [40, 80] {
        let report = scene.report(width, &screen.report_full());
        assert_eq!(scene.come(&report, 1, 0), [Taken::Arrived], "{width} columns");
    }
}
