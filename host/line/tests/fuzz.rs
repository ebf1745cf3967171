//! A million datagrams that nobody should have sent, to both ends, between genuine ones: damaged, cut, extended, joined, replayed, sent back, of a
//! foreign key, and such as are sealed with the right one and say nonsense.
mod common;

use common::{address, call, noise, percent, pick, scribble, seed};
use flate2::{Compress, Compression, FlushCompress};
use futonrobin::{Pair, Report, Screen, Shown};
use line::message::{Mark, Piece, Said, PIECE};
use line::pieces::{Cutter, HALVES, MOST};
use line::seal::{End, Opener, Sealer, Start, BODY};
use line::{Candidate, Invigilator, Question, SharedKey, State, Taken};
use oorandom::Rand32;
use std::collections::{BTreeMap, HashMap};
use std::net::SocketAddr;
use std::time::{Duration, Instant};

const DATAGRAMS: u32 = 1_000_000;
/// After so many of them an end begins again.
const RESTARTS: u32 = 10_000;
/// So many genuine ones of each end are remembered.
const POOL: usize = 400;
/// One that has the key speaks of this sitting, which is smaller than all of the candidate's.
const INSIDER: Pair = Pair { sitting: 1, serial: 0 };

#[derive(Clone, Copy, PartialEq, Eq, PartialOrd, Ord, Debug)]
enum Kind {
    Replayed,
    // What does not open.
    Damaged,
    Cut,
    Extended,
    Joined,
    SentBack,
    ForeignKey,
    Noise,
    NoiseWithFront,
    // What is sealed with the right key.
    SealedNoise,
    SealedAndDamaged,
    NonsensePiece,
    NoReport,
    BadStream,
    Bomb,
}

use Kind::*;

/// In the order above: up to `SealedAndDamaged` also for the candidate, the others have pieces, which only an invigilator takes.
const KINDS: [Kind; 15] = [
    Replayed,
    Damaged,
    Cut,
    Extended,
    Joined,
    SentBack,
    ForeignKey,
    Noise,
    NoiseWithFront,
    SealedNoise,
    SealedAndDamaged,
    NonsensePiece,
    NoReport,
    BadStream,
    Bomb,
];

/// One direction: the genuine datagrams with what they say, one that has the key and one that has another.
struct Way {
    by: End,
    opener: Opener,
    pool: Vec<(Vec<u8>, Vec<u8>)>,
    insider: Sealer,
    stranger: Sealer,
}

impl Way {
    fn new(shared: &SharedKey, by: End) -> Self {
        let (insider, stranger) = (Sealer::new(shared, by), Sealer::new(&SharedKey::draw(), by));
        Self { by, opener: Opener::new(shared, by), pool: Vec::new(), insider, stranger }
    }

    fn remember(&mut self, datagram: &[u8]) {
        let body = self.opener.open(datagram).expect("it is genuine").body;
        self.pool.push((datagram.to_vec(), body));
        self.pool.drain(..self.pool.len().saturating_sub(POOL));
    }

    /// Others take their places now and then, so that there are many starts.
    fn renew(&mut self, shared: &SharedKey, random: &mut Rand32) {
        if percent(random, 2) {
            (self.insider, self.stranger) = (Sealer::new(shared, self.by), Sealer::new(&SharedKey::draw(), self.by));
        }
    }

    fn is_read(&self, body: &[u8]) -> bool {
        match self.by {
            End::Candidate => Said::read(body).is_some(),
            End::Invigilator => Question::read(body).is_some(),
        }
    }

    /// What does not open.
    fn foreign(&mut self, kind: Kind, random: &mut Rand32) -> Vec<u8> {
        let (genuine, body) = pick(&self.pool, random);
        match kind {
            Damaged => damaged(genuine, random),
            Cut => genuine[..random.rand_range(0..genuine.len() as u32) as usize].to_vec(),
            Extended => [&genuine[..], &noise(random.rand_range(1..1_300) as usize, random)].concat(),
            Joined => [&genuine[..], &pick(&self.pool, random).0].concat(),
            ForeignKey => self.stranger.seal(body),
            Noise => noise(random.rand_range(0..1_500) as usize, random),
            NoiseWithFront => [&genuine[..*pick(&[3, 19, 27], random)], &noise(random.rand_range(0..1_240) as usize, random)].concat(),
            _ => unreachable!("{kind:?} opens"),
        }
    }

    /// What opens, and says nothing.
    fn nonsense(&mut self, kind: Kind, random: &mut Rand32) -> Vec<u8> {
        let genuine = &pick(&self.pool, random).1;
        let body = match kind {
            SealedNoise => noise(random.rand_range(0..BODY as u32 + 1) as usize, random),
            _ => misshapen(genuine, random),
        };
        // With other bytes in it, or with another end of a piece, it may say something after all; then it is made unreadable.
        let may_say = kind == SealedNoise || body.len() == genuine.len() || genuine[0] == 2;
        let body = if may_say && self.is_read(&body) { [&[9], &body[1..]].concat() } else { body };
        self.insider.seal(&body)
    }
}

/// Changed in one to three of its bytes.
fn damaged(bytes: &[u8], random: &mut Rand32) -> Vec<u8> {
    let mut damaged = bytes.to_vec();
    for _ in 0..random.rand_range(1..4) {
        let at = random.rand_range(0..bytes.len() as u32) as usize;
        damaged[at] = bytes[at] ^ random.rand_range(1..256) as u8;
    }
    damaged
}

fn misshapen(body: &[u8], random: &mut Rand32) -> Vec<u8> {
    match random.rand_range(0..3) {
        0 => damaged(body, random),
        1 => body[..random.rand_range(0..body.len() as u32) as usize].to_vec(),
        _ => [body, &noise(random.rand_range(1..40) as usize, random)].concat().into_iter().take(BODY).collect(),
    }
}

/// What an end is known by, at a time.
#[derive(Clone, Copy, PartialEq, Debug)]
struct View {
    state: State,
    shown: Option<Pair>,
    heard: Option<Pair>,
    at: Option<SocketAddr>,
    told: Option<(Question, Instant)>,
}

struct Line {
    random: Rand32,
    now: Instant,
    shared: SharedKey,
    screen: Screen,
    candidate: Candidate,
    invigilator: Invigilator,
    /// The screens of this sitting.
    had: HashMap<Pair, Screen>,
    said: Way,
    asked: Way,
    /// One that has the key, and sends pieces alone.
    flooding: Sealer,
    /// Reports of the insider's sitting, deflated.
    insiders: Vec<Vec<u8>>,
    bombs: Vec<Vec<u8>>,
    /// What must have been counted as garbage by the candidate and by the invigilator.
    garbage: (u64, u64),
    /// The most that was kept: bytes of halves, keys and sittings.
    most: (usize, usize, usize),
    tally: BTreeMap<String, u64>,
}

impl Line {
    fn new(seed: u64) -> Self {
        let (shared, now, screen) = (SharedKey::draw(), Instant::now(), Screen::new(80, 5));
        let (candidate, invigilator) = (Candidate::new(&shared, &screen, now), Invigilator::new(&shared));
        let (said, asked) = (Way::new(&shared, End::Candidate), Way::new(&shared, End::Invigilator));
        let had = HashMap::from([(screen.pair(), screen.clone())]);
        let flooding = Sealer::new(&shared, End::Candidate);
        let bombs = [4_049, 5_000, 65_536, 100_000, 1_000_000].map(|length| deflated(&vec![40; length])).to_vec();
        let mut random = Rand32::new(seed);
        let insiders = insiders_reports(&mut random);
        let (garbage, most, tally) = ((0, 0), (0, 0, 0), BTreeMap::new());
        Self { random, now, shared, screen, candidate, invigilator, had, said, asked, flooding, insiders, bombs, garbage, most, tally }
    }

    fn count(&mut self, what: String) {
        *self.tally.entry(what).or_default() += 1;
    }

    fn view(&self) -> View {
        let follower = &self.invigilator.follower;
        let (state, shown, heard) = (follower.state(self.now), follower.shown(), follower.heard());
        View { state, shown, heard, at: self.invigilator.candidate_at(), told: self.candidate.told() }
    }

    /// Genuine traffic after which the invigilator is level and nothing is due; so much later that a question may be answered with a full report
    /// again.
    fn exchange(&mut self) {
        self.now += Duration::from_millis(400);
        self.press();
        let sent = self.candidate.due(&self.screen, self.now);
        self.say(sent);
        let questions = self.invigilator.ask(self.now);
        assert_eq!(questions.first().map(|(to, _)| *to), Some(address(1)), "the question is due");
        self.asked.remember(&questions[0].1);
        self.candidate.receive(&questions[0].1, self.now);
        let answers = self.candidate.due(&self.screen, self.now);
        assert!(!answers.is_empty(), "the answer is due");
        self.say(answers);
        assert!(self.view().state.is_level() && self.view().shown == Some(self.screen.pair()), "{:?}", self.view());
        self.check();
    }

    fn press(&mut self) {
        if percent(&mut self.random, 1) {
            let scribbled = (0..20).flat_map(|_| scribble(&mut self.screen, &mut self.random));
            self.had.extend(scribbled.map(|screen| (screen.pair(), screen)));
        }
        call(&mut self.screen, &mut self.random);
        self.had.insert(self.screen.pair(), self.screen.clone());
        let sent = self.candidate.send(&self.screen, &self.screen.report_step(), self.now);
        self.say(sent);
    }

    fn say(&mut self, sent: Vec<Vec<u8>>) {
        for datagram in sent {
            self.said.remember(&datagram);
            let taken = self.invigilator.receive(&datagram, address(1), self.now);
            self.count(format!("genuine, taken for {taken:?}"));
        }
    }

    fn restart(&mut self, candidate: bool) {
        if candidate {
            let width = *pick(&[40, 80], &mut self.random);
            self.screen = Screen::new(width, self.screen.sitting() + 1);
            self.candidate = Candidate::new(&self.shared, &self.screen, self.now);
            self.had = HashMap::from([(self.screen.pair(), self.screen.clone())]);
            self.garbage.0 = 0;
        } else {
            self.invigilator = Invigilator::new(&self.shared);
            self.garbage.1 = 0;
        }
        self.exchange();
    }

    fn to_candidate(&mut self) {
        let (kind, random) = (*pick(&KINDS[..=SealedAndDamaged as usize], &mut self.random), &mut self.random);
        let datagram = match kind {
            Replayed => pick(&self.asked.pool, random).0.clone(),
            SentBack => pick(&self.said.pool, random).0.clone(),
            SealedNoise | SealedAndDamaged => self.asked.nonsense(kind, random),
            _ => self.asked.foreign(kind, random),
        };
        self.asked.renew(&self.shared, random);
        let before = self.view();
        self.candidate.receive(&datagram, self.now);
        self.garbage.0 += u64::from(kind != Replayed);
        assert_eq!((self.view(), self.candidate.garbage), (before, self.garbage.0), "{kind:?}");
        self.count(format!("to candidates, {kind:?}"));
    }

    fn to_invigilator(&mut self) {
        let kind = *pick(&KINDS, &mut self.random);
        let (datagram, from) = (self.for_invigilator(kind), address(self.random.rand_range(1..9)));
        self.said.renew(&self.shared, &mut self.random);
        let (before, kept) = (self.view(), (self.invigilator.keys_kept(), self.invigilator.halves_kept()));
        let taken = self.invigilator.receive(&datagram, from, self.now);
        self.garbage.1 += u64::from(taken == Taken::Garbage);
        match kind {
            Replayed => assert_ne!(taken, Taken::Garbage),
            // All of these say that they are of one sitting, and come from several starts.
            NonsensePiece => assert!(matches!(taken, Taken::Piece | Taken::Twice | Taken::Garbage), "{taken:?}"),
            NoReport | BadStream | Bomb => assert!(matches!(taken, Taken::Twice | Taken::Garbage), "{taken:?}"),
            _ => assert_eq!(taken, Taken::Garbage, "{kind:?}"),
        }
        assert_eq!((self.view(), self.invigilator.counts.garbage), (before, self.garbage.1), "{kind:?}");
        if (Damaged..=NoiseWithFront).contains(&kind) {
            assert_eq!((self.invigilator.keys_kept(), self.invigilator.halves_kept()), kept, "{kind:?} takes no room");
        }
        self.count(format!("to invigilators, {kind:?}, taken for {taken:?}"));
    }

    fn for_invigilator(&mut self, kind: Kind) -> Vec<u8> {
        let random = &mut self.random;
        match kind {
            Replayed => pick(&self.said.pool, random).0.clone(),
            SentBack => pick(&self.asked.pool, random).0.clone(),
            SealedNoise | SealedAndDamaged => self.said.nonsense(kind, random),
            NonsensePiece | NoReport | BadStream | Bomb => self.sealed_piece(kind),
            _ => self.said.foreign(kind, random),
        }
    }

    /// Well sealed and well said, but no piece of a report.
    fn sealed_piece(&mut self, kind: Kind) -> Vec<u8> {
        let random = &mut self.random;
        let (index, count, bytes) = match kind {
            NonsensePiece => nonsense_piece(self.flooding.next(), random),
            Bomb => (0, 1, pick(&self.bombs, random).clone()),
            NoReport => (0, 1, no_report(&self.screen, random)),
            _ => (0, 1, bad_stream(&self.insiders, random)),
        };
        let echoes = (0..random.rand_range(0..5)).map(|_| Mark { start: Start::from_bytes([7; 16]), counter: random.rand_u32().into() });
        let said = Said { pair: INSIDER, echoes: echoes.collect(), piece: Some(Piece { index, count, bytes: &bytes }) }.write();
        let sealer = if kind == NonsensePiece { &mut self.flooding } else { &mut self.said.insider };
        sealer.seal(&said[..said.len().min(BODY)])
    }

    /// What holds after every datagram.
    fn check(&mut self) {
        let follower = &self.invigilator.follower;
        let mirror = follower.mirror().expect("something is shown");
        assert!(self.had.get(&mirror.pair()).is_some_and(|screen| mirror.same_as(screen)), "{mirror:?} was never the candidate's");
        let keys = self.invigilator.keys_kept().max(self.candidate.keys_kept());
        let (halves, sittings) = (self.invigilator.halves_kept(), follower.sittings().1);
        self.most = (self.most.0.max(halves), self.most.1.max(keys), self.most.2.max(sittings));
        assert!(self.invigilator.ask(self.now).is_empty(), "it asks, although nothing came");
        assert!(self.candidate.due(&self.screen, self.now).is_empty(), "it speaks, although nothing came");
    }
}

/// Mostly of a report of four pieces by the counter, of which few become whole, or of two hundred; else a number and a count that may contradict the
/// others.
fn nonsense_piece(counter: u64, random: &mut Rand32) -> (u8, u8, Vec<u8>) {
    if percent(random, 70) {
        let count = if counter / 200 % 2 == 0 { 4 } else { 200 };
        return ((counter % u64::from(count)) as u8, count, noise(PIECE, random));
    }
    let count = *pick(&[1, 2, 2, 3, 4, 4, 5, 200, 255], random);
    let length = *pick(&[0, 1, 50, PIECE, PIECE + 1], random);
    (random.rand_range(0..u32::from(count) + 1) as u8, count, noise(length, random))
}

fn deflated(whole: &[u8]) -> Vec<u8> {
    let mut deflated = Vec::with_capacity(2 * whole.len() + 100);
    Compress::new(Compression::default(), false).compress_vec(whole, &mut deflated, FlushCompress::Finish).expect("it can be deflated");
    deflated
}

/// A screen's report that is changed until it is none, or has a width that no screen has.
fn no_report(screen: &Screen, random: &mut Rand32) -> Vec<u8> {
    let mut report = screen.report_step().as_bytes().to_vec();
    report.truncate(400);
    while Report::from_bytes(&report).is_ok() {
        report = misshapen(&report, random);
    }
    Cutter::default().pieces(40, &report).swap_remove(0)
}

/// Reports of a sitting that is smaller than the candidate's: whole, one of them would not be garbage, and not be shown.
fn insiders_reports(random: &mut Rand32) -> Vec<Vec<u8>> {
    let mut screen = Screen::new(40, INSIDER.sitting);
    let mut report = |_| {
        call(&mut screen, random);
        screen.report_step()
    };
    let reports: Vec<_> = (0..400).map(&mut report).collect();
    reports.iter().map(|report| deflated(&[&[40], report.as_bytes()].concat())).filter(|stream| stream.len() < PIECE - 40).collect()
}

/// A report's stream that does not end, or behind which something stands; or a damaged one of what was no report before.
fn bad_stream(reports: &[Vec<u8>], random: &mut Rand32) -> Vec<u8> {
    let report = &pick(reports, random)[..];
    match random.rand_range(0..3) {
        0 => report[..report.len() - random.rand_range(1..4) as usize].to_vec(),
        1 => [report, &noise(random.rand_range(1..40) as usize, random)].concat(),
        _ => damaged(&deflated(&[&[40; 300][..], &noise(random.rand_range(1..500) as usize, random)].concat()), random),
    }
}

#[test]
fn a_million_datagrams_that_nobody_should_have_sent() {
    let seed = seed();
    let mut line = Line::new(seed);
    line.exchange();
    for n in 0..DATAGRAMS {
        if n % RESTARTS == RESTARTS - 1 {
            line.restart(n / RESTARTS % 30 > 0);
        } else if percent(&mut line.random, 4) {
            line.exchange();
        }
        if n % 2 == 0 {
            line.to_candidate();
        } else {
            line.to_invigilator();
        }
        line.check();
    }
    line.tally.iter().for_each(|(what, times)| println!("{times:7} {what}"));
    let (halves, keys, sittings) = line.most;
    println!("fuzz: {DATAGRAMS} datagrams, SEED={seed}; kept at most {halves} bytes of half reports, {keys} keys, {sittings} sittings");
    assert!(halves <= HALVES * MOST * PIECE && (keys, sittings) == (8, 16));
    assert!(line.bombs.iter().all(|bomb| bomb.len() <= PIECE) && halves > HALVES * PIECE, "there was something to be bounded");
}
