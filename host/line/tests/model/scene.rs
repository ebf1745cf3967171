//! Two ends or three, and what is between them.
use crate::common::{address, call, percent, pick, scribble};
use crate::network::*;
use crate::seat::Seat;
use crate::truth::{Datagram, History, Made, To};
use crate::watcher::Watcher;
use crate::{CALM, HOMES, MOMENT, RARE, STRANGER, WORDS};
use futonrobin::{Pair, Screen, Shown};
use line::message::{Mark, Said};
use line::seal::{End, Sealer, Start};
use line::{Question, SharedKey, State, Taken, LONGEST};
use oorandom::Rand32;
use std::collections::{BTreeMap, HashMap};
use std::time::{Duration, Instant};

pub struct Scene<'a> {
    random: Rand32,
    now: Instant,
    shared: SharedKey,
    seat: Seat,
    watchers: Vec<Watcher>,
    starts: usize,
    history: History,
    /// What some invigilator has shown when it asked, and when it did so last.
    shown: HashMap<Pair, Instant>,
    network: Network,
    /// So many milliseconds a good network takes.
    usual: u32,
    /// In how many of a hundred ticks the candidate makes a call.
    typing: u32,
    /// What is on its way, by the moment of its arrival.
    air: BTreeMap<(Instant, u64), (To, Datagram)>,
    sent: u64,
    recorded: Vec<Datagram>,
    /// Until when the network held something back, or an end began again or moved.
    uncalm: Instant,
    tally: &'a mut Tally,
}

/// How often what was met.
pub type Tally = BTreeMap<&'static str, u64>;

fn count(tally: &mut Tally, what: &'static str) {
    *tally.entry(what).or_default() += 1;
}

impl<'a> Scene<'a> {
    pub fn new(seed: u64, tally: &'a mut Tally) -> Self {
        let (mut random, shared, now, mut history) = (Rand32::new(seed), SharedKey::draw(), Instant::now(), History::default());
        let (starts, usual) = (random.rand_range(1..3) as usize, random.rand_range(0..150));
        let seat = Seat::new(&shared, Screen::new(80, 5), address(1), now);
        history.goes_on(&seat.screen, now);
        let watchers = (0..starts).map(|start| Watcher::new(&shared, start)).collect();
        let (shown, air, recorded) = (HashMap::new(), BTreeMap::new(), Vec::new());
        let (network, typing, sent, uncalm) = (Good, 0, 0, now);
        Self { random, now, shared, seat, watchers, starts, history, shown, network, usual, typing, air, sent, recorded, uncalm, tally }
    }

    /// Some stretches on these networks, and a good one at the end.
    pub fn run(&mut self, networks: &[Network]) {
        for _ in 0..self.random.rand_range(4..9) {
            self.network = *pick(networks, &mut self.random);
            self.typing = *pick(&[0, 1, 5, 25], &mut self.random);
            let ticks = self.random.rand_range(100..1_500);
            self.disturb();
            (0..ticks).for_each(|_| self.tick(1));
        }
        (self.network, self.typing) = (Good, 10);
        (0..800).for_each(|_| self.tick(0));
        self.typing = 0;
        (0..200).for_each(|_| self.tick(0));
        assert!(self.seat.candidate.is_shown(self.seat.screen.pair()), "nobody has said that it shows the last screen");
        assert!(self.seat.candidate.told().is_some_and(|(_, when)| self.now - when < CALM), "that was long ago");
        self.ends_well();
    }

    /// In so many ticks of a thousand an end begins again or moves.
    fn tick(&mut self, disturbed: u32) {
        self.now += Duration::from_millis(self.random.rand_range(1..20).into());
        if !HOLD_NOTHING.contains(&self.network) {
            self.uncalm = self.now;
        }
        if self.random.rand_range(0..1_000) < disturbed {
            self.disturb();
        }
        self.land();
        if percent(&mut self.random, self.typing) {
            self.press();
        }
        self.speak();
        if percent(&mut self.random, self.network.mischief()) {
            self.mischief();
        }
        self.sample();
    }

    /// An end may begin again, or the candidate be elsewhere.
    fn disturb(&mut self) {
        self.uncalm = self.now;
        match self.random.rand_range(0..6) {
            0 => self.restart_candidate(),
            1 => self.seat.address = address(self.random.rand_range(HOMES)),
            2 | 3 => self.restart_invigilator(),
            _ => {}
        }
    }

    fn restart_candidate(&mut self) {
        let (width, sitting) = (*pick(&[40, 80], &mut self.random), self.seat.screen.sitting() + self.random.rand_range(1..4));
        let address = *pick(&[self.seat.address, address(self.random.rand_range(HOMES))], &mut self.random);
        self.seat = Seat::new(&self.shared, Screen::new(width, sitting), address, self.now);
        self.history.goes_on(&self.seat.screen, self.now);
    }

    fn restart_invigilator(&mut self) {
        let at = self.random.rand_range(0..self.watchers.len() as u32) as usize;
        self.watchers[at] = Watcher::new(&self.shared, self.starts);
        self.starts += 1;
    }

    /// A call, or now and then many of which the last is reported alone.
    fn press(&mut self) {
        if percent(&mut self.random, 1) {
            self.scribble();
        }
        let before = self.seat.screen.pair();
        call(&mut self.seat.screen, &mut self.random);
        if self.seat.screen.pair() != before {
            self.history.goes_on(&self.seat.screen, self.now);
            let sent = self.seat.candidate.send(&self.seat.screen, &self.seat.screen.report_step(), self.now);
            self.say(sent);
        }
    }

    fn scribble(&mut self) {
        for _ in 0..self.random.rand_range(5..50) {
            let screens = scribble(&mut self.seat.screen, &mut self.random);
            screens.iter().for_each(|screen| self.history.goes_on(screen, self.now));
        }
    }

    /// What is due at all ends.
    fn speak(&mut self) {
        let sent = self.seat.candidate.due(&self.seat.screen, self.now);
        self.say(sent);
        for at in 0..self.watchers.len() {
            let questions = self.watchers[at].asks(self.now);
            if !questions.is_empty() {
                self.shown.extend(self.watchers[at].invigilator.follower.shown().map(|shown| (shown, self.now)));
            }
            questions.into_iter().for_each(|(to, question)| self.fly(To::Candidate(to), question));
        }
    }

    /// The candidate's datagrams go to all invigilators.
    fn say(&mut self, sent: Vec<Vec<u8>>) {
        for datagram in self.seat.sends(sent) {
            (0..self.watchers.len()).for_each(|at| self.fly(To::Invigilator(at), datagram.clone()));
        }
    }

    fn fly(&mut self, to: To, datagram: Datagram) {
        assert!(datagram.bytes.len() <= LONGEST, "a datagram of {} bytes", datagram.bytes.len());
        let delays = self.network.delays(self.usual, &datagram, &mut self.random);
        delays.into_iter().for_each(|delay| self.arrives(to, datagram.clone(), delay));
        // One who passes on to the candidate what goes to another place is the way to it, and may be asked there for good.
        if !matches!(to, To::Candidate(there) if there == address(STRANGER)) {
            self.recorded.push(datagram);
        }
    }

    fn arrives(&mut self, to: To, datagram: Datagram, delay: u32) {
        self.sent += 1;
        self.air.insert((self.now + Duration::from_millis(delay.into()), self.sent), (to, datagram));
    }

    /// All arrives whose time has come.
    fn land(&mut self) {
        while let Some(first) = self.air.first_entry().filter(|first| first.key().0 <= self.now) {
            match first.remove() {
                (To::Candidate(there), datagram) if there == self.seat.address => self.to_candidate(&datagram),
                (To::Candidate(_), _) => count(self.tally, "questions to where nobody is"),
                (To::Invigilator(at), datagram) => self.to_invigilator(at, &datagram),
            }
        }
    }

    fn to_candidate(&mut self, datagram: &Datagram) {
        self.seat.receive(datagram, self.now);
        count(self.tally, "datagrams to candidates");
        let Some((question, when)) = self.seat.candidate.told() else { return };
        if let Some(pair) = question.shown {
            let last = self.shown.get(&pair);
            assert!(
                last.is_some_and(|last| *last >= when),
                "{pair} was last shown at {last:?}, and is told to have been so at {when:?} or later"
            );
            assert!(
                self.seat.candidate.is_shown(pair)
                    && (pair == self.seat.screen.pair() || !self.seat.candidate.is_shown(self.seat.screen.pair()))
            );
        }
    }

    fn to_invigilator(&mut self, at: usize, datagram: &Datagram) {
        let taken = self.watchers[at].receive(datagram, self.now);
        self.watchers[at].check(&self.history, self.now);
        let what = match taken {
            Taken::Arrived => "taken for new reports",
            Taken::Older => "taken for older reports",
            Taken::Piece => "taken for pieces",
            Taken::Sign => "taken for signs",
            Taken::Twice => panic!("no sitting is used twice"),
            Taken::Garbage => "taken for garbage",
        };
        count(self.tally, what);
    }

    /// Something that was recorded comes to an end, as it was or changed; or something comes that one without the key made.
    fn mischief(&mut self) {
        let recent = self.recorded.len().saturating_sub(60);
        let from = if percent(&mut self.random, 50) { recent } else { 0 };
        if self.recorded.is_empty() {
            return;
        }
        let datagram = pick(&self.recorded[from..], &mut self.random).clone();
        match self.random.rand_range(0..9) {
            0..4 => self.replay(datagram, false),
            4 => (0..self.random.rand_range(1..40)).for_each(|_| self.replay_recent()),
            5 => self.replay(datagram, true),
            6 => self.damage(datagram),
            _ => self.forge(),
        }
    }

    /// To the end that it was for, or back to the one that made it; from anywhere.
    fn replay(&mut self, mut datagram: Datagram, back: bool) {
        datagram.from = *pick(&[datagram.from, self.seat.address, address(STRANGER)], &mut self.random);
        let to_candidate = matches!(datagram.made, Made::ByInvigilator(_)) != back;
        let at = self.random.rand_range(0..self.watchers.len() as u32) as usize;
        let to = if to_candidate { To::Candidate(self.seat.address) } else { To::Invigilator(at) };
        // What comes before the datagram itself holds it back: it is the repeated one then.
        let least = if HOLD_NOTHING.contains(&self.network) { self.usual } else { 0 };
        let delay = least + self.random.rand_range(0..50);
        self.arrives(to, datagram, delay);
    }

    fn replay_recent(&mut self) {
        let recent = self.recorded.len().saturating_sub(100);
        let datagram = pick(&self.recorded[recent..], &mut self.random).clone();
        self.replay(datagram, false);
    }

    fn damage(&mut self, datagram: Datagram) {
        let (mut bytes, at) = (datagram.bytes.to_vec(), self.random.rand_range(0..datagram.bytes.len() as u32) as usize);
        bytes[at] ^= 1 << self.random.rand_range(0..8);
        let to_candidate = matches!(datagram.made, Made::ByInvigilator(_));
        self.forged(bytes, to_candidate);
    }

    fn forge(&mut self) {
        let (to_candidate, pair) = (percent(&mut self.random, 50), Pair { sitting: self.seat.screen.sitting() + 1, serial: 1 });
        let echo = Mark { start: Start::draw(), counter: 0 };
        let (end, body) = match to_candidate {
            true => (End::Invigilator, Question { shown: Some(self.seat.screen.pair()), heard: pair, echo }.write()),
            false => (End::Candidate, Said { pair, echoes: vec![], piece: None }.write()),
        };
        self.forged(Sealer::new(&SharedKey::draw(), end).seal(&body), to_candidate);
    }

    fn forged(&mut self, bytes: Vec<u8>, to_candidate: bool) {
        let datagram = Datagram { bytes: bytes.into(), from: self.seat.address, made: Made::Forged };
        let to = if to_candidate { To::Candidate(self.seat.address) } else { To::Invigilator(0) };
        self.arrives(to, datagram, 0);
    }

    fn sample(&mut self) {
        let calm = self.now - self.uncalm >= CALM;
        for watcher in &mut self.watchers {
            watcher.check(&self.history, self.now);
            let state = watcher.invigilator.follower.state(self.now);
            if state.is_level() {
                watcher.level = Some(self.now);
            }
            assert!(!calm || watcher.level.is_some_and(|level| self.now - level < MOMENT), "{state} although nothing is held back");
            let follower = &watcher.invigilator.follower;
            let begun_with_age = matches!(state, State::Begun { .. }) && follower.of_when(self.now).ends_with(" s ago");
            for (met, what) in
                [calm && self.network == Nagging, follower.older_heard(self.now).is_some(), begun_with_age].into_iter().zip(RARE)
            {
                if met {
                    count(self.tally, what);
                }
            }
            let words = state.to_string();
            WORDS.iter().filter(|word| words.contains(**word)).for_each(|word| count(self.tally, word));
            count(
                self.tally,
                if !calm {
                    "samples while not calm"
                } else if state.is_level() {
                    "LEVEL while calm"
                } else {
                    "else while calm"
                },
            );
        }
    }

    fn ends_well(&self) {
        for watcher in &self.watchers {
            let follower = &watcher.invigilator.follower;
            assert!(follower.state(self.now).is_level(), "{} at the end", follower.state(self.now));
            assert!(follower.mirror().is_some_and(|mirror| mirror.same_as(&self.seat.screen)));
            assert_eq!(watcher.invigilator.candidate_at(), Some(self.seat.address));
        }
    }
}
