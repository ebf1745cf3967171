//! An invigilator, and what must be true of it.
use crate::common::address;
use crate::truth::{Asked, Datagram, History, Made, Truth};
use crate::STRANGER;
use futonrobin::Pair;
use line::message::Mark;
use line::seal::{End, Opener};
use line::{Invigilator, Question, SharedKey, State, Taken};
use std::collections::{BTreeMap, HashMap};
use std::net::SocketAddr;
use std::time::{Duration, Instant};

pub struct Watcher {
    pub invigilator: Invigilator,
    pub start: usize,
    /// How many questions it has asked, and where the last one went.
    pub asked: u64,
    pub place: Option<SocketAddr>,
    pub opener: Opener,
    /// How many datagrams of candidates came from a place, and how many questions went there.
    pub came: HashMap<SocketAddr, (u64, u64)>,
    /// The latest that has come: which it was, where from, and when.
    pub latest: Option<((u32, u64), SocketAddr, Instant)>,
    /// The newest pair that came.
    pub heard: Option<Pair>,
    /// For a sitting and a question of this start, the smallest serial that was said after that question had come.
    pub echoed: BTreeMap<(u32, Instant), u32>,
    pub garbage: u64,
    /// When it was level last.
    pub level: Option<Instant>,
}

impl Watcher {
    pub fn new(shared: &SharedKey, start: usize) -> Self {
        let (invigilator, opener) = (Invigilator::new(shared), Opener::new(shared, End::Invigilator));
        let (came, echoed) = (HashMap::new(), BTreeMap::new());
        Self { invigilator, start, asked: 0, place: None, opener, came, latest: None, heard: None, echoed, garbage: 0, level: None }
    }

    pub fn receive(&mut self, datagram: &Datagram, now: Instant) -> Taken {
        let taken = self.invigilator.receive(&datagram.bytes, datagram.from, now);
        match &datagram.made {
            Made::ByCandidate(truth) => self.learn(truth, datagram.from, now),
            _ => self.garbage += 1,
        }
        assert_eq!(self.invigilator.counts.garbage, self.garbage, "what no candidate has made is garbage, and nothing else: {taken:?}");
        taken
    }

    pub fn learn(&mut self, truth: &Truth, from: SocketAddr, now: Instant) {
        self.came.entry(from).or_default().0 += 1;
        if self.latest.is_none_or(|(order, ..)| truth.order > order) {
            self.latest = Some((truth.order, from, now));
        }
        self.heard = self.heard.max(Some(truth.pair));
        for asked in truth.heard.iter().filter(|asked| asked.start == self.start) {
            let smallest = self.echoed.entry((truth.pair.sitting, asked.at)).or_insert(truth.pair.serial);
            *smallest = truth.pair.serial.min(*smallest);
        }
    }

    pub fn asks(&mut self, now: Instant) -> Vec<(SocketAddr, Datagram)> {
        let questions = self.invigilator.ask(now);
        let latest = self.latest.map(|(_, from, _)| from);
        if latest.is_some_and(|latest| questions.iter().any(|(to, _)| *to == latest)) {
            self.place = latest;
        }
        assert_eq!(self.place, latest, "where the latest came from it asks at once");
        assert!(questions.len() <= 8, "it asks at {} places", questions.len());
        let questions = questions.into_iter().map(|(to, bytes)| (to, self.question(to, bytes, now))).collect();
        self.check_stranger();
        questions
    }

    fn question(&mut self, to: SocketAddr, bytes: Vec<u8>, now: Instant) -> Datagram {
        let question = self.opener.open(&bytes).and_then(|opened| Question::read(&opened.body)).expect("it asks questions");
        let Mark { start: whom, counter: after } = question.echo;
        let asked = Asked { start: self.start, counter: self.asked, at: now, whom, after };
        self.asked += 1;
        self.came.entry(to).or_default().1 += 1;
        Datagram { bytes: bytes.into(), from: address(0), made: Made::ByInvigilator(asked) }
    }

    /// Where no candidate ever was, nobody gets more questions than datagrams of candidates came from there.
    fn check_stranger(&self) {
        let (came, asked) = self.came.get(&address(STRANGER)).copied().unwrap_or_default();
        assert!(asked <= came, "{asked} questions to where nobody is, from where {came} datagrams came");
    }

    pub fn check(&self, history: &History, now: Instant) {
        let (follower, state) = (&self.invigilator.follower, self.invigilator.follower.state(now));
        assert!(follower.mirror().is_none_or(|mirror| history.has(mirror)), "the candidate never had that screen");
        assert!(follower.heard() == self.heard && self.heard <= history.newest, "{:?} was heard, not {:?}", self.heard, follower.heard());
        assert_eq!(self.invigilator.candidate_at(), self.latest.map(|(_, from, _)| from), "the latest came from elsewhere");
        if let (State::Shows { age: Some(age), .. }, Some(shown)) = (state, follower.shown()) {
            assert!(history.had_since(shown, now - age), "{shown} is older than {age:?}");
            assert!(self.proved(shown) >= Some(now - age), "no echo that came proves that {shown} is as young as {age:?}");
        }
        self.check_ages(history, now);
        self.check_words(state, now);
        self.check_youth(state, now);
    }

    /// In whatever state: what is said of the age of the screen, and of a smaller sitting; and the last screens of those before.
    fn check_ages(&self, history: &History, now: Instant) {
        let follower = &self.invigilator.follower;
        let said = follower.of_when(now);
        let seconds = said.strip_prefix("the screen of ").and_then(|said| said.strip_suffix(" s ago"));
        if let (Some(seconds), Some(shown)) = (seconds, follower.shown()) {
            let age = Duration::from_secs_f64(seconds.parse().expect("it is a number"));
            assert!(now.checked_sub(age).is_none_or(|then| history.had_since(shown, then)), "{said}: {shown} is older");
        }
        if let Some((sitting, ago)) = follower.older_heard(now) {
            assert!(history.sat_since(sitting, now - ago), "sitting {sitting} is told to have been there {ago:?} ago");
        }
        assert!(follower.earlier().all(|mirror| history.has(mirror)), "the candidate never had such a last screen");
    }

    /// When the latest question was asked after which the candidate's screen had this pair or a smaller one.
    pub fn proved(&self, shown: Pair) -> Option<Instant> {
        let of_sitting = self.echoed.iter().rev().filter(|((sitting, _), _)| *sitting == shown.sitting);
        of_sitting.filter(|(_, smallest)| **smallest <= shown.serial).map(|((_, asked), _)| *asked).next()
    }

    pub fn check_words(&self, state: State, now: Instant) {
        let (shown, words) = (self.invigilator.follower.shown(), state.to_string());
        assert_eq!(words.starts_with("LEVEL"), state.is_level(), "{words}");
        if state.is_level() {
            assert!(shown.is_some() && shown == self.heard, "{words}, and {:?} was heard", self.heard);
            assert!(matches!(state, State::Shows { age: Some(age), .. } if age < Duration::from_secs(2)), "{words}");
        }
        if let State::Begun { quiet, .. } | State::Shows { quiet, .. } = state {
            assert_eq!(Some(now - quiet), self.latest.map(|(.., came)| came), "{words}");
        }
    }

    /// What the latest echo of the newest sitting proves is not withheld.
    pub fn check_youth(&self, state: State, now: Instant) {
        let (Some(shown), Some(((sitting, asked), smallest))) = (self.invigilator.follower.shown(), self.echoed.last_key_value()) else {
            return;
        };
        if self.heard.is_some_and(|heard| heard.sitting == *sitting) && shown.sitting == *sitting && shown.serial >= *smallest {
            assert!(matches!(state, State::Shows { age: Some(age), .. } if now - age >= *asked), "{state:?}: {shown} is younger than that");
        }
    }
}
