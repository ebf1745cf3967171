//! What is true: of each datagram, and of the candidate's screen at every moment.
use futonrobin::{Mirror, Pair, Screen, Shown};
use line::seal::Start;
use std::collections::HashMap;
use std::net::SocketAddr;
use std::rc::Rc;
use std::time::Instant;

/// A datagram, where it seems to come from, and what is true of it.
#[derive(Clone)]
pub struct Datagram {
    pub bytes: Rc<[u8]>,
    pub from: SocketAddr,
    pub made: Made,
}

#[derive(Clone)]
pub enum Made {
    ByCandidate(Rc<Truth>),
    ByInvigilator(Asked),
    /// By one without the key, or it was changed on the way.
    Forged,
}

/// Of a candidate's datagram: which one of which sitting it is, the pair of the screen when it was made, and which questions had come until then.
pub struct Truth {
    pub order: (u32, u64),
    pub pair: Pair,
    pub heard: Vec<Asked>,
}

/// A question: of which start, its number there, when it was asked, which start of the candidate is asked, and which datagram of it came last.
#[derive(Clone, Copy)]
pub struct Asked {
    pub start: usize,
    pub counter: u64,
    pub at: Instant,
    pub whom: Start,
    pub after: u64,
}

#[derive(Clone, Copy)]
pub enum To {
    Candidate(SocketAddr),
    Invigilator(usize),
}

/// Every screen that the candidate has had, and when it left it.
#[derive(Default)]
pub struct History {
    pub had: HashMap<Pair, (Screen, Option<Instant>)>,
    pub newest: Option<Pair>,
}

impl History {
    pub fn goes_on(&mut self, screen: &Screen, now: Instant) {
        if let Some((_, left)) = self.newest.and_then(|newest| self.had.get_mut(&newest)) {
            *left = Some(now);
        }
        self.newest = Some(screen.pair());
        self.had.insert(screen.pair(), (screen.clone(), None));
    }

    pub fn has(&self, mirror: &Mirror) -> bool {
        self.had.get(&mirror.pair()).is_some_and(|(screen, _)| mirror.same_as(screen))
    }

    /// Whether the candidate's screen had this pair at that moment or at one after it.
    pub fn had_since(&self, pair: Pair, since: Instant) -> bool {
        self.had.get(&pair).is_some_and(|(_, left)| left.is_none_or(|left| left >= since))
    }

    /// Whether its screen was of this sitting then.
    pub fn sat_since(&self, sitting: u32, since: Instant) -> bool {
        self.had.keys().any(|pair| pair.sitting == sitting && self.had_since(*pair, since))
    }
}
