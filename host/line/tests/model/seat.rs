//! The candidate, and what it must have heard.
use crate::truth::{Asked, Datagram, Made, Truth};
use futonrobin::{Screen, Shown};
use line::seal::Start;
use line::{Candidate, SharedKey};
use std::net::SocketAddr;
use std::rc::Rc;
use std::time::Instant;

/// A candidate, its screen, and what it has heard.
pub struct Seat {
    pub screen: Screen,
    pub candidate: Candidate,
    pub address: SocketAddr,
    pub made: u64,
    /// As its first datagram tells it in clear.
    pub start: Option<Start>,
    /// Of the last four starts the last question. The start to which the latest of its datagrams came is first.
    pub heard: Vec<Asked>,
    /// When the last one came that was taken into these.
    pub came: Option<Instant>,
    pub garbage: u64,
}

impl Seat {
    pub fn new(shared: &SharedKey, screen: Screen, address: SocketAddr, now: Instant) -> Self {
        let candidate = Candidate::new(shared, &screen, now);
        Self { candidate, screen, address, made: 0, start: None, heard: Vec::new(), came: None, garbage: 0 }
    }

    pub fn receive(&mut self, datagram: &Datagram, now: Instant) {
        self.candidate.receive(&datagram.bytes, now);
        match datagram.made {
            // A question that is another's, or of another time, is no garbage, but says nothing.
            Made::ByInvigilator(asked) if Some(asked.whom) != self.start => {}
            Made::ByInvigilator(asked) => self.hear(asked, now),
            _ => self.garbage += 1,
        }
        assert_eq!(self.candidate.quiet(now), self.came.map(|came| now - came), "nothing but a new question ends a silence");
        assert_eq!(self.candidate.garbage, self.garbage, "what no invigilator has made is garbage, and nothing else");
    }

    pub fn hear(&mut self, asked: Asked, now: Instant) {
        if self.heard.iter().any(|before| before.start == asked.start && before.counter >= asked.counter) {
            return;
        }
        self.heard.retain(|before| before.start != asked.start);
        let at = self.heard.partition_point(|before| before.after > asked.after);
        self.heard.insert(at, asked);
        self.heard.truncate(4);
        self.came = if at < 4 { Some(now) } else { self.came };
    }

    /// What it sends now, with what is true of it.
    pub fn sends(&mut self, sent: Vec<Vec<u8>>) -> Vec<Datagram> {
        sent.into_iter().map(|bytes| self.datagram(bytes)).collect()
    }

    pub fn datagram(&mut self, bytes: Vec<u8>) -> Datagram {
        let pair = self.screen.pair();
        let truth = Truth { order: (pair.sitting, self.made), pair, heard: self.heard.clone() };
        self.made += 1;
        self.start = bytes[3..19].try_into().ok().map(Start::from_bytes);
        Datagram { bytes: bytes.into(), from: self.address, made: Made::ByCandidate(Rc::new(truth)) }
    }
}
