//! What stands between the two programs: it passes on what they say, and does with it what a network does, or somebody who has no key.
use std::net::{Ipv4Addr, SocketAddr, UdpSocket};
use std::sync::atomic::{AtomicBool, Ordering};
use std::sync::{Arc, Mutex, MutexGuard};
use std::thread::{self, sleep, JoinHandle};
use std::time::{Duration, Instant};

const TURN: Duration = Duration::from_millis(2);
/// So often an old datagram comes again.
const PACE: Duration = Duration::from_millis(10);
/// No datagram is longer.
const ANY_LENGTH: usize = 65_535;

/// What is done with the datagrams of one direction.
#[derive(Clone, Copy)]
pub enum Way {
    Pass,
    /// Each comes so much later, in their order. What is on its way when that changes still comes when it is due.
    Delay(Duration),
    /// Longer ones are lost.
    UpTo(usize),
    /// Nothing new passes. What has passed until now comes again, round and round.
    Replay,
    /// It comes again beside what is new.
    ReplayBeside,
    Cut,
}

/// One direction.
struct Stream {
    way: Way,
    /// All that was let through, in its order.
    passed: Vec<Vec<u8>>,
    /// How many were lost because of their length.
    too_long: usize,
    /// What is on its way, and when it is due.
    coming: Vec<(Instant, Vec<u8>)>,
    /// So many of those that passed come again, and from there on; how often one did, and when the last one.
    old: usize,
    next: usize,
    replayed: usize,
    last: Instant,
}

impl Stream {
    fn new() -> Self {
        Self { way: Way::Pass, passed: Vec::new(), too_long: 0, coming: Vec::new(), old: 0, next: 0, replayed: 0, last: Instant::now() }
    }

    fn turn_to(&mut self, way: Way) {
        (self.way, self.old, self.next) = (way, self.passed.len(), 0);
    }

    fn take(&mut self, datagram: &[u8], now: Instant) {
        let after = match self.way {
            Way::Pass | Way::ReplayBeside => Duration::ZERO,
            Way::Delay(time) => time,
            Way::UpTo(length) if datagram.len() <= length => Duration::ZERO,
            Way::UpTo(_) => {
                self.too_long += 1;
                return;
            }
            Way::Replay | Way::Cut => return,
        };
        self.passed.push(datagram.to_vec());
        self.coming.push((now + after, datagram.to_vec()));
    }

    /// What goes out now.
    fn leaving(&mut self, now: Instant) -> Vec<Vec<u8>> {
        let (due, coming): (Vec<_>, Vec<_>) = self.coming.drain(..).partition(|(when, _)| *when <= now);
        self.coming = coming;
        due.into_iter().map(|(_, datagram)| datagram).chain(self.again(now)).collect()
    }

    fn again(&mut self, now: Instant) -> Option<Vec<u8>> {
        let replays = matches!(self.way, Way::Replay | Way::ReplayBeside);
        if !replays || self.old == 0 || now.saturating_duration_since(self.last) < PACE {
            return None;
        }
        let datagram = self.passed[self.next].clone();
        (self.last, self.next) = (now, (self.next + 1) % self.old);
        self.replayed += 1;
        Some(datagram)
    }
}

struct Line {
    /// From the candidate to the invigilator, and back.
    forth: Stream,
    back: Stream,
    /// Where the candidate was heard last, and where the invigilator listens.
    candidate: Option<SocketAddr>,
    invigilator: SocketAddr,
    /// The candidate knows the first of these sockets alone, the invigilator the second.
    near: UdpSocket,
    far: UdpSocket,
}

impl Line {
    fn turn(&mut self, now: Instant) {
        let mut buffer = [0; ANY_LENGTH];
        while let Ok((length, from)) = self.near.recv_from(&mut buffer) {
            self.candidate = Some(from);
            self.forth.take(&buffer[..length], now);
        }
        while let Ok((length, _)) = self.far.recv_from(&mut buffer) {
            self.back.take(&buffer[..length], now);
        }
        for datagram in self.forth.leaving(now) {
            self.to_invigilator(&datagram);
        }
        for datagram in self.back.leaving(now) {
            self.to_candidate(&datagram);
        }
    }

    /// A program that is not there is no fault of the line.
    fn to_invigilator(&self, datagram: &[u8]) {
        let _ = self.far.send_to(datagram, self.invigilator);
    }

    fn to_candidate(&self, datagram: &[u8]) {
        let _ = self.candidate.map(|candidate| self.near.send_to(datagram, candidate));
    }
}

/// It goes on until it is dropped.
pub struct Between {
    line: Arc<Mutex<Line>>,
    port: u16,
    stop: Arc<AtomicBool>,
    turning: Option<JoinHandle<()>>,
}

impl Between {
    /// The invigilator listens at this port; all passes at first.
    pub fn new(invigilator: u16) -> Self {
        let [near, far] = [(); 2].map(|()| socket());
        let port = near.local_addr().unwrap().port();
        let (forth, back) = (Stream::new(), Stream::new());
        let line = Arc::new(Mutex::new(Line { forth, back, candidate: None, invigilator: here(invigilator), near, far }));
        let stop = Arc::new(AtomicBool::new(false));
        let (turned, stopped) = (line.clone(), stop.clone());
        let turning = thread::spawn(move || {
            while !stopped.load(Ordering::Relaxed) {
                turned.lock().unwrap().turn(Instant::now());
                sleep(TURN);
            }
        });
        Self { line, port, stop, turning: Some(turning) }
    }

    fn line(&self) -> MutexGuard<'_, Line> {
        self.line.lock().unwrap()
    }

    /// Where the candidate sends to.
    pub fn port(&self) -> u16 {
        self.port
    }

    /// Another invigilator gets what passes from now on, and what comes again from its beginning.
    pub fn leads_to(&self, invigilator: u16) {
        let mut line = self.line();
        (line.invigilator, line.forth.next) = (here(invigilator), 0);
    }

    /// What the candidate says.
    pub fn forth(&self, way: Way) {
        self.line().forth.turn_to(way);
    }

    /// What the invigilator says.
    pub fn back(&self, way: Way) {
        self.line().back.turn_to(way);
    }

    pub fn both(&self, way: Way) {
        self.forth(way);
        self.back(way);
    }

    /// Sends that to the invigilator, from where it hears the candidate.
    pub fn forge(&self, datagram: &[u8]) {
        self.line().to_invigilator(datagram);
    }

    /// Sends that to the candidate, from where it hears the invigilator.
    pub fn forge_back(&self, datagram: &[u8]) {
        self.line().to_candidate(datagram);
    }

    /// All that the candidate said and that was let through.
    pub fn said(&self) -> Vec<Vec<u8>> {
        self.line().forth.passed.clone()
    }

    /// All that the invigilator asked and that was let through.
    pub fn asked(&self) -> Vec<Vec<u8>> {
        self.line().back.passed.clone()
    }

    /// Of both directions.
    pub fn longest(&self) -> usize {
        let line = self.line();
        line.forth.passed.iter().chain(&line.back.passed).map(Vec::len).max().unwrap_or(0)
    }

    /// How many were lost because of their length, of both directions.
    pub fn too_long(&self) -> usize {
        let line = self.line();
        line.forth.too_long + line.back.too_long
    }

    /// How often an old one came again: to the invigilator, and to the candidate.
    pub fn replayed(&self) -> (usize, usize) {
        let line = self.line();
        (line.forth.replayed, line.back.replayed)
    }
}

impl Drop for Between {
    fn drop(&mut self) {
        self.stop.store(true, Ordering::Relaxed);
        // If it has failed, the test has failed at the lock.
        let _ = self.turning.take().map(JoinHandle::join);
    }
}

fn here(port: u16) -> SocketAddr {
    (Ipv4Addr::LOCALHOST, port).into()
}

fn socket() -> UdpSocket {
    let socket = UdpSocket::bind(here(0)).unwrap();
    socket.set_nonblocking(true).unwrap();
    socket
}
