//! The invigilator's end: what it takes, whom it asks, and when. Bytes come in and go out, and the time comes in.
use crate::echoes::Sent;
use crate::follower::Follower;
use crate::message::{Mark, Question, Said};
use crate::pieces::{Joined, Joiner};
use crate::places::{Place, Places};
use crate::seal::{End, Opened, Opener, Sealer, SharedKey, Start};
use futonrobin::Pair;
use std::net::SocketAddr;
use std::time::{Duration, Instant};

/// So often it asks.
pub const ASKING: Duration = Duration::from_millis(200);

pub struct Invigilator {
    sealer: Sealer,
    opener: Opener,
    joiner: Joiner,
    asked: Sent,
    pub follower: Follower,
    places: Places,
    pub counts: Counts,
}

#[derive(Clone, Copy, PartialEq, Eq, Default, Debug)]
pub struct Counts {
    /// Reports of the newest sitting.
    pub arrived: u64,
    /// Reports of smaller ones.
    pub older: u64,
    /// Datagrams of a second start that uses the sitting of another.
    pub twice: u64,
    pub garbage: u64,
}

/// What a datagram was taken for.
#[derive(Clone, Copy, PartialEq, Eq, Debug)]
pub enum Taken {
    /// A report of the newest sitting.
    Arrived,
    /// A report of a smaller one: late, or of a candidate that is still there.
    Older,
    /// A piece of a report of which others are missing.
    Piece,
    /// A sign that the candidate is there.
    Sign,
    /// Of a start that uses a sitting which was another's: nothing is taken of it, since to the mirror the two screens would be one.
    Twice,
    /// What does not open, or says nothing that a candidate says.
    Garbage,
}

impl Invigilator {
    /// A start of its own, which has heard nothing.
    pub fn new(shared: &SharedKey) -> Self {
        Self {
            sealer: Sealer::new(shared, End::Invigilator),
            opener: Opener::new(shared, End::Candidate),
            joiner: Joiner::default(),
            asked: Sent::default(),
            follower: Follower::default(),
            places: Places::default(),
            counts: Counts::default(),
        }
    }

    /// Something came from there.
    pub fn receive(&mut self, datagram: &[u8], from: SocketAddr, now: Instant) -> Taken {
        let taken = self.opener.open(datagram).and_then(|opened| self.take(&opened, from, now)).unwrap_or(Taken::Garbage);
        match taken {
            Taken::Arrived => self.counts.arrived += 1,
            Taken::Older => self.counts.older += 1,
            Taken::Twice => self.counts.twice += 1,
            Taken::Garbage => self.counts.garbage += 1,
            Taken::Piece | Taken::Sign => {}
        }
        taken
    }

    fn take(&mut self, opened: &Opened, from: SocketAddr, now: Instant) -> Option<Taken> {
        let (said, datagram) = (Said::read(&opened.body)?, Mark { start: opened.start, counter: opened.counter });
        if self.is_anothers(said.pair.sitting, opened.start) {
            return Some(Taken::Twice);
        }
        // An echo counts only if this very start asked that question.
        let own = said.echoes.iter().filter(|echo| echo.start == self.sealer.start());
        let asked = own.filter_map(|echo| self.asked.when(echo.counter)).max();
        let new = self.places.come(said.pair.sitting, datagram, from, asked, now);
        self.follower.hears(said.pair, asked, new.then_some(now));
        let Some(piece) = said.piece else { return Some(Taken::Sign) };
        let Joined::Whole(width, report) = self.joiner.piece(opened.start, opened.counter, piece)? else { return Some(Taken::Piece) };
        let reported = [40, 80].contains(&width).then(|| self.follower.report(opened.start, width, &report))?.ok()?;
        let newest = self.follower.heard().is_none_or(|heard| heard.sitting == reported.sitting);
        Some(if newest { Taken::Arrived } else { Taken::Older })
    }

    /// Whether something is kept of this sitting, and that is another start's: where it is, or its last screen.
    fn is_anothers(&self, sitting: u32, start: Start) -> bool {
        self.places.is_anothers(sitting, start) || self.follower.is_anothers(sitting, start)
    }

    /// The questions that are due, and where they go; none while nobody is heard.
    pub fn ask(&mut self, now: Instant) -> Vec<(SocketAddr, Vec<u8>)> {
        let due = self.places.has_moved() || self.asked.last().is_none_or(|last| now.saturating_duration_since(last) >= ASKING);
        let Some(heard) = self.follower.heard().filter(|_| due) else { return Vec::new() };
        self.places.to_ask(now).into_iter().map(|place| (place.from, self.question(place, heard, now))).collect()
    }

    fn question(&mut self, place: Place, heard: Pair, now: Instant) -> Vec<u8> {
        self.asked.send(self.sealer.next(), now);
        self.sealer.seal(&Question { shown: self.follower.shown(), heard, echo: place.datagram }.write())
    }

    /// Where the candidate is that is followed.
    pub fn candidate_at(&self) -> Option<SocketAddr> {
        self.places.latest().map(|place| place.from)
    }

    /// How many bytes of reports are kept of which a piece is missing.
    pub fn halves_kept(&self) -> usize {
        self.joiner.kept()
    }

    /// How many keys of candidates' starts are kept.
    pub fn keys_kept(&self) -> usize {
        self.opener.kept()
    }
}

#[cfg(test)]
mod tests;
