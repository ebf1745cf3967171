//! What the two ends remember for echoes: the candidate the last question of each start that it heard, to echo it; and both when they sent what.
use crate::message::{Mark, ECHOES};
use std::collections::VecDeque;
use std::time::Instant;

/// The questions that a candidate has heard: of each of the last few starts the one with the largest counter.
///
/// Which starts are the last is told by the candidate's own datagrams that their questions echo, not by when the questions come: anybody can send one
/// again, and recorded ones of earlier starts could else push that of the true one out, again and again.
#[derive(Default)]
pub struct Echoes {
    /// The one that echoes the latest datagram comes first.
    heard: Vec<Heard>,
}

struct Heard {
    question: Mark,
    /// The counter of the own datagram that it echoes.
    own: u64,
}

impl Echoes {
    /// A question came that echoes the own datagram with this counter; whether it is later than all of its start that are remembered, and of one of
    /// the last few starts.
    pub fn hear(&mut self, question: Mark, own: u64) -> bool {
        let known = self.heard.iter().position(|heard| heard.question.start == question.start);
        if known.is_some_and(|at| self.heard[at].question.counter >= question.counter) {
            return false;
        }
        known.map(|at| self.heard.remove(at));
        let at = self.heard.partition_point(|heard| heard.own > own);
        self.heard.insert(at, Heard { question, own });
        self.heard.truncate(ECHOES);
        at < ECHOES
    }

    pub fn all(&self) -> Vec<Mark> {
        self.heard.iter().map(|heard| heard.question).collect()
    }
}

/// Of so many datagrams it is remembered when they were sent, of some minutes; an echo of an earlier one tells nothing.
const REMEMBERED: usize = 4_096;

/// When an end sent which datagram: the other end's echo of it was made later.
#[derive(Default)]
pub struct Sent {
    /// By counters, the smallest first.
    at: VecDeque<(u64, Instant)>,
}

impl Sent {
    /// The datagram with this counter, larger than all before, is sent now.
    pub fn send(&mut self, counter: u64, now: Instant) {
        self.at.push_back((counter, now));
        self.at.drain(..self.at.len().saturating_sub(REMEMBERED));
    }

    pub fn when(&self, counter: u64) -> Option<Instant> {
        let at = self.at.binary_search_by_key(&counter, |(counter, _)| *counter).ok()?;
        Some(self.at[at].1)
    }

    /// When the last one was sent.
    pub fn last(&self) -> Option<Instant> {
        self.at.back().map(|(_, when)| *when)
    }
}

#[cfg(test)]
mod tests {
    use super::*;
    use crate::seal::Start;
    use std::time::Duration;

    fn question(start: u8, counter: u64) -> Mark {
        Mark { start: Start::from_bytes([start; 16]), counter }
    }

    fn heard(echoes: &Echoes) -> Vec<(u8, u64)> {
        echoes.all().iter().map(|echo| (echo.start.bytes()[0], echo.counter)).collect()
    }

    #[test]
    fn the_largest_counter_of_the_last_four_starts() {
        let mut echoes = Echoes::default();
        assert!(echoes.hear(question(1, 7), 0) && echoes.hear(question(1, 9), 1));
        assert!(!echoes.hear(question(1, 9), 1) && !echoes.hear(question(1, 8), 1), "a repeated or late question");
        for n in 2..=4 {
            assert!(echoes.hear(question(n, 0), n.into()));
        }
        assert!(echoes.hear(question(1, 10), 5), "heard again, it is the last one");
        assert!(echoes.hear(question(5, 0), 5), "two have heard the same");
        assert_eq!(heard(&echoes), [(5, 0), (1, 10), (4, 0), (3, 0)], "2 was heard longest ago");
    }

    #[test]
    fn a_question_of_an_earlier_start_pushes_no_later_one_out() {
        let mut echoes = Echoes::default();
        (1..=5).for_each(|n| assert!(echoes.hear(question(n, 0), n.into())));
        assert!(!echoes.hear(question(1, 0), 1), "it is sent again");
        assert!(!echoes.hear(question(1, 1), 1), "or was never heard");
        assert_eq!(heard(&echoes), [(5, 0), (4, 0), (3, 0), (2, 0)]);
        assert!(echoes.hear(question(6, 0), 3), "a slow line: what it has heard last is not the latest");
        assert_eq!(heard(&echoes), [(5, 0), (4, 0), (6, 0), (3, 0)]);
    }

    #[test]
    fn when_it_was_sent() {
        let (mut sent, begun) = (Sent::default(), Instant::now());
        let at = |n: u64| begun + Duration::from_millis(n);
        assert_eq!((sent.when(0), sent.last()), (None, None));
        let all = REMEMBERED as u64 + 10;
        (0..all).for_each(|n| sent.send(2 * n, at(n)));
        assert_eq!((sent.when(2 * all - 2), sent.when(20), sent.last()), (Some(at(all - 1)), Some(at(10)), Some(at(all - 1))));
        assert_eq!((sent.when(21), sent.when(18), sent.when(2 * all)), (None, None, None), "never sent, forgotten, not yet sent");
        assert_eq!(sent.at.len(), REMEMBERED);
    }
}
