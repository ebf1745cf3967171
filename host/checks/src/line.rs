//! A line from screens to a mirror: it loses, repeats, reorders and damages the reports that are sent over it.
use crate::layout::Pair;
use crate::reports::{self, Kind, REPORT};
use crate::trial::filler;
use proptest::prelude::RngCore;
use proptest::test_runner::TestRng;
use std::rc::Rc;

pub fn below(random: &mut TestRng, n: usize) -> usize {
    random.next_u32() as usize % n
}

/// Whether it happens, at so many in a hundred.
pub fn happens(random: &mut TestRng, percent: usize) -> bool {
    below(random, 100) < percent
}

pub fn pick<T: Copy>(random: &mut TestRng, from: &[T]) -> T {
    from[below(random, from.len())]
}

/// A report as it was made, with what the count may know of it.
pub struct Made {
    pub kind: Kind,
    pub pair: Pair,
    pub bytes: Vec<u8>,
}

pub struct Line {
    waiting: Vec<Rc<Made>>,
    past: Vec<Rc<Made>>,
    /// How many reports the line holds back; any of them may be the next to arrive. A line that holds nothing back keeps their order.
    depth: usize,
    /// What happens in a hundred reports: a full one is sent at all, one is lost, sent twice, sent again later, damaged.
    fulls: usize,
    lost: usize,
    twice: usize,
    again: usize,
    damaged: usize,
}

impl Line {
    /// A line with habits of its own.
    pub fn new(random: &mut TestRng) -> Self {
        Self {
            waiting: Vec::new(),
            past: Vec::new(),
            depth: pick(random, &[0, 0, 1, 4, 40, 400]),
            fulls: pick(random, &[0, 2, 10, 50]),
            lost: pick(random, &[0, 0, 3, 25]),
            twice: pick(random, &[0, 10, 30]),
            again: pick(random, &[0, 3, 20]),
            damaged: pick(random, &[0, 5, 20]),
        }
    }

    pub fn send(&mut self, made: &Rc<Made>, random: &mut TestRng) {
        if made.kind == Kind::Full && !happens(random, self.fulls) {
            return;
        }
        self.past.push(made.clone());
        if !happens(random, self.lost) {
            self.waiting.push(made.clone());
        }
        if happens(random, self.twice) {
            self.waiting.push(made.clone());
        }
        if happens(random, self.again) {
            let again = below(random, self.past.len());
            self.waiting.push(self.past[again].clone());
        }
    }

    /// The next to arrive while more is sent, if there are more than the line holds back.
    pub fn next(&mut self, random: &mut TestRng) -> Option<Rc<Made>> {
        self.take(self.depth, random)
    }

    /// The next to arrive when nothing more is sent.
    pub fn next_of_rest(&mut self, random: &mut TestRng) -> Option<Rc<Made>> {
        self.take(0, random)
    }

    fn take(&mut self, held_back: usize, random: &mut TestRng) -> Option<Rc<Made>> {
        (self.waiting.len() > held_back).then(|| match self.depth {
            0 => self.waiting.remove(0),
            _ => self.waiting.swap_remove(below(random, self.waiting.len())),
        })
    }

    /// Whether a damaged slice comes before the next report.
    pub fn damages(&self, random: &mut TestRng) -> bool {
        happens(random, self.damaged)
    }
}

/// One to three bytes set, every second one before the rows; or cut; or longer; or of another length, as it then says.
pub fn damaged(report: &[u8], random: &mut TestRng) -> Vec<u8> {
    let mut report = report.to_vec();
    match below(random, 8) {
        0 => report.truncate(below(random, report.len())),
        1 => report.extend(filler(1 + below(random, 200), 0)),
        2 => {
            let length = below(random, REPORT + 60);
            reports::resize(&mut report, length, b' ');
        }
        _ => {
            for _ in 0..1 + below(random, 3) {
                let end = if happens(random, 50) { reports::FRONT } else { report.len() };
                let at = below(random, end);
                report[at] = below(random, 256) as u8;
            }
        }
    }
    report
}
