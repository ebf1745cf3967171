//! What a run has done, and the table at its end.
use crate::call::{Call, Kind};
use crate::corners::Corners;
use crate::judge;
use std::time::{Duration, Instant};

#[derive(Clone, Default)]
pub struct Tally {
    /// Lists, or records that single calls were made on.
    pub starts: u64,
    /// Changing calls that were accepted, other calls that were, and calls that were refused.
    pub changing: u64,
    pub others: u64,
    pub refused: u64,
    pub corners: Corners,
}

impl Tally {
    /// Counts a call that found `rec` and answered as wanted.
    pub fn count(&mut self, call: &Call, rec: &[u8], answer: u32) {
        if answer > judge::refused(0) {
            self.refused += 1;
            self.corners.count_refused(answer - judge::refused(0));
            return;
        }
        match call.kind() {
            Kind::Changing => self.changing += 1,
            _ => self.others += 1,
        }
        if call.kind() != Kind::New {
            self.corners.count(call, rec, answer);
        }
    }

    pub fn calls(&self) -> u64 {
        self.changing + self.others + self.refused
    }

    pub fn add(&mut self, other: &Tally) {
        self.starts += other.starts;
        self.changing += other.changing;
        self.others += other.others;
        self.refused += other.refused;
        self.corners.add(&other.corners);
    }
}

/// A part of the run, done: its figures, its time, and the difference that ended it, if one did.
pub struct Part {
    pub name: &'static str,
    pub tally: Tally,
    pub time: Duration,
    pub found: Option<String>,
}

impl Part {
    /// Runs a part, which tallies as it goes and ends with the first difference.
    pub fn run(name: &'static str, part: impl FnOnce(&mut Tally) -> Result<(), String>) -> Self {
        let (start, mut tally) = (Instant::now(), Tally::default());
        let found = part(&mut tally).err();
        Self { name, tally, time: start.elapsed(), found }
    }

    /// Adds a later round of the same part.
    fn add(&mut self, other: Part) {
        self.tally.add(&other.tally);
        self.time += other.time;
        self.found = self.found.take().or(other.found);
    }
}

/// Adds the parts of a later round to those that are there.
pub fn add_round(parts: &mut [Part], round: Vec<Part>) {
    for part in round {
        let known = parts.iter_mut().find(|known| known.name == part.name);
        known.expect("every round has the same random parts").add(part);
    }
}

/// Each corner must be met so often.
const FEWEST: u64 = 50;

/// Prints the table of parts and of corners. Answers whether all held: no difference, each corner met often enough, and met by a part that is named in
/// `lists`, so that it is known to be met from a new screen too.
pub fn report(parts: &[Part], lists: &[&str]) -> bool {
    println!("{:44} {:>10} {:>10} {:>10} {:>10} {:>8}", "", "begun with", "changing", "other", "refused", "seconds");
    let mut sum = Tally::default();
    for part in parts {
        print_row(part.name, &part.tally, part.time);
        sum.add(&part.tally);
    }
    print_row("all", &sum, parts.iter().map(|part| part.time).sum());
    println!("{} calls\n", sum.calls());
    let mut by_lists = Corners::default();
    parts.iter().filter(|part| lists.contains(&part.name)).for_each(|part| by_lists.add(&part.tally.corners));
    print_corners(&by_lists, &sum.corners);
    let below = |corners: &Corners, fewest| corners.named().filter(|&(_, n)| n < fewest).map(|(name, _)| name).collect::<Vec<_>>();
    let (missed, seldom) = (below(&by_lists, 1), below(&sum.corners, FEWEST));
    if !missed.is_empty() {
        println!("NEVER MET by lists: {}", missed.join("; "));
    }
    if !seldom.is_empty() {
        println!("MET LESS THAN {FEWEST} TIMES: {}", seldom.join("; "));
    }
    for part in parts {
        if let Some(found) = &part.found {
            println!("DIFFERENCE in {}: {}", part.name, found.lines().next().unwrap_or_default());
        }
    }
    missed.is_empty() && seldom.is_empty() && parts.iter().all(|part| part.found.is_none())
}

fn print_corners(by_lists: &Corners, by_all: &Corners) {
    println!("{:44} {:>10} {:>10}", "corners met", "by lists", "by all");
    for ((name, n), (_, all)) in by_lists.named().zip(by_all.named()) {
        println!("{name:44} {n:>10} {all:>10}");
    }
    println!();
}

fn print_row(name: &str, tally: &Tally, time: Duration) {
    let Tally { starts, changing, others, refused, .. } = tally;
    println!("{name:44} {starts:>10} {changing:>10} {others:>10} {refused:>10} {:>8.1}", time.as_secs_f64());
}
