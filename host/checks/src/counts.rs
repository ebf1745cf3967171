//! What a part of `strip` or `simulator` has done, by name, and the lines that these programs print.
use std::collections::BTreeMap;
use std::fmt;
use std::time::Instant;

#[derive(Clone, Default)]
pub struct Counts(BTreeMap<&'static str, u64>);

impl Counts {
    pub fn add(&mut self, what: &'static str, n: u64) {
        *self.0.entry(what).or_default() += n;
    }

    pub fn of(&self, what: &str) -> u64 {
        self.0.get(what).copied().unwrap_or_default()
    }

    fn add_all(&mut self, other: &Counts) {
        other.0.iter().for_each(|(what, n)| self.add(what, *n));
    }
}

impl fmt::Display for Counts {
    fn fmt(&self, f: &mut fmt::Formatter) -> fmt::Result {
        let shown: Vec<_> = self.0.iter().map(|(what, n)| format!("{what} {n}")).collect();
        f.write_str(&shown.join(", "))
    }
}

/// The parts of a program that are done: their counts together, and whether all held.
pub struct Parts {
    pub sum: Counts,
    pub held: bool,
}

impl Parts {
    pub fn new() -> Self {
        Self { sum: Counts::default(), held: true }
    }

    /// Runs a part, which counts as it goes and ends with the first difference, and prints a line for it. After a difference no part runs.
    pub fn run(&mut self, name: &str, part: impl FnOnce(&mut Counts) -> Result<(), String>) {
        if !self.held {
            return;
        }
        let (start, mut counts) = (Instant::now(), Counts::default());
        let found = part(&mut counts);
        println!("{name:44} {:>6.1} s   {counts}", start.elapsed().as_secs_f64());
        if let Err(found) = found {
            println!("DIFFERENCE in {name}:\n{found}");
            self.held = false;
        }
        self.sum.add_all(&counts);
    }
}

impl Default for Parts {
    fn default() -> Self {
        Self::new()
    }
}
