//! What stands for a screen on the line.
use std::fmt;

/// A sitting and a serial: the screen of that sitting after so many accepted calls. Pairs are ordered by the sitting first, as the fields stand.
#[derive(Clone, Copy, PartialEq, Eq, PartialOrd, Ord, Hash, Debug)]
pub struct Pair {
    /// The number that the screen was new with.
    pub sitting: u32,
    /// How many changing calls it has accepted since.
    pub serial: u32,
}

impl fmt::Display for Pair {
    fn fmt(&self, f: &mut fmt::Formatter) -> fmt::Result {
        write!(f, "call {} of sitting {}", self.serial, self.sitting)
    }
}
