//! A bad line: it loses, repeats and reorders what is sent over it. The seed decides what happens.
use oorandom::Rand32;
use std::fmt;
use std::hash::{BuildHasher, Hasher, RandomState};

/// How often each happens in a hundred datagrams.
#[derive(Clone, Copy, PartialEq, Eq, Default, Debug)]
pub struct Faults {
    pub loss: u32,
    pub repeat: u32,
    pub reorder: u32,
}

impl Faults {
    /// The line of the recorded session and of the long test.
    pub const BAD: Faults = Faults { loss: 30, repeat: 30, reorder: 100 };
}

impl fmt::Display for Faults {
    fn fmt(&self, f: &mut fmt::Formatter) -> fmt::Result {
        write!(f, "loss {}%, repeat {}%, reorder {}%", self.loss, self.repeat, self.reorder)
    }
}

/// Held back are at most so many; any of them may come next.
const HELD: usize = 16;

/// How many datagrams, how many bytes, and the longest.
#[derive(Clone, Copy, PartialEq, Eq, Default, Debug)]
pub struct Passed {
    pub datagrams: u64,
    pub bytes: u64,
    pub longest: usize,
}

pub struct BadLine {
    pub faults: Faults,
    /// Nothing passes.
    pub cut: bool,
    pub lost: u64,
    /// What has passed.
    pub passed: Passed,
    held: Vec<Vec<u8>>,
    random: Rand32,
}

impl BadLine {
    pub fn new(faults: Faults, seed: u64) -> Self {
        Self { faults, cut: false, lost: 0, passed: Passed::default(), held: Vec::new(), random: Rand32::new(seed) }
    }

    /// Sends a datagram; those that arrive now, in their order.
    pub fn send(&mut self, datagram: Vec<u8>) -> Vec<Vec<u8>> {
        let mut arriving = Vec::new();
        let copies = if self.happens(self.faults.repeat) { 2 } else { 1 };
        for _ in 0..copies {
            if self.cut || self.happens(self.faults.loss) {
                self.lost += 1;
            } else if self.happens(self.faults.reorder) {
                self.held.push(datagram.clone());
            } else {
                self.passes(&datagram);
                arriving.push(datagram.clone());
            }
        }
        while self.held.len() > HELD {
            arriving.extend(self.release());
        }
        arriving
    }

    /// One of those held back arrives; none while the line is cut.
    pub fn release(&mut self) -> Option<Vec<u8>> {
        if self.cut || self.held.is_empty() {
            return None;
        }
        let next = self.random.rand_range(0..self.held.len() as u32);
        let released = self.held.swap_remove(next as usize);
        self.passes(&released);
        Some(released)
    }

    fn passes(&mut self, datagram: &[u8]) {
        let Passed { datagrams, bytes, longest } = self.passed;
        self.passed = Passed { datagrams: datagrams + 1, bytes: bytes + datagram.len() as u64, longest: longest.max(datagram.len()) };
    }

    pub fn held(&self) -> usize {
        self.held.len()
    }

    fn happens(&mut self, percent: u32) -> bool {
        self.random.rand_range(0..100) < percent
    }
}

/// A seed that nobody chose, short enough to be typed again. A hasher of the standard library is keyed from the system's randomness.
pub fn new_seed() -> u64 {
    RandomState::new().build_hasher().finish() >> 32
}

#[cfg(test)]
mod tests {
    use super::*;

    /// How many of 1,000 datagrams come out, and whether in their order, when all that is held is released at the end.
    fn passed(faults: Faults) -> (usize, bool) {
        let mut line = BadLine::new(faults, 7);
        let mut out: Vec<Vec<u8>> = (0..1000u32).flat_map(|n| line.send(n.to_be_bytes().to_vec())).collect();
        while let Some(released) = line.release() {
            out.push(released);
        }
        (out.len(), out.is_sorted())
    }

    #[test]
    fn each_fault_does_its_own() {
        assert_eq!(passed(Faults::default()), (1000, true));
        assert_eq!(passed(Faults { loss: 100, ..Faults::default() }), (0, true));
        assert_eq!(passed(Faults { repeat: 100, ..Faults::default() }), (2000, true));
        assert_eq!(passed(Faults { reorder: 100, ..Faults::default() }), (1000, false));
        let (lossy, _) = passed(Faults { loss: 30, ..Faults::default() });
        assert!((600..800).contains(&lossy), "{lossy}");
    }

    #[test]
    fn a_cut_line_passes_nothing() {
        let mut line = BadLine::new(Faults { reorder: 100, ..Faults::default() }, 7);
        line.send(vec![1]);
        line.cut = true;
        assert_eq!((line.send(vec![2]), line.release(), line.lost, line.held()), (vec![], None, 1, 1));
        line.cut = false;
        assert_eq!(line.release(), Some(vec![1]));
    }
}
