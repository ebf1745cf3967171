//! What a network does to datagrams.
use crate::common::percent;
use crate::truth::{Datagram, Made};
use oorandom::Rand32;

#[derive(Clone, Copy, PartialEq, Eq, Debug)]
pub enum Network {
    Good,
    /// All comes as on a good one, and much of it again.
    Nagging,
    /// All is delayed by 20 seconds.
    Late,
    /// What the candidate says is.
    HalfLate,
    Lossy,
    Shuffled,
    /// Nothing above 600 bytes passes.
    Narrow,
    /// Nothing new passes.
    Replayed,
    /// Some of everything.
    Hostile,
}

pub use Network::*;

pub const NETWORKS: [Network; 9] = [Good, Nagging, Late, HalfLate, Lossy, Shuffled, Narrow, Replayed, Hostile];
/// Of these nothing is held back: what is shown is level.
pub const HOLD_NOTHING: [Network; 2] = [Good, Nagging];

impl Network {
    /// After how many milliseconds a datagram comes: never, once or twice.
    pub fn delays(self, usual: u32, datagram: &Datagram, random: &mut Rand32) -> Vec<u32> {
        let asks = matches!(datagram.made, Made::ByInvigilator(_));
        let any = |random: &mut Rand32| match random.rand_range(0..3) {
            0 => random.rand_range(0..30_000),
            1 => random.rand_range(0..3_000),
            _ => random.rand_range(0..300),
        };
        match self {
            Late => vec![20_000],
            HalfLate if !asks => vec![20_000],
            Lossy if percent(random, 60) => vec![],
            Narrow if datagram.bytes.len() > 600 => vec![],
            Replayed => vec![],
            Shuffled | Hostile if percent(random, 20) => vec![any(random), any(random)],
            Shuffled => vec![any(random)],
            Hostile if percent(random, 50) => (0..random.rand_range(0..2)).map(|_| any(random)).collect(),
            _ => vec![usual],
        }
    }

    /// In how many of a hundred ticks something is done that no network does.
    pub fn mischief(self) -> u32 {
        match self {
            Good => 0,
            Nagging | Replayed => 60,
            Hostile => 30,
            _ => 5,
        }
    }
}
