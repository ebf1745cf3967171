//! What the programs with random parts take from the command line, and the words they end with.
use std::hash::{BuildHasher, Hasher};
use std::process::exit;
use std::time::Duration;

pub struct Options {
    pub seed: u64,
    pub soak: Duration,
}

/// The options of the program of this name. One that is not understood ends it.
pub fn options(program: &str) -> Options {
    let mut options = Options { seed: new_seed(), soak: Duration::ZERO };
    let mut words = std::env::args().skip(1);
    while let Some(word) = words.next() {
        let number = words.next().and_then(|number| number.parse::<u64>().ok());
        match (word.as_str(), number) {
            ("--seed", Some(seed)) => options.seed = seed,
            ("--soak", Some(minutes)) => options.soak = Duration::from_secs(60 * minutes),
            _ => {
                eprintln!("{program}: '{word}' was not understood; it takes --seed NUMBER and --soak MINUTES");
                exit(2);
            }
        }
    }
    options
}

/// A hasher of the standard library is keyed from the system's randomness.
fn new_seed() -> u64 {
    std::collections::hash_map::RandomState::new().build_hasher().finish() >> 32
}

pub fn verdict(held: bool) -> &'static str {
    if held {
        "no difference"
    } else {
        "NOT AS WANTED"
    }
}
