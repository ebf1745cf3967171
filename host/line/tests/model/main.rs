//! The whole line under a clock of its own: a candidate that types and restarts, invigilators that restart, and between them a network that delays,
//! loses, repeats, reorders, damages, forges and replays. What the candidate's screen was at every moment is known here, and who can have learned it.
#[path = "../common/mod.rs"]
mod common;
mod network;
mod scene;
mod seat;
mod truth;
mod watcher;

use common::seed;
use network::NETWORKS;
use oorandom::Rand32;
use scene::{Scene, Tally};
use std::time::Duration;

const SCENES: u32 = 270;
/// After so long on a network that holds nothing back, with no end restarted or moved, what is shown is level, or is so again after a moment.
const CALM: Duration = Duration::from_secs(4);
const MOMENT: Duration = Duration::from_millis(1_500);
/// Where the candidate may be, and where it never is.
const HOMES: std::ops::Range<u32> = 1..5;
const STRANGER: u32 = 9;

const WORDS: [&str; 6] = ["LEVEL", "OLD", "BEHIND", "SILENT", "BEGUN", "WAITING"];
/// What else must have been met, so that what is asserted of it says something.
const RARE: [&str; 3] = ["calm, and all is sent again", "an older sitting is told", "BEGUN, and the age of what is shown"];

#[test]
fn what_is_said_of_the_screen_is_true_whatever_the_network_does() {
    let (seed, mut tally) = (seed(), Tally::new());
    let mut random = Rand32::new(seed);
    for n in 0..SCENES {
        // Half of the scenes are on one network alone.
        let all = NETWORKS.len();
        let networks = NETWORKS.get(n as usize % (2 * all)).map_or(&NETWORKS[..], std::slice::from_ref);
        Scene::new(random.rand_u32().into(), &mut tally).run(networks);
    }
    tally.iter().for_each(|(what, times)| println!("{times:9} {what}"));
    println!("model: {SCENES} scenes, SEED={seed}; looked at while {}", WORDS.map(|what| format!("{what} {}", tally[what])).join(", "));
    for what in WORDS.into_iter().chain(RARE) {
        assert!(tally[what] > 1_000, "{what} was met {} times", tally[what]);
    }
    assert!(tally["LEVEL while calm"] > 20 * tally["else while calm"]);
}
