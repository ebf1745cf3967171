//! The line simulator: `simulator [--seed NUMBER] [--soak MINUTES]`.
//!
//! It prints what each part has done, and ends with status 1 if anything differed or too little arrived. With `--soak` the lines go on,
//! each round with the seed after the last, until the minutes are over.
use checks::arrivals::{self, ARRIVALS};
use checks::counts::{Counts, Parts};
use checks::options::{options, verdict};
use checks::simulator::{self, TELLING};
use std::process::exit;
use std::time::Instant;

const TERMINALS: u32 = 2_000;

/// What the lines must have brought: so many arrivals, and so many of each sort.
const FEWEST: u64 = 500_000;
const FEWEST_OF_EACH: u64 = 1_000;

/// What was too seldom, in words.
fn too_few(counts: &Counts) -> Vec<String> {
    let sorts = TELLING.map(|sort| (sort, FEWEST_OF_EACH));
    let few = sorts.into_iter().chain([(ARRIVALS, FEWEST)]).filter(|&(what, fewest)| counts.of(what) < fewest);
    few.map(|(what, fewest)| format!("FEWER than {fewest} {what} over the lines")).collect()
}

fn main() {
    let (options, start) = (options("simulator"), Instant::now());
    println!("seed {}", options.seed);
    let mut parts = Parts::new();
    parts.run("document 01's steps 1, 3, 2, 3", arrivals::example);
    parts.run("two restarts", arrivals::restarts);
    let mut round = 0;
    while round == 0 || parts.held && start.elapsed() < options.soak {
        let seed = options.seed.wrapping_add(round);
        parts.run("lines from restarting terminals to four mirrors", |counts| simulator::lines(seed, TERMINALS, counts));
        round += 1;
    }
    let too_few = too_few(&parts.sum);
    parts.run("serials, widths and rows", arrivals::serials_and_widths);
    parts.run("sittings and serials", arrivals::pairs);
    parts.run("new mirrors", arrivals::new_mirrors);
    parts.run("refusals: version 1", arrivals::version_1);
    parts.run("refusals: order", arrivals::order);
    parts.run("refusals: every length", arrivals::every_length);
    parts.run("refusals: every byte of a report", arrivals::every_byte_of_reports);
    parts.run("refusals: every byte of a mirror", arrivals::every_byte_of_mirrors);
    println!("{}", parts.sum);
    if parts.held {
        too_few.iter().for_each(|sentence| println!("{sentence}"));
    }
    let held = parts.held && too_few.is_empty();
    println!("seed {}, rounds {round}, {:.0} s: {}", options.seed, start.elapsed().as_secs_f64(), verdict(held));
    exit(!held as i32);
}
