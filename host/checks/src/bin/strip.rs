//! The key strip: `strip [--seed NUMBER] [--soak MINUTES]`.
//!
//! It prints what each part has done, and ends with status 1 if anything differed. With `--soak` the random tables go on, each round with the
//! seed after the last, until the minutes are over.
use checks::counts::Parts;
use checks::options::{options, verdict};
use checks::strip;
use std::process::exit;
use std::time::Instant;

const TABLES: u32 = 20_000;

fn main() {
    let (options, start) = (options("strip"), Instant::now());
    println!("seed {}", options.seed);
    let mut parts = Parts::new();
    parts.run("standard keys", strip::standard);
    parts.run("every value, every length of a macro", strip::every_value);
    parts.run("refusals: every byte, every other value", strip::every_byte);
    parts.run("refusals: lengths, widths, offsets, order", strip::refusals);
    let mut round = 0;
    while round == 0 || parts.held && start.elapsed() < options.soak {
        let seed = options.seed.wrapping_add(round);
        parts.run("random tables", |counts| strip::random_tables(seed, TABLES, counts));
        round += 1;
    }
    println!("{}", parts.sum);
    println!("seed {}, rounds {round}, {:.0} s: {}", options.seed, start.elapsed().as_secs_f64(), verdict(parts.held));
    exit(!parts.held as i32);
}
