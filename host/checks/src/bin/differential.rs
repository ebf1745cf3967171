//! The differential runs: `differential [--seed NUMBER] [--soak MINUTES]`.
//!
//! It ends with a table, and with status 1 if anything differed or a named corner was never met. With `--soak` the random parts go on, each
//! round with the seed after the last, until the minutes are over.
use checks::options::{options, verdict};
use checks::tally::{add_round, report, Part, Tally};
use checks::{drop_in, examples, exhaustive, fields, pages, random, refusals, splits};
use std::process::exit;
use std::time::Instant;

const RANDOM_LISTS: &str = "random lists from a new screen";
const ADDED_LISTS: &str = "random lists with calls that the Rust lacks";
const LISTS: u32 = 3_000;
const LISTS_WITH_ADDED: u32 = 2_500;
const RECORDS: u32 = 150_000;
const DRIVEN: u32 = 1_500;
const PARTED: u32 = 30_000;
const PAGED: u32 = 30_000;
const FIELDS: u32 = 10_000;

fn part(name: &'static str, run: impl FnOnce(&mut Tally) -> Result<(), String>) -> Part {
    println!("{name} ..");
    let part = Part::run(name, run);
    if let Some(found) = &part.found {
        println!("DIFFERENCE in {name}:\n{found}");
    }
    part
}

/// The parts that follow from the seed.
fn random_parts(seed: u64) -> Vec<Part> {
    println!("seed {seed}");
    vec![
        part(RANDOM_LISTS, |tally| random::random_lists(seed, LISTS, tally)),
        part(ADDED_LISTS, |tally| random::random_lists_with_added(seed, LISTS_WITH_ADDED, tally)),
        part("single calls on random valid records", |tally| random::random_records(seed, RECORDS, tally)),
        part("random lists through the drop-in screen", |tally| drop_in::random_lists(seed, DRIVEN, tally)),
        part("checked prints in turn on random records", |tally| splits::random_inputs(seed, PARTED, tally)),
        part("waiting prints in turn on random records", |tally| pages::random_limits(seed, PAGED, tally)),
        part("limited typing: a field is kept; at 255", |tally| fields::random_fields(seed, FIELDS, tally)),
        part("refusals: random damages, 10,000 a call", |tally| refusals::random_damage(seed, tally)),
    ]
}

/// The parts that are the same in every run.
fn fixed_parts() -> Vec<Part> {
    vec![
        part("document 01's starred examples", examples::starred),
        part("every call from every place, 30 screens", exhaustive::every_place),
        part("every class of arguments", exhaustive::every_argument),
        part("texts cut in two and three at every place", splits::every_cut),
        part("waiting prints of cut texts, and the rest", pages::every_stop),
        part("waiting prints of the longest inputs", pages::longest),
        part("what panics, in the drop-in screen too", drop_in::panics),
        part("refusals: lengths", refusals::every_length),
        part("refusals: serials and sittings", refusals::serials),
        part("refusals: version 1", refusals::version_1),
        part("refusals: order", refusals::order),
        part("refusals: the byte with two bits", refusals::bits),
        part("refusals: every byte, every other value", refusals::every_byte),
    ]
}

fn main() {
    let options = options("differential");
    let start = Instant::now();
    let mut parts = random_parts(options.seed);
    parts.extend(fixed_parts());
    let mut round = 1;
    while start.elapsed() < options.soak && parts.iter().all(|part| part.found.is_none()) {
        add_round(&mut parts, random_parts(options.seed.wrapping_add(round)));
        round += 1;
    }
    println!();
    let held = report(&parts, &[RANDOM_LISTS, ADDED_LISTS]);
    println!("seed {}, rounds {round}, {:.0} s: {}", options.seed, start.elapsed().as_secs_f64(), verdict(held));
    exit(!held as i32);
}
