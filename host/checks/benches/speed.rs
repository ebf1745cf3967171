//! The archive's speed beside the Rust's, by criterion: `host/cargo bench -p checks`.
//!
//! One driver makes the same calls with the same inputs on both, in one run and one optimised build. No buffer is cleared or made anew
//! between the turns of a measurement: each turn goes on with what the turn before has left.
//! At the end the times are set beside each other in a table; the figures that a call is held to are ratios. The table has the least of
//! the samples, since other work on the machine can only add to a time, and for comparison the ratio of the medians.
use checks::oracle::{new_record, screen::Screen};
use checks::reports;
use checks::waiting::{Waited, LONGEST_INPUT, MOST_ROWS};
use criterion::{BenchmarkGroup, Criterion};
use futonrobin::{ffi, Refusal};
use std::hint::black_box;
use std::path::{Path, PathBuf};
use std::time::Duration;

/// What the measured work asks of a screen.
trait Driver {
    fn new(width: u32) -> Self;
    fn print(&mut self, bytes: &[u8]);
    fn key(&mut self, ch: u8);
    fn home(&mut self);
    fn right(&mut self);
    fn left(&mut self);
    fn width(&self) -> u32;
}

/// A record, through the archive.
struct Record(Vec<u8>);

impl Driver for Record {
    fn new(width: u32) -> Self {
        Self(new_record(width, 0))
    }
    fn print(&mut self, bytes: &[u8]) {
        ffi::screen_print_bytes(&mut self.0, bytes);
    }
    fn key(&mut self, ch: u8) {
        ffi::screen_type_char(&mut self.0, ch as u32);
    }
    fn home(&mut self) {
        ffi::screen_home(&mut self.0);
    }
    fn right(&mut self) {
        ffi::screen_move_right(&mut self.0);
    }
    fn left(&mut self) {
        ffi::screen_move_left(&mut self.0);
    }
    fn width(&self) -> u32 {
        ffi::screen_width(&self.0)
    }
}

impl Driver for Screen {
    fn new(width: u32) -> Self {
        Screen::new(width as usize)
    }
    fn print(&mut self, bytes: &[u8]) {
        self.print_bytes(bytes);
    }
    fn key(&mut self, ch: u8) {
        self.type_char(ch);
    }
    fn home(&mut self) {
        Screen::home(self);
    }
    fn right(&mut self) {
        self.move_right();
    }
    fn left(&mut self) {
        self.move_left();
    }
    fn width(&self) -> u32 {
        Screen::width(self) as u32
    }
}

impl Record {
    /// A listing in waiting prints, each with as many bytes and rows as it may have, until nothing is left. The Rust has no such print.
    fn print_waiting(&mut self, listing: &[u8]) {
        let mut rest = listing;
        while !rest.is_empty() {
            // no line end is parted; a listing has no 13 without its 10
            let piece = &rest[..rest.len().min(LONGEST_INPUT)];
            let piece = piece.strip_suffix(b"\r").unwrap_or(piece);
            let answer = ffi::screen_print_waiting(&mut self.0, piece, MOST_ROWS);
            rest = &rest[Waited::of_answer(Refusal::of_answer(answer).expect("it is in order")).taken..];
        }
    }
}

/// 10,000 keys over a line of 255 characters; after each 255 keys the cursor goes home.
fn overwrite(screen: &mut impl Driver) {
    for k in 0..10_000 {
        if k % 255 == 0 {
            screen.home();
        }
        screen.key(b'A' + (k % 26) as u8);
    }
}

/// There and back, so that the cursor does not come to rest at the screen's end.
fn two_arrows(screen: &mut impl Driver) {
    screen.right();
    screen.left();
}

/// 10,000 program lines of 8 to 78 characters.
fn listing() -> Vec<u8> {
    let line = |k: usize| format!("{} PRINT \"{}\"\r\n", 10 * (k % 999 + 1), "WARD ".repeat(k % 14));
    (1..=10_000).flat_map(|k| line(k).into_bytes()).collect()
}

type Group<'a> = BenchmarkGroup<'a, criterion::measurement::WallTime>;

fn measure<D: Driver>(group: &mut Group, name: &str, width: u32, start: &[u8], mut work: impl FnMut(&mut D)) {
    let mut screen = D::new(width);
    screen.print(start);
    group.bench_function(name, |bencher| bencher.iter(|| work(black_box(&mut screen))));
}

/// The same work on both, one after the other.
macro_rules! both {
    ($criterion:expr, $work:expr, $width:expr, $start:expr, $calls:expr) => {{
        let mut group = $criterion.benchmark_group($work);
        measure::<Record>(&mut group, "archive", $width, $start, $calls);
        measure::<Screen>(&mut group, "rust", $width, $start, $calls);
        group.finish();
    }};
}

/// A copy of a record into another.
fn memcpy(criterion: &mut Criterion) {
    let (from, mut to) = (new_record(80, 0), new_record(40, 0));
    let mut group = criterion.benchmark_group("memcpy");
    group.bench_function("record", |bencher| bencher.iter(|| black_box(&mut to).copy_from_slice(black_box(&from))));
    group.finish();
}

/// A screen and the mirror that follows it.
struct Followed {
    record: Record,
    mirror: Vec<u8>,
    report: Vec<u8>,
    keys: usize,
}

impl Followed {
    fn new(width: u32, start: &[u8]) -> Self {
        let mut record = Record::new(width);
        record.print(start);
        let (mut mirror, mut report) = (vec![0; reports::MIRROR], vec![0; reports::REPORT]);
        ffi::mirror_new(&mut mirror, width, 0);
        let length = ffi::report_full(&record.0, &mut report) as usize;
        assert_eq!(ffi::mirror_arrive(&mut mirror, &report[..length]), 1);
        Self { record, mirror, report, keys: 0 }
    }

    /// The step report of the last call arrives.
    fn step(&mut self) {
        let length = ffi::report_step(&self.record.0, &mut self.report) as usize;
        ffi::mirror_arrive(&mut self.mirror, &self.report[..length]);
    }

    /// A key, its step report and its arrival; after each 255 keys home likewise.
    fn key(&mut self) {
        if self.keys % 255 == 0 {
            self.record.home();
            self.step();
        }
        self.record.key(b'A' + (self.keys % 26) as u8);
        self.step();
        self.keys += 1;
    }
}

fn followed(criterion: &mut Criterion, width: u32, start: &[u8]) {
    let mut pair = Followed::new(width, start);
    let mut group = criterion.benchmark_group(format!("followed {width}"));
    group.bench_function("archive", |bencher| bencher.iter(|| black_box(&mut pair).key()));
    group.finish();
}

/// The work of `listing`, in waiting prints.
fn waiting(criterion: &mut Criterion, width: u32, listing: &[u8]) {
    let mut group = criterion.benchmark_group(format!("waiting {width}"));
    measure::<Record>(&mut group, "archive", width, b"", |record| record.print_waiting(black_box(listing)));
    group.finish();
}

fn main() {
    let results = results();
    let mut criterion = measuring(&results);
    let line = [b'A'; 255];
    let listing = listing();
    memcpy(&mut criterion);
    for width in [80, 40] {
        both!(criterion, format!("keys {width}"), width, &line, |screen| overwrite(screen));
        both!(criterion, format!("listing {width}"), width, b"", |screen| screen.print(black_box(&listing)));
        waiting(&mut criterion, width, &listing);
        both!(criterion, format!("width {width}"), width, &listing[..3_000], |screen| {
            black_box(screen.width());
        });
        both!(criterion, format!("arrows {width}"), width, &listing[..3_000], |screen| two_arrows(screen));
        followed(&mut criterion, width, &line);
    }
    table(&results);
}

/// A work is measured for four seconds, or for as many milliseconds as SPEED_MILLISECONDS says: `tools/compare-speed` measures shortly and often,
/// in short samples, of which other work on the machine leaves some alone.
/// Of what criterion makes of the samples only the median is used, which does not depend on the number of resamples.
fn measuring(results: &Path) -> Criterion {
    let (milliseconds, samples) = match std::env::var("SPEED_MILLISECONDS") {
        Ok(number) => (number.parse().expect("SPEED_MILLISECONDS is a number"), 200),
        Err(_) => (4_000, 60),
    };
    let criterion = Criterion::default().without_plots().output_directory(results).nresamples(2_000).sample_size(samples);
    criterion.measurement_time(Duration::from_millis(milliseconds)).warm_up_time(Duration::from_millis(milliseconds / 4))
}

/// In cargo's target folder: the program itself is in target/release/deps.
fn results() -> PathBuf {
    let program = std::env::current_exe().expect("a program knows its own path");
    program.ancestors().nth(3).expect("target/release/deps/ is above it").join("speed")
}

/// Nanoseconds a turn: the least of criterion's samples, and its median.
#[derive(Clone, Copy)]
struct Time {
    least: f64,
    median: f64,
}

impl Time {
    fn read(results: &Path, work: &str, side: &str) -> Self {
        let folder = results.join(work).join(side).join("new");
        let samples = json(&folder.join("sample.json"));
        let numbers = |field: &str| -> Vec<f64> { samples[field].as_array().into_iter().flatten().filter_map(|n| n.as_f64()).collect() };
        let a_turn = numbers("times").into_iter().zip(numbers("iters")).map(|(time, turns)| time / turns);
        let median = json(&folder.join("estimates.json"))["median"]["point_estimate"].as_f64();
        Self { least: a_turn.fold(f64::INFINITY, f64::min), median: median.expect("an estimate has a median") }
    }
}

fn json(file: &Path) -> serde_json::Value {
    let text = std::fs::read_to_string(file).unwrap_or_else(|problem| panic!("{}: {problem}", file.display()));
    serde_json::from_str(&text).expect("criterion writes JSON")
}

fn table(results: &Path) {
    let copy = Time::read(results, "memcpy", "record").least;
    println!("\nleast times, buffers not cleared; memcpy of a record: {copy:.1} ns\n");
    println!("| work | width | archive, ns | Rust, ns | archive / Rust | the same of medians | archive / memcpy |\n|---|---|---|---|---|---|---|");
    let works = [
        ("keys", "10,000 keys overwriting a line of 255, a key", 10_000.0),
        ("listing", "a listing of 10,000 lines in one call, a line", 10_000.0),
        ("width", "`screen_width` on a valid record", 1.0),
        ("arrows", "an arrow key", 2.0),
    ];
    for (work, what, times) in works {
        for width in [80, 40] {
            let [ours, rusts] = ["archive", "rust"].map(|side| Time::read(results, &format!("{work} {width}"), side));
            let (a, b) = (ours.least / times, rusts.least / times);
            let medians = ours.median / rusts.median;
            println!("| {what} | {width} | {a:.1} | {b:.1} | {:.2} | {medians:.2} | {:.1} |", a / b, a / copy);
        }
    }
    for width in [80, 40] {
        let a = Time::read(results, &format!("followed {width}"), "archive").least;
        println!("| a key, its step report and its arrival | {width} | {a:.1} | | | | {:.1} |", a / copy);
    }
    beside_one_print(results);
}

/// The waiting prints of a listing beside one print of it, both by the archive; more than this ratio would be too slow.
fn beside_one_print(results: &Path) {
    const MOST: f64 = 1.2;
    println!("\n| a listing of 10,000 lines, a line | width | waiting, ns | one print, ns | waiting / one print | the same of medians |\n|---|---|---|---|---|---|");
    for width in [80, 40] {
        let [waiting, print] = ["waiting", "listing"].map(|work| Time::read(results, &format!("{work} {width}"), "archive"));
        let (ratio, medians) = (waiting.least / print.least, waiting.median / print.median);
        let told = if ratio > MOST { format!(", MORE than {MOST}") } else { String::new() };
        println!(
            "| in waiting prints | {width} | {:.1} | {:.1} | {ratio:.2}{told} | {medians:.2} |",
            waiting.least / 10_000.0,
            print.least / 10_000.0
        );
    }
}
