//! Texts that are printed page by page: waiting prints against one print of the whole, and against the Rust's.
//!
//! Document 02, (a): "Printing the rest afterwards, if accepted, must leave the cells, flags and cursor that one unlimited print leaves". Each print by
//! itself is compared as every call is, with what `waiting` says of it; here what they leave together is.
use crate::call::{literal, Call};
use crate::judge;
use crate::layout::*;
use crate::lists;
use crate::oracle;
use crate::random::try_all;
use crate::records::{self, Sketch};
use crate::splits::{in_turn, last_taken, splits, spoken, texts, Whole};
use crate::tally::Tally;
use crate::trial;
use crate::waiting::{Waited, LONGEST_INPUT, MOST_ROWS};
use proptest::collection::vec;
use proptest::prelude::*;
use std::fmt;

/// Every front of every text of `splits`, from the bottom of the screen and with small limits; then the rest of the text, in every way.
pub fn every_stop(tally: &mut Tally) -> Result<(), String> {
    for width in [80, 40] {
        for start in bottoms(width) {
            for text in texts(width) {
                every_stop_of(&text, &start, tally)
                    .map_err(|found| format!("width {width}, {}, {}: {found}", spoken(&start), literal(&text)))?;
            }
        }
    }
    Ok(())
}

/// Records to print on, with the cursor on the last two editable rows: a blank screen, one full of text, and one whose last row is the blank extension of a
/// full line, keys on and off. After every second one a print has ended with 13.
fn bottoms(width: usize) -> Vec<Vec<u8>> {
    let mut starts = Vec::new();
    for keys in [1, 0] {
        let last = ROWS - 1 - keys as usize;
        for printed in [0, last * width, last * width + 7] {
            for (row, col) in [(last, 0), (last, width - 1), (last - 1, width - 2)] {
                let mut rec = after_print(width, keys, vec![b'W'; printed]);
                (rec[ROW_AT], rec[COLUMN_AT]) = (row as u8, col as u8);
                set_ended_in_cr(&mut rec, starts.len() % 2 == 1);
                starts.push(rec);
            }
        }
    }
    starts
}

fn after_print(width: usize, keys: u32, bytes: Vec<u8>) -> Vec<u8> {
    let mut screen = oracle::screen::Screen::new(width);
    let calls = [Call::SetKeysOn(keys), Call::PrintBytes(bytes)];
    calls.iter().fold(oracle::new_record(width as u32, 0), |rec, call| judge::changed(&mut screen, call, &rec, &[]).rec)
}

fn every_stop_of(text: &[u8], start: &[u8], tally: &mut Tally) -> Result<(), String> {
    tally.starts += 1;
    let whole = Whole::unchecked(text.to_vec(), start, tally)?;
    for cut in 0..=text.len() {
        for rows in 0..3 {
            let told = |found| format!("limit {rows}, the first {cut} bytes: {found}");
            let mut rec = start.to_vec();
            let taken = print_waiting(&text[..cut], rows, &mut rec, tally).map_err(told)?.taken;
            rest_in_every_way(text, taken, start, &rec, &whole, tally).map_err(told)?;
        }
    }
    Ok(())
}

/// The rest of a text, whose first bytes were taken and left `rec`. Where the cut has parted a 13 from its 10, only a checked print sees it; and where the start
/// had such a 13, no checked print is made, since `whole` was not checked.
fn rest_in_every_way(text: &[u8], taken: usize, start: &[u8], rec: &[u8], whole: &Whole, tally: &mut Tally) -> Result<(), String> {
    let (front, rest) = text.split_at(taken);
    if !splits(text, last_taken(start)) {
        in_turn(&[rest], rec, whole, tally).map_err(|found| format!("the rest, checked: {found}"))?;
    }
    if splits(rest, front.last().copied()) {
        return Ok(());
    }
    for limits in [&[][..], &[0, 1], &[2]] {
        limited(rest, limits, rec.to_vec(), whole, tally).map_err(|found| format!("the rest with limits {limits:?}: {found}"))?;
    }
    Ok(())
}

/// Waiting prints with these limits, one after the other and round again, each of what the ones before have left over; after a round that takes nothing an
/// unlimited print.
fn limited(text: &[u8], limits: &[u32], mut rec: Vec<u8>, whole: &Whole, tally: &mut Tally) -> Result<(), String> {
    let (mut rest, mut before) = (text, usize::MAX);
    while rest.len() < before && !limits.is_empty() {
        before = rest.len();
        for &rows in limits {
            rest = &rest[print_waiting(rest, rows, &mut rec, tally)?.taken..];
        }
    }
    let want = single(&Call::PrintBytes(rest.to_vec()), &rec, tally)?;
    whole.shown_by(want.rec)
}

/// A waiting print; what it has done, which is nothing if it is refused.
fn print_waiting(bytes: &[u8], rows: u32, rec: &mut Vec<u8>, tally: &mut Tally) -> Result<Waited, String> {
    let want = single(&Call::PrintWaiting(bytes.to_vec(), rows), rec, tally)?;
    *rec = want.rec;
    Ok(if want.answer > judge::refused(0) { Waited::default() } else { Waited::of_answer(want.answer) })
}

/// One call, compared as every call is.
fn single(call: &Call, rec: &[u8], tally: &mut Tally) -> Result<judge::Outcome, String> {
    let want = trial::single(call, rec, &[]).map_err(|difference| format!("{call}: {difference}"))?;
    tally.count(call, rec, want.answer);
    Ok(want)
}

/// Random texts and limits on random valid records, the cursor near the bottom for the most part. Limits above the largest are refused, and an input that is too
/// long is with every limit.
pub fn random_limits(seed: u64, cases: u32, tally: &mut Tally) -> Result<(), String> {
    let pages = (records::sketches(), lists::paged(), vec(lists::rows(), 1..6), 0..6usize).prop_map(|(mut sketch, text, limits, up)| {
        // no call finds the last serial
        sketch.head.serial /= 2;
        sketch.head.row = if up < 4 { ROWS - 1 - up / 2 } else { sketch.head.row };
        Pages { sketch, text, limits }
    });
    try_all(seed, cases, &pages, tally, |Pages { sketch, text, limits }: &Pages, tally| {
        let start = sketch.record();
        let whole = Whole::unchecked(text.clone(), &start, tally)?;
        limited(text, limits, start, &whole, tally)
    })
}

/// A text, the record that it is printed on, and the limits of its prints.
#[derive(Clone)]
struct Pages {
    sketch: Sketch,
    text: Vec<u8>,
    limits: Vec<u32>,
}

impl fmt::Debug for Pages {
    fn fmt(&self, f: &mut fmt::Formatter) -> fmt::Result {
        write!(f, "{:?}\n  limits {:?}, {}", self.sketch, self.limits, literal(&self.text))
    }
}

/// Inputs about the longest, of lines and of single bytes, with limits up to the largest. Line ends alone are so many that they stop at each of these.
pub fn longest(tally: &mut Tally) -> Result<(), String> {
    for start in [80, 40].into_iter().flat_map(bottoms).step_by(7) {
        tally.starts += 1;
        for line in [&b"\r\n"[..], b"\n", b"BED\r\n", b"7", &[7], &[b'W'; 81]] {
            let text: Vec<u8> = line.iter().copied().cycle().take(LONGEST_INPUT + 2).collect();
            for length in LONGEST_INPUT - 1..=text.len() {
                for rows in [0, MOST_ROWS - 1, MOST_ROWS, MOST_ROWS + 1] {
                    let call = Call::PrintWaiting(text[..length].to_vec(), rows);
                    let told = |difference| format!("{}, {length} bytes of {}, limit {rows}: {difference}", spoken(&start), literal(line));
                    tally.count(&call, &start, trial::single(&call, &start, &[]).map_err(told)?.answer);
                }
            }
        }
    }
    Ok(())
}
