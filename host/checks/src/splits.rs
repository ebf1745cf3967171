//! Texts that are printed in pieces: checked prints in turn against one print of the whole, and against the Rust's.
//!
//! Document 02, (l): "checked prints in turn, if accepted, leave the cells, flags and cursor of one print of their inputs together". Which are
//! refused is worked out from the bytes alone, and of the record's bit only as it was at the start. A piece that is refused is printed again as docs/ABI.md has it, with an
//! ignored byte in the place of its 10: so all pieces are taken in the end, and the last screen is compared in either case.
use crate::call::{literal, Call};
use crate::exhaustive::strings_over;
use crate::judge;
use crate::layout::*;
use crate::lists;
use crate::oracle::{self, TextScreen};
use crate::random::try_all;
use crate::records::{self, Sketch};
use crate::tally::Tally;
use crate::trial;
use proptest::collection::vec;
use proptest::strategy::Strategy;
use std::fmt;

const CR: u8 = 13;
const LF: u8 = 10;
/// Stands for a 10 that belongs to the 13 of the piece before.
const IGNORED: u8 = 0;

/// Every text, from every start, cut into two and into three pieces at every place; some of them are empty.
pub fn every_cut(tally: &mut Tally) -> Result<(), String> {
    for width in [80, 40] {
        for start in starts(width) {
            for text in texts(width) {
                every_cut_of(&text, &start, tally)
                    .map_err(|found| format!("width {width}, {}, {}: {found}", spoken(&start), literal(&text)))?;
            }
        }
    }
    Ok(())
}

/// Random inputs on random valid records.
pub fn random_inputs(seed: u64, cases: u32, tally: &mut Tally) -> Result<(), String> {
    let pieces = (records::sketches(), vec(lists::any_part(), 0..7)).prop_map(|(mut sketch, pieces)| {
        // no call finds the last serial
        sketch.head.serial /= 2;
        Pieces { sketch, pieces }
    });
    try_all(seed, cases, &pieces, tally, |Pieces { sketch, pieces }: &Pieces, tally| {
        let start = sketch.record();
        let inputs: Vec<&[u8]> = pieces.iter().map(Vec::as_slice).collect();
        in_turn(&inputs, &start, &Whole::printed(&pieces.concat(), &start, tally)?, tally)
    })
}

/// Inputs, and the record that they are printed on.
#[derive(Clone)]
struct Pieces {
    sketch: Sketch,
    pieces: Vec<Vec<u8>>,
}

impl fmt::Debug for Pieces {
    fn fmt(&self, f: &mut fmt::Formatter) -> fmt::Result {
        write!(f, "{:?}", self.sketch)?;
        self.pieces.iter().try_for_each(|piece| write!(f, "\n  print_checked({})", literal(piece)))
    }
}

/// Every short text of line ends, a letter and an ignored byte; and longer ones, of which the last go over row ends.
pub fn texts(width: usize) -> Vec<Vec<u8>> {
    let filled = |n: usize, end: &[u8]| [&vec![b'L'; n], end].concat();
    let longer: [&[u8]; 5] =
        [b"\r\x07\r\n\x07", b"A\rB\nC\n\rD", b"\x1b\r\n \r\n\r", b"\r\n\r\n\n\r", b"WARD 7\r\n\r\nBED 12\r\x07\n\n\r\r\n"];
    let mut texts = strings_over(&[CR, LF, b'A', 7], 4);
    texts.extend(longer.map(<[u8]>::to_vec));
    texts.extend([filled(3, b"\r\n\nM\r"), filled(width, b"\r\n"), filled(width + 2, b"\r\n\rM")]);
    texts
}

/// Records to print on: a blank screen and one full of lines, the cursor at telling places, insert on and off, a 13 printed last or not.
fn starts(width: usize) -> Vec<Vec<u8>> {
    let mut starts = Vec::new();
    for printed in [0, 23 * width + 7] {
        for (row, col) in [(0, 0), (5, 17), (9, width - 3), (23, 0), (23, width - 3)] {
            for (insert, after_cr) in [(false, false), (false, true), (true, false), (true, true)] {
                let mut rec = after_print(width, vec![b'W'; printed]);
                (rec[ROW_AT], rec[COLUMN_AT]) = (row as u8, col as u8);
                set_insert(&mut rec, insert);
                set_ended_in_cr(&mut rec, after_cr);
                starts.push(rec);
            }
        }
    }
    starts
}

fn after_print(width: usize, bytes: Vec<u8>) -> Vec<u8> {
    let (mut screen, call) = (oracle::screen::Screen::new(width), Call::PrintBytes(bytes));
    screen.change(&call);
    oracle::record_after(&oracle::new_record(width as u32, 0), &call, &screen)
}

pub fn spoken(rec: &[u8]) -> String {
    let screen = if flagged(rec, 0) { "full" } else { "blank" };
    format!("a {screen} screen, cursor {:?}, insert {}, after 13 {}", cursor(rec), inserting(rec), ended_in_cr(rec))
}

fn every_cut_of(text: &[u8], start: &[u8], tally: &mut Tally) -> Result<(), String> {
    tally.starts += 1;
    let whole = Whole::printed(text, start, tally)?;
    for first in 0..=text.len() {
        in_turn(&[&text[..first], &text[first..]], start, &whole, tally).map_err(|found| format!("cut at {first}: {found}"))?;
        for second in first..=text.len() {
            in_turn(&[&text[..first], &text[first..second], &text[second..]], start, &whole, tally)
                .map_err(|found| format!("cut at {first} and {second}: {found}"))?;
        }
    }
    Ok(())
}

/// What one print of a whole text leaves. Serial and touched rows are 0: they tell of calls, and not of what is shown.
pub struct Whole(Vec<u8>);

impl Whole {
    /// A text that begins with the 10 of a 13 printed before has an ignored byte there.
    fn printed(text: &[u8], start: &[u8], tally: &mut Tally) -> Result<Self, String> {
        Self::unchecked(if splits(text, last_taken(start)) { without_lf(text) } else { text.to_vec() }, start, tally)
    }

    /// By the archive and by the Rust.
    pub fn unchecked(text: Vec<u8>, start: &[u8], tally: &mut Tally) -> Result<Self, String> {
        let call = Call::PrintBytes(text);
        let want = trial::single(&call, start, &[]).map_err(|difference| format!("{call}: {difference}"))?;
        tally.count(&call, start, want.answer);
        Ok(Self(without_stamp(want.rec)))
    }

    /// Nothing, if a record shows this too; else the first byte that differs.
    pub fn shown_by(&self, rec: Vec<u8>) -> Result<(), String> {
        match without_stamp(rec).iter().zip(&self.0).position(|(shown, whole)| shown != whole) {
            Some(at) => Err(format!("at the end byte {at} ({}) is not that of one print of all", name(at))),
            None => Ok(()),
        }
    }
}

fn without_stamp(mut rec: Vec<u8>) -> Vec<u8> {
    set_serial(&mut rec, 0);
    set_touched(&mut rec, 0);
    rec
}

/// A 13, if the record's bit tells of it; of other bytes it does not tell.
pub fn last_taken(start: &[u8]) -> Option<u8> {
    ended_in_cr(start).then_some(CR)
}

/// Whether an input begins with the 10 of a 13 that was the last byte taken.
pub fn splits(input: &[u8], last_taken: Option<u8>) -> bool {
    input.first() == Some(&LF) && last_taken == Some(CR)
}

fn without_lf(input: &[u8]) -> Vec<u8> {
    [&[IGNORED], &input[1..]].concat()
}

/// Checked prints of the inputs, one after the other. Each is refused exactly if it splits a line end, changes nothing then, and is printed again
/// without its 10; at the end the record shows what one print of the whole leaves.
pub fn in_turn(inputs: &[&[u8]], start: &[u8], whole: &Whole, tally: &mut Tally) -> Result<(), String> {
    let mut rec = start.to_vec();
    let mut last_taken = last_taken(start);
    for (number, input) in (1..).zip(inputs) {
        let told = |found| format!("input {number}: {found}");
        if splits(input, last_taken) {
            print_checked(input, judge::refused(13), &mut rec, tally).map_err(told)?;
            print_checked(&without_lf(input), 0, &mut rec, tally).map_err(told)?;
        } else {
            print_checked(input, 0, &mut rec, tally).map_err(told)?;
        }
        last_taken = input.last().copied().or(last_taken);
    }
    whole.shown_by(rec)
}

/// One checked print, compared as every call is; and it must answer this.
fn print_checked(input: &[u8], wanted: u32, rec: &mut Vec<u8>, tally: &mut Tally) -> Result<(), String> {
    let call = Call::PrintChecked(input.to_vec());
    let made = trial::single(&call, rec, &[]).map_err(|difference| format!("{call}: {difference}"))?;
    if made.answer != wanted {
        return Err(format!("{call} answers {}, wanted is {wanted}", made.answer));
    }
    tally.count(&call, rec, made.answer);
    *rec = made.rec;
    Ok(())
}
