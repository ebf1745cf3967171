//! What the documents say a call answers and leaves, for every lent slice. The refusals are written here, from them; what an accepted call
//! does is the Rust's.
use crate::call::{Call, Kind};
use crate::layout::*;
use crate::limited::{self, LIMITS};
use crate::oracle::{self, TextScreen};
use crate::reports;
use crate::waiting::{Waited, LONGEST_INPUT, MOST_ROWS};

/// The number answered, and the final bytes of record and output.
pub struct Outcome {
    pub answer: u32,
    pub rec: Vec<u8>,
    pub out: Vec<u8>,
}

/// Refusal k as a number.
pub fn refused(k: u32) -> u32 {
    4_294_967_040 + k
}

/// The outcome of a call on the lent bytes `rec` and, where the call has an output, `out`.
pub fn outcome(call: &Call, rec: &[u8], out: &[u8]) -> Outcome {
    match refusal(call, rec, out) {
        Some(k) => Outcome { answer: refused(k), rec: rec.to_vec(), out: out.to_vec() },
        None => accepted(call, rec, out),
    }
}

fn accepted(call: &Call, rec: &[u8], out: &[u8]) -> Outcome {
    match call.kind() {
        Kind::New => {
            let Call::New(width, sitting) = *call else { unreachable!() };
            Outcome { answer: 0, rec: oracle::new_record(width, sitting), out: out.to_vec() }
        }
        Kind::Changing => changed(&mut oracle::opened(rec), call, rec, out),
        Kind::Reading => Outcome { answer: oracle::opened(rec).read(call), rec: rec.to_vec(), out: out.to_vec() },
        Kind::Text | Kind::Report => {
            let text = match *call {
                Call::ReportStep => reports::made(reports::Kind::Step, rec),
                Call::ReportFull => reports::made(reports::Kind::Full, rec),
                _ => oracle::opened(rec).text(call),
            };
            Outcome { answer: text.len() as u32, rec: rec.to_vec(), out: over(&text, out) }
        }
    }
}

/// The outcome of an accepted changing call on the Rust's screen that `rec` describes. Two calls the Rust lacks: the waiting print is its print of the bytes
/// that are taken, with an answer of its own, and limited typing is its typing, or nothing.
pub fn changed(screen: &mut impl TextScreen, call: &Call, rec: &[u8], out: &[u8]) -> Outcome {
    if let Call::PrintWaiting(bytes, rows) = call {
        let waited = Waited::on(rec, bytes, *rows);
        let print = Call::PrintBytes(bytes[..waited.taken].to_vec());
        return Outcome { answer: waited.answer(), ..changed(screen, &print, rec, out) };
    }
    let text = match *call {
        Call::TypeLimited(_, limit) if limited::holds_back(rec, limit) => Vec::new(),
        Call::TypeLimited(ch, _) => screen.change(&Call::TypeChar(ch)),
        _ => screen.change(call),
    };
    Outcome { answer: text.len() as u32, rec: oracle::record_after(rec, call, screen), out: over(&text, out) }
}

/// An output with a text written over its beginning; later bytes stay.
pub fn over(text: &[u8], out: &[u8]) -> Vec<u8> {
    let mut out = out.to_vec();
    out[..text.len()].copy_from_slice(text);
    out
}

/// The first refusal that applies, in the documents' order.
pub fn refusal(call: &Call, rec: &[u8], out: &[u8]) -> Option<u32> {
    if rec.len() != SIZE || out.len() < call.room() {
        Some(1)
    } else if call.kind() == Kind::New {
        None
    } else if !valid(rec) {
        Some(2)
    } else if let Some(k) = of_arguments(call, rec) {
        Some(k)
    } else if call.kind() == Kind::Changing && serial(rec) == LAST_SERIAL {
        Some(4)
    } else {
        None
    }
}

/// The first refusal for what a call is given, on a valid record.
pub fn of_arguments(call: &Call, rec: &[u8]) -> Option<u32> {
    if !in_range(call, width(rec)) {
        Some(3)
    } else if is_too_long(call) {
        Some(7)
    } else if splits_a_line_end(call, rec) {
        Some(13)
    } else {
        None
    }
}

/// Refusal 7. Document 02, (a), of the waiting print: "It refuses an input longer than 65,535 bytes with 7, checked directly after 3".
fn is_too_long(call: &Call) -> bool {
    matches!(call, Call::PrintWaiting(bytes, _) if bytes.len() > LONGEST_INPUT)
}

/// Refusal 13. Document 02, (l), of the checked print: "It refuses an input that begins with 10 while that bit is set".
fn splits_a_line_end(call: &Call, rec: &[u8]) -> bool {
    matches!(call, Call::PrintChecked(bytes) if bytes.first() == Some(&10)) && ended_in_cr(rec)
}

/// Refusal 3: the arguments alone, on a screen of this width.
pub fn in_range(call: &Call, width: usize) -> bool {
    match *call {
        Call::SetWidth(width) => width == 40 || width == 80,
        Call::SetInsert(on) | Call::SetKeysOn(on) => on <= 1,
        Call::TypeChar(ch) => ch <= 255,
        Call::TypeLimited(ch, limit) => ch <= 255 && LIMITS.contains(&limit),
        Call::SetAttr(attr) => attr <= 255,
        Call::PrintWaiting(_, rows) => rows <= MOST_ROWS,
        Call::Cell(row, col) => row <= 24 && (col as usize) < width,
        Call::Continues(row) => row <= 24,
        _ => true,
    }
}

/// The layout of a record of the right length.
pub fn valid(rec: &[u8]) -> bool {
    valid_front(rec) && (0..ROWS).all(|row| valid_row(rec, row))
}

fn valid_front(rec: &[u8]) -> bool {
    length_field(rec) == SIZE && rec[VERSION_AT] == VERSION && valid_head(rec) && touched(rec) < 1 << 25
}

/// The record's bytes from the width to the attribute, which reports have too.
pub fn valid_head(rec: &[u8]) -> bool {
    let switch = |b: u8| b <= 1;
    (width(rec) == 40 || width(rec) == 80)
        && rec[BITS_AT] <= ALL_BITS
        && switch(rec[KEYS_AT])
        && cursor(rec).0 < editable(rec)
        && cursor(rec).1 < width(rec)
}

fn valid_row(rec: &[u8], row: usize) -> bool {
    valid_cells(width(rec), flag(rec, row), chars(rec, row), attrs(rec, row))
}

/// One row's flag, characters and attributes.
/// Folds and not `all`: without an early way out they are some times faster, and this runs millions of times.
pub fn valid_cells(width: usize, flag: u8, chars: &[u8], attrs: &[u8]) -> bool {
    let (inside, beyond) = chars.split_at(width);
    let beyond_too = &attrs[width..];
    let zero = |bytes: &[u8]| bytes.iter().fold(0, |sum, b| sum | b) == 0;
    let shown = inside.iter().fold(true, |ok, &b| ok & (b == 27 || b >= 32));
    flag <= 1 && shown && zero(beyond) && zero(beyond_too)
}
