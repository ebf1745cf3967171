//! Document 01's starred examples in text mode, as it writes them, through the archive and the Rust.
use crate::call::Call;
use crate::layout::*;
use crate::oracle::{self, TextScreen};
use crate::tally::Tally;
use crate::trial;

/// What an example says of the screen at its end.
enum Says {
    Cursor(usize, usize),
    Flagged(usize, bool),
    Touched(u32),
    /// A row holds this text, and then spaces.
    Row(usize, Vec<u8>),
    Cell(usize, usize, u8),
}

use Says::*;

struct Example {
    width: u32,
    calls: Vec<Call>,
    says: Vec<Says>,
}

fn print(bytes: &[u8]) -> Call {
    Call::PrintBytes(bytes.to_vec())
}

fn typed(bytes: &[u8]) -> Vec<Call> {
    bytes.iter().map(|&b| Call::TypeChar(b as u32)).collect()
}

fn examples() -> Vec<Example> {
    let example = |width, calls, says| Example { width, calls, says };
    let ab = [typed(b"AB"), vec![Call::MoveLeft, Call::SetInsert(1), Call::TypeChar(b'X' as u32)]].concat();
    vec![
        example(80, vec![print(&[b'A'; 80])], vec![Flagged(0, true), Cursor(1, 0)]),
        example(80, vec![print(&[b'A'; 80]), print(&[13])], vec![Flagged(0, false), Cursor(1, 0)]),
        example(80, vec![print(&[13, 10])], vec![Cursor(1, 0)]),
        example(80, vec![print(&[10, 13])], vec![Cursor(2, 0)]),
        example(80, typed(&[b'A'; 255]), vec![Cursor(3, 15)]),
        example(80, typed(&[b'A'; 256]), vec![Cursor(3, 15), Touched(0)]),
        example(40, [typed(&[b'A'; 40]), vec![Call::Backspace]].concat(), vec![Row(0, vec![b'A'; 40]), Touched(0)]),
        example(80, ab, vec![Row(0, b"AXB".to_vec()), Cursor(0, 2)]),
        example(80, vec![Call::SetCursor(0, 10), Call::Backspace], vec![Cursor(0, 9), Touched(0)]),
        example(
            80,
            vec![print(&[b'A'; 320]), Call::SetCursor(0, 0), Call::TypeChar(b'B' as u32)],
            vec![Row(3, vec![b'A'; 15]), Flagged(3, false), Touched(9)],
        ),
        example(80, vec![Call::SetCursor(23, 79), print(b"Z")], vec![Cell(22, 79, b'Z'), Flagged(22, true), Cursor(23, 0)]),
        example(80, vec![Call::WordRight], vec![Cursor(23, 79)]),
    ]
}

pub fn starred(tally: &mut Tally) -> Result<(), String> {
    for (number, example) in examples().iter().enumerate() {
        tally.starts += 1;
        play(example, tally).map_err(|found| format!("example {}: {found}", number + 1))?;
    }
    Ok(())
}

/// The calls, compared one by one with the Rust; at the end both records are asked what the example says.
fn play(example: &Example, tally: &mut Tally) -> Result<(), String> {
    let mut ours = vec![0; SIZE];
    Call::New(example.width, 0).make(&mut ours, &mut []);
    let mut screen = oracle::screen::Screen::new(example.width as usize);
    let mut rusts = oracle::new_record(example.width, 0);
    for call in &example.calls {
        let want = trial::single(call, &ours, &[])?;
        tally.count(call, &ours, want.answer);
        call.make(&mut ours, &mut []);
        screen.change(call);
        rusts = oracle::record_after(&rusts, call, &screen);
    }
    check(&example.says, &ours, "the archive")?;
    check(&example.says, &rusts, "the Rust")
}

fn check(says: &[Says], rec: &[u8], whose: &str) -> Result<(), String> {
    match says.iter().position(|says| !says.hold(rec)) {
        Some(at) => Err(format!("claim {} does not hold of {whose}'s record", at + 1)),
        None => Ok(()),
    }
}

impl Says {
    fn hold(&self, rec: &[u8]) -> bool {
        match self {
            Cursor(row, col) => cursor(rec) == (*row, *col),
            Flagged(row, is) => flagged(rec, *row) == *is,
            Touched(mask) => touched(rec) == *mask,
            Row(row, start) => text(rec, *row).starts_with(start) && text(rec, *row)[start.len()..].iter().all(|&b| b == b' '),
            Cell(row, col, ch) => text(rec, *row)[*col] == *ch,
        }
    }
}
