//! One driver over the Rust's screen and over the drop-in one, which has the same methods: all that a runtime can see must be the same, whatever
//! the sitting.
use crate::call::{Call, Kind};
use crate::judge;
use crate::layout::{ROWS, SIZE};
use crate::lists::{self, List, Step};
use crate::oracle::{screen, TextScreen};
use crate::random::try_all;
use crate::tally::Tally;
use futonrobin::{drop_in, Shown};
use std::panic::{catch_unwind, set_hook, take_hook};

/// Random lists of calls from a new screen.
pub fn random_lists(seed: u64, cases: u32, tally: &mut Tally) -> Result<(), String> {
    try_all(seed, cases, &lists::lists(30), tally, |list, tally| {
        let width = list.width as usize;
        let mut screen = drop_in::Screen::new(width).in_sitting(list.sitting);
        let (rusts, ours) = (drive(&mut screen::Screen::new(width), list), drive(&mut screen, list));
        if screen.proved().sitting() != list.sitting {
            return Err(format!("the drop-in screen ends in sitting {}", screen.proved().sitting()));
        }
        let changing = list.steps.iter().filter(|step| matches!(step, Step::Call(call) if call.kind() == Kind::Changing)).count();
        tally.changing += changing as u64;
        tally.others += (ours.len() - changing) as u64;
        match rusts.iter().zip(&ours).position(|(rusts, ours)| rusts != ours) {
            Some(at) => {
                Err(format!("after {:?} the drop-in screen has\n{:?}\nand the Rust's\n{:?}", list.steps.get(at), ours[at], rusts[at]))
            }
            None => Ok(()),
        }
    })
}

/// What a runtime sees after a step: what the call answers, width, cursor, modes and texts, and at a `Look` and at the end all cells and flags.
#[derive(PartialEq, Debug)]
struct Seen {
    answer: Vec<u8>,
    front: [u32; 4],
    texts: [Vec<u8>; 2],
    all: Option<Vec<u8>>,
}

fn drive<S: TextScreen>(screen: &mut S, list: &List) -> Vec<Seen> {
    let mut seen: Vec<_> = list.steps.iter().map(|step| see(screen, step)).collect();
    seen.push(see(screen, &Step::Look));
    seen
}

fn see<S: TextScreen>(screen: &mut S, step: &Step) -> Seen {
    let mut all = None;
    let answer = match step {
        Step::Call(call) => call_on(screen, call),
        Step::Look => {
            let rec = all.insert(vec![0; SIZE]);
            screen.write(rec);
            Vec::new()
        }
    };
    Seen {
        answer,
        front: [Call::Width, Call::Cursor, Call::Attr, Call::EditableRows].map(|call| screen.read(&call)),
        texts: [Call::LogicalText, Call::Snapshot].map(|call| screen.text(&call)),
        all,
    }
}

/// A call, if the Rust's types can say it and the Rust does not panic; what it answers.
fn call_on<S: TextScreen>(screen: &mut S, call: &Call) -> Vec<u8> {
    match *call {
        Call::SetWidth(width) => vec![screen.set_width(width as usize) as u8],
        // Every second print, by its length, is a string.
        Call::PrintBytes(ref bytes) if bytes.len() % 2 == 0 => {
            screen.print_str(&string(bytes));
            Vec::new()
        }
        _ if !judge::in_range(call, screen.read(&Call::Width) as usize) => Vec::new(),
        _ if call.kind() == Kind::Changing => screen.change(call),
        _ if call.kind() == Kind::Reading => screen.read(call).to_be_bytes().to_vec(),
        _ => Vec::new(),
    }
}

/// These bytes as characters; for two of them, characters that `print_str` leaves out and turns into 27.
fn string(bytes: &[u8]) -> String {
    let character = |&b: &u8| match b {
        0x80 => '\u{20ac}',
        0x81 => '\u{2190}',
        _ => char::from(b),
    };
    bytes.iter().map(character).collect()
}

/// Where the Rust panics the drop-in screen panics, and nowhere else.
pub fn panics(tally: &mut Tally) -> Result<(), String> {
    let hook = take_hook();
    set_hook(Box::new(|_| ()));
    let found = places().find(|(width, call)| panics_on::<screen::Screen>(*width, call) != panics_on::<drop_in::Screen>(*width, call));
    set_hook(hook);
    tally.others += places().count() as u64;
    match found {
        Some((width, call)) => Err(format!("{call} at width {width} panics in one of the two alone")),
        None => Ok(()),
    }
}

/// Places in and around the screen, at both widths.
fn places() -> impl Iterator<Item = (usize, Call)> {
    let rows = || (0..ROWS as u32 + 2).chain([255, 256, u32::MAX]);
    let columns = [0, 1, 39, 40, 41, 79, 80, 81, 255, 256, u32::MAX];
    [40, 80].into_iter().flat_map(move |width| {
        let cells = rows().flat_map(move |row| columns.map(|col| (width, Call::Cell(row, col))));
        cells.chain(rows().map(move |row| (width, Call::Continues(row))))
    })
}

fn panics_on<S: TextScreen>(width: usize, call: &Call) -> bool {
    catch_unwind(|| S::new(width).read(call)).is_err()
}
