//! Every call from every cursor place on telling screens, and every class of arguments of every call.
use crate::call::{self, Call};
use crate::layout::*;
use crate::oracle::{self, TextScreen};
use crate::tally::Tally;
use crate::trial::{self, filler};

/// The record that these calls leave from a new screen, by the Rust alone.
fn after(width: u32, calls: &[Call]) -> Vec<u8> {
    let mut screen = oracle::screen::Screen::new(width as usize);
    let mut rec = oracle::new_record(width, 0);
    for call in calls {
        screen.change(call);
        rec = oracle::record_after(&rec, call, &screen);
    }
    rec
}

fn print(ch: u8, n: usize) -> Call {
    Call::PrintBytes(vec![ch; n])
}

/// A screen that tells something about the rules, by the calls that lead to it at a width.
type Scene = fn(usize) -> Vec<Call>;

/// Lists that lead to telling screens. Each is used at both widths.
const SCENES: [Scene; 15] = [
    |_| vec![],
    text_in_every_row,
    |_| vec![print(b'L', 255)],
    |_| vec![print(b'L', 320), Call::SetAttr(0x1e)],
    |w| vec![print(b'W', 24 * w - 1)],
    |w| vec![Call::SetInsert(1), print(b'W', 23 * w + 7)],
    whole_rows_and_their_extensions,
    lines_at_the_limit,
    words,
    |w| vec![Call::SetKeysOn(0), Call::SetCursor(23, 0), print(b'F', w), Call::SetKeysOn(1)],
    |w| [flag_on_row_24(w), vec![Call::SetKeysOn(1)]].concat(),
    flag_on_row_24,
    joined_rows,
    |w| vec![Call::SetKeysOn(0), Call::SetInsert(1), print(b'W', 25 * w - 1)],
    |w| vec![Call::SetInsert(1), print(b'L', w), Call::PrintChecked(b"WARD 7\r".to_vec())],
];

fn text_in_every_row(_: usize) -> Vec<Call> {
    let row = |r: u32| [Call::SetAttr(r * 9), Call::SetCursor(r, 0), Call::PrintBytes(format!("{r} WARD {}", r * 7).into_bytes())];
    (0..24).flat_map(row).collect()
}

/// Lines of one, two and three whole rows: each is followed by the blank row that the wrap went to.
fn whole_rows_and_their_extensions(w: usize) -> Vec<Call> {
    let line = |(row, rows): (u32, usize)| [Call::SetCursor(row, 0), print(b'A' + row as u8, rows * w)];
    [(0, 1), (3, 2), (8, 3), (14, 2), (19, 3), (23, 1)].into_iter().flat_map(line).collect()
}

/// Lines of 254, 255 and 256 characters, and a line in the last rows.
fn lines_at_the_limit(w: usize) -> Vec<Call> {
    let line = |(row, n): (u32, usize)| [Call::SetCursor(row, 0), print(b'A' + row as u8, n)];
    let apart = 256_usize.div_ceil(w) as u32 + 1;
    let mut calls: Vec<Call> = [(0, 254), (apart, 255), (2 * apart, 256), (22, w + 3)].into_iter().flat_map(line).collect();
    calls.push(Call::SetInsert(1));
    calls
}

fn words(w: usize) -> Vec<Call> {
    let mut calls = vec![Call::PrintBytes(b"a bed-7, ward 12; Zz9 .. \x1b\x85\xa0 x\r\n@A[`a{/0:9\r\n".to_vec())];
    for (row, end) in [(4, 133), (5, 160), (6, b'Q'), (20, 133), (23, 160)] {
        calls.extend([Call::SetCursor(row, w as u32 - 3), print(end, 1), Call::SetAttr(row), print(b'w', 1)]);
        calls.extend([Call::SetCursor(row, w as u32 - 2), print(b' ', 1)]);
    }
    calls
}

/// Row 23 is flagged with keys off, and a line that grows above moves it to row 24.
fn flag_on_row_24(w: usize) -> Vec<Call> {
    let mut calls = vec![Call::SetKeysOn(0), Call::SetCursor(23, 0), print(b'F', w), Call::SetCursor(2, 0)];
    calls.extend(vec![Call::TypeChar(b'G' as u32); w]);
    calls
}

/// Rows joined by `ctrl_enter`, some of them blank.
fn joined_rows(_: usize) -> Vec<Call> {
    let joined = |row: u32| [Call::SetCursor(row, 3), Call::PrintBytes(vec![b'J'; row as usize % 3]), Call::CtrlEnter, Call::CtrlEnter];
    [0, 4, 8, 12, 21].into_iter().flat_map(joined).collect()
}

/// One call of every name, and more where the place matters.
fn calls_from_every_place() -> Vec<Call> {
    let mut calls = call::one_of_each();
    calls.extend([Call::TypeChar(b' ' as u32), Call::TypeChar(7), Call::SetKeysOn(1), Call::SetInsert(0)]);
    let prints: [&[u8]; 6] = [b"\r", b"\n", b"\r\n", b"\n\r", b"Z", b"ZY\rX\n"];
    calls.extend(prints.map(|bytes| Call::PrintBytes(bytes.to_vec())));
    calls.extend(prints.map(|bytes| Call::PrintChecked(bytes.to_vec())));
    calls.extend(prints.map(|bytes| Call::PrintWaiting(bytes.to_vec(), 0)));
    calls.extend([1, 7, 40, 80, 254, 255].map(|limit| Call::TypeLimited(b'Z' as u32, limit)));
    calls
}

pub fn every_place(tally: &mut Tally) -> Result<(), String> {
    let calls = calls_from_every_place();
    for (number, scene) in SCENES.iter().enumerate() {
        for width in [80, 40] {
            let mut rec = after(width, &scene(width as usize));
            for (row, col) in (0..editable(&rec)).flat_map(|row| (0..width as usize).map(move |col| (row, col))) {
                (rec[ROW_AT], rec[COLUMN_AT]) = (row as u8, col as u8);
                // at every second place a print has ended with 13
                set_ended_in_cr(&mut rec, (row + col) % 2 == 1);
                try_each(&calls, &rec, tally).map_err(|found| format!("scene {number}, width {width}, cursor ({row}, {col}): {found}"))?;
            }
        }
    }
    Ok(())
}

/// Each of the calls on the same record.
fn try_each(calls: &[Call], rec: &[u8], tally: &mut Tally) -> Result<(), String> {
    tally.starts += 1;
    for call in calls {
        let out = filler(call.room(), rec[COLUMN_AT] as usize);
        let want = trial::single(call, rec, &out).map_err(|difference| format!("{call}: {difference}"))?;
        tally.count(call, rec, want.answer);
    }
    Ok(())
}

/// Numbers that an argument could be mistaken at, up to the largest.
const NUMBERS: [u32; 33] = [
    0,
    1,
    2,
    3,
    9,
    10,
    22,
    23,
    24,
    25,
    26,
    31,
    32,
    39,
    40,
    41,
    79,
    80,
    81,
    127,
    128,
    255,
    256,
    257,
    256 + 40,
    256 + 80,
    65_535,
    65_536,
    65_536 + 80,
    1 << 24,
    1 << 31,
    u32::MAX - 1,
    u32::MAX,
];

pub fn every_argument(tally: &mut Tally) -> Result<(), String> {
    let calls = calls_with_every_argument();
    for scene in SCENES {
        for width in [80, 40] {
            let mut rec = after(width, &scene(width as usize));
            for ((row, col), after_cr) in [((0, 0), true), ((5, 17), false), ((editable(&rec) - 1, width as usize - 1), true)] {
                (rec[ROW_AT], rec[COLUMN_AT]) = (row as u8, col as u8);
                set_ended_in_cr(&mut rec, after_cr);
                try_each(&calls, &rec, tally)?;
            }
        }
    }
    Ok(())
}

fn calls_with_every_argument() -> Vec<Call> {
    let numbers = || (0..=300).chain(NUMBERS);
    let pairs = || NUMBERS.into_iter().flat_map(|a| NUMBERS.into_iter().map(move |b| (a, b)));
    let mut calls = Vec::new();
    calls.extend(numbers().flat_map(|n| [Call::TypeChar(n), Call::SetAttr(n), Call::SetWidth(n)]));
    calls.extend(numbers().flat_map(|n| [Call::SetInsert(n), Call::SetKeysOn(n), Call::Continues(n)]));
    calls.extend(numbers().chain([999, 1000, 1001]).map(|n| Call::PrintWaiting(b"Z\r\n\n".to_vec(), n)));
    calls.extend(numbers().flat_map(|n| [27, 31, b' ' as u32, b'Z' as u32, 255, 256].map(|ch| Call::TypeLimited(ch, n))));
    calls.extend(pairs().flat_map(|(a, b)| [Call::SetCursor(a, b), Call::Cell(a, b), Call::New(a, b), Call::TypeLimited(a, b)]));
    let strings = strings_over(&[13, 10, b'A', b' ', 7], 4).into_iter().chain((0..=255).map(|b| vec![b]));
    calls.extend(strings.flat_map(|bytes| {
        let waiting = [0, 1].map(|rows| Call::PrintWaiting(bytes.clone(), rows));
        [Call::PrintBytes(bytes.clone()), Call::PrintChecked(bytes)].into_iter().chain(waiting)
    }));
    calls
}

/// All strings over these bytes up to a length.
pub fn strings_over(bytes: &[u8], length: usize) -> Vec<Vec<u8>> {
    let mut all = vec![vec![]];
    let mut longest = all.clone();
    for _ in 0..length {
        longest = longest.iter().flat_map(|s| bytes.iter().map(move |&b| [&s[..], &[b]].concat())).collect();
        all.extend(longest.clone());
    }
    all
}
