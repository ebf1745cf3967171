//! Random lists of calls, as proptest makes and shrinks them.
//!
//! A list is made of fragments, a few calls that belong together: a line is typed to its end, a cursor goes to a corner, the keys are
//! switched. Shrinking drops fragments first and then makes what is left smaller.
use crate::answers;
use crate::call::{self, Call};
use proptest::collection::vec;
use proptest::prelude::*;
use proptest::sample::{select, Select};
use std::fmt;

#[derive(Clone)]
pub enum Step {
    Call(Call),
    /// Every reading call and every text, all cells included.
    Look,
}

#[derive(Clone)]
pub struct List {
    pub width: u32,
    pub sitting: u32,
    pub steps: Vec<Step>,
}

impl fmt::Debug for Step {
    fn fmt(&self, f: &mut fmt::Formatter) -> fmt::Result {
        match self {
            Step::Call(call) => write!(f, "{call}"),
            Step::Look => write!(f, "all reading calls and texts"),
        }
    }
}

impl fmt::Debug for List {
    /// The calls, one a line; calls that repeat are counted.
    fn fmt(&self, f: &mut fmt::Formatter) -> fmt::Result {
        write!(f, "  new({}, {})", self.width, self.sitting)?;
        let mut rest = self.steps.as_slice();
        while let Some(first) = rest.first() {
            let (shown, mut times) = (format!("{first:?}"), 1);
            while rest.get(times).is_some_and(|step| format!("{step:?}") == shown) {
                times += 1;
            }
            let repeated = if times > 1 { format!("    {times} times") } else { String::new() };
            write!(f, "\n  {shown}{repeated}")?;
            rest = &rest[times..];
        }
        Ok(())
    }
}

/// Lists of up to `fragments` fragments, from a new screen of either width in any sitting.
pub fn lists(fragments: usize) -> impl Strategy<Value = List> {
    let steps = vec(fragment(), 1..fragments).prop_map(|fragments| fragments.concat());
    (one_of(&[80, 40]), sittings(), steps).prop_map(|(width, sitting, steps)| List { width, sitting, steps })
}

/// Lists with the calls too that the Rust lacks: waiting prints and limited typing. They are apart from the others, since it cannot answer such a list by itself,
/// nor is one recorded.
pub fn lists_with_added(fragments: usize) -> impl Strategy<Value = List> {
    let added = prop_oneof![waiting().boxed(), field().boxed()].prop_map(|calls| calls.into_iter().map(Step::Call).collect());
    let steps = vec(prop_oneof![3 => fragment(), 1 => added], 1..fragments).prop_map(|fragments| fragments.concat());
    (one_of(&[80, 40]), sittings(), steps).prop_map(|(width, sitting, steps)| List { width, sitting, steps })
}

/// Numbers of sittings: neighbours, those that a wrong order of their bytes would sort otherwise, and any.
pub fn sittings() -> impl Strategy<Value = u32> {
    prop_oneof![0..5u32, one_of(&[255, 256, 65_535, 65_536, 1 << 24, 1 << 31, u32::MAX - 1, u32::MAX]), any::<u32>()]
}

/// Lists for recorded answers: changing calls alone, with short prints.
pub fn short_lists() -> impl Strategy<Value = List> {
    lists(16).prop_map(|mut list| {
        list.steps.retain(|step| match step {
            Step::Call(Call::PrintBytes(bytes) | Call::PrintChecked(bytes)) => bytes.len() <= answers::LONGEST_INPUT,
            Step::Call(call) => call.kind() == call::Kind::Changing,
            Step::Look => false,
        });
        list
    })
}

fn fragment() -> BoxedStrategy<Vec<Step>> {
    let calls = |strategy: BoxedStrategy<Vec<Call>>| strategy.prop_map(|calls| calls.into_iter().map(Step::Call).collect());
    prop_oneof![
        24 => calls(any_call().prop_map(|call| vec![call]).boxed()),
        12 => calls(vec(one_of(&call::keys()), 1..6).boxed()),
        8 => calls(repeated_key().boxed()),
        8 => calls(typed().boxed()),
        12 => calls(either_print(print()).prop_map(|print| vec![print]).boxed()),
        6 => calls(on_a_place(either_print(print()).prop_map(|print| vec![print]).boxed()).boxed()),
        6 => calls(parted_line_ends().boxed()),
        6 => calls(on_a_place(typed().boxed()).boxed()),
        5 => calls(filled_and_ended().boxed()),
        3 => calls(flagged_last_row().boxed()),
        2 => calls(joined_to_the_limit().boxed()),
        1 => Just(vec![Step::Look]),
    ]
    .boxed()
}

/// One of these values. It owns them: `select` itself wants them owned or for ever.
pub fn one_of<T: Clone + fmt::Debug + 'static>(values: &[T]) -> Select<T> {
    select(values.to_vec())
}

/// A character for typing or printing: mostly letters, all 256 now and then.
fn character() -> impl Strategy<Value = u8> {
    prop_oneof![
        6 => b'A'..=b'Z',
        3 => Just(b' '),
        2 => one_of(&[27u8, 133, 160, 127, b'0', b'9', b'/', b':', b'@', b'[', b'`', b'a', b'z', b'{', 255, 31, 32, 33]),
        2 => any::<u8>(),
    ]
}

/// Lengths around what the rules care about.
fn length() -> impl Strategy<Value = usize> {
    prop_oneof![
        4 => 0..12usize,
        2 => 0..330usize,
        4 => one_of(&[39usize, 40, 41, 79, 80, 81, 119, 120, 121, 159, 160, 161, 200, 239, 240, 241]),
        4 => one_of(&[253usize, 254, 255, 256, 257, 280, 319, 320, 321]),
    ]
}

fn any_number() -> impl Strategy<Value = u32> {
    prop_oneof![
        one_of(&[0u32, 1, 2, 24, 25, 39, 40, 79, 80, 81, 255, 256, 257, 296, 336, 65_535, 65_536, 1 << 31, u32::MAX - 1, u32::MAX]),
        any::<u32>(),
    ]
}

fn row() -> impl Strategy<Value = u32> {
    prop_oneof![3 => one_of(&[0u32, 1, 2, 20, 21, 22, 23, 24, 25]), 2 => 0..26u32]
}

fn column() -> impl Strategy<Value = u32> {
    prop_oneof![3 => one_of(&[0u32, 1, 7, 8, 15, 38, 39, 40, 41, 72, 78, 79, 80, 81]), 2 => 0..82u32]
}

/// What is typed; now and then it is no character.
pub fn typed_number() -> BoxedStrategy<u32> {
    prop_oneof![20 => character().prop_map(u32::from), 1 => any_number()].boxed()
}

/// Any call of any kind; now and then an argument is out of range.
pub fn any_call() -> BoxedStrategy<Call> {
    let switch = || prop_oneof![12 => 0..2u32, 1 => any_number()];
    prop_oneof![
        10 => one_of(&call::keys()),
        10 => typed_number().prop_map(Call::TypeChar),
        4 => either_print(print()),
        2 => print().prop_map(|bytes| Call::PrintChecked([&[10], &bytes[..]].concat())),
        4 => (row(), column()).prop_map(|(row, col)| Call::SetCursor(row, col)),
        1 => (any_number(), any_number()).prop_map(|(row, col)| Call::SetCursor(row, col)),
        3 => switch().prop_map(Call::SetInsert),
        3 => switch().prop_map(Call::SetKeysOn),
        2 => prop_oneof![8 => 0..256u32, 1 => any_number()].prop_map(Call::SetAttr),
        1 => prop_oneof![4 => one_of(&[40u32, 80]), 1 => any_number()].prop_map(Call::SetWidth),
        3 => any_question(),
    ]
    .boxed()
}

/// Any call, those among them that the Rust lacks.
pub fn any_call_or_added() -> BoxedStrategy<Call> {
    let waiting = (paged(), rows()).prop_map(|(bytes, rows)| Call::PrintWaiting(bytes, rows));
    let limited = (typed_number(), limits()).prop_map(|(ch, limit)| Call::TypeLimited(ch, limit));
    prop_oneof![12 => any_call(), 1 => waiting, 2 => limited].boxed()
}

fn any_question() -> BoxedStrategy<Call> {
    let place = prop_oneof![6 => (0..27u32, 0..82u32), 1 => (any_number(), any_number())];
    prop_oneof![
        4 => one_of(&[Call::Width, Call::Cursor, Call::Attr, Call::EditableRows, Call::LogicalText, Call::Snapshot]),
        2 => place.prop_map(|(row, col)| Call::Cell(row, col)),
        1 => prop_oneof![8 => 0..27u32, 1 => any_number()].prop_map(Call::Continues),
    ]
    .boxed()
}

fn repeated_key() -> impl Strategy<Value = Vec<Call>> {
    (one_of(&call::keys()), 1..30usize).prop_map(|(key, times)| vec![key; times])
}

/// A run of one character typed, or a short mixture.
fn typed() -> impl Strategy<Value = Vec<Call>> {
    let keys = |bytes: Vec<u8>| bytes.into_iter().map(|b| Call::TypeChar(b as u32)).collect::<Vec<_>>();
    prop_oneof![
        1 => (character(), length()).prop_map(move |(ch, n)| keys(vec![ch; n])),
        2 => vec(character(), 1..12).prop_map(keys),
    ]
}

/// What is printed: runs, lines with every sort of end, words, and mixtures with 13 and 10 in every arrangement.
fn print() -> BoxedStrategy<Vec<u8>> {
    let line_end = || one_of(&[&b"\r\n"[..], b"\r", b"\n", b"\n\r", b"\r\r\n", b"", b" \r"]);
    let line = (character(), length(), line_end()).prop_map(|(ch, n, end)| [&vec![ch; n], end].concat());
    let word = one_of(&[&b"WARD"[..], b"bed7", b" ", b"  ", b"-", b".", b"A1", b"\x1b", b"\x85", b"\xa0", b"z", b"\r\n"]);
    let mixed = prop_oneof![4 => one_of(&[13u8, 10, 7, b' ', b'A']), 1 => character()];
    prop_oneof![
        4 => (character(), length()).prop_map(|(ch, n)| vec![ch; n]),
        3 => vec(line, 1..5).prop_map(|lines| lines.concat()),
        3 => vec(word, 1..40).prop_map(|words| words.concat()),
        4 => vec(mixed, 0..24),
        1 => (character(), 600..2300usize).prop_map(|(ch, n)| vec![ch; n]),
    ]
    .boxed()
}

/// One of the two prints.
fn either_print(bytes: impl Strategy<Value = Vec<u8>>) -> impl Strategy<Value = Call> {
    (bytes, any::<bool>()).prop_map(|(bytes, checked)| if checked { Call::PrintChecked(bytes) } else { Call::PrintBytes(bytes) })
}

/// Prints in turn: many end with 13, begin with 10, or are empty. Now and then a key is pressed between them.
fn parted_line_ends() -> impl Strategy<Value = Vec<Call>> {
    let part = prop_oneof![12 => any_part(), 1 => print()];
    vec(prop_oneof![12 => either_print(part), 1 => one_of(&call::keys())], 1..9)
}

/// A short input, often with half of a line end at its beginning or its end; now and then an ignored byte stands there.
pub fn any_part() -> impl Strategy<Value = Vec<u8>> {
    let begin = one_of(&[&b""[..], b"", b"\n", b"\n", b"\n\n", b"\r\n", b"\x07"]);
    let end = one_of(&[&b""[..], b"", b"\r", b"\r", b"\r\r", b"\r\n", b"\r\x07"]);
    let middle =
        prop_oneof![3 => Just(vec![]), 3 => vec(character(), 1..5), 1 => (b'A'..=b'Z', 30..85usize).prop_map(|(ch, n)| vec![ch; n])];
    (begin, middle, end).prop_map(|(begin, middle, end)| [begin, &middle, end].concat())
}

/// What a waiting print is given: anything that is printed, or several short inputs, line ends for the most part; now and then more than it takes.
pub fn paged() -> BoxedStrategy<Vec<u8>> {
    let parts = vec(any_part(), 1..8).prop_map(|parts| parts.concat());
    let ends = vec(one_of(&[13u8, 10, 13, 10, 7, b'A', b' ']), 0..16);
    prop_oneof![16 => print(), 16 => parts, 16 => ends, 1 => (character(), 65_533..65_539usize).prop_map(|(ch, n)| vec![ch; n])].boxed()
}

/// The limit of a waiting print: small ones, about the height of the screen, and about the largest.
pub fn rows() -> BoxedStrategy<u32> {
    prop_oneof![12 => 0..6u32, 4 => one_of(&[23u32, 24, 25, 999, 1_000]), 1 => one_of(&[1_001u32, 1 << 16, u32::MAX])].boxed()
}

/// Waiting prints in turn, from the bottom of the screen often, and after a row there that was filled to its end.
fn waiting() -> impl Strategy<Value = Vec<Call>> {
    let print = |(bytes, rows)| Call::PrintWaiting(bytes, rows);
    let place = (one_of(&[22u32, 23, 24]), column()).prop_map(|(row, col)| vec![Call::SetCursor(row, col)]);
    let filled = one_of(&[40usize, 80]).prop_map(|width| vec![Call::SetCursor(24, 0), Call::PrintBytes(vec![b'F'; width])]);
    let start = prop_oneof![3 => Just(vec![]), 6 => place, 2 => filled];
    (start, vec((paged(), rows()).prop_map(print), 1..4)).prop_map(|(start, prints)| [start, prints].concat())
}

/// The limit of limited typing: a short field, about a row and about the longest line, any; now and then one that is refused.
pub fn limits() -> BoxedStrategy<u32> {
    prop_oneof![
        6 => 1..61u32,
        3 => one_of(&[1u32, 2, 39, 40, 41, 60, 79, 80, 81, 254, 255]),
        4 => 1..256u32,
        1 => one_of(&[0u32, 256, 257, 256 + 60, u32::MAX]),
    ]
    .boxed()
}

/// A field on an emptied line: it is typed full, or nearly, or past that, and then a few things are done to it.
fn field() -> impl Strategy<Value = Vec<Call>> {
    let limit = prop_oneof![6 => 1..12u32, 3 => 1..61u32, 1 => one_of(&[39u32, 40, 41, 79, 80, 81, 254, 255])];
    (row(), column(), limit).prop_flat_map(|(row, col, limit)| {
        let begun = one_of(&[0, 0, 0, col]).prop_map(move |col| vec![Call::SetCursor(row, 0), Call::EscapeLine, Call::SetCursor(row, col)]);
        let filled = (character(), limit.saturating_sub(2)..limit + 2)
            .prop_map(move |(ch, n)| vec![Call::TypeLimited(ch as u32, limit); n as usize]);
        let line_end = (0..2u32).prop_map(move |insert| after_a_line_end(row, limit, insert));
        let done = vec(prop_oneof![20 => done_to_a_field(row, limit), 1 => line_end], 0..16);
        (begun, filled, done).prop_map(|(begun, filled, done)| [begun, filled, done.concat()].concat())
    })
}

/// Typing with the field's limit, one less or one more, the old typing, which may make the line longer, or a key; the cursor goes inside the field and behind it.
fn done_to_a_field(row: u32, limit: u32) -> BoxedStrategy<Vec<Call>> {
    let near = one_of(&[limit, limit, limit, limit, limit - 1, limit + 1]);
    prop_oneof![
        10 => (typed_number(), near).prop_map(|(ch, limit)| Call::TypeLimited(ch, limit)),
        2 => (typed_number(), limits()).prop_map(|(ch, limit)| Call::TypeLimited(ch, limit)),
        1 => typed_number().prop_map(Call::TypeChar),
        3 => (0..limit + 3).prop_map(move |col| Call::SetCursor(row, col)),
        3 => (0..2u32).prop_map(Call::SetInsert),
        3 => one_of(&[Call::MoveLeft, Call::MoveRight, Call::Backspace, Call::DeleteChar, Call::EndOfLine]),
    ]
    .prop_map(|call| vec![call])
    .boxed()
}

/// A print in the row above the field ends with 13, and then something is typed at the field's beginning.
fn after_a_line_end(row: u32, limit: u32, insert: u32) -> Vec<Call> {
    let above = Call::SetCursor(row.saturating_sub(1), 0);
    vec![Call::SetInsert(insert), above, Call::PrintBytes(vec![13]), Call::TypeLimited(b'I' as u32, limit)]
}

/// The cursor set somewhere, often a corner, then the calls.
fn on_a_place(calls: BoxedStrategy<Vec<Call>>) -> impl Strategy<Value = Vec<Call>> {
    (row(), column(), proptest::option::of(0..2u32), calls).prop_map(|(row, col, insert, calls)| {
        let place = [Call::SetCursor(row, col)].into_iter();
        place.chain(insert.map(Call::SetInsert)).chain(calls).collect()
    })
}

/// Whole rows printed or typed from a row's beginning, then what ends a line.
fn filled_and_ended() -> impl Strategy<Value = Vec<Call>> {
    let end =
        one_of(&[Call::TakeLogicalLine, Call::PrintBytes(vec![13]), Call::PrintBytes(vec![10, 13]), Call::CtrlEnter, Call::Backspace]);
    let length = one_of(&[40usize, 80, 120, 160, 240, 320, 1920, 2000]);
    (row(), b'A'..=b'Z', length, any::<bool>(), vec(end, 1..4)).prop_map(|(row, ch, length, typed, end)| {
        let mut calls = vec![Call::SetCursor(row, 0)];
        if typed && length <= 160 {
            calls.extend(vec![Call::TypeChar(ch as u32); length]);
        } else {
            calls.push(Call::PrintBytes(vec![ch; length]));
        }
        calls.extend(end);
        calls
    })
}

/// A line of whole rows and a next line, 254 to 257 characters together, joined by `ctrl_enter`.
fn joined_to_the_limit() -> impl Strategy<Value = Vec<Call>> {
    (0..16u32, one_of(&[40usize, 80]), 1..7u32, 254..258usize).prop_map(|(row, width, rows, both)| {
        let above = (width * rows as usize).min(240);
        let rows = (above / width) as u32;
        let mut calls = vec![Call::SetCursor(row, 0), Call::PrintBytes(vec![b'U'; above - 1])];
        calls.extend([Call::SetCursor(row + rows, 0), Call::PrintBytes(vec![b'V'; both - above])]);
        calls.extend([Call::SetCursor(row + rows - 1, 5), Call::CtrlEnter]);
        calls
    })
}

/// Printing with keys off flags row 23; a line that grows above moves that flag to row 24; then the keys are switched.
fn flagged_last_row() -> impl Strategy<Value = Vec<Call>> {
    (21..24u32, 0..22u32, 0..100usize, 0..2u32, any::<bool>()).prop_map(|(row, grows, by, keys, switched)| {
        let mut calls = vec![Call::SetKeysOn(0), Call::SetCursor(row, 0), Call::PrintBytes(vec![b'F'; 80])];
        calls.extend([Call::SetCursor(grows, 0), Call::SetInsert(1), Call::PrintBytes(vec![b'G'; 35])]);
        calls.extend(vec![Call::TypeChar(b'H' as u32); by]);
        if switched {
            calls.push(Call::SetKeysOn(keys));
        }
        calls
    })
}
