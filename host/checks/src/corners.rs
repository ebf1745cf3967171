//! The corners of the documents' rules that a run must have met: each is counted, and a corner that was never met fails the run.
//! What is read from a record here only counts; nothing is judged by it.
use crate::call::{Call, Kind};
use crate::layout::*;
use crate::waiting::Waited;

#[derive(Clone, Copy)]
pub enum Corner {
    LastRowFlagged,
    DroppedAfter,
    DroppedBefore,
    ContentCut,
    IndexCapped,
    WidthDividesLength,
    BlankExtension,
    NewlineOnlyClears,
    CtrlEnterHeld,
    CtrlEnterJust,
    TabStopped,
    Ends133,
    Ends160,
    Row24Flagged,
    CrLeft,
    CrCleared,
    CrBeforeIgnored,
    CrBeforeInsert,
    SplitUnchecked,
    SplitRefused,
    WaitsBeforeCr,
    WaitsBeforeLf,
    WaitsBeforeCharacter,
    WaitsAtOnce,
    WaitsAfterCr,
    WaitsAfterLineEnd,
    WaitsAfterIgnored,
    AllAtTheLimit,
    AllBelowTheLimit,
    ClearsAtTheLimit,
    CrLeftByWaiting,
    SplitByWaiting,
    LongRefused,
    FullInsert,
    FullExtend,
    FullTypedOver,
    LongTypedOver,
    FullByPadding,
    FullOverRows,
    FullAfterCr,
    LastOfField,
}

use Corner::*;

const NAMES: [(Corner, &str); 41] = [
    (LastRowFlagged, "row E-1 flagged"),
    (DroppedAfter, "splice dropping rows after"),
    (DroppedBefore, "splice dropping rows before"),
    (ContentCut, "content cut at 255"),
    (IndexCapped, "index capped at 255"),
    (WidthDividesLength, "wrap where W divides n"),
    (BlankExtension, "blank extension cleared"),
    (NewlineOnlyClears, "newline that only clears"),
    (CtrlEnterHeld, "ctrl_enter held by length"),
    (CtrlEnterJust, "ctrl_enter at exactly 255"),
    (TabStopped, "tab stopped by a full line"),
    (Ends133, "133 at a row's end, snapshot"),
    (Ends160, "160 at a row's end, snapshot"),
    (Row24Flagged, "row 24 flagged, keys on"),
    (CrLeft, "after 13: a print of no bytes"),
    (CrCleared, "after 13: a call that is no print"),
    (CrBeforeIgnored, "after 13: a print that ends with 7"),
    (CrBeforeInsert, "after 13: a character with insert on"),
    (SplitUnchecked, "after 13: an unchecked print of 10"),
    (SplitRefused, "after 13: a checked print of 10, refused"),
    (WaitsBeforeCr, "waiting before a 13"),
    (WaitsBeforeLf, "waiting before a 10"),
    (WaitsBeforeCharacter, "waiting before a character"),
    (WaitsAtOnce, "waiting before the first byte"),
    (WaitsAfterCr, "waiting with a 13 taken last"),
    (WaitsAfterLineEnd, "waiting with 13 and its 10 taken last"),
    (WaitsAfterIgnored, "waiting with an ignored byte taken last"),
    (AllAtTheLimit, "all taken, as many rows as the limit"),
    (AllBelowTheLimit, "all taken, fewer rows than the limit"),
    (ClearsAtTheLimit, "limit 0, newline that only clears on row E-1"),
    (CrLeftByWaiting, "after 13: a waiting print takes nothing"),
    (SplitByWaiting, "after 13: a waiting print takes a 10"),
    (LongRefused, "a waiting print of too many bytes, refused"),
    (FullInsert, "a full field, nothing inserted"),
    (FullExtend, "a full field, not extended"),
    (FullTypedOver, "a full field typed over"),
    (LongTypedOver, "a line longer than the limit typed over"),
    (FullByPadding, "a field full by padding alone"),
    (FullOverRows, "a full field of several rows"),
    (FullAfterCr, "after 13: nothing typed into a full field"),
    (LastOfField, "the last character that a field takes"),
];

#[derive(Clone)]
pub struct Corners([u64; NAMES.len()]);

// by hand: an array of more than 32 derives none
impl Default for Corners {
    fn default() -> Self {
        Self([0; NAMES.len()])
    }
}

impl Corners {
    /// Counts the corners that an accepted call meets on the record it finds.
    pub fn count(&mut self, call: &Call, rec: &[u8], answer: u32) {
        let mut met = |corner: Corner, is_met: bool| self.0[corner as usize] += is_met as u64;
        match call {
            Call::Snapshot => {
                met(Ends133, some_row_ends_with(rec, 133));
                met(Ends160, some_row_ends_with(rec, 160));
                return;
            }
            Call::TypeChar(_) | Call::TypeLimited(..) | Call::Backspace | Call::DeleteChar | Call::EraseToEnd | Call::Tab => {
                of_typing(call, rec).for_each(|corner| met(corner, true));
            }
            Call::TakeLogicalLine => met(BlankExtension, is_blank_extension(rec)),
            Call::PrintBytes(bytes) | Call::PrintChecked(bytes) => {
                met(NewlineOnlyClears, matches!(bytes.first(), Some(10 | 13)) && newline_only_clears(rec));
            }
            Call::CtrlEnter => {
                let joined = joined_length(rec);
                met(CtrlEnterHeld, joined > Some(LINE));
                met(CtrlEnterJust, joined == Some(LINE));
            }
            Call::PrintWaiting(bytes, rows) => of_waiting(bytes, *rows, rec, answer).for_each(|corner| met(corner, true)),
            _ => {}
        }
        met(LastRowFlagged, flagged(rec, editable(rec) - 1));
        met(Row24Flagged, rec[KEYS_AT] == 1 && flagged(rec, 24));
        if let Some(corner) = after_cr(call, rec) {
            met(corner, true);
        }
    }

    /// Counts the corner that a refused call is.
    pub fn count_refused(&mut self, number: u32) {
        self.0[SplitRefused as usize] += (number == 13) as u64;
        self.0[LongRefused as usize] += (number == 7) as u64;
    }

    pub fn add(&mut self, other: &Corners) {
        self.0.iter_mut().zip(other.0).for_each(|(sum, n)| *sum += n);
    }

    /// Each corner's name and count.
    pub fn named(&self) -> impl Iterator<Item = (&'static str, u64)> + '_ {
        NAMES.iter().map(|&(corner, name)| (name, self.0[corner as usize]))
    }
}

/// What an accepted changing call is to a record on which a print ended with 13.
fn after_cr(call: &Call, rec: &[u8]) -> Option<Corner> {
    match call {
        _ if !ended_in_cr(rec) || call.kind() != Kind::Changing => None,
        Call::PrintBytes(bytes) | Call::PrintChecked(bytes) if bytes.is_empty() => Some(CrLeft),
        Call::PrintBytes(bytes) if bytes[0] == 10 => Some(SplitUnchecked),
        Call::PrintBytes(bytes) | Call::PrintChecked(bytes) => bytes.ends_with(&[7]).then_some(CrBeforeIgnored),
        Call::PrintWaiting(..) => None,
        Call::TypeChar(_) | Call::TypeLimited(..) if inserting(rec) => Some(CrBeforeInsert),
        _ => Some(CrCleared),
    }
}

/// What an accepted waiting print is, by what it was given, found and answered.
fn of_waiting(bytes: &[u8], rows: u32, rec: &[u8], answer: u32) -> impl Iterator<Item = Corner> {
    let waited = Waited::of_answer(answer);
    let (taken, left) = bytes.split_at(waited.taken);
    let (next, waits, at_limit) = (left.first().copied(), !left.is_empty(), waited.scrolled == rows);
    let begins_with_newline = matches!(taken.first(), Some(10 | 13));
    let on_last_row = cursor(rec).0 + 1 == editable(rec);
    let corners = [
        (WaitsBeforeCr, next == Some(13)),
        (WaitsBeforeLf, next == Some(10)),
        (WaitsBeforeCharacter, next.is_some_and(|b| b == 27 || b >= 32)),
        (WaitsAtOnce, waits && taken.is_empty()),
        (WaitsAfterCr, waits && taken.ends_with(&[13])),
        (WaitsAfterLineEnd, waits && taken.ends_with(&[13, 10])),
        (WaitsAfterIgnored, waits && taken.ends_with(&[7])),
        (AllAtTheLimit, !waits && at_limit && rows > 0),
        (AllBelowTheLimit, !waits && !at_limit && waited.scrolled > 0),
        (ClearsAtTheLimit, rows == 0 && begins_with_newline && on_last_row && newline_only_clears(rec)),
        (CrLeftByWaiting, ended_in_cr(rec) && taken.is_empty()),
        (SplitByWaiting, ended_in_cr(rec) && taken.first() == Some(&10)),
    ];
    corners.into_iter().filter(|&(_, met)| met).map(|(corner, _)| corner)
}

/// The span of a row, as its first and last row.
fn span(rec: &[u8], row: usize) -> (usize, usize) {
    let start = (0..row).rev().take_while(|&r| flagged(rec, r)).last().unwrap_or(row);
    let end = (row..editable(rec) - 1).find(|&r| !flagged(rec, r)).unwrap_or(editable(rec) - 1);
    (start, end)
}

fn without_trailing_spaces(text: &[u8]) -> usize {
    text.iter().rposition(|&b| b != b' ').map_or(0, |at| at + 1)
}

fn is_blank(rec: &[u8], row: usize) -> bool {
    without_trailing_spaces(text(rec, row)) == 0
}

/// The editing content of the line under the cursor, as far as lengths go.
struct Line {
    start: usize,
    end: usize,
    /// The length before the cut at 255, and the index before it is capped.
    uncut: usize,
    uncapped: usize,
    /// n and i of document 01.
    length: usize,
    index: usize,
}

struct Splice {
    dropped_after: usize,
    dropped_before: usize,
    width_divides: bool,
}

impl Line {
    fn at_cursor(rec: &[u8]) -> Self {
        let (row, col) = cursor(rec);
        let (start, end) = span(rec, row);
        let mut last = without_trailing_spaces(text(rec, end));
        if row == end {
            last = last.max(col);
        }
        let uncut = (end - start) * width(rec) + last;
        let uncapped = (row - start) * width(rec) + col;
        let index = uncapped.min(LINE);
        Self { start, end, uncut, uncapped, length: uncut.min(LINE).max(index), index }
    }

    /// Whether a character that is typed stands in the place of another.
    fn typed_over(&self, rec: &[u8]) -> bool {
        !inserting(rec) && self.index < self.length
    }

    /// The splice that the call makes first, if it makes one.
    fn splice(&self, call: &Call, rec: &[u8]) -> Option<Splice> {
        let (n, i) = (self.length, self.index);
        match call {
            Call::Tab if !inserting(rec) => None,
            Call::TypeChar(_) | Call::TypeLimited(..) | Call::Tab => {
                let (limit, over) = (typed_up_to(call)?, self.typed_over(rec));
                (over || n < limit).then(|| self.spliced(n + !over as usize, i + 1, rec))
            }
            Call::Backspace if cursor(rec).1 > 0 => Some(self.spliced(n - 1, i - 1, rec)),
            Call::Backspace | Call::DeleteChar if i < n => Some(self.spliced(n - 1, i, rec)),
            Call::EraseToEnd => Some(self.spliced(i, i, rec)),
            _ => None,
        }
    }

    /// What limited typing of a character is to the line.
    fn of_limited(&self, limit: usize, rec: &[u8]) -> impl Iterator<Item = Corner> {
        let (n, over) = (self.length, self.typed_over(rec));
        let held = n >= limit && !over;
        let corners = [
            (FullInsert, held && inserting(rec)),
            (FullExtend, held && !inserting(rec)),
            (FullTypedOver, over && n == limit),
            (LongTypedOver, over && n > limit),
            (FullByPadding, held && reading_length(rec, self.start, self.end) < limit),
            (FullOverRows, held && limit > width(rec)),
            (FullAfterCr, held && ended_in_cr(rec)),
            (LastOfField, !over && n + 1 == limit),
        ];
        corners.into_iter().filter(|&(_, met)| met).map(|(corner, _)| corner)
    }

    fn spliced(&self, length: usize, index: usize, rec: &[u8]) -> Splice {
        let w = width(rec);
        let width_divides = length > 0 && index == length && length % w == 0;
        let rows = length.div_ceil(w).max(1) + width_divides as usize;
        let after = editable(rec) - 1 - self.end;
        let excess = (self.start + rows + after).saturating_sub(editable(rec));
        Splice { dropped_after: excess.min(after), dropped_before: excess.saturating_sub(after), width_divides }
    }
}

/// What a key that types or erases meets.
fn of_typing(call: &Call, rec: &[u8]) -> impl Iterator<Item = Corner> {
    let line = Line::at_cursor(rec);
    let splice = line.splice(call, rec);
    let spliced = |is: fn(&Splice) -> bool| splice.as_ref().is_some_and(is);
    let tab = *call == Call::Tab && inserting(rec);
    let corners = [
        (ContentCut, line.uncut > LINE),
        (IndexCapped, line.uncapped > LINE),
        (DroppedAfter, spliced(|splice| splice.dropped_after > 0)),
        (DroppedBefore, spliced(|splice| splice.dropped_before > 0)),
        (WidthDividesLength, spliced(|splice| splice.width_divides)),
        (TabStopped, tab && line.length + (8 - cursor(rec).1 % 8) > LINE),
    ];
    // at 255 a line is full by the old rule
    let limited = typed_up_to(call).filter(|&limit| limit < LINE).map(|limit| line.of_limited(limit, rec));
    corners.into_iter().filter(|&(_, met)| met).map(|(corner, _)| corner).chain(limited.into_iter().flatten())
}

/// How long a line the call lets grow by typing; nothing, if it types no character that is shown.
fn typed_up_to(call: &Call) -> Option<usize> {
    let shown = |ch: u32| ch == 27 || ch >= 32;
    match *call {
        Call::TypeChar(ch) => shown(ch).then_some(LINE),
        Call::TypeLimited(ch, limit) => shown(ch).then_some(limit as usize),
        Call::Tab => Some(LINE),
        _ => None,
    }
}

fn is_blank_extension(rec: &[u8]) -> bool {
    let (row, col) = cursor(rec);
    let (start, end) = span(rec, row);
    end > start && row == end && col == 0 && is_blank(rec, end)
}

fn newline_only_clears(rec: &[u8]) -> bool {
    let (row, col) = cursor(rec);
    col == 0 && row > 0 && flagged(rec, row - 1) && is_blank(rec, row)
}

/// What `ctrl_enter` compares with 255: rows to here × W + the next line's read length. Only on a span's last row, and not on row E-1.
fn joined_length(rec: &[u8]) -> Option<usize> {
    let row = cursor(rec).0;
    let (start, end) = span(rec, row);
    if row != end || row + 1 == editable(rec) {
        return None;
    }
    let next_end = span(rec, end + 1).1;
    Some((row - start + 1) * width(rec) + reading_length(rec, end + 1, next_end))
}

fn reading_length(rec: &[u8], start: usize, end: usize) -> usize {
    let mut whole: Vec<u8> = (start..=end).flat_map(|row| text(rec, row)).copied().collect();
    whole.truncate((end - start) * width(rec) + without_trailing_spaces(text(rec, end)));
    whole.truncate(LINE);
    without_trailing_spaces(&whole)
}

fn some_row_ends_with(rec: &[u8], byte: u8) -> bool {
    (0..editable(rec)).any(|row| {
        let text = text(rec, row);
        text[..without_trailing_spaces(text)].last() == Some(&byte)
    })
}
