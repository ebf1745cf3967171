//! Reports and mirrors of document 01, "Reports and mirror", with the sittings of document 02, (c): where each field stands, which arrivals are
//! refused, and what the others do. All of it is written from the documents. The only file here that knows the two layouts.
use crate::judge::{self, refused, Outcome};
use crate::layout::*;

#[derive(Clone, Copy, PartialEq, Debug)]
pub enum Kind {
    Step = 1,
    Full = 2,
}

pub const KINDS: [Kind; 2] = [Kind::Step, Kind::Full];

// Length and version stand where a record has them.
const KIND_AT: usize = 3;
const REPORT_SERIAL_AT: usize = 4;
const REPORT_SITTING_AT: usize = 8;
const MASK_AT: usize = 12;
const HEAD_AT: usize = 16;
pub const FRONT: usize = 22;
const ROW: usize = 161;
pub const ALL_ROWS: u32 = 33_554_431;

/// The longest report, and the shortest output for one.
pub const REPORT: usize = 4047;

pub const MIRROR: usize = 4057;
const NEWEST_AT: usize = 3;
const NEWEST_SITTING_AT: usize = 7;
/// From here on a mirror is a record.
pub const RECORD_AT: usize = 11;

/// The rows of a mask, lowest first.
fn rows(mask: u32) -> impl Iterator<Item = usize> {
    (0..ROWS).filter(move |row| mask >> row & 1 == 1)
}

/// The report of a record.
pub fn made(kind: Kind, rec: &[u8]) -> Vec<u8> {
    let mask = if kind == Kind::Full { ALL_ROWS } else { touched(rec) };
    of_rows(kind, mask, rec)
}

/// A report that carries these rows of a record.
pub fn of_rows(kind: Kind, mask: u32, rec: &[u8]) -> Vec<u8> {
    let mut report = vec![0; FRONT + ROW * rows(mask).count()];
    let length = report.len();
    set_length(&mut report, length);
    report[VERSION_AT] = VERSION;
    report[KIND_AT] = kind as u8;
    set_number(&mut report, REPORT_SERIAL_AT, serial(rec));
    set_number(&mut report, REPORT_SITTING_AT, sitting(rec));
    set_number(&mut report, MASK_AT, mask);
    report[HEAD_AT..FRONT].copy_from_slice(&rec[WIDTH_AT..=ATTR_AT]);
    for (part, row) in report[FRONT..].chunks_mut(ROW).zip(rows(mask)) {
        part[0] = flag(rec, row);
        part[1..81].copy_from_slice(chars(rec, row));
        part[81..].copy_from_slice(attrs(rec, row));
    }
    report
}

/// The report as version 1 had it: without a sitting.
pub fn report_as_version_1(report: &[u8]) -> Vec<u8> {
    says_version_1([&report[..REPORT_SITTING_AT], &report[MASK_AT..]].concat())
}

/// The mirror as version 1 had it.
pub fn mirror_as_version_1(mir: &[u8]) -> Vec<u8> {
    says_version_1([&mir[..NEWEST_SITTING_AT], &as_version_1(&mir[RECORD_AT..])].concat())
}

/// Sets the length that a report names, and makes it so long.
pub fn resize(report: &mut Vec<u8>, length: usize, with: u8) {
    report.resize(length, with);
    if length >= LENGTH_AT + 2 {
        set_length(report, length);
    }
}

/// The report from where its bytes 16 to 21 stand as a record's bytes 3 to 8 do.
fn as_record(report: &[u8]) -> &[u8] {
    &report[HEAD_AT - WIDTH_AT..]
}

/// Whether an arriving slice keeps the layout.
pub fn valid_report(report: &[u8]) -> bool {
    if report.len() < FRONT {
        return false;
    }
    let mask = number(report, MASK_AT);
    length_field(report) == report.len()
        && report[VERSION_AT] == VERSION
        && (report[KIND_AT] == 1 || report[KIND_AT] == 2 && mask == ALL_ROWS)
        && mask < 1 << 25
        && report.len() == FRONT + ROW * rows(mask).count()
        && judge::valid_head(as_record(report))
        && report[FRONT..].chunks(ROW).all(|part| judge::valid_cells(width(as_record(report)), part[0], &part[1..81], &part[81..]))
}

/// The pair of a report of whatever length a report has.
fn pair_of(report: &[u8]) -> Pair {
    Pair { sitting: number(report, REPORT_SITTING_AT), serial: number(report, REPORT_SERIAL_AT) }
}

fn newest(mir: &[u8]) -> Pair {
    Pair { sitting: number(mir, NEWEST_SITTING_AT), serial: number(mir, NEWEST_AT) }
}

fn set_newest(mir: &mut [u8], newest: Pair) {
    set_number(mir, NEWEST_SITTING_AT, newest.sitting);
    set_number(mir, NEWEST_AT, newest.serial);
}

/// The mirror that shows a record and has this newest pair.
pub fn mirror(newest: Pair, rec: &[u8]) -> Vec<u8> {
    let mut mir = vec![0; RECORD_AT];
    mir.extend(rec);
    set_length(&mut mir, MIRROR);
    mir[VERSION_AT] = VERSION;
    set_newest(&mut mir, newest);
    mir
}

/// The mirror that is new with the screen of this record.
pub fn new_mirror(rec: &[u8]) -> Vec<u8> {
    mirror(pair(rec), rec)
}

/// What a mirror's byte at `at` is, in words, for a message.
pub fn name(at: usize) -> String {
    match at.checked_sub(RECORD_AT) {
        Some(at) => crate::layout::name(at),
        None if at < NEWEST_AT => "length and version".into(),
        None if at < NEWEST_SITTING_AT => "newest serial".into(),
        None => "newest sitting".into(),
    }
}

/// The layout of a mirror of the right length.
pub fn valid_mirror(mir: &[u8]) -> bool {
    let rec = &mir[RECORD_AT..];
    let front = length_field(mir) == MIRROR && mir[VERSION_AT] == VERSION;
    front && judge::valid(rec) && touched(rec) == 0 && pair(rec) <= newest(mir)
}

/// The pair that a mirror shows and the newest one, counted from the kinds and pairs of the reports that arrived and from nothing else.
#[derive(Clone, Copy, PartialEq, Debug)]
pub struct Count {
    pub shown: Pair,
    pub newest: Pair,
}

impl Count {
    /// It begins at the first sitting's number and serial 0.
    pub fn new(sitting: u32) -> Self {
        let first = Pair { sitting, serial: 0 };
        Self { shown: first, newest: first }
    }

    /// Whether a report of this kind and pair is applied. After the last serial there is no next one.
    fn due(&self, kind: Kind, pair: Pair) -> bool {
        match kind {
            Kind::Step => pair.sitting == self.shown.sitting && self.shown.serial.checked_add(1) == Some(pair.serial),
            Kind::Full => pair > self.shown,
        }
    }

    /// An accepted report arrives. Answers whether it is applied.
    pub fn arrive(&mut self, kind: Kind, pair: Pair) -> bool {
        let due = self.due(kind, pair);
        if due {
            self.shown = pair;
        }
        self.newest = self.newest.max(pair);
        due
    }

    pub fn level(&self) -> bool {
        self.shown == self.newest
    }
}

/// What the mirror itself says.
pub fn count(mir: &[u8]) -> Count {
    Count { shown: pair(&mir[RECORD_AT..]), newest: newest(mir) }
}

fn kind(report: &[u8]) -> Kind {
    if report[KIND_AT] == 1 {
        Kind::Step
    } else {
        Kind::Full
    }
}

/// The first refusal of an arrival that applies, in the documents' order.
pub fn refusal(mir: &[u8], report: &[u8]) -> Option<u32> {
    if mir.len() != MIRROR {
        Some(1)
    } else if !valid_mirror(mir) {
        Some(2)
    } else if !valid_report(report) {
        Some(5)
    } else if changes_width_in_part(mir, report) {
        Some(6)
    } else {
        None
    }
}

/// A step that would be applied changes the width without carrying all 25 rows.
fn changes_width_in_part(mir: &[u8], report: &[u8]) -> bool {
    let due = kind(report) == Kind::Step && count(mir).due(Kind::Step, pair_of(report));
    due && width(as_record(report)) != width(&mir[RECORD_AT..]) && number(report, MASK_AT) != ALL_ROWS
}

/// The number that an arrival answers and the mirror that it leaves, for all lent bytes. The outcome's output is the report, which stays.
pub fn arrival(mir: &[u8], report: &[u8]) -> Outcome {
    let mut after = mir.to_vec();
    let answer = match refusal(mir, report) {
        Some(k) => refused(k),
        None => {
            let mut count = count(mir);
            if count.arrive(kind(report), pair_of(report)) {
                apply(report, &mut after[RECORD_AT..]);
                set_pair(&mut after[RECORD_AT..], count.shown);
            }
            set_newest(&mut after, count.newest);
            count.level() as u32
        }
    };
    Outcome { answer, rec: after, out: report.to_vec() }
}

/// The record takes the report's bytes 16 to 21 and its rows.
fn apply(report: &[u8], rec: &mut [u8]) {
    rec[WIDTH_AT..=ATTR_AT].copy_from_slice(&report[HEAD_AT..FRONT]);
    for (part, row) in report[FRONT..].chunks(ROW).zip(rows(number(report, MASK_AT))) {
        set_flag(rec, row, part[0]);
        chars_mut(rec, row).copy_from_slice(&part[1..81]);
        attrs_mut(rec, row).copy_from_slice(&part[81..]);
    }
}
