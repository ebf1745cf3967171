//! Arrivals one by one: all sorts of bytes at all sorts of mirrors. What must be refused and what is left is `reports`' to say.
use crate::call::Call;
use crate::counts::Counts;
use crate::judge::{refused, Outcome};
use crate::layout::*;
use crate::oracle;
use crate::refusals::sample;
use crate::reports::{self, Count, Kind, ALL_ROWS, KINDS, MIRROR, RECORD_AT, REPORT};
use crate::trial::{self, filler, Lent};
use futonrobin::ffi;

/// What accepted and refused arrivals are counted as.
pub const ARRIVALS: &str = "arrivals";

/// One arrival at a copy of a mirror, compared with what the documents say of these bytes.
fn attempt(mir: &[u8], report: &[u8], counts: &mut Counts) -> Result<Outcome, String> {
    let want = reports::arrival(mir, report);
    let (mut lent, lent_report) = (Lent::new(mir), Lent::new(report));
    let answer = ffi::mirror_arrive(lent.bytes_mut(), lent_report.bytes());
    counts.add(ARRIVALS, 1);
    counts.add(if answer > refused(0) { "refused" } else { "accepted" }, 1);
    trial::compare(answer, &lent, &lent_report, &want)?;
    Ok(want)
}

/// A record as a mirror holds it, unlike the sample of that width in its head, in every flag and in the cells of every row.
fn unlike(width: u32) -> Vec<u8> {
    let mut rec = sample(width);
    set_touched(&mut rec, 0);
    (rec[ROW_AT], rec[COLUMN_AT], rec[ATTR_AT]) = (9, 17, 0x74);
    rec[BITS_AT] ^= ALL_BITS;
    rec[KEYS_AT] ^= 1;
    for row in 0..ROWS {
        let other = 1 - flag(&rec, row);
        set_flag(&mut rec, row, other);
        chars_mut(&mut rec, row)[..width as usize].fill(b'#');
        attrs_mut(&mut rec, row)[..width as usize].fill(0x61);
    }
    rec
}

/// A record, and a mirror that is one call behind it and has heard of a later one of the same sitting.
fn one_behind(width: u32) -> (Vec<u8>, Vec<u8>) {
    let (rec, mut shown) = (sample(width), unlike(width));
    let Pair { sitting, serial } = pair(&rec);
    set_serial(&mut shown, serial - 1);
    (rec, reports::mirror(Pair { sitting, serial: serial + 2 }, &shown))
}

// ---- what is refused

/// Each byte of a step report and of a full one set to each of its 255 other values.
pub fn every_byte_of_reports(counts: &mut Counts) -> Result<(), String> {
    for width in [80, 40] {
        let (rec, mir) = one_behind(width);
        for kind in KINDS {
            let mut report = reports::made(kind, &rec);
            assert!(report.len() > reports::FRONT && reports::refusal(&mir, &report).is_none());
            every_value(&mut report, |report| attempt(&mir, report, counts))
                .map_err(|found| format!("width {width}, {kind:?} report, {found}"))?;
        }
    }
    Ok(())
}

/// Each byte of a mirror set to each of its 255 other values; a step and a full report arrive by turns.
pub fn every_byte_of_mirrors(counts: &mut Counts) -> Result<(), String> {
    for width in [80, 40] {
        let (rec, mut mir) = one_behind(width);
        let both = KINDS.map(|kind| reports::made(kind, &rec));
        let mut turn = 0;
        every_value(&mut mir, |mir| {
            turn += 1;
            attempt(mir, &both[turn % 2], counts)
        })
        .map_err(|found| format!("width {width}, mirror, {found}"))?;
    }
    Ok(())
}

fn every_value(bytes: &mut [u8], mut attempt: impl FnMut(&[u8]) -> Result<Outcome, String>) -> Result<(), String> {
    for at in 0..bytes.len() {
        let kept = bytes[at];
        for value in (0..=255).filter(|&value| value != kept) {
            bytes[at] = value;
            attempt(bytes).map_err(|difference| format!("byte {at} set to {value}: {difference}"))?;
        }
        bytes[at] = kept;
    }
    Ok(())
}

/// Every length of a report from 0 to 4,100, as it stands and with its length field made to fit; every length around a mirror's.
pub fn every_length(counts: &mut Counts) -> Result<(), String> {
    for width in [80, 40] {
        let (rec, mir) = one_behind(width);
        let long = [&mir[..], &mir[..]].concat();
        for report in KINDS.map(|kind| reports::made(kind, &rec)) {
            for length in 0..=4100 {
                let mut other = report.clone();
                other.resize(length, 0);
                attempt(&mir, &other, counts).map_err(|difference| format!("a report of {length} bytes: {difference}"))?;
                reports::resize(&mut other, length, 0);
                attempt(&mir, &other, counts).map_err(|difference| format!("a report of {length} bytes, as it says: {difference}"))?;
            }
            for length in (0..60).chain(MIRROR - 30..MIRROR + 30).chain([2 * MIRROR]) {
                attempt(&long[..length], &report, counts).map_err(|difference| format!("a mirror of {length} bytes: {difference}"))?;
            }
        }
    }
    Ok(())
}

/// New mirrors, on buffers of every length around a mirror's.
pub fn new_mirrors(counts: &mut Counts) -> Result<(), String> {
    for length in (0..60).chain(MIRROR - 30..MIRROR + 30) {
        for width in [40, 80, 0, 41, 296, u32::MAX] {
            for sitting in SITTINGS {
                new_mirror(width, sitting, length)
                    .map_err(|difference| format!("mirror_new({width}, {sitting}) on {length} bytes: {difference}"))?;
                counts.add("new mirrors", 1);
            }
        }
    }
    Ok(())
}

fn new_mirror(width: u32, sitting: u32, length: usize) -> Result<(), String> {
    let old = filler(length, width as usize);
    let want = match length {
        MIRROR => Outcome { answer: 0, rec: reports::new_mirror(&oracle::new_record(width, sitting)), out: Vec::new() },
        _ => Outcome { answer: refused(1), rec: old.clone(), out: Vec::new() },
    };
    let mut lent = Lent::new(&old);
    let answer = ffi::mirror_new(lent.bytes_mut(), width, sitting);
    trial::compare(answer, &lent, &Lent::new(&[]), &want)
}

/// Version 1: a mirror of it is refusal 1; one of today's length that says version 1, or whose record does, is 2; a report of it, or one that
/// says so, is 5.
pub fn version_1(counts: &mut Counts) -> Result<(), String> {
    let (rec, mir) = one_behind(80);
    let mut inside = mir.clone();
    inside[RECORD_AT + VERSION_AT] = 1;
    for report in KINDS.map(|kind| reports::made(kind, &rec)) {
        for (mir, report, number) in [
            (reports::mirror_as_version_1(&mir), report.clone(), 1),
            (says_version_1(mir.clone()), report.clone(), 2),
            (inside.clone(), report.clone(), 2),
            (mir.clone(), reports::report_as_version_1(&report), 5),
            (mir.clone(), says_version_1(report), 5),
        ] {
            let want = attempt(&mir, &report, counts)
                .map_err(|found| format!("a mirror of {}, a report of {}: {found}", mir.len(), report.len()))?;
            assert_eq!(want.answer, refused(number), "version 1 is refused");
        }
    }
    Ok(())
}

/// Ways to break a mirror's layout, and none.
fn broken_mirrors() -> [fn(&mut Vec<u8>); 5] {
    [
        |_| {},
        |mir| mir[VERSION_AT] = 1,
        |mir| mir[VERSION_AT] = 3,
        // what is shown is later than the newest: in its sitting, and by its sitting
        |mir| *mir = reports::mirror(Pair { serial: 0, ..pair(&mir[RECORD_AT..]) }, &mir[RECORD_AT..]),
        |mir| *mir = reports::mirror(Pair { sitting: 0, serial: LAST_SERIAL }, &mir[RECORD_AT..]),
    ]
}

/// Faults of every number together, in every combination: the order of an arrival's refusals. The step is the next one of the shown sitting, or
/// has that serial in another, where its width is no fault.
pub fn order(counts: &mut Counts) -> Result<(), String> {
    let (mut narrow, valid) = (sample(40), one_behind(80).1);
    let shown = pair(&valid[RECORD_AT..]);
    for sitting in [shown.sitting, shown.sitting + 1] {
        set_pair(&mut narrow, Pair { sitting, serial: shown.serial + 1 });
        for (way, broken) in broken_mirrors().into_iter().enumerate() {
            for (length, version, mask) in faults_beside() {
                let (mut mir, mut report) = (valid.clone(), reports::of_rows(Kind::Step, mask, &narrow));
                broken(&mut mir);
                mir.resize(length, 0);
                report[VERSION_AT] = version;
                attempt(&mir, &report, counts).map_err(|found| {
                    format!("mirror of {length}, broken in way {way}, report of version {version}, mask {mask:#x}: {found}")
                })?;
            }
        }
    }
    Ok(())
}

/// The mirror's length, the report's version, and its rows.
fn faults_beside() -> impl Iterator<Item = (usize, u8, u32)> {
    let of_report = [(VERSION, ALL_ROWS), (VERSION, ALL_ROWS - 1), (1, ALL_ROWS), (1, ALL_ROWS - 1), (3, ALL_ROWS - 1)];
    [MIRROR, MIRROR - 1, MIRROR + 1, 0].into_iter().flat_map(move |length| of_report.map(|(version, mask)| (length, version, mask)))
}

// ---- what is applied

const SERIALS: [u32; 16] = [
    0,
    1,
    2,
    254,
    255,
    256,
    257,
    65_535,
    65_536,
    (1 << 24) - 1,
    1 << 24,
    (1 << 31) - 1,
    1 << 31,
    LAST_SERIAL - 2,
    LAST_SERIAL - 1,
    LAST_SERIAL,
];

/// Reports of telling serials, the last one among them, made through the archive, at mirrors of telling serials in the same sitting; both
/// widths at each end, with all rows, with none, and with each row missing.
pub fn serials_and_widths(counts: &mut Counts) -> Result<(), String> {
    let masks = [ALL_ROWS, 0, 0x5a5a5a].into_iter().chain((0..ROWS).map(|row| ALL_ROWS & !(1 << row)));
    for (mut rec, shown) in [(80, 80), (80, 40), (40, 80), (40, 40)].map(|(of, at)| (sample(of), unlike(at))) {
        let pairs = SERIALS.map(|serial| Pair { serial, ..pair(&shown) });
        for of in pairs {
            set_pair(&mut rec, of);
            for mask in masks.clone() {
                set_touched(&mut rec, mask);
                for kind in if mask == 0 { &KINDS[..] } else { &KINDS[..1] } {
                    at_mirrors(*kind, &rec, &shown, &pairs, counts).map_err(|found| format!("mask {mask:#x}: {found}"))?;
                }
            }
        }
    }
    Ok(())
}

/// Numbers that a wrong order of their bytes would sort otherwise, and neighbours: from the last serial of one sitting nothing leads to the next.
const SITTINGS: [u32; 7] = [0, 1, 255, 256, 65_536, 1 << 31, u32::MAX];

/// With next ones among them, and the last, which has none.
const SERIALS_IN_EACH: [u32; 6] = [0, 1, 255, 256, LAST_SERIAL - 1, LAST_SERIAL];

/// Reports of telling pairs at mirrors of telling pairs: full ones; and steps at their own width, and at the other one with all rows and with
/// one missing, so that a step which is applied, counted or refused is seen to be that.
pub fn pairs(counts: &mut Counts) -> Result<(), String> {
    let pairs: Vec<Pair> = SITTINGS.into_iter().flat_map(|sitting| SERIALS_IN_EACH.map(|serial| Pair { sitting, serial })).collect();
    let mut rec = sample(80);
    for (kind, width, mask) in [(Kind::Full, 40, 0), (Kind::Step, 80, 0x5a5a5a), (Kind::Step, 40, ALL_ROWS), (Kind::Step, 40, ALL_ROWS - 1)]
    {
        let shown = unlike(width);
        set_touched(&mut rec, mask);
        for &of in &pairs {
            set_pair(&mut rec, of);
            at_mirrors(kind, &rec, &shown, &pairs, counts).map_err(|found| format!("at width {width}, mask {mask:#x}: {found}"))?;
        }
    }
    Ok(())
}

/// The report of a record arrives at a mirror that shows another, with each of these pairs as the shown and as the newest one.
fn at_mirrors(kind: Kind, rec: &[u8], shown: &[u8], pairs: &[Pair], counts: &mut Counts) -> Result<(), String> {
    let report = from_archive(kind, rec)?;
    let mut shown = shown.to_vec();
    for &of_shown in pairs {
        set_pair(&mut shown, of_shown);
        for &newest in pairs {
            attempt(&reports::mirror(newest, &shown), &report, counts).map_err(|found| {
                format!("{kind:?} report of {:?} at a mirror that shows {of_shown:?}, newest {newest:?}: {found}", pair(rec))
            })?;
        }
    }
    Ok(())
}

fn from_archive(kind: Kind, rec: &[u8]) -> Result<Vec<u8>, String> {
    let want = trial::single(&Call::report(kind), rec, &filler(REPORT, 1))?;
    let mut out = vec![0; REPORT];
    let length = Call::report(kind).make(&mut rec.to_vec(), &mut out) as usize;
    out.truncate(length);
    assert!(out == want.out[..length], "the same call answers the same");
    Ok(out)
}

// ---- examples

/// The reports of a screen on which these characters are typed: the step of each, and last a full one.
fn reports_of(width: u32, sitting: u32, typed: &[u8]) -> Result<Vec<Vec<u8>>, String> {
    let mut rec = vec![0; SIZE];
    ffi::screen_new(&mut rec, width, sitting);
    let mut made = Vec::new();
    for &ch in typed {
        ffi::screen_type_char(&mut rec, ch as u32);
        made.push(from_archive(Kind::Step, &rec)?);
    }
    made.push(from_archive(Kind::Full, &rec)?);
    Ok(made)
}

/// A report that arrives; the sitting and serial that are then shown; those that are then the newest.
type Arrival<'a> = (&'a [u8], (u32, u32), (u32, u32));

/// Reports arrive one after the other at a mirror that is new with this width and sitting.
fn play(width: u32, sitting: u32, story: &[Arrival], counts: &mut Counts) -> Result<(), String> {
    let mut mir = vec![0; MIRROR];
    ffi::mirror_new(&mut mir, width, sitting);
    for (number, (report, shown, newest)) in (1..).zip(story) {
        attempt(&mir, report, counts)?;
        ffi::mirror_arrive(&mut mir, report);
        let [shown, newest] = [shown, newest].map(|&(sitting, serial)| Pair { sitting, serial });
        let (got, wanted) = (reports::count(&mir), Count { shown, newest });
        if got != wanted {
            return Err(format!("after arrival {number} there is {got:?}, wanted is {wanted:?}"));
        }
    }
    Ok(())
}

/// Document 01's example: steps 1, 3, 2, 3 arrive.
pub fn example(counts: &mut Counts) -> Result<(), String> {
    let of = reports_of(80, 0, b"ABC")?;
    let story: [Arrival; 4] = [(&of[0], (0, 1), (0, 1)), (&of[2], (0, 1), (0, 3)), (&of[1], (0, 2), (0, 3)), (&of[2], (0, 3), (0, 3))];
    play(80, 0, &story, counts)
}

/// A terminal restarts twice: sitting 5, then 9, then, though numbers should grow, 7.
pub fn restarts(counts: &mut Counts) -> Result<(), String> {
    let (first, second, third) = (reports_of(40, 5, b"ABCDE")?, reports_of(80, 9, b"XY")?, reports_of(40, 7, b"UVW")?);
    let story: [Arrival; 10] = [
        (&first[0], (5, 1), (5, 1)),
        // a step of another sitting only counts, though its serial would be the next
        (&second[1], (5, 1), (9, 2)),
        // the shown sitting goes on
        (&first[1], (5, 2), (9, 2)),
        (&third[2], (5, 2), (9, 2)),
        // a full report of a later sitting is applied, though one of a still later one was heard of
        (&third[3], (7, 3), (9, 2)),
        (&second[2], (9, 2), (9, 2)),
        // what comes of earlier sittings is old, whatever its serial
        (&first[2], (9, 2), (9, 2)),
        (&first[5], (9, 2), (9, 2)),
        (&third[3], (9, 2), (9, 2)),
        (&second[0], (9, 2), (9, 2)),
    ];
    play(40, 5, &story, counts)
}
