//! Refusals: what is refused, with which number, in which order, and that nothing is written then.
use crate::call::{self, Call, Kind};
use crate::judge;
use crate::layout::*;
use crate::oracle::{self, TextScreen};
use crate::random::runner;
use crate::reports::REPORT;
use crate::tally::Tally;
use crate::trial::{self, filler};
use crate::waiting::{LONGEST_INPUT, MOST_ROWS};
use proptest::prelude::RngCore;
use proptest::test_runner::TestRng;

/// The samples' sitting: four bytes that differ from each other, none of them at an end.
const SITTING: u32 = 0x4d20_9b07;

/// A valid record with text, flags, colours, a serial, a sitting and touched rows; at width 40 a print has ended with 13.
pub fn sample(width: u32) -> Vec<u8> {
    let mut screen = oracle::screen::Screen::new(width as usize);
    let mut rec = oracle::new_record(width, SITTING);
    let last = if width == 40 { Call::PrintChecked(b"Q\r".to_vec()) } else { Call::TypeChar(b'Q' as u32) };
    let calls = [
        Call::SetAttr(0x2b),
        Call::PrintBytes(b"10 PRINT \"WARD 7\"\r\n20 GOTO 10\r\n".to_vec()),
        Call::PrintBytes(vec![b'L'; 300]),
        Call::SetKeysOn((width == 80) as u32),
        Call::SetCursor(3, 11),
        last,
    ];
    for call in calls {
        screen.change(&call);
        rec = oracle::record_after(&rec, &call, &screen);
    }
    rec
}

fn attempt(call: &Call, rec: &[u8], out: &[u8], tally: &mut Tally) -> Result<(), String> {
    let want = trial::single(call, rec, out).map_err(|difference| format!("{call}: {difference}"))?;
    tally.count(call, rec, want.answer);
    Ok(())
}

/// Each byte of a valid record set to each of its 255 other values, for one call of each kind that reads the record.
pub fn every_byte(tally: &mut Tally) -> Result<(), String> {
    let calls = [Call::TypeChar(b'K' as u32), Call::Width, Call::LogicalText, Call::ReportStep];
    for width in [80, 40] {
        let mut rec = sample(width);
        for at in 0..SIZE {
            let kept = rec[at];
            for value in (0..=255).filter(|&value| value != kept) {
                rec[at] = value;
                tally.starts += 1;
                for call in &calls {
                    attempt(call, &rec, &filler(call.room(), at), tally)
                        .map_err(|found| format!("width {width}, byte {at} ({}) set to {value}: {found}", name(at)))?;
                }
            }
            rec[at] = kept;
        }
    }
    Ok(())
}

/// Every value of the byte that has two bits, for one call of every name, and for the prints with every first byte of their input and with none.
pub fn bits(tally: &mut Tally) -> Result<(), String> {
    let inputs = || (0..=255).map(|first| vec![first, b'A']).chain([vec![], vec![10], vec![10, 10]]);
    let prints =
        inputs().flat_map(|bytes| [Call::PrintBytes(bytes.clone()), Call::PrintChecked(bytes.clone()), Call::PrintWaiting(bytes, 0)]);
    let calls: Vec<_> = call::one_of_each().into_iter().chain(prints).collect();
    for width in [80, 40] {
        let mut rec = sample(width);
        for value in 0..=255 {
            rec[BITS_AT] = value;
            tally.starts += 1;
            for call in &calls {
                attempt(call, &rec, &filler(call.room(), value as usize), tally)
                    .map_err(|found| format!("width {width}, byte {BITS_AT} set to {value}: {found}"))?;
            }
        }
    }
    Ok(())
}

/// Random damages, 10,000 for each call: one to three bytes set to random values, every second one before the cells.
pub fn random_damage(seed: u64, tally: &mut Tally) -> Result<(), String> {
    let mut random = runner(seed, 1).new_rng();
    let samples = [sample(80), sample(40)];
    for call in call::one_of_each() {
        for turn in 0..10_000 {
            let mut rec = samples[turn % 2].clone();
            let damaged = damage(&mut rec, &mut random);
            tally.starts += 1;
            attempt(&call, &rec, &filler(call.room() + turn % 3, turn), tally)
                .map_err(|found| format!("seed {seed}, bytes set {damaged:?}: {found}"))?;
        }
    }
    Ok(())
}

/// Sets bytes, and tells which.
fn damage(rec: &mut [u8], random: &mut TestRng) -> Vec<(usize, u8)> {
    let mut below = |n: usize| random.next_u32() as usize % n;
    let bytes: Vec<_> = (0..1 + below(3)).map(|_| (if below(2) == 0 { below(FRONT) } else { below(SIZE) }, below(256) as u8)).collect();
    bytes.iter().for_each(|&(at, value)| rec[at] = value);
    bytes
}

/// Every length around each bound, of record and output.
pub fn every_length(tally: &mut Tally) -> Result<(), String> {
    let valid = sample(80);
    let long = [&valid[..], &valid[..]].concat();
    for call in call::one_of_each() {
        for length in (0..20).chain(SIZE - 20..SIZE + 20).chain([2 * SIZE]) {
            tally.starts += 1;
            attempt(&call, &long[..length], &filler(call.room(), length), tally)
                .map_err(|found| format!("a record of {length} bytes: {found}"))?;
        }
        if call.has_output() {
            for length in (0..300).chain(SNAPSHOT - 30..SNAPSHOT + 30).chain(REPORT - 30..REPORT + 30).chain([65_536]) {
                attempt(&call, &valid, &filler(length, 5), tally).map_err(|found| format!("an output of {length} bytes: {found}"))?;
            }
        }
    }
    Ok(())
}

/// The last serial that a changing call takes, and the one that it refuses, in every sitting; no number of a sitting is refused.
pub fn serials(tally: &mut Tally) -> Result<(), String> {
    let numbers = [0, 1, 255, 256, 65_535, 65_536, (1 << 24) - 1, 1 << 31, LAST_SERIAL - 2, LAST_SERIAL - 1, LAST_SERIAL];
    let mut rec = sample(80);
    for (serial, sitting) in numbers.into_iter().flat_map(|serial| numbers.map(|sitting| (serial, sitting))) {
        set_pair(&mut rec, Pair { sitting, serial });
        tally.starts += 1;
        for call in call::one_of_each() {
            attempt(&call, &rec, &filler(call.room(), 3), tally).map_err(|found| format!("{:?}: {found}", pair(&rec)))?;
        }
    }
    Ok(())
}

/// Version 1, as document 01 first had it: a record of that version is refusal 1, one of today's length that says version 1 is 2.
pub fn version_1(tally: &mut Tally) -> Result<(), String> {
    let valid = sample(80);
    for (rec, number) in [(as_version_1(&valid), 1), (says_version_1(valid), 2)] {
        tally.starts += 1;
        for call in call::one_of_each().into_iter().filter(|call| call.kind() != Kind::New) {
            let want = trial::single(&call, &rec, &filler(call.room(), 3)).map_err(|difference| format!("{call}: {difference}"))?;
            assert_eq!(want.answer, judge::refused(number), "the judge refuses version 1");
            tally.count(&call, &rec, want.answer);
        }
    }
    Ok(())
}

/// Faults of every number together, in every combination: the order of the refusals.
pub fn order(tally: &mut Tally) -> Result<(), String> {
    let valid = sample(80);
    for call in call::one_of_each() {
        for bad in wrongly_given(&call).into_iter().chain([call]) {
            for (out, length, serial) in faults_beside_the_layout() {
                for (layout, after_cr) in broken_layouts().into_iter().flat_map(|layout| [(layout, false), (layout, true)]) {
                    let mut rec = valid.clone();
                    tally.starts += 1;
                    set_ended_in_cr(&mut rec, after_cr);
                    layout(&mut rec);
                    if serial {
                        set_serial(&mut rec, LAST_SERIAL);
                    }
                    rec.resize(length, 0);
                    let room = bad.room();
                    let output = filler(if out { room.saturating_sub(1) } else { room }, length);
                    attempt(&bad, &rec, &output, tally)
                        .map_err(|found| format!("record of {length}, output of {}: {found}", output.len()))?;
                }
            }
        }
    }
    Ok(())
}

/// Whether the output is one too short, the record's length, and whether the serial is spent.
fn faults_beside_the_layout() -> impl Iterator<Item = (bool, usize, bool)> {
    let switches = [(false, false), (false, true), (true, false), (true, true)];
    [SIZE, SIZE - 1, SIZE + 1, 0].into_iter().flat_map(move |length| switches.map(|(out, serial)| (out, length, serial)))
}

/// Ways to break a record's layout, one for each of its rules, and none.
fn broken_layouts() -> [fn(&mut [u8]); 14] {
    [
        |_| {},
        |rec| rec[LENGTH_AT + 1] += 1,
        |rec| rec[VERSION_AT] = 1,
        |rec| rec[VERSION_AT] = 3,
        |rec| rec[WIDTH_AT] = 41,
        |rec| rec[ROW_AT] = 24,
        |rec| rec[COLUMN_AT] = 80,
        |rec| rec[BITS_AT] = ALL_BITS + 1,
        |rec| rec[KEYS_AT] = 2,
        |rec| set_touched(rec, 1 << 25),
        |rec| set_flag(rec, 24, 2),
        |rec| chars_mut(rec, 24)[79] = 31,
        // at width 40 the right half of the sample is beyond the width: characters and attributes there are not zero
        |rec| rec[WIDTH_AT] = 40,
        |rec| {
            rec[WIDTH_AT] = 40;
            (0..ROWS).for_each(|row| chars_mut(rec, row)[40..].fill(0));
        },
    ]
}

/// The same call with what the documents do not allow: arguments out of range; for a checked print, after one that ended with 13, a 10 first; for a
/// waiting one an input that is too long, by itself and with a limit that is out of range too. A waiting print may begin with 10, and is not refused for it.
fn wrongly_given(call: &Call) -> Vec<Call> {
    match call {
        Call::PrintWaiting(..) => {
            let long = vec![10; LONGEST_INPUT + 1];
            let inputs = [vec![10], long[1..].to_vec(), long];
            inputs
                .into_iter()
                .flat_map(|bytes| [0, MOST_ROWS, MOST_ROWS + 1, u32::MAX].map(|rows| Call::PrintWaiting(bytes.clone(), rows)))
                .collect()
        }
        Call::PrintChecked(_) => vec![Call::PrintChecked(vec![10]), Call::PrintChecked(b"\n\r".to_vec())],
        _ => arguments_out_of_range(call),
    }
}

fn arguments_out_of_range(call: &Call) -> Vec<Call> {
    let calls = match call {
        Call::TypeChar(_) => vec![Call::TypeChar(256), Call::TypeChar(u32::MAX)],
        Call::TypeLimited(..) => [(256, 60), (u32::MAX, 60), (81, 0), (81, 256), (81, u32::MAX), (256, 0)]
            .map(|(ch, limit)| Call::TypeLimited(ch, limit))
            .to_vec(),
        Call::SetAttr(_) => vec![Call::SetAttr(256), Call::SetAttr(u32::MAX)],
        Call::SetInsert(_) => vec![Call::SetInsert(2), Call::SetInsert(u32::MAX)],
        Call::SetKeysOn(_) => vec![Call::SetKeysOn(2), Call::SetKeysOn(u32::MAX)],
        Call::SetWidth(_) => vec![Call::SetWidth(0), Call::SetWidth(296), Call::SetWidth(u32::MAX)],
        Call::Cell(..) => vec![Call::Cell(25, 0), Call::Cell(0, 80), Call::Cell(u32::MAX, u32::MAX)],
        Call::Continues(_) => vec![Call::Continues(25), Call::Continues(u32::MAX)],
        _ => vec![],
    };
    assert!(calls.iter().all(|call| call.kind() != Kind::New && !judge::in_range(call, 80)));
    calls
}
