//! The line simulator: a terminal restarts at any time, and the reports of all its sittings go over lines that lose, repeat, reorder and
//! damage them, to several mirrors at once.
//!
//! After every arrival a mirror must have the bytes of the Rust's screen of the sitting and after the number of accepted calls that are due,
//! and the newest pair, with both pairs from a count that sees kinds and pairs alone.
use crate::arrivals::ARRIVALS;
use crate::call::{literal, Call, Kind as CallKind};
use crate::counts::Counts;
use crate::judge::{self, refused, Outcome};
use crate::layout::*;
use crate::limited;
use crate::line::{below, damaged, happens, pick, Line, Made};
use crate::lists::{self, List, Step};
use crate::oracle::{self, TextScreen};
use crate::random::{runner, try_all, Game};
use crate::reports::{self, Count, Kind, KINDS, MIRROR, RECORD_AT, REPORT};
use crate::tally::Tally;
use crate::trial::{self, filler, Lent};
use crate::waiting::Waited;
use futonrobin::ffi;
use proptest::collection::vec;
use proptest::prelude::*;
use proptest::test_runner::TestRng;
use std::cell::RefCell;
use std::cmp::Ordering;
use std::collections::{HashMap, HashSet};
use std::fmt;
use std::rc::Rc;

/// Each of these must have happened to a good number of arrivals.
pub const TELLING: [&str; 9] =
    [APPLIED, OLD_OR_EARLY, FOLLOWED, EARLIER_SITTING, LATER_SITTING, AFTER_CR, AFTER_WAITING, AFTER_LIMITED, AFTER_FULL];

const APPLIED: &str = "applied";
const OLD_OR_EARLY: &str = "old or early";
const FOLLOWED: &str = "restarts followed";
const EARLIER_SITTING: &str = "of an earlier sitting";
const LATER_SITTING: &str = "steps of a later sitting";
/// The mirror then shows a screen on which a print ended with 13.
const AFTER_CR: &str = "after 13";
/// The mirror then shows what a waiting print has left that stopped before its end.
const AFTER_WAITING: &str = "after a waiting print";
/// The mirror then shows what limited typing has left that found the line full: the screen before, with the next serial.
const AFTER_FULL: &str = "after typing into a full field";
/// The mirror then shows what any other limited typing has left.
const AFTER_LIMITED: &str = "after limited typing";

/// `cases` terminals, each with its sittings, lines and mirrors.
pub fn lines(seed: u64, cases: u32, counts: &mut Counts) -> Result<(), String> {
    let counts = RefCell::new(counts);
    try_all(seed, cases, &plans(), &mut Tally::default(), |plan, tally| {
        let mut counts = counts.borrow_mut();
        counts.add("terminals", 1);
        counts.add("sittings", plan.sittings.len() as u64);
        Session::new(plan)?.run(plan, tally, &mut counts)
    })
}

/// What a terminal does: its sittings in their order, none of the same number.
#[derive(Clone)]
struct Plan {
    sittings: Vec<List>,
    /// Whether an earlier sitting may go on after a later one has begun, as if two terminals were on the line.
    mixed: bool,
    /// What the lines do follows from it.
    line: u64,
}

impl fmt::Debug for Plan {
    fn fmt(&self, f: &mut fmt::Formatter) -> fmt::Result {
        write!(f, "  line {}{}", self.line, if self.mixed { ", sittings mixed" } else { "" })?;
        self.sittings.iter().try_for_each(|list| write!(f, "\n{list:?}"))
    }
}

/// One to four sittings. In every second plan their numbers grow, as a host should have it; in the others a restart may have a smaller number.
fn plans() -> impl Strategy<Value = Plan> {
    let sittings = vec(lists::lists_with_added(20), 1..5);
    (sittings, any::<bool>(), any::<bool>(), any::<u64>()).prop_map(|(mut sittings, growing, mixed, line)| {
        let mut used = HashSet::new();
        sittings.retain(|list| used.insert(list.sitting));
        if growing {
            sittings.sort_by_key(|list| list.sitting);
        }
        Plan { sittings, mixed, line }
    })
}

/// A screen from its beginning on.
struct Sitting {
    /// The width that it is asked for.
    width: u32,
    game: Game,
    /// The Rust's screen after each number of accepted calls, as a record of that pair, touched 0.
    shown: Vec<Vec<u8>>,
    /// The serials that a call has left which the Rust lacks, with what it did.
    added: HashMap<u32, &'static str>,
}

impl Sitting {
    fn new(list: &List, random: &mut TestRng) -> Result<Self, String> {
        // every width but 40 is 80
        let width = if list.width == 80 { pick(random, &[80, 80, 80, 0, 39, 41, 296, u32::MAX]) } else { list.width };
        let game = Game::new(width, list.sitting)?;
        let shown = vec![game.record.clone()];
        Ok(Self { width, game, shown, added: HashMap::new() })
    }

    /// A call with this output, and whether it was accepted.
    fn call(&mut self, call: &Call, out: &[u8], tally: &mut Tally) -> Result<bool, String> {
        let before = self.game.record.clone();
        let answer = self.game.call_with(call, out, tally)?;
        let serial_left = serial(&self.game.record);
        let accepted = serial_left != serial(&before);
        if accepted {
            self.added.extend(added(call, &before, answer).map(|what| (serial_left, what)));
            let mut shown = self.game.record.clone();
            set_touched(&mut shown, 0);
            self.shown.push(shown);
        }
        Ok(accepted)
    }

    /// A report made through the archive, compared with what the documents make of the Rust's screen.
    fn report(&mut self, kind: Kind, turn: usize) -> Result<Made, String> {
        let out = filler(REPORT + turn % 3, turn);
        let mut lent_out = Lent::new(&out);
        let bytes = reports::made(kind, &self.game.record);
        let want = Outcome { answer: bytes.len() as u32, out: judge::over(&bytes, &out), rec: self.game.record.clone() };
        let answer = Call::report(kind).make(self.game.lent.bytes_mut(), lent_out.bytes_mut());
        trial::compare(answer, &self.game.lent, &lent_out, &want).map_err(|difference| format!("{kind:?} report: {difference}"))?;
        Ok(Made { kind, pair: pair(&self.game.record), bytes: lent_out.bytes()[..answer as usize].to_vec() })
    }
}

/// What an accepted call was that the Rust lacks, by what it found and answered. A waiting print that took all is not told.
fn added(call: &Call, before: &[u8], answer: u32) -> Option<&'static str> {
    match *call {
        Call::PrintWaiting(ref bytes, _) => (Waited::of_answer(answer).taken < bytes.len()).then_some(AFTER_WAITING),
        Call::TypeLimited(_, limit) => Some(if limited::holds_back(before, limit) { AFTER_FULL } else { AFTER_LIMITED }),
        _ => None,
    }
}

/// The sitting of a pair.
fn of(sittings: &[Sitting], pair: Pair) -> &Sitting {
    let of = sittings.iter().find(|of| sitting(&of.game.record) == pair.sitting);
    of.expect("a count has pairs of reports that were made")
}

struct Session {
    sittings: Vec<Sitting>,
    receivers: Vec<Receiver>,
    random: TestRng,
    turn: usize,
}

impl Session {
    fn new(plan: &Plan) -> Result<Self, String> {
        let mut random = runner(plan.line, 1).new_rng();
        let sittings = plan.sittings.iter().map(|list| Sitting::new(list, &mut random)).collect::<Result<Vec<_>, _>>()?;
        let receivers = (0..4).map(|number| Receiver::new(number, &sittings[0], &mut random)).collect::<Result<_, _>>()?;
        Ok(Self { sittings, receivers, random, turn: 0 })
    }

    fn run(&mut self, plan: &Plan, tally: &mut Tally, counts: &mut Counts) -> Result<(), String> {
        for (which, step) in in_order(plan, &mut self.random) {
            let told = |difference| format!("sitting {}: {difference}", plan.sittings[which].sitting);
            match step {
                None => self.report(which, counts).map_err(told)?,
                Some(Step::Call(call)) => self.step(which, call, tally, counts).map_err(told)?,
                Some(Step::Look) => {}
            }
        }
        self.end(counts)
    }

    /// A call of a list, and now and then one more.
    fn step(&mut self, which: usize, call: &Call, tally: &mut Tally, counts: &mut Counts) -> Result<(), String> {
        if call.kind() == CallKind::Changing {
            self.call(which, call, call.room() + self.turn % 9, tally, counts)?;
        }
        match below(&mut self.random, 60) {
            0 => self.call(which, &Call::SetWidth(40), 0, tally, counts),
            1 => self.call(which, &Call::SetWidth(80), 0, tally, counts),
            2 => self.call(which, &Call::SetWidth(60), 0, tally, counts),
            3 => self.call(which, &Call::TakeLogicalLine, LINE - 1, tally, counts),
            _ => Ok(()),
        }
    }

    /// A call with an output of this length, which may be too short.
    fn call(&mut self, which: usize, call: &Call, room: usize, tally: &mut Tally, counts: &mut Counts) -> Result<(), String> {
        self.turn += 1;
        let (turn, out) = (self.turn, filler(room, self.turn));
        let accepted = self.sittings[which].call(call, &out, tally).map_err(|difference| format!("call {turn}, {call}: {difference}"))?;
        counts.add("calls", 1);
        counts.add("calls refused", !accepted as u64);
        self.report(which, counts)
    }

    /// Both reports are made and go on every line.
    fn report(&mut self, which: usize, counts: &mut Counts) -> Result<(), String> {
        for kind in KINDS {
            let made = Rc::new(self.sittings[which].report(kind, self.turn)?);
            counts.add("reports made", 1);
            for receiver in &mut self.receivers {
                receiver.line.send(&made, &mut self.random);
                while let Some(next) = receiver.line.next(&mut self.random) {
                    receiver.arrive_both(&next, &self.sittings, &mut self.random, counts)?;
                }
            }
        }
        Ok(())
    }

    /// What is still on the lines arrives. Then a full report of the largest sitting does, and every mirror shows its last screen and is level.
    fn end(&mut self, counts: &mut Counts) -> Result<(), String> {
        let largest = self.sittings.iter_mut().max_by_key(|of| sitting(&of.game.record)).expect("a plan has a sitting");
        let last = largest.report(Kind::Full, self.turn)?;
        for receiver in &mut self.receivers {
            while let Some(next) = receiver.line.next_of_rest(&mut self.random) {
                receiver.arrive_both(&next, &self.sittings, &mut self.random, counts)?;
            }
            receiver.arrive(&last, &self.sittings, &mut self.random, counts)?;
            if receiver.count != (Count { shown: last.pair, newest: last.pair }) {
                return Err(format!("the count is {:?} after the last full report, of {:?}", receiver.count, last.pair));
            }
        }
        Ok(())
    }
}

/// The steps of all sittings, each with its sitting's place in the plan, and before them a `None`, where its screen is new. One sitting comes
/// after the other; if they are mixed, up to twenty steps of one and then some of any.
fn in_order<'a>(plan: &'a Plan, random: &mut TestRng) -> Vec<(usize, Option<&'a Step>)> {
    let mut left: Vec<_> = plan.sittings.iter().map(|list| std::iter::once(None).chain(list.steps.iter().map(Some)).peekable()).collect();
    let mut order = Vec::new();
    while let Some(first) = left.iter_mut().position(|steps| steps.peek().is_some()) {
        let (which, most) = if plan.mixed { (below(random, left.len()), 1 + below(random, 20)) } else { (first, usize::MAX) };
        order.extend(left[which].by_ref().take(most).map(|step| (which, step)));
    }
    order
}

/// A mirror at the end of its own line.
struct Receiver {
    number: usize,
    mirror: Lent,
    count: Count,
    line: Line,
}

impl Receiver {
    /// A mirror that is new with the first sitting's screen; its call does not read the buffer's old bytes.
    fn new(number: usize, first: &Sitting, random: &mut TestRng) -> Result<Self, String> {
        let (width, sitting) = (first.width, sitting(&first.game.record));
        let mut mirror = Lent::new(&filler(MIRROR, number));
        let answer = ffi::mirror_new(mirror.bytes_mut(), width, sitting);
        let want = Outcome { answer: 0, rec: reports::new_mirror(&first.shown[0]), out: Vec::new() };
        trial::compare(answer, &mirror, &Lent::new(&[]), &want)
            .map_err(|difference| format!("mirror_new({width}, {sitting}): {difference}"))?;
        Ok(Self { number, mirror, count: Count::new(sitting), line: Line::new(random) })
    }

    /// A report arrives, and before it, now and then, what the line has made of it.
    fn arrive_both(&mut self, made: &Made, sittings: &[Sitting], random: &mut TestRng, counts: &mut Counts) -> Result<(), String> {
        if self.line.damages(random) {
            self.arrive_damaged(made, random, counts)?;
        }
        self.arrive(made, sittings, random, counts)
    }

    fn arrive(&mut self, made: &Made, sittings: &[Sitting], random: &mut TestRng, counts: &mut Counts) -> Result<(), String> {
        let before = self.count;
        let applied = self.count.arrive(made.kind, made.pair);
        let of = of(sittings, self.count.shown);
        let shown = &of.shown[self.count.shown.serial as usize];
        let want = Outcome { answer: self.count.level() as u32, rec: reports::mirror(self.count.newest, shown), out: made.bytes.clone() };
        let report = Lent::new(&made.bytes);
        let answer = ffi::mirror_arrive(self.mirror.bytes_mut(), report.bytes());
        let told = |difference| format!("mirror {} at {before:?}, {:?} report of {:?}: {difference}", self.number, made.kind, made.pair);
        trial::compare(answer, &self.mirror, &report, &want).map_err(told)?;
        counts.add(ARRIVALS, 1);
        counts.add(what_happened(applied, made.pair, before.shown), 1);
        counts.add("level", answer as u64);
        counts.add(AFTER_CR, ended_in_cr(shown) as u64);
        if let Some(what) = of.added.get(&self.count.shown.serial) {
            counts.add(what, 1);
        }
        if below(random, 100) == 0 {
            let cells = happens(random, 10);
            look(&mut self.mirror, shown, cells, counts).map_err(told)?;
        }
        Ok(())
    }

    /// A damaged slice arrives. Where the documents do not refuse it, a copy of the mirror takes it: it is no report that was made.
    fn arrive_damaged(&mut self, made: &Made, random: &mut TestRng, counts: &mut Counts) -> Result<(), String> {
        let report = damaged(&made.bytes, random);
        let want = reports::arrival(self.mirror.bytes(), &report);
        let mut copy = Lent::new(self.mirror.bytes());
        let mirror = if want.answer > refused(0) { &mut self.mirror } else { &mut copy };
        let lent = Lent::new(&report);
        let answer = ffi::mirror_arrive(mirror.bytes_mut(), lent.bytes());
        let (number, count) = (self.number, self.count);
        trial::compare(answer, mirror, &lent, &want)
            .map_err(|difference| format!("mirror {number} at {count:?}: {difference}; damaged report {}", literal(&report)))?;
        counts.add(ARRIVALS, 1);
        counts.add(if answer > refused(0) { "refused" } else { "damaged and valid" }, 1);
        Ok(())
    }
}

/// What an accepted report was to a mirror that showed another pair or its own.
fn what_happened(applied: bool, of: Pair, shown: Pair) -> &'static str {
    match (applied, of.sitting.cmp(&shown.sitting)) {
        (true, Ordering::Equal) => APPLIED,
        (true, _) => FOLLOWED,
        (false, Ordering::Equal) => OLD_OR_EARLY,
        (false, Ordering::Less) => EARLIER_SITTING,
        (false, Ordering::Greater) => LATER_SITTING,
    }
}

/// The reading and text calls on a mirror's record, against the Rust's screen that it shows.
fn look(mirror: &mut Lent, shown: &[u8], cells: bool, counts: &mut Counts) -> Result<(), String> {
    let screen = oracle::opened(shown);
    let mut calls = vec![Call::Width, Call::Cursor, Call::Attr, Call::EditableRows];
    calls.extend((0..ROWS as u32).map(Call::Continues));
    if cells {
        let columns = width(shown) as u32;
        calls.extend((0..ROWS as u32).flat_map(|row| (0..columns).map(move |col| Call::Cell(row, col))));
    }
    let before = mirror.bytes().to_vec();
    for call in &calls {
        let (answer, want) = (call.make(&mut mirror.bytes_mut()[RECORD_AT..], &mut []), screen.read(call));
        if answer != want {
            return Err(format!("{call} on the mirror answers {answer}, wanted is {want}"));
        }
    }
    for call in [Call::LogicalText, Call::Snapshot] {
        let (out, text) = (filler(call.room() + 3, calls.len()), screen.text(&call));
        let want = Outcome { answer: text.len() as u32, rec: before.clone(), out: judge::over(&text, &out) };
        let mut lent_out = Lent::new(&out);
        let answer = call.make(&mut mirror.bytes_mut()[RECORD_AT..], lent_out.bytes_mut());
        trial::compare(answer, mirror, &lent_out, &want).map_err(|difference| format!("{call} on the mirror: {difference}"))?;
    }
    counts.add("reading and text calls", calls.len() as u64 + 2);
    Ok(())
}
