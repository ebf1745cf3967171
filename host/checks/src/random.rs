//! Random lists from a new screen, and single calls on random valid records, against the Rust.
use crate::call::{Call, Kind};
use crate::judge::{self, Outcome};
use crate::layout::*;
use crate::lists::{self, List, Step};
use crate::oracle::{self, TextScreen};
use crate::records::{self, Sketch};
use crate::reports;
use crate::tally::Tally;
use crate::trial::{self, filler, Lent};
use proptest::strategy::Strategy;
use proptest::test_runner::{Config, RngAlgorithm, TestCaseError, TestError, TestRng, TestRunner};
use std::cell::RefCell;
use std::fmt::{self, Debug};

/// A runner whose cases follow from the seed alone.
pub fn runner(seed: u64, cases: u32) -> TestRunner {
    let config = Config { cases, failure_persistence: None, max_shrink_iters: 50_000, ..Config::default() };
    let mut bytes = [0; 32];
    bytes[..8].copy_from_slice(&seed.to_be_bytes());
    TestRunner::new_with_rng(config, TestRng::from_seed(RngAlgorithm::ChaCha, &bytes))
}

/// Tries `cases` values. The first that fails is shrunk, and the answer has its difference and the value.
pub fn try_all<S: Strategy>(
    seed: u64,
    cases: u32,
    values: &S,
    tally: &mut Tally,
    check: impl Fn(&S::Value, &mut Tally) -> Result<(), String>,
) -> Result<(), String>
where
    S::Value: Debug,
{
    let tally = RefCell::new(tally);
    let outcome = runner(seed, cases).run(values, |value| {
        let mut tally = tally.borrow_mut();
        tally.starts += 1;
        check(&value, &mut tally).map_err(TestCaseError::fail)
    });
    outcome.map_err(|error| match error {
        TestError::Fail(difference, value) => format!("{difference}\nseed {seed}, shrunk to:\n{value:?}"),
        TestError::Abort(reason) => format!("given up: {reason}"),
    })
}

/// Random lists of calls from a new screen.
pub fn random_lists(seed: u64, cases: u32, tally: &mut Tally) -> Result<(), String> {
    try_all(seed, cases, &lists::lists(40), tally, play)
}

/// Random lists with the calls too that the Rust lacks: each of these is judged by what it finds, and the Rust's screen goes on with what stands for it.
pub fn random_lists_with_added(seed: u64, cases: u32, tally: &mut Tally) -> Result<(), String> {
    try_all(seed, cases, &lists::lists_with_added(40), tally, play)
}

/// Single calls on random valid records.
pub fn random_records(seed: u64, cases: u32, tally: &mut Tally) -> Result<(), String> {
    let trials = (records::sketches(), lists::any_call_or_added()).prop_map(|(sketch, call)| Trial { sketch, call });
    try_all(seed, cases, &trials, tally, |Trial { sketch, call }: &Trial, tally| {
        let rec = sketch.record();
        assert!(judge::valid(&rec), "a sketch makes valid records");
        let out = filler(call.room() + serial(&rec) as usize % 5, touched(&rec) as usize);
        let want = trial::single(call, &rec, &out)?;
        tally.count(call, &rec, want.answer);
        Ok(())
    })
}

/// A call on a record.
#[derive(Clone)]
struct Trial {
    sketch: Sketch,
    call: Call,
}

impl Debug for Trial {
    fn fmt(&self, f: &mut fmt::Formatter) -> fmt::Result {
        write!(f, "{:?}\n  {}", self.sketch, self.call)
    }
}

/// A list, call by call, on a record through the archive and on the Rust's own screen, unchanged.
fn play(list: &List, tally: &mut Tally) -> Result<(), String> {
    let mut game = Game::new(list.width, list.sitting)?;
    for (k, step) in list.steps.iter().enumerate() {
        let done = match step {
            Step::Call(call) => game.call(call, k, tally),
            Step::Look => game.look(k, tally),
        };
        done.map_err(|difference| format!("call {}, {step:?}: {difference}", k + 1))?;
    }
    Ok(())
}

/// A record that is changed through the archive beside the Rust's own screen, and what the record must be.
pub struct Game {
    pub lent: Lent,
    screen: oracle::screen::Screen,
    pub record: Vec<u8>,
}

impl Game {
    /// The new screen; its call does not read the buffer's old bytes.
    pub fn new(width: u32, sitting: u32) -> Result<Self, String> {
        let (call, old) = (Call::New(width, sitting), filler(SIZE, width as usize));
        let want = judge::outcome(&call, &old, &[]);
        let mut lent = Lent::new(&old);
        let answer = call.make(lent.bytes_mut(), &mut []);
        trial::compare(answer, &lent, &Lent::new(&[]), &want).map_err(|difference| format!("{call}: {difference}"))?;
        Ok(Self { lent, screen: oracle::screen::Screen::new(width as usize), record: want.rec })
    }

    pub fn call(&mut self, call: &Call, turn: usize, tally: &mut Tally) -> Result<(), String> {
        let out = if call.has_output() { filler(call.room() + turn % 9, turn) } else { Vec::new() };
        self.call_with(call, &out, tally).map(drop)
    }

    /// A call with an output that may be too short; the number answered.
    pub fn call_with(&mut self, call: &Call, out: &[u8], tally: &mut Tally) -> Result<u32, String> {
        let want = self.wanted(call, out);
        let mut lent_out = Lent::new(out);
        let answer = call.make(self.lent.bytes_mut(), lent_out.bytes_mut());
        trial::compare(answer, &self.lent, &lent_out, &want)?;
        tally.count(call, &self.record, answer);
        self.record = want.rec;
        Ok(answer)
    }

    fn wanted(&mut self, call: &Call, out: &[u8]) -> Outcome {
        // The record is valid, and its serial far from the last one.
        let refusal = if out.len() < call.room() { Some(1) } else { judge::of_arguments(call, &self.record) };
        if let Some(k) = refusal {
            return Outcome { answer: judge::refused(k), rec: self.record.clone(), out: out.to_vec() };
        }
        let text = match *call {
            Call::ReportStep => reports::made(reports::Kind::Step, &self.record),
            Call::ReportFull => reports::made(reports::Kind::Full, &self.record),
            _ if call.kind() == Kind::Changing => return judge::changed(&mut self.screen, call, &self.record, out),
            _ if call.kind() == Kind::Text => self.screen.text(call),
            _ => return Outcome { answer: self.screen.read(call), rec: self.record.clone(), out: out.to_vec() },
        };
        Outcome { answer: text.len() as u32, rec: self.record.clone(), out: judge::over(&text, out) }
    }

    fn look(&mut self, turn: usize, tally: &mut Tally) -> Result<(), String> {
        for call in [Call::Width, Call::Cursor, Call::Attr, Call::EditableRows, Call::LogicalText, Call::Snapshot] {
            self.call(&call, turn, tally).map_err(|difference| format!("{call}: {difference}"))?;
        }
        let all_rows = 0..ROWS as u32;
        let columns = width(&self.record) as u32;
        let places = all_rows.clone().flat_map(|row| (0..columns).map(move |col| Call::Cell(row, col)));
        for call in places.chain(all_rows.map(Call::Continues)) {
            self.ask(&call, tally)?;
        }
        self.call(&Call::Width, turn, tally)
    }

    /// A reading call that is in range. The record is compared by the call that comes next, so that two thousand of these stay cheap.
    fn ask(&mut self, call: &Call, tally: &mut Tally) -> Result<(), String> {
        let (answer, want) = (call.make(self.lent.bytes_mut(), &mut []), self.screen.read(call));
        if answer != want {
            return Err(format!("{call} answers {answer}, wanted is {want}"));
        }
        tally.others += 1;
        Ok(())
    }
}
