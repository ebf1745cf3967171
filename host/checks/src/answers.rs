//! The file of recorded answers: what the Rust answered to some hundred random lists, for a reader that allocates nothing.
//! docs/RECORDING.md has its format.
use crate::call::{Call, Given};
use crate::judge;
use crate::layout::*;
use crate::lists::{self, List, Step};
use crate::oracle::{self, TextScreen};
use crate::random::runner;
use proptest::strategy::{Strategy, ValueTree};

// Where the fields of a head stand, and its length.
const TAG: usize = 0;
const FIRST: usize = 1;
const SECOND: usize = 5;
const INPUT: usize = 9;
const ANSWER: usize = 11;
const TEXT: usize = 15;
/// What stands before it is in the digest.
const DIGEST: usize = 16;
const HEAD: usize = 20;

/// An entry has room for so many arguments that are numbers.
const NUMBERS: usize = 2;
pub const LONGEST_INPUT: usize = 512;

const FACTOR: u64 = 257;
const MODULUS: u64 = 2_147_483_647;

/// The digest of all these bytes, one part after the other.
fn digest(parts: &[&[u8]]) -> u32 {
    let step = |h: u64, &b: &u8| (h * FACTOR + b as u64) % MODULUS;
    parts.iter().copied().flatten().fold(0, step) as u32
}

fn entry(call: &Call, answer: u32, text: &[u8], rec: &[u8]) -> Vec<u8> {
    let Given { mut numbers, bytes: input } = call.given();
    assert!(numbers.len() <= NUMBERS && input.len() <= LONGEST_INPUT && text.len() <= LINE);
    numbers.resize(NUMBERS, 0);
    let mut front = vec![call.tag().expect("new and the changing calls have tags")];
    front.extend(numbers.iter().flat_map(|number| number.to_be_bytes()));
    front.extend((input.len() as u16).to_be_bytes());
    front.extend(answer.to_be_bytes());
    front.push(text.len() as u8);
    assert!(front.len() == DIGEST);
    let digest = digest(&[&front, &input, text, rec]).to_be_bytes();
    [&front, &digest[..], &input, text].concat()
}

/// What was recorded.
#[derive(Default)]
pub struct Recording {
    pub bytes: Vec<u8>,
    pub lists: usize,
    pub calls: usize,
}

/// Records random lists, by the Rust alone, as long as the file stays within `limit` bytes.
pub fn record(seed: u64, limit: usize) -> Recording {
    let (mut runner, strategy) = (runner(seed, 1), lists::short_lists());
    let mut recording = Recording::default();
    loop {
        let list = strategy.new_tree(&mut runner).expect("the strategy rejects nothing").current();
        let (bytes, calls) = record_list(&list);
        if recording.bytes.len() + bytes.len() > limit {
            return recording;
        }
        recording.bytes.extend(bytes);
        recording.calls += calls;
        recording.lists += 1;
    }
}

fn record_list(list: &List) -> (Vec<u8>, usize) {
    let mut screen = oracle::screen::Screen::new(list.width as usize);
    let mut rec = oracle::new_record(list.width, list.sitting);
    let mut bytes = entry(&Call::New(list.width, list.sitting), 0, &[], &rec);
    let mut calls = 1;
    for step in &list.steps {
        let Step::Call(call) = step else { continue };
        if let Some(k) = judge::of_arguments(call, &rec) {
            bytes.extend(entry(call, judge::refused(k), &[], &rec));
        } else {
            let text = screen.change(call);
            rec = oracle::record_after(&rec, call, &screen);
            bytes.extend(entry(call, text.len() as u32, &text, &rec));
        }
        calls += 1;
    }
    (bytes, calls)
}

/// Replays a recording through the archive: the calls read, and the calls that differ.
pub fn replay(bytes: &[u8]) -> Result<(usize, usize), String> {
    let mut rec = vec![0; SIZE];
    let (mut calls, mut differing) = (0, 0);
    for entry in entries(bytes)? {
        let mut out = vec![0; LINE];
        let answer = entry.call()?.make(&mut rec, &mut out);
        let as_recorded = answer == entry.number(ANSWER) && out.starts_with(entry.text()) && entry.digest(&rec) == entry.number(DIGEST);
        differing += !as_recorded as usize;
        calls += 1;
    }
    Ok((calls, differing))
}

/// Asks the Rust the calls of a recording again: whether the file is what it answers.
pub fn is_the_rusts(bytes: &[u8]) -> Result<bool, String> {
    let mut lists: Vec<List> = Vec::new();
    for entry in entries(bytes)? {
        match (entry.call()?, lists.last_mut()) {
            (Call::New(width, sitting), _) => lists.push(List { width, sitting, steps: Vec::new() }),
            (call, Some(list)) => list.steps.push(Step::Call(call)),
            (_, None) => return Err("no recording: it does not begin with a new screen".into()),
        }
    }
    let again: Vec<u8> = lists.iter().flat_map(|list| record_list(list).0).collect();
    Ok(again == bytes)
}

fn entries(bytes: &[u8]) -> Result<Vec<Entry<'_>>, String> {
    let (mut entries, mut rest) = (Vec::new(), bytes);
    while !rest.is_empty() {
        let entry = Entry::first_of(rest).ok_or("no recording: it ends inside of an entry")?;
        rest = &rest[entry.0.len()..];
        entries.push(entry);
    }
    Ok(entries)
}

/// The bytes of one entry.
struct Entry<'a>(&'a [u8]);

impl<'a> Entry<'a> {
    fn first_of(bytes: &'a [u8]) -> Option<Self> {
        let head = Self(bytes.get(..HEAD)?);
        let length = HEAD + head.input_length() + head.0[TEXT] as usize;
        bytes.get(..length).map(Self)
    }

    fn number(&self, at: usize) -> u32 {
        u32::from_be_bytes(self.0[at..at + 4].try_into().expect("four bytes"))
    }

    fn input_length(&self) -> usize {
        u16::from_be_bytes([self.0[INPUT], self.0[INPUT + 1]]) as usize
    }

    /// What the digest is, if the call has left this record.
    fn digest(&self, rec: &[u8]) -> u32 {
        digest(&[&self.0[..DIGEST], &self.0[HEAD..], rec])
    }

    fn text(&self) -> &[u8] {
        &self.0[HEAD + self.input_length()..]
    }

    fn call(&self) -> Result<Call, String> {
        let bytes = self.0[HEAD..HEAD + self.input_length()].to_vec();
        let given = Given { numbers: [self.number(FIRST), self.number(SECOND)].into(), bytes };
        Call::with_tag(self.0[TAG], given).ok_or("no recording: no call has this tag".into())
    }
}
