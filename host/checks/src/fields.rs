//! Fields of at most so many characters: limited typing with other keys between, on random valid records.
//!
//! Each call by itself is compared as every call is, with what `limited` says of it. Here two things more are, of what the archive leaves: a field is kept, and at 255
//! the call is the old one.
use crate::call::Call;
use crate::judge::Outcome;
use crate::layout::*;
use crate::limited::{held, NO_LIMIT};
use crate::lists;
use crate::random::try_all;
use crate::records::{self, Sketch};
use crate::tally::Tally;
use crate::trial::{self, Lent};
use proptest::collection::vec;
use proptest::prelude::*;
use std::fmt;

/// Random keys in a field on a random record.
pub fn random_fields(seed: u64, cases: u32, tally: &mut Tally) -> Result<(), String> {
    let trials = (records::sketches(), -2..9i64, vec(keys(), 1..40), damages());
    let trials = trials.prop_map(|(mut sketch, room, keys, damage)| {
        // no call finds the last serial, unless it is the damage
        sketch.head.serial /= 2;
        Field { sketch, room, keys, damage }
    });
    try_all(seed, cases, &trials, tally, Field::typed)
}

/// Keys, and the record that they are pressed on.
#[derive(Clone)]
struct Field {
    sketch: Sketch,
    /// The field takes so many characters more than the line under the cursor holds at first.
    room: i64,
    keys: Vec<Key>,
    damage: Damage,
}

#[derive(Clone, Debug)]
enum Key {
    /// Limited typing.
    Typed(u32, Limit),
    Other(Call),
}

#[derive(Clone, Copy, Debug)]
enum Limit {
    /// The field's.
    Own,
    /// So many more than the line holds when the key is pressed.
    Near(i64),
    Given(u32),
}

/// What is done to a record, so that it is refused for the most part.
#[derive(Clone, Copy, Debug)]
enum Damage {
    Byte(usize, u8),
    Length(usize),
    LastSerial,
}

impl fmt::Debug for Field {
    fn fmt(&self, f: &mut fmt::Formatter) -> fmt::Result {
        write!(f, "{:?}\n  room for {}, {:?}", self.sketch, self.room, self.damage)?;
        self.keys.iter().try_for_each(|key| write!(f, "\n  {key:?}"))
    }
}

fn keys() -> impl Strategy<Value = Key> {
    let limit = prop_oneof![
        6 => Just(Limit::Own),
        4 => (-2..3i64).prop_map(Limit::Near),
        1 => lists::limits().prop_map(Limit::Given),
    ];
    let plain = [Call::MoveLeft, Call::MoveRight, Call::MoveUp, Call::MoveDown, Call::EndOfLine, Call::Backspace, Call::DeleteChar];
    prop_oneof![
        12 => (lists::typed_number(), limit).prop_map(|(ch, limit)| Key::Typed(ch, limit)),
        4 => lists::one_of(&plain).prop_map(Key::Other),
        1 => (0..2u32).prop_map(|on| Key::Other(Call::SetInsert(on))),
        1 => (0..25u32, 0..80u32).prop_map(|(row, col)| Key::Other(Call::SetCursor(row, col))),
        1 => lists::any_call_or_added().prop_map(Key::Other),
    ]
}

fn damages() -> impl Strategy<Value = Damage> {
    prop_oneof![
        2 => (0..FRONT, any::<u8>()).prop_map(|(at, value)| Damage::Byte(at, value)),
        2 => (0..SIZE, any::<u8>()).prop_map(|(at, value)| Damage::Byte(at, value)),
        1 => lists::one_of(&[0, SIZE - 1, SIZE + 1]).prop_map(Damage::Length),
        1 => Just(Damage::LastSerial),
    ]
}

impl Field {
    /// Presses the keys, and types each character on the same record without a limit too, and on a damaged one.
    fn typed(&self, tally: &mut Tally) -> Result<(), String> {
        let mut rec = self.sketch.record();
        let own = near(&rec, self.room);
        for (k, key) in self.keys.iter().enumerate() {
            let call = key.on(&rec, own);
            let told = |found| format!("key {}, {call}: {found}", k + 1);
            if let Key::Typed(ch, _) = *key {
                old_call_at_255(ch, &rec, tally).map_err(told)?;
                old_call_at_255(ch, &self.damage.done_to(&rec), tally).map_err(told)?;
            }
            rec = pressed(&call, &rec, tally).map_err(told)?;
        }
        Ok(())
    }
}

impl Key {
    fn on(&self, rec: &[u8], own: u32) -> Call {
        match *self {
            Key::Typed(ch, Limit::Own) => Call::TypeLimited(ch, own),
            Key::Typed(ch, Limit::Near(more)) => Call::TypeLimited(ch, near(rec, more)),
            Key::Typed(ch, Limit::Given(limit)) => Call::TypeLimited(ch, limit),
            Key::Other(ref call) => call.clone(),
        }
    }
}

impl Damage {
    fn done_to(self, rec: &[u8]) -> Vec<u8> {
        let mut rec = rec.to_vec();
        match self {
            Damage::Byte(at, value) => rec[at] = value,
            Damage::Length(length) => rec.resize(length, 0),
            Damage::LastSerial => set_serial(&mut rec, LAST_SERIAL),
        }
        rec
    }
}

/// The limit that is so many more than the line under the cursor holds; it may be 0, or more than 255.
fn near(rec: &[u8], more: i64) -> u32 {
    (held(rec) as i64 + more).max(0) as u32
}

/// A call, compared as every call is; what it leaves. A line that is no longer than the limit of limited typing is not longer after it, by the Rust's own content of what the
/// archive leaves.
fn pressed(call: &Call, rec: &[u8], tally: &mut Tally) -> Result<Vec<u8>, String> {
    let left = trial::single(call, rec, &trial::filler(call.room(), 5))?;
    tally.count(call, rec, left.answer);
    if let Call::TypeLimited(_, limit) = *call {
        let (before, after) = (held(rec), held(&left.rec));
        if left.answer == 0 && before <= limit as usize && after > limit as usize {
            return Err(format!("the line held {before} characters and then holds {after}"));
        }
    }
    Ok(left.rec)
}

/// "At L = 255 it is the old call": both through the archive, on the same bytes, whatever these are.
fn old_call_at_255(ch: u32, rec: &[u8], tally: &mut Tally) -> Result<(), String> {
    let made = |call: &Call| {
        let mut lent = Lent::new(rec);
        (call.make(lent.bytes_mut(), &mut []), lent)
    };
    let (old, limited) = (Call::TypeChar(ch), Call::TypeLimited(ch, NO_LIMIT));
    let (answer, lent) = made(&old);
    let want = Outcome { answer, rec: lent.bytes().to_vec(), out: Vec::new() };
    let (answer, lent) = made(&limited);
    trial::compare(answer, &lent, &Lent::new(&[]), &want).map_err(|difference| format!("{limited} beside {old}: {difference}"))?;
    [old, limited].iter().for_each(|call| tally.count(call, rec, answer));
    Ok(())
}
