//! One call through the archive, compared with what is wanted of it.
use crate::call::{literal, Call};
use crate::judge::{self, Outcome};
use crate::layout::{self, SIZE};
use crate::reports::{self, MIRROR};

/// A buffer to lend, between bytes that no call may touch.
pub struct Lent {
    whole: Vec<u8>,
}

const FENCE: [u8; 64] = [0xa5; 64];

impl Lent {
    pub fn new(content: &[u8]) -> Self {
        Self { whole: [&FENCE, content, &FENCE].concat() }
    }

    pub fn bytes(&self) -> &[u8] {
        &self.whole[FENCE.len()..self.whole.len() - FENCE.len()]
    }

    pub fn bytes_mut(&mut self) -> &mut [u8] {
        let end = self.whole.len() - FENCE.len();
        &mut self.whole[FENCE.len()..end]
    }

    fn fences_stand(&self) -> bool {
        self.whole.starts_with(&FENCE) && self.whole.ends_with(&FENCE)
    }
}

/// `len` bytes that differ from their neighbours and from one `turn` to the next, so that a byte which should stay and does not is seen.
pub fn filler(len: usize, turn: usize) -> Vec<u8> {
    (0..len).map(|k| (k * 37 + turn * 101 + 11) as u8).collect()
}

/// Makes the call on copies of `rec` and `out`, and compares answer and bytes with what the documents and the Rust say.
pub fn single(call: &Call, rec: &[u8], out: &[u8]) -> Result<Outcome, String> {
    let want = judge::outcome(call, rec, out);
    let (mut lent, mut lent_out) = (Lent::new(rec), Lent::new(out));
    let answer = call.make(lent.bytes_mut(), lent_out.bytes_mut());
    compare(answer, &lent, &lent_out, &want)?;
    Ok(want)
}

/// Nothing, if answer and bytes are as wanted; else the first difference, in words.
pub fn compare(answer: u32, rec: &Lent, out: &Lent, want: &Outcome) -> Result<(), String> {
    if answer != want.answer {
        return Err(format!("it answers {}, wanted is {}", spoken(answer), spoken(want.answer)));
    }
    if let Some(at) = first_difference(rec.bytes(), &want.rec) {
        let (what, place) = match want.rec.len() {
            SIZE => ("the record", layout::name(at)),
            MIRROR => ("the mirror", reports::name(at)),
            length => ("the first slice", format!("of {length}")),
        };
        return Err(difference(what, at, &place, rec.bytes(), &want.rec));
    }
    if let Some(at) = first_difference(out.bytes(), &want.out) {
        let length = if answer > judge::refused(0) { 0 } else { answer as usize };
        let text = &want.out[..length];
        let place = if at < text.len() { format!("of the text {}", literal(text)) } else { "which should have stayed".into() };
        return Err(difference("the output", at, &place, out.bytes(), &want.out));
    }
    if !rec.fences_stand() || !out.fences_stand() {
        return Err("bytes outside of the lent slices were written".into());
    }
    Ok(())
}

fn first_difference(a: &[u8], b: &[u8]) -> Option<usize> {
    // equal slices are by far the most, and comparing whole slices is fast
    if a == b {
        return None;
    }
    a.iter().zip(b).position(|(a, b)| a != b)
}

fn difference(what: &str, at: usize, place: &str, got: &[u8], want: &[u8]) -> String {
    let others = got.iter().zip(want).filter(|(a, b)| a != b).count() - 1;
    format!("{what}'s byte {at} ({place}) is {}, wanted is {}; {others} others differ", got[at], want[at])
}

fn spoken(answer: u32) -> String {
    if answer > judge::refused(0) {
        format!("refusal {}", answer - judge::refused(0))
    } else {
        answer.to_string()
    }
}
