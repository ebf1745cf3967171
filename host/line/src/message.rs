//! What stands in a sealed datagram. From the candidate:
//!
//! | bytes | what |
//! |---|---|
//! | 0 | kind: 1 a sign that it is there, 2 a piece of a report |
//! | 1–8 | the pair that its screen has now, sitting and serial |
//! | 9 | how many questions it echoes, at most 4 |
//! | 24 each | an echo: start and counter of a question |
//! | then | of a piece: its number from 0, how many there are, and its bytes |
//!
//! From the invigilator, a question; start and counter of its datagram are those that are echoed:
//!
//! | bytes | what |
//! |---|---|
//! | 0 | kind: 3 a question of one that shows nothing yet, 4 of one that shows a screen |
//! | 1–8 | the newest pair that it has heard of |
//! | 9–32 | an echo: start and counter of the latest datagram of the candidate that is asked |
//! | 33–40 | of kind 4: the pair that it shows |
//!
//! Numbers are big-endian.
use crate::seal::{Start, BODY};
use futonrobin::Pair;

/// Of so many starts of an invigilator the last question is echoed.
pub const ECHOES: usize = 4;
const MARK: usize = 24;
/// In front of a piece's bytes: kind, pair, the echoes with how many they are, number and how many pieces.
const PIECE_AT: usize = 1 + 8 + 1 + ECHOES * MARK + 2;
/// A piece has at most so many bytes, whatever is echoed with it.
pub const PIECE: usize = BODY - PIECE_AT;

/// What a candidate says.
#[derive(Clone, PartialEq, Eq, Debug)]
pub struct Said<'a> {
    pub pair: Pair,
    pub echoes: Vec<Mark>,
    pub piece: Option<Piece<'a>>,
}

/// Which datagram: the start that made it, and its counter. An echo says that it came, and none of that start with a larger counter.
#[derive(Clone, Copy, PartialEq, Eq, Debug)]
pub struct Mark {
    pub start: Start,
    pub counter: u64,
}

/// A piece of a report.
#[derive(Clone, Copy, PartialEq, Eq, Debug)]
pub struct Piece<'a> {
    pub index: u8,
    pub count: u8,
    pub bytes: &'a [u8],
}

/// What an invigilator asks: whether this is still so.
#[derive(Clone, Copy, PartialEq, Eq, Debug)]
pub struct Question {
    pub shown: Option<Pair>,
    pub heard: Pair,
    pub echo: Mark,
}

impl<'a> Said<'a> {
    pub fn write(&self) -> Vec<u8> {
        let kind = if self.piece.is_some() { 2 } else { 1 };
        let mut bytes = [&[kind][..], &pair_bytes(self.pair), &[self.echoes.len() as u8]].concat();
        bytes.extend(self.echoes.iter().flat_map(|echo| mark_bytes(*echo)));
        if let Some(Piece { index, count, bytes: piece }) = self.piece {
            bytes.extend([index, count]);
            bytes.extend(piece);
        }
        bytes
    }

    pub fn read(body: &'a [u8]) -> Option<Self> {
        let (&kind, rest) = body.split_first()?;
        let (pair, rest) = read_pair(rest)?;
        let (&count, rest) = rest.split_first()?;
        let (echoes, rest) = rest.split_at_checked(usize::from(count) * MARK)?;
        if usize::from(count) > ECHOES {
            return None;
        }
        let echoes = echoes.chunks_exact(MARK).map(read_mark).collect::<Option<_>>()?;
        let piece = match (kind, rest) {
            (1, []) => None,
            (2, &[index, count, ref bytes @ ..]) if index < count => Some(Piece { index, count, bytes }),
            _ => return None,
        };
        Some(Self { pair, echoes, piece })
    }
}

impl Question {
    pub fn write(&self) -> Vec<u8> {
        let kind = if self.shown.is_some() { 4 } else { 3 };
        let shown = self.shown.map(pair_bytes);
        [&[kind][..], &pair_bytes(self.heard), &mark_bytes(self.echo), shown.as_ref().map_or(&[], |pair| &pair[..])].concat()
    }

    pub fn read(body: &[u8]) -> Option<Self> {
        let (&kind, rest) = body.split_first()?;
        let (heard, rest) = read_pair(rest)?;
        let (echo, rest) = rest.split_at_checked(MARK)?;
        let (shown, rest) = match kind {
            3 => (None, rest),
            4 => read_pair(rest).map(|(shown, rest)| (Some(shown), rest))?,
            _ => return None,
        };
        rest.is_empty().then_some(Self { shown, heard, echo: read_mark(echo)? })
    }
}

fn pair_bytes(Pair { sitting, serial }: Pair) -> [u8; 8] {
    (u64::from(sitting) << 32 | u64::from(serial)).to_be_bytes()
}

fn read_pair(bytes: &[u8]) -> Option<(Pair, &[u8])> {
    let (pair, rest) = bytes.split_first_chunk::<8>()?;
    let number = u64::from_be_bytes(*pair);
    Some((Pair { sitting: (number >> 32) as u32, serial: number as u32 }, rest))
}

fn mark_bytes(Mark { start, counter }: Mark) -> [u8; MARK] {
    let mut bytes = [0; MARK];
    bytes[..16].copy_from_slice(start.bytes());
    bytes[16..].copy_from_slice(&counter.to_be_bytes());
    bytes
}

fn read_mark(bytes: &[u8]) -> Option<Mark> {
    let (start, counter) = bytes.split_first_chunk::<16>()?;
    Some(Mark { start: Start::from_bytes(*start), counter: u64::from_be_bytes(counter.try_into().ok()?) })
}

#[cfg(test)]
mod tests {
    use super::*;

    const LAST: Pair = Pair { sitting: u32::MAX, serial: 7 };

    fn echoes(count: usize) -> Vec<Mark> {
        (0..count).map(|n| Mark { start: Start::from_bytes([n as u8; 16]), counter: u64::MAX - n as u64 }).collect()
    }

    fn said(count: usize, piece: Option<Piece<'_>>) -> Said<'_> {
        Said { pair: LAST, echoes: echoes(count), piece }
    }

    #[test]
    fn what_is_written_is_read_again() {
        let long = [5; PIECE];
        for count in 0..=ECHOES {
            for piece in [None, Some(Piece { index: 0, count: 1, bytes: b"" }), Some(Piece { index: 2, count: 4, bytes: &long })] {
                let said = said(count, piece);
                assert!(said.write().len() <= BODY);
                assert_eq!(Said::read(&said.write()), Some(said));
            }
        }
        for shown in [None, Some(Pair { sitting: 1, serial: u32::MAX })] {
            let question = Question { shown, heard: LAST, echo: echoes(1)[0] };
            assert_eq!(Question::read(&question.write()), Some(question));
        }
    }

    #[test]
    fn the_bytes_are_those_of_the_page() {
        let one = Said { pair: LAST, echoes: echoes(1), piece: Some(Piece { index: 0, count: 2, bytes: b"!" }) };
        let expected = [&b"\x02\xff\xff\xff\xff\0\0\0\x07\x01"[..], &[0; 16], &[0xff; 8], b"\x00\x02!"].concat();
        assert_eq!(one.write(), expected);
        let question = Question { shown: Some(Pair { sitting: 1, serial: 2 }), heard: LAST, echo: echoes(1)[0] };
        let expected = [&b"\x04\xff\xff\xff\xff\0\0\0\x07"[..], &[0; 16], &[0xff; 8], b"\0\0\0\x01\0\0\0\x02"].concat();
        assert_eq!(question.write(), expected);
        assert_eq!(Question { shown: None, ..question }.write(), [&[3], &expected[1..33]].concat());
    }

    #[test]
    fn what_is_no_message_is_seen() {
        let sign = said(3, None).write();
        let question = Question { shown: Some(LAST), heard: LAST, echo: echoes(1)[0] }.write();
        for (whole, read) in
            [(&sign, (|body| Said::read(body).is_some()) as fn(&[u8]) -> bool), (&question, |body| Question::read(body).is_some())]
        {
            assert!(read(whole) && !read(&[&whole[..], b"!"].concat()));
            (0..whole.len()).for_each(|length| assert!(!read(&whole[..length]), "cut to {length}"));
            for kind in [0, 5, 255] {
                assert!(!read(&[&[kind], &whole[1..]].concat()));
            }
        }
        assert_eq!(Said::read(&said(ECHOES + 1, None).write()), None, "more echoes than are kept");
        assert_eq!(Said::read(&said(0, Some(Piece { index: 2, count: 2, bytes: b"" })).write()), None, "no third of two");
        assert_eq!((Said::read(&question), Question::read(&sign)), (None, None));
    }
}
