//! Reports in datagrams: deflated, and cut into pieces where one datagram is not enough.
//!
//! The pieces of a report have counters that follow each other. So start and counter of its first piece name a report, and pieces of two reports
//! cannot be taken for pieces of one.
use crate::message::{Piece, PIECE};
use crate::seal::Start;
use flate2::{Compress, Compression, Decompress, FlushCompress, FlushDecompress, Status};
use futonrobin::layout::REPORT;
use std::collections::VecDeque;

/// A report, with the width of its sitting's new screen before it, and so much for what deflating cannot make shorter.
const WHOLE: usize = 1 + REPORT;
const SPARE: usize = 64;
/// No report has more pieces.
pub const MOST: usize = (WHOLE + SPARE).div_ceil(PIECE);
/// Of so many reports the pieces are kept while others are missing; those that came last.
pub const HALVES: usize = 16;

/// Makes pieces of reports.
pub struct Cutter(Compress);

impl Default for Cutter {
    fn default() -> Self {
        Self(Compress::new(Compression::default(), false))
    }
}

impl Cutter {
    /// The pieces of a report, in their order. `width` is that of its sitting's new screen.
    pub fn pieces(&mut self, width: u8, report: &[u8]) -> Vec<Vec<u8>> {
        let mut deflated = Vec::with_capacity(WHOLE + SPARE);
        self.0.reset();
        let done = self.0.compress_vec(&[&[width], report].concat(), &mut deflated, FlushCompress::Finish);
        assert!(matches!(done, Ok(Status::StreamEnd)), "a report of {} bytes has room when it is deflated", report.len());
        deflated.chunks(PIECE).map(<[u8]>::to_vec).collect()
    }
}

/// Joins the pieces again.
pub struct Joiner {
    inflating: Decompress,
    /// Reports of which a piece is missing, the one of which something came last at the end.
    halves: VecDeque<Half>,
}

/// The pieces of a report that have come.
struct Half {
    start: Start,
    first: u64,
    pieces: Vec<Option<Vec<u8>>>,
}

/// What a piece led to.
#[derive(PartialEq, Eq, Debug)]
pub enum Joined {
    /// Others are missing.
    Half,
    /// The report is whole: the width of its sitting's new screen, and its bytes.
    Whole(u8, Vec<u8>),
}

impl Default for Joiner {
    fn default() -> Self {
        Self { inflating: Decompress::new(false), halves: VecDeque::new() }
    }
}

impl Joiner {
    /// A piece came in the datagram of this start with this counter; `None` if no report has such a piece.
    pub fn piece(&mut self, start: Start, counter: u64, Piece { index, count, bytes }: Piece) -> Option<Joined> {
        let (first, count) = (counter.checked_sub(index.into())?, usize::from(count));
        if count > MOST || bytes.len() > PIECE {
            return None;
        }
        let known = self.halves.iter().position(|half| half.start == start && half.first == first);
        let mut half = known.and_then(|at| self.halves.remove(at)).unwrap_or_else(|| Half { start, first, pieces: vec![None; count] });
        let fits = half.pieces.len() == count;
        if fits {
            half.pieces[usize::from(index)] = Some(bytes.to_vec());
        }
        if half.pieces.iter().all(Option::is_some) {
            return self.inflate(&half.pieces.into_iter().flatten().collect::<Vec<_>>().concat());
        }
        self.halves.push_back(half);
        self.halves.drain(..self.halves.len().saturating_sub(HALVES));
        fits.then_some(Joined::Half)
    }

    /// What was deflated, if it is no longer than a report and nothing follows it.
    fn inflate(&mut self, deflated: &[u8]) -> Option<Joined> {
        let mut whole = [0; WHOLE + 1];
        self.inflating.reset(false);
        let done = self.inflating.decompress(deflated, &mut whole, FlushDecompress::Finish).ok()?;
        let (taken, length) = (self.inflating.total_in() as usize, self.inflating.total_out() as usize);
        if done != Status::StreamEnd || taken != deflated.len() || length > WHOLE {
            return None;
        }
        let (&width, report) = whole[..length].split_first()?;
        Some(Joined::Whole(width, report.to_vec()))
    }

    /// How many bytes of halves are kept.
    pub fn kept(&self) -> usize {
        self.halves.iter().flat_map(|half| half.pieces.iter().flatten()).map(Vec::len).sum()
    }
}

#[cfg(test)]
mod tests {
    use super::*;
    use futonrobin::{Screen, Shown};
    use oorandom::Rand32;

    const START: Start = Start::from_bytes([1; 16]);

    /// Bytes that cannot be deflated, so that there are several pieces.
    fn noise(length: usize, seed: u64) -> Vec<u8> {
        let mut random = Rand32::new(seed);
        (0..length).map(|_| random.rand_u32() as u8).collect()
    }

    fn join(joiner: &mut Joiner, first: u64, pieces: &[Vec<u8>], order: &[usize]) -> Vec<Option<Joined>> {
        let piece = |&at: &usize| Piece { index: at as u8, count: pieces.len() as u8, bytes: &pieces[at] };
        order.iter().map(|at| joiner.piece(START, first + *at as u64, piece(at))).collect()
    }

    #[test]
    fn an_ordinary_screen_is_one_piece() {
        let (mut cutter, mut joiner, mut screen) = (Cutter::default(), Joiner::default(), Screen::new(80, 5));
        for n in 0..24 {
            screen.print_checked(format!("{n}0 PRINT \"WARD {n}: {} BEDS FREE, {} TAKEN\"\r\n", n * 7 % 10, 31 - n).as_bytes()).unwrap();
        }
        let report = screen.report_full();
        let pieces = cutter.pieces(screen.width() as u8, report.as_bytes());
        assert_eq!(pieces.len(), 1);
        assert_eq!(join(&mut joiner, 0, &pieces, &[0]), [Some(Joined::Whole(80, report.as_bytes().to_vec()))]);
        assert_eq!(joiner.kept(), 0);
    }

    #[test]
    fn pieces_in_any_order_with_repeats() {
        let (mut cutter, mut joiner, whole) = (Cutter::default(), Joiner::default(), noise(REPORT, 7));
        let pieces = cutter.pieces(40, &whole);
        assert_eq!(pieces.len(), MOST);
        let joined = join(&mut joiner, 9, &pieces, &[2, 2, 0, 3, 0, 1]);
        assert!(joined[..5].iter().all(|joined| *joined == Some(Joined::Half)));
        assert_eq!(joined[5], Some(Joined::Whole(40, whole)));
        assert_eq!(joiner.kept(), 0);
    }

    #[test]
    fn pieces_of_two_reports_are_never_mixed() {
        let (mut cutter, mut joiner) = (Cutter::default(), Joiner::default());
        let (one, two) = (noise(REPORT, 1), noise(REPORT, 2));
        let (pieces, others) = (cutter.pieces(40, &one), cutter.pieces(40, &two));
        assert_eq!(join(&mut joiner, 0, &pieces, &[0, 1, 2]), [Some(Joined::Half), Some(Joined::Half), Some(Joined::Half)]);
        assert_eq!(join(&mut joiner, 4, &others, &[3]), [Some(Joined::Half)], "the last of another report");
        let elsewhere = Piece { index: 3, count: 4, bytes: &others[3] };
        assert_eq!(joiner.piece(Start::from_bytes([2; 16]), 3, elsewhere), Some(Joined::Half), "of another start");
        assert_eq!(join(&mut joiner, 0, &pieces, &[3]), [Some(Joined::Whole(40, one))]);
    }

    #[test]
    fn a_lost_piece_loses_the_report_and_nothing_else() {
        let (mut cutter, mut joiner) = (Cutter::default(), Joiner::default());
        for n in 0..100 {
            let (first, lossy) = (8 * n, noise(REPORT, n));
            join(&mut joiner, first, &cutter.pieces(40, &lossy), &[0, 1, 3]);
            let whole = noise(REPORT, 1000 + n);
            assert_eq!(join(&mut joiner, first + 4, &cutter.pieces(40, &whole), &[3, 2, 1, 0]).pop(), Some(Some(Joined::Whole(40, whole))));
            assert!(joiner.halves.len() <= HALVES && joiner.kept() <= HALVES * MOST * PIECE);
        }
        assert_eq!(joiner.halves.len(), HALVES - 1, "and the place of the last whole one");
    }

    #[test]
    fn what_no_report_has() {
        let mut joiner = Joiner::default();
        let pieces = Cutter::default().pieces(40, b"a report");
        fn piece(index: u8, count: u8, bytes: &[u8]) -> Piece<'_> {
            Piece { index, count, bytes }
        }
        assert_eq!(joiner.piece(START, 0, piece(1, 2, &pieces[0])), None, "its first would be before the first datagram");
        assert_eq!(joiner.piece(START, 9, piece(0, MOST as u8 + 1, &pieces[0])), None, "more pieces than a report has");
        assert_eq!(joiner.piece(START, 9, piece(0, 1, &[&pieces[0][..], b"!"].concat())), None, "something follows");
        for length in 0..pieces[0].len() {
            assert_eq!(joiner.piece(START, 9, piece(0, 1, &pieces[0][..length])), None, "cut to {length}");
        }
        assert_eq!(joiner.piece(START, 9, piece(0, 1, &noise(PIECE, 3))), None, "never deflated");
        assert_eq!(joiner.piece(START, 9, piece(0, 2, &noise(PIECE + 1, 3))), None, "longer than a piece is");
        assert_eq!(joiner.kept(), 0);
        assert_eq!(joiner.piece(START, 20, piece(0, 2, &pieces[0])), Some(Joined::Half));
        assert_eq!(joiner.piece(START, 21, piece(1, 3, b"!")), None, "it has two");
        assert_eq!(joiner.piece(START, 21, piece(1, 2, b"")), Some(Joined::Whole(40, b"a report".to_vec())));
    }

    #[test]
    fn nothing_inflates_to_more_than_a_report() {
        let (mut cutter, mut joiner) = (Cutter::default(), Joiner::default());
        let longest = cutter.pieces(40, &[0; REPORT]);
        assert_eq!(join(&mut joiner, 0, &longest, &[0]), [Some(Joined::Whole(40, vec![0; REPORT]))]);
        for length in [REPORT + 1, 1_000_000] {
            let mut deflated = Vec::with_capacity(10_000);
            let mut compress = Compress::new(Compression::default(), false);
            compress.compress_vec(&vec![0; 1 + length], &mut deflated, FlushCompress::Finish).unwrap();
            assert_eq!(join(&mut joiner, 0, &[deflated], &[0]), [None], "{length} bytes");
        }
    }
}
