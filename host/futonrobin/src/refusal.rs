//! The documents' refusals, as an error.
use std::fmt;

/// Why a call was refused. A refused call has changed nothing.
#[derive(Clone, Copy, PartialEq, Eq, Hash, Debug)]
pub enum Refusal {
    /// 1: a lent slice has the wrong length.
    WrongLength = 1,
    /// 2: the screen, mirror or key table breaks its layout.
    BrokenLayout = 2,
    /// 3: an argument is out of range.
    OutOfRange = 3,
    /// 4: a changing call finds the last serial.
    SpentSerial = 4,
    /// 5: an arriving report breaks its layout.
    BrokenReport = 5,
    /// 6: a step report changes the width without carrying all rows.
    WidthWithoutRows = 6,
    /// 7: a waiting print is handed more than 65,535 bytes. [`Screen::print_waiting`](crate::Screen::print_waiting) hands over no more.
    LongInput = 7,
    /// 13: a checked print begins with 10 while [`ended_in_cr`](crate::Shown::ended_in_cr) holds. [`Screen::print_checked`](crate::Screen::print_checked)
    /// says what to do then.
    SplitLineEnd = 13,
}

use Refusal::*;

const ALL: [Refusal; 8] = [WrongLength, BrokenLayout, OutOfRange, SpentSerial, BrokenReport, WidthWithoutRows, LongInput, SplitLineEnd];

/// Refusal k is this and k.
const REFUSED: u32 = 4_294_967_040;

impl Refusal {
    /// The documents' number.
    pub fn number(self) -> u32 {
        self as u32
    }

    /// What an exported call has answered: a number, or a refusal.
    pub fn of_answer(answer: u32) -> Result<u32, Refusal> {
        if answer <= REFUSED {
            return Ok(answer);
        }
        let number = answer - REFUSED;
        let known = ALL.into_iter().find(|refusal| refusal.number() == number);
        Err(known.unwrap_or_else(|| panic!("the archive answers with refusal {number}, which this crate does not know")))
    }

    fn sentence(self) -> &'static str {
        match self {
            WrongLength => "a buffer has the wrong length",
            BrokenLayout => "the screen, mirror or key table breaks its layout",
            OutOfRange => "an argument is out of range",
            SpentSerial => "the serial is spent: this screen has taken 4,294,967,295 calls",
            BrokenReport => "the report breaks its layout",
            WidthWithoutRows => "the step report changes the width without carrying all 25 rows",
            LongInput => "a waiting print takes 65,535 bytes at most",
            SplitLineEnd => "a line end is split: 13 was printed last, and these bytes begin with its 10",
        }
    }
}

impl fmt::Display for Refusal {
    fn fmt(&self, f: &mut fmt::Formatter) -> fmt::Result {
        write!(f, "{} (refusal {})", self.sentence(), self.number())
    }
}

impl std::error::Error for Refusal {}
