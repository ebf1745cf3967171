//! The second screen, which follows the first by reports.
use crate::layout::{number, MIRROR, NEWEST_AT, NEWEST_SITTING_AT, SHOWN_AT};
use crate::shown::{brief, kept};
use crate::{ffi, Pair, Refusal, Shown};
use std::fmt;

/// A mirror of its own. Nothing but arrivals changes it.
///
/// New at the width and the sitting of the first screen whose reports may arrive, it shows the screen of the sitting and serial that it names
/// ([`Shown::pair`]), whatever the line does to whole reports, of that screen or of later ones that began again at serial 0. It is level if that is
/// the newest pair that it has heard of.
#[derive(Clone, PartialEq, Eq)]
pub struct Mirror {
    bytes: Vec<u8>,
}

impl Mirror {
    /// A new mirror, for a screen that is new at this width in this sitting.
    pub fn new(width: u32, sitting: u32) -> Self {
        let mut bytes = vec![0; MIRROR];
        kept(ffi::mirror_new(&mut bytes, width, sitting));
        Self { bytes }
    }

    /// A mirror from bytes that were kept elsewhere. Refused are wrong lengths and broken layouts.
    pub fn from_bytes(bytes: &[u8]) -> Result<Self, Refusal> {
        let mut mirror = Self { bytes: bytes.to_vec() };
        // Length and layout of a mirror are judged before the report, and no report is empty.
        match mirror.arrive([]) {
            Err(Refusal::BrokenReport) => Ok(mirror),
            Err(refusal) => Err(refusal),
            Ok(_) => unreachable!("an empty report is refused"),
        }
    }

    /// A report arrives, or anything else that came over the line. It answers whether the mirror is then level. Refused are
    /// broken reports, and steps that change the width without all rows.
    pub fn arrive(&mut self, report: impl AsRef<[u8]>) -> Result<bool, Refusal> {
        Ok(Refusal::of_answer(ffi::mirror_arrive(&mut self.bytes, report.as_ref()))? == 1)
    }

    /// The newest pair that it has heard of.
    pub fn newest(&self) -> Pair {
        Pair { sitting: number(&self.bytes, NEWEST_SITTING_AT), serial: number(&self.bytes, NEWEST_AT) }
    }

    /// Whether it shows the newest pair that it has heard of.
    pub fn is_level(&self) -> bool {
        self.pair() == self.newest()
    }

    /// All its bytes, to be kept elsewhere.
    pub fn as_bytes(&self) -> &[u8] {
        &self.bytes
    }
}

impl Shown for Mirror {
    fn record(&self) -> &[u8] {
        &self.bytes[SHOWN_AT..]
    }
}

impl fmt::Debug for Mirror {
    fn fmt(&self, f: &mut fmt::Formatter) -> fmt::Result {
        brief("Mirror", self, f)
    }
}
