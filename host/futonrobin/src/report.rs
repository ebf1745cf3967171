//! Reports, as they are made from a screen or taken from a line.
use crate::layout::{number, KIND_AT, REPORT_SERIAL_AT, REPORT_SITTING_AT, REPORT_WIDTH_AT};
use crate::{Mirror, Pair, Refusal};
use std::fmt;

/// What a report carries.
#[derive(Clone, Copy, PartialEq, Eq, Debug)]
pub enum Kind {
    /// The rows that the last accepted call has changed.
    Step,
    /// All rows.
    Full,
}

/// A report that keeps the documents' layout.
#[derive(Clone, PartialEq, Eq)]
pub struct Report {
    bytes: Vec<u8>,
}

impl Report {
    pub(crate) fn of_call(bytes: Vec<u8>) -> Self {
        Self { bytes }
    }

    /// A report from bytes of any origin. A broken layout is refused.
    pub fn from_bytes(bytes: &[u8]) -> Result<Self, Refusal> {
        // Arrival is the call that judges a report. At a new mirror of the report's own width nothing else can refuse it.
        let width = bytes.get(REPORT_WIDTH_AT).copied().unwrap_or_default();
        Mirror::new(width.into(), 0).arrive(bytes)?;
        Ok(Self { bytes: bytes.to_vec() })
    }

    /// The bytes for the line.
    pub fn as_bytes(&self) -> &[u8] {
        &self.bytes
    }

    /// What it carries.
    pub fn kind(&self) -> Kind {
        if self.bytes[KIND_AT] == 1 {
            Kind::Step
        } else {
            Kind::Full
        }
    }

    /// How many changing calls the screen had accepted when the report was made.
    pub fn serial(&self) -> u32 {
        number(&self.bytes, REPORT_SERIAL_AT)
    }

    /// The sitting of that screen.
    pub fn sitting(&self) -> u32 {
        number(&self.bytes, REPORT_SITTING_AT)
    }

    /// Sitting and serial.
    pub fn pair(&self) -> Pair {
        Pair { sitting: self.sitting(), serial: self.serial() }
    }
}

impl fmt::Debug for Report {
    fn fmt(&self, f: &mut fmt::Formatter) -> fmt::Result {
        write!(f, "Report {{ kind: {:?}, sitting: {}, serial: {}, .. }}", self.kind(), self.sitting(), self.serial())
    }
}

impl AsRef<[u8]> for Report {
    fn as_ref(&self) -> &[u8] {
        &self.bytes
    }
}
