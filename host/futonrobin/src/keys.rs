//! The ten function keys and the strip that shows them.
use crate::layout::KEY_TABLE;
use crate::{ffi, Refusal};

/// The longest macro.
const LONGEST: usize = 15;
/// A key's part of the table: a length and fifteen bytes.
const SLOT: usize = 1 + LONGEST;

/// What F1 to F10 type: at most 15 bytes each. A trailing 13 submits the line.
#[derive(Clone, PartialEq, Eq, Debug)]
pub struct KeyTable {
    bytes: Vec<u8>,
}

impl KeyTable {
    /// A table whose keys type nothing.
    pub fn empty() -> Self {
        Self { bytes: vec![0; KEY_TABLE] }
    }

    /// The keys as BASIC starts with them.
    pub fn standard() -> Self {
        let texts = ["LIST", "RUN\r", "LOAD\"", "SAVE\"", "CONT\r", ",\"LPT1:\"\r", "TRON\r", "TROFF\r", "KEY", "SCREEN 0,0,0\r"];
        let mut table = Self::empty();
        for (key, text) in (1..).zip(texts) {
            table.set(key, text.as_bytes());
        }
        table
    }

    /// A table that was kept elsewhere. Refused are wrong lengths and broken layouts.
    pub fn from_bytes(bytes: &[u8]) -> Result<Self, Refusal> {
        let table = Self { bytes: bytes.to_vec() };
        table.strip(0, 40)?;
        Ok(table)
    }

    /// What a key types. As in the Rust, a number outside of 1 to 10 is the nearest of them.
    pub fn get(&self, key: u8) -> &[u8] {
        let slot = &self.bytes[slot(key)..][..SLOT];
        &slot[1..=slot[0] as usize]
    }

    /// Sets what a key types: the first 15 of these bytes.
    pub fn set(&mut self, key: u8, text: &[u8]) {
        let text = &text[..text.len().min(LONGEST)];
        let slot = &mut self.bytes[slot(key)..][..SLOT];
        slot.fill(0);
        slot[0] = text.len() as u8;
        slot[1..=text.len()].copy_from_slice(text);
    }

    /// The strip for the last row, from the key after `offset` on. Refused are offsets above 9 and widths other than 40 and 80.
    pub fn strip(&self, offset: u32, width: u32) -> Result<Vec<u8>, Refusal> {
        // Another width is refused before the output's length is looked at.
        let mut out = vec![0; if width == 40 { 40 } else { 80 }];
        Refusal::of_answer(ffi::keys_strip(&self.bytes, offset, width, &mut out))?;
        Ok(out)
    }

    /// All its bytes, to be kept elsewhere.
    pub fn as_bytes(&self) -> &[u8] {
        &self.bytes
    }
}

/// Where a key's part begins.
fn slot(key: u8) -> usize {
    SLOT * (usize::from(key.clamp(1, 10)) - 1)
}
