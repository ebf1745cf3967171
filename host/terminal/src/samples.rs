//! For the tests: screens, an invigilator's end, and candidates of any sitting and serial that speak with it.
use futonrobin::{Screen, Shown};
use line::{Candidate, Invigilator, SharedKey};
use std::collections::BTreeMap;
use std::net::SocketAddr;
use std::time::Instant;

/// Where a record has its serial (docs/ABI.md). No test could make thousands of millions of calls.
const SERIAL: std::ops::Range<usize> = 9..13;

pub fn screen(sitting: u32, serial: u32) -> Screen {
    let mut record = Screen::new(40, sitting).record().to_vec();
    record[SERIAL].copy_from_slice(&serial.to_be_bytes());
    Screen::from_bytes(&record).unwrap()
}

/// The cells of a screen, each with the flag of its row.
pub fn cells(screen: &Screen) -> Vec<(u8, u8, bool)> {
    let places = (0..25).flat_map(|row| (0..screen.width()).map(move |col| (row, col)));
    let cell = |(row, col)| (screen.cell(row, col).unwrap(), screen.continues(row).unwrap());
    places.map(cell).map(|(cell, flag)| (cell.ch, cell.attr, flag)).collect()
}

/// The candidates, by their sittings.
pub struct Candidates {
    pub shared: SharedKey,
    of: BTreeMap<u32, Candidate>,
}

impl Candidates {
    pub fn new(shared: SharedKey) -> Self {
        Self { shared, of: BTreeMap::new() }
    }

    /// A full report comes of a screen that is still so.
    pub fn full(&mut self, invigilator: &mut Invigilator, screen: &Screen, now: Instant) {
        let sent = self.of(screen, now).full(screen, now);
        hear(invigilator, &sent, screen.sitting(), now);
        for (_, question) in invigilator.ask(now) {
            let candidate = self.of(screen, now);
            candidate.receive(&question, now);
            hear(invigilator, &candidate.due(screen, now), screen.sitting(), now);
        }
    }

    /// A step comes, and nothing is asked.
    pub fn step(&mut self, invigilator: &mut Invigilator, screen: &Screen, now: Instant) {
        let sent = self.of(screen, now).send(screen, &screen.report_step(), now);
        hear(invigilator, &sent, screen.sitting(), now);
    }

    fn of(&mut self, screen: &Screen, now: Instant) -> &mut Candidate {
        self.of.entry(screen.sitting()).or_insert_with(|| Candidate::new(&self.shared, screen, now))
    }
}

/// From an address that the sitting has for itself.
fn hear(invigilator: &mut Invigilator, sent: &[Vec<u8>], sitting: u32, now: Instant) {
    let from: SocketAddr = ([127, 0, 0, 1], sitting as u16).into();
    for datagram in sent {
        invigilator.receive(datagram, from, now);
    }
}
