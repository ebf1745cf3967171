//! The waiting print of document 02, (a), which the Rust lacks: how many bytes it takes and how many rows they scroll, found out by the Rust's prints.
//!
//! When a byte scrolls is said nowhere here. A scroll is seen, on a screen of the Rust that is printed on byte by byte.
use crate::oracle::{self, opened::Screen};

/// "It refuses an input longer than 65,535 bytes".
pub const LONGEST_INPUT: usize = 65_535;
/// "A row limit of 0 to 1,000".
pub const MOST_ROWS: u32 = 1_000;

/// What a row counts in the answer: "It gives bytes taken + 65,536 × rows scrolled".
const A_ROW: u32 = 65_536;

/// What a waiting print does.
#[derive(Clone, Copy, Default)]
pub struct Waited {
    pub taken: usize,
    pub scrolled: u32,
}

impl Waited {
    /// On the screen that a valid record describes: it "stops before the byte that would scroll one row more".
    pub fn on(rec: &[u8], bytes: &[u8], rows: u32) -> Self {
        let (mut screen, mut waited) = (oracle::opened(rec), Self::default());
        for step in steps(bytes) {
            let scrolled = waited.scrolled + scrolls(&mut screen, step) as u32;
            if scrolled > rows {
                break;
            }
            waited = Self { taken: waited.taken + step.len(), scrolled };
        }
        waited
    }

    pub fn of_answer(answer: u32) -> Self {
        Self { taken: (answer % A_ROW) as usize, scrolled: answer / A_ROW }
    }

    pub fn answer(self) -> u32 {
        self.taken as u32 + A_ROW * self.scrolled
    }
}

/// What is printed together: "13,10 counts as one", and every other byte is by itself.
fn steps(bytes: &[u8]) -> impl Iterator<Item = &[u8]> {
    let mut rest = bytes;
    std::iter::from_fn(move || {
        let (step, later) = rest.split_at_checked(if rest.starts_with(b"\r\n") { 2 } else { 1 })?;
        rest = later;
        Some(step)
    })
}

/// Prints, and tells whether row 0 has gone: two of its cells are given a colour that the cells under them do not have, and a scroll takes both away.
/// They are two, since a byte may be printed on one of them. The colours of this screen are then no longer right; printing does not look at them.
fn scrolls(screen: &mut Screen, bytes: &[u8]) -> bool {
    let ((row, col), attr) = (screen.cursor(), screen.attr());
    let marked = [0, 1];
    let near = marked.map(|col| screen.cell(1, col).attr);
    let mark = (0..).find(|mark| *mark != attr && !near.contains(mark)).expect("three colours are near, and there are 256");
    screen.set_cursor(0, 0);
    screen.set_attr(mark);
    screen.print_bytes(&marked.map(|col| screen.cell(0, col).ch));
    screen.set_cursor(row, col);
    screen.set_attr(attr);
    screen.print_bytes(bytes);
    marked.iter().all(|&col| screen.cell(0, col).attr != mark)
}
