//! The waiting print of document 02, (a), which the Rust lacks: what it takes and scrolls, found out by the Rust's prints.
//!
//! When a byte scrolls is said nowhere here. A scroll is seen, on a screen of the Rust that is printed on byte by byte.

use crate::screen::Screen;

#[derive(Clone, Copy, Debug)]
pub struct Waited {
    pub taken: usize,
    pub scrolled: usize,
}

impl Waited {
    /// On a screen that is then of no further use.
    pub fn on(mut screen: Screen, bytes: &[u8], rows: usize) -> Waited {
        let (mut taken, mut scrolled) = (0, 0);
        while taken < bytes.len() {
            let rest = &bytes[taken..];
            // "13,10 counts as one"
            let step = if rest.starts_with(b"\r\n") { 2 } else { 1 };
            let more = usize::from(scrolls(&mut screen, &rest[..step]));
            if scrolled + more > rows {
                break;
            }
            (taken, scrolled) = (taken + step, scrolled + more);
        }
        Waited { taken, scrolled }
    }

    pub fn answer(&self) -> u64 {
        (self.taken + 65_536 * self.scrolled) as u64
    }
}

/// Prints, and tells whether row 0 has gone: two of its cells are given a colour that the cells under them do not have, and a scroll takes
/// both away. They are two, since a byte may be printed on one of them. Printing does not look at colours.
fn scrolls(screen: &mut Screen, bytes: &[u8]) -> bool {
    let ((row, col), attr) = (screen.cursor(), screen.attr());
    let marked = [0, 1];
    let near = marked.map(|col| screen.cell(1, col).attr);
    let mark = (0..=255)
        .find(|mark| *mark != attr && !near.contains(mark))
        .unwrap();
    screen.set_cursor(0, 0);
    screen.set_attr(mark);
    screen.print_bytes(&marked.map(|col| screen.cell(0, col).ch));
    screen.set_cursor(row, col);
    screen.set_attr(attr);
    screen.print_bytes(bytes);
    marked.iter().all(|&col| screen.cell(0, col).attr != mark)
}
