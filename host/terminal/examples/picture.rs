//! The picture of the screens, as an SVG on standard output: the recorded keys over a bad line, side by side at 40 columns, where the mirror is a few calls
//! behind, and says so; and under them the candidate's half alone, at 80 columns in a terminal of the usual size, with rows that are hidden.
use std::time::Instant;
use terminal::canvas::{differing, Canvas, Size, Spot};
use terminal::halves::{Halves, FAULTS};
use terminal::played::{recorded, KEY};
use terminal::terminal::Program;

/// One that leaves the mirror behind at the end.
const SEED: u64 = 15;
const BOTH: Size = Size { cols: 81, rows: 30 };
const USUAL: Size = Size { cols: 80, rows: 24 };
/// Rows between the two.
const GAP: usize = 1;
/// A character's place, in points.
const WIDE: usize = 9;
const HIGH: usize = 18;

/// The sixteen colours of a text attribute.
const COLOURS: [&str; 16] = [
    "#000000", "#0000aa", "#00aa00", "#00aaaa", "#aa0000", "#aa00aa", "#aa5500", "#aaaaaa", "#555555", "#5555ff", "#55ff55", "#55ffff",
    "#ff5555", "#ff55ff", "#ffff55", "#ffffff",
];

fn main() {
    let pictures = [(0, played(40).canvas(BOTH)), (BOTH.rows + GAP, played(80).canvas(USUAL))];
    print!("{}", svg(&pictures));
}

/// Both ends after the recorded keys.
fn played(width: u32) -> Halves {
    let mut now = Instant::now();
    let mut halves = Halves::new(width, FAULTS, SEED, now);
    let first = halves.full();
    arrive(&mut halves, first);
    for key in recorded() {
        now += KEY;
        let pressed = halves.press(key);
        arrive(&mut halves, pressed);
        let passed = halves.pass(now);
        arrive(&mut halves, passed);
    }
    halves
}

fn arrive(halves: &mut Halves, datagrams: Vec<Vec<u8>>) {
    for datagram in datagrams {
        halves.hear(&datagram);
    }
}

/// Each from this row on.
fn svg(pictures: &[(usize, Canvas)]) -> String {
    let (width, height) = (WIDE * BOTH.cols, HIGH * (BOTH.rows + GAP + USUAL.rows));
    let mut lines = vec![
        format!(r#"<svg xmlns="http://www.w3.org/2000/svg" viewBox="0 0 {width} {height}" width="{width}" height="{height}">"#),
        r#"<style>text { font: 15px "DejaVu Sans Mono", monospace; }</style>"#.into(),
    ];
    for (top, canvas) in pictures {
        let (y, width, height) = (HIGH * top, WIDE * canvas.size.cols, HIGH * canvas.size.rows);
        lines.push(format!(r#"<rect y="{y}" width="{width}" height="{height}"/>"#));
        for row in 0..canvas.size.rows {
            for (col, text, look) in differing(None, canvas.row(row)) {
                lines.extend(stretch(top + row, col, &text, look));
            }
        }
        lines.extend(canvas.cursor.map(|(row, col)| rect(top + row, col, 1, 7)));
    }
    lines.push("</svg>\n".into());
    lines.join("\n")
}

fn rect(row: usize, col: usize, cols: usize, colour: u8) -> String {
    let (x, y, width, fill) = (WIDE * col, HIGH * row, WIDE * cols, COLOURS[colour as usize]);
    format!(r#"<rect x="{x}" y="{y}" width="{width}" height="{HIGH}" fill="{fill}"/>"#)
}

/// A background that is not black, and the text without the spaces at its ends.
fn stretch(row: usize, col: usize, text: &str, Spot { attr, underlined, .. }: Spot) -> Vec<String> {
    let mut parts = Vec::new();
    if attr >> 4 != 0 {
        parts.push(rect(row, col, text.chars().count(), attr >> 4));
    }
    if underlined {
        let (x, y, width, fill) = (WIDE * col, HIGH * (row + 1) - 2, WIDE * text.chars().count(), COLOURS[(attr & 15) as usize]);
        parts.push(format!(r#"<rect x="{x}" y="{y}" width="{width}" height="1" fill="{fill}"/>"#));
    }
    let inner = text.trim();
    if !inner.is_empty() {
        let before = text.chars().take_while(|c| c.is_whitespace()).count();
        let (x, y, length) = (WIDE * (col + before), HIGH * row + 14, WIDE * inner.chars().count());
        // Not every program that shows SVG keeps several spaces; those that do not break are kept by all.
        let inner = inner.replace('&', "&amp;").replace('<', "&lt;").replace(' ', "\u{a0}");
        let fill = COLOURS[(attr & 15) as usize];
        parts.push(format!(r#"<text x="{x}" y="{y}" fill="{fill}" textLength="{length}" lengthAdjust="spacingAndGlyphs">{inner}</text>"#));
    }
    parts
}
