//! The page of keys at each end. Those that destroy something are marked.
use crate::canvas::{Canvas, PLAIN, STRONG, YELLOW};
use crate::field::Field;
use crate::front::NEEDED;

/// A key, what it does, and whether that destroys something.
#[derive(Clone, Copy)]
pub struct Entry {
    pub key: &'static str,
    does: &'static str,
    destroys: bool,
}

const fn key(key: &'static str, does: &'static str) -> Entry {
    Entry { key, does, destroys: false }
}

const fn destroying(key: &'static str, does: &'static str) -> Entry {
    Entry { key, does, destroys: true }
}

const CTRL_ENTER: &str = "Ctrl-Enter, -J";
const SUBMITS: &str = "a ← in one submits it";

pub const CANDIDATE: &[Entry] = &[
    key("Enter", "submits the line"),
    key(CTRL_ENTER, "adds the next row to it"),
    key("Arrows", "move the cursor"),
    key("Ctrl-Left", "to the word before"),
    key("Ctrl-Right", "to the next word"),
    key("Home, End", "top left, line's end"),
    key("Tab", "to the next 8th column"),
    key("Ins", "insert on and off"),
    destroying("Backspace", "deletes the one before"),
    destroying("Del", "deletes the character"),
    destroying("Esc", "deletes the whole line"),
    destroying("Alt-letter", "Esc, then the letter"),
    destroying("Ctrl-End, -E", "erases to line's end"),
    destroying("Ctrl-Home", "clears the screen"),
    key("Ctrl-C", "next row, no submitting"),
    key("F1 to F10", "type the strip's texts;"),
    key("", SUBMITS),
    key("Ctrl-A", "the next colour"),
    key("Ctrl-K", "key strip on and off"),
    destroying("Ctrl-W", "the other width; clears"),
    destroying("Ctrl-F", "prints the ward list"),
    key("Ctrl-P", "submitted lines, notes"),
    key("Ctrl-G", "this page"),
    destroying("Ctrl-Q", "leaves"),
];

/// The candidate's keys, and what two of them do in a field.
pub fn candidate(field: Option<Field>) -> Vec<Entry> {
    let entry = |entry: &Entry| match field {
        Some(_) if entry.key == CTRL_ENTER => key(CTRL_ENTER, "off in a field"),
        Some(_) if entry.does == SUBMITS => key("", "a ← submits if all fits"),
        _ => *entry,
    };
    CANDIDATE.iter().map(entry).collect()
}

/// With both ends in one terminal.
pub const DEMO: &[Entry] = &[
    key("Ctrl-T", "the other half"),
    key("PageUp", "mirror: sitting before"),
    key("PageDown", "mirror: newer again"),
    key("Ctrl-X", "cuts the line, joins it"),
    key("Ctrl-L, R, O", "loss, repeats, reorders"),
    destroying("Ctrl-N", "the candidate restarts"),
];

pub const INVIGILATOR: &[Entry] = &[
    key("PageUp", "the last screen of the sitting before"),
    key("PageDown", "newer again, at last the current screen"),
    key("Up, Down", "move the window where not all rows have room"),
    key("Home", "the window follows the cursor again"),
    key("Ctrl-G, F1", "this page"),
    key("Ctrl-Q", "leaves; the candidate goes on"),
];

/// One row for the title, an empty one, and one for the legend.
const BESIDES: usize = 3;
/// Columns of the mark and a key.
const KEY: usize = 17;

/// In one column if the smallest terminal has the rows, else in two.
fn columns(entries: usize) -> usize {
    if entries + BESIDES <= NEEDED.rows {
        1
    } else {
        2
    }
}

/// The keys, those of the first list before those of the second.
pub fn page(canvas: &mut Canvas, title: &str, lists: [&[Entry]; 2]) {
    let entries: Vec<_> = lists.into_iter().flatten().collect();
    let columns = columns(entries.len());
    let (high, wide) = (entries.len().div_ceil(columns), canvas.size.cols / columns);
    canvas.text(0, 0, title, STRONG);
    for (at, entry) in entries.iter().enumerate() {
        let (row, left) = (1 + at % high, at / high * wide);
        let (mark, attr) = if entry.destroys { ('!', YELLOW) } else { (' ', STRONG) };
        canvas.text_to(row, left..left + wide, &format!("{mark} {}", entry.key), attr);
        canvas.text_to(row, left + KEY..left + wide, entry.does, PLAIN);
    }
    let marked = if entries.iter().any(|entry| entry.destroys) { "! destroys something.  " } else { "" };
    canvas.text(2 + high, 0, &format!("{marked}Any key goes back."), STRONG);
}

#[cfg(test)]
mod tests {
    use super::*;
    use crate::canvas::Size;

    #[test]
    fn what_is_off_in_a_field_is_not_said_to_work() {
        let (whole, field) = (candidate(None), candidate(Field::new(60)));
        let others = whole.iter().zip(&field).filter(|(whole, field)| whole.does != field.does);
        let others = others.map(|(whole, field)| [whole.does, field.does]).collect::<Vec<_>>();
        assert_eq!(others, [["adds the next row to it", "off in a field"], ["a ← in one submits it", "a ← submits if all fits"]]);
        assert_eq!(field.len(), CANDIDATE.len());
    }

    #[test]
    fn every_page_fits_into_the_smallest_terminal_and_nothing_is_cut() {
        let field = candidate(Field::new(60));
        for (lists, cols) in [[CANDIDATE, &[]], [CANDIDATE, DEMO], [&field, DEMO], [INVIGILATOR, &[]]]
            .into_iter()
            .flat_map(|lists| [(lists, 80), (lists, 170)])
        {
            let mut canvas = Canvas::new(Size { cols, rows: NEEDED.rows });
            page(&mut canvas, "KEYS", lists);
            let shown: Vec<_> = (0..NEEDED.rows).map(|row| canvas.line(row)).collect();
            assert!(shown.iter().any(|line| line.ends_with("Any key goes back.")) && !shown.concat().contains('…'), "{}", shown.join("\n"));
            for Entry { key, does, destroys } in lists.into_iter().flatten() {
                let row = format!("{} {key:<14} {does}", if *destroys { '!' } else { ' ' });
                assert!(shown.iter().any(|line| line.contains(&row)), "'{row}' is not in\n{}", shown.join("\n"));
            }
        }
    }
}
