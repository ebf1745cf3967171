//! The submitted lines under a screen, and on a page of their own. Each is shown whole: what has no room is named, or left out, and stands on the page.
use crate::canvas::{broken, Canvas, Part, PLAIN, STRONG};
use futonrobin::Refusal;

/// A line that was submitted.
#[derive(Clone, PartialEq, Eq, Debug)]
pub struct Submitted {
    pub text: String,
    /// The key before had no room in the field: something was left out.
    pub cut: bool,
}

impl Submitted {
    /// A refusal stands among the lines: that of a spent serial, after which no key does anything.
    pub fn refused(refusal: Refusal) -> Self {
        Self { text: format!("({refusal})"), cut: false }
    }

    /// What stands before its text.
    pub fn before_text(&self, number: usize) -> String {
        format!("submitted {number}{}: ", if self.cut { ", cut" } else { "" })
    }
}

/// The rows of a submitted line, in so many columns.
fn rows_of(number: usize, line: &Submitted, cols: usize) -> Vec<String> {
    let before = line.before_text(number);
    let indent = before.chars().count();
    let pieces = if line.text.is_empty() { vec![String::new()] } else { broken(&line.text, cols.saturating_sub(indent)) };
    let row = |(at, piece): (usize, String)| if at == 0 { format!("{before}{piece}") } else { format!("{}{piece}", " ".repeat(indent)) };
    pieces.into_iter().enumerate().map(row).collect()
}

/// The last line in a row of a status, if it has room there.
pub fn in_a_row(submitted: &[Submitted], cols: usize) -> Option<Part> {
    let (number, line) = (submitted.len(), submitted.last()?);
    let rows = rows_of(number, line, cols);
    Some((if rows.len() == 1 { rows.concat() } else { named(number, line) }, PLAIN))
}

fn named(number: usize, line: &Submitted) -> String {
    format!("{}Ctrl-P shows it", line.before_text(number))
}

/// The last ones that have room in the rows from this one on.
pub fn list(canvas: &mut Canvas, top: usize, submitted: &[Submitted]) {
    let free = canvas.size.rows.saturating_sub(top);
    let mut rows: Vec<String> = Vec::new();
    for (at, line) in submitted.iter().enumerate().rev() {
        let above = rows_of(at + 1, line, canvas.size.cols);
        if above.len() + rows.len() > free {
            break;
        }
        rows = [above, rows].concat();
    }
    if let ([], Some(last)) = (rows.as_slice(), submitted.last()) {
        if free > 0 {
            rows.push(named(submitted.len(), last));
        }
    }
    rows.iter().enumerate().for_each(|(at, row)| canvas.text(top + at, 0, row, PLAIN));
}

/// All of them on a page, under what there is to know about the sitting; so many rows back from the end, or as many as there are, which it answers.
pub fn page(canvas: &mut Canvas, notice: &[String], submitted: &[Submitted], back: usize) -> usize {
    let lines = submitted.iter().enumerate().flat_map(|(at, line)| rows_of(at + 1, line, canvas.size.cols));
    let all: Vec<_> = notice.iter().cloned().chain(lines).collect();
    let title = match submitted.len() {
        0 => "NOTHING SUBMITTED YET".to_string(),
        1 => "1 LINE SUBMITTED".into(),
        count => format!("{count} LINES SUBMITTED"),
    };
    canvas.text(0, 0, &title, STRONG);
    let room = rows_on_a_page(canvas.size.rows);
    let back = back.min(all.len().saturating_sub(room));
    let end = all.len() - back;
    let first = end.saturating_sub(room);
    all[first..end].iter().enumerate().for_each(|(at, row)| canvas.text(1 + at, 0, row, PLAIN));
    let (above, below) = (first, all.len() - end);
    let more = if above + below > 0 { format!("rows above: {above}, below: {below} (PageUp, PageDown); ") } else { String::new() };
    canvas.text(canvas.size.rows - 1, 0, &format!("{more}any other key goes back"), STRONG);
    back
}

/// Between the title and the last row.
pub fn rows_on_a_page(rows: usize) -> usize {
    rows.saturating_sub(2)
}

#[cfg(test)]
mod tests {
    use super::*;
    use crate::canvas::Size;

    fn shown(rows: usize, paint: impl FnOnce(&mut Canvas)) -> Vec<String> {
        let mut canvas = Canvas::new(Size { cols: 30, rows });
        paint(&mut canvas);
        (0..rows).map(|row| canvas.line(row)).collect()
    }

    fn lines() -> Vec<Submitted> {
        ["10 WARD 7", "20 WARD 8: BED 1 FREE, BED 2  FREE", ""].map(|text| Submitted { text: text.into(), cut: false }).into()
    }

    #[test]
    fn one_that_was_cut_says_so() {
        let cut = |text: &str| [Submitted { text: text.into(), cut: true }];
        assert_eq!(in_a_row(&cut("WARD"), 80).unwrap().0, "submitted 1, cut: WARD");
        assert_eq!(shown(1, |canvas| list(canvas, 0, &cut("WARD"))), ["submitted 1, cut: WARD"]);
        // Where its text has no room, too.
        let long = "A".repeat(60);
        assert_eq!(in_a_row(&cut(&long), 80).unwrap().0, format!("submitted 1, cut: {long}"));
        assert_eq!(in_a_row(&cut(&long), 40).unwrap().0, "submitted 1, cut: Ctrl-P shows it");
        assert_eq!(shown(1, |canvas| list(canvas, 0, &cut(&long))), ["submitted 1, cut: Ctrl-P show…"]);
    }

    #[test]
    fn what_is_too_long_for_a_row_goes_on_in_the_next_and_no_space_is_lost() {
        let listed = |rows| shown(rows, |canvas| list(canvas, 0, &lines()));
        assert_eq!(
            listed(4),
            ["submitted 1: 10 WARD 7", "submitted 2: 20 WARD 8: BED 1", "             FREE, BED 2  FREE", "submitted 3:"]
                .map(str::trim_end)
        );
        assert_eq!(listed(3), ["submitted 2: 20 WARD 8: BED 1", "             FREE, BED 2  FREE", "submitted 3:"]);
        assert_eq!(listed(2), ["submitted 3:", ""], "the one before has no room");
        assert_eq!(listed(0), [""; 0]);
    }

    #[test]
    fn what_has_no_room_is_named() {
        let listed = |rows| shown(rows, |canvas| list(canvas, 0, &lines()[..2]));
        assert_eq!(listed(1), ["submitted 2: Ctrl-P shows it"]);
        assert_eq!(in_a_row(&lines()[..2], 80).unwrap().0, "submitted 2: 20 WARD 8: BED 1 FREE, BED 2  FREE");
        assert_eq!(in_a_row(&lines()[..2], 46).unwrap().0, "submitted 2: Ctrl-P shows it");
        assert_eq!(in_a_row(&[], 80), None);
    }

    #[test]
    fn a_page_of_them() {
        let notice = ["sitting 5 is the first".to_string()];
        let paged = |rows, back| {
            shown(rows, |canvas| {
                page(canvas, &notice, &lines(), back);
            })
        };
        let all = ["3 LINES SUBMITTED", "sitting 5 is the first", "submitted 1: 10 WARD 7", "submitted 2: 20 WARD 8: BED 1"];
        assert_eq!(paged(8, 0)[..4], all);
        assert_eq!(paged(8, 0)[7], "any other key goes back");
        assert_eq!(paged(4, 0)[1..3], ["             FREE, BED 2  FREE", "submitted 3:"]);
        assert_eq!(paged(4, 2)[1..], ["submitted 1: 10 WARD 7", "submitted 2: 20 WARD 8: BED 1", "rows above: 1, below: 2 (Page…"]);
        assert_eq!(paged(4, 99)[1..3], ["sitting 5 is the first", "submitted 1: 10 WARD 7"]);
        let mut canvas = Canvas::new(Size { cols: 80, rows: 4 });
        assert_eq!(
            (page(&mut canvas, &[], &[], 7), page(&mut canvas, &[], &lines(), 7)),
            (0, 1),
            "it is not further back than there are rows"
        );
        assert_eq!(canvas.line(3), "rows above: 0, below: 1 (PageUp, PageDown); any other key goes back");
    }
}
