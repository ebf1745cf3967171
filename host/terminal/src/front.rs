//! What stands between the keys and a screen: pages that cover it, a question before something is lost, and a terminal that is too small.
use crate::canvas::{wrapped, Canvas, Part, Size, RED, REVERSED, STRONG};
use crate::field::Field;
use crate::keys::Key;
use crate::submitted::rows_on_a_page;
use crate::terminal::Input;

/// What every program needs: 80 columns whatever the screen's width, and rows for the page of keys.
pub const NEEDED: Size = Size { cols: 80, rows: 18 };
/// The way to the page of keys.
pub const HINT: &str = "Ctrl-G: help";
const LEAVE: &str = "Leave? What was typed is lost. Ctrl-Q again: yes, else: no";

#[derive(Clone, Copy, PartialEq, Eq, Debug)]
pub enum Page {
    Help,
    /// The submitted lines, so many rows back from the last.
    Submitted(usize),
}

/// What is asked, once: the same key again means yes, any other means no and does what it does.
#[derive(Clone, Copy, PartialEq, Eq, Debug)]
enum Question {
    Leave,
    Width,
}

pub struct Front {
    page: Option<Page>,
    asked: Option<Question>,
    /// Whether keys are typed here at all; which one is off; and whether any was typed since the start.
    typing: bool,
    off: Option<Key>,
    typed: bool,
}

impl Front {
    /// Of a screen on which one types, or of a mirror.
    pub fn new(typing: bool) -> Self {
        Self { page: None, asked: None, typing, off: None, typed: false }
    }

    /// Of a screen on which one types, in a field if there is one: then a key is off, which loses nothing.
    pub fn of_field(field: Option<Field>) -> Self {
        Self { off: field.map(|_| Key::CtrlEnter), ..Self::new(true) }
    }

    /// What is to be done for an input, in a terminal of this size.
    pub fn take(&mut self, input: Input, size: Size) -> Option<Input> {
        let asked = self.asked.take();
        if input == Input::Leave {
            self.page = None;
            return self.answer(asked, Question::Leave, input);
        }
        // Nobody types on a screen that is not shown.
        if !NEEDED.fits(size) {
            return None;
        }
        if let Some(page) = self.page.take() {
            self.page = turned(page, input, size);
            return None;
        }
        match input {
            Input::Help => self.page = Some(Page::Help),
            Input::Submitted => self.page = Some(Page::Submitted(0)),
            Input::Key(Key::Width) => return self.answer(asked, Question::Width, input),
            _ => {
                self.typed |= self.typing && matches!(input, Input::Key(key) if !key.only_moves() && Some(key) != self.off);
                return Some(input);
            }
        }
        None
    }

    /// It is done if nothing was typed that could be lost, or if it was asked; else it is asked.
    fn answer(&mut self, asked: Option<Question>, question: Question, input: Input) -> Option<Input> {
        if !self.typed || asked == Some(question) {
            return Some(input);
        }
        self.asked = Some(question);
        None
    }

    pub fn page(&self) -> Option<Page> {
        self.page
    }

    /// The page of submitted lines is not further back than this.
    pub fn is_back(&mut self, back: usize) {
        self.page = Some(Page::Submitted(back));
    }

    /// The question, for a screen that would be of that width.
    pub fn question(&self, other_width: u32) -> Option<Part> {
        let question = match self.asked? {
            Question::Leave => LEAVE.into(),
            Question::Width => format!("Clear it for {other_width} columns? Ctrl-W again: yes, else: no"),
        };
        Some((question, REVERSED))
    }

    /// What is shown in a terminal that is too small, if it is.
    pub fn too_small(&self, size: Size) -> Option<Canvas> {
        if NEEDED.fits(size) {
            return None;
        }
        let (has, needs) = (format!("{} columns and {} rows", size.cols, size.rows), format!("{} and {}", NEEDED.cols, NEEDED.rows));
        let sentence =
            format!("The terminal is too small: it has {has}, and {needs} are needed. Make it larger, or press Ctrl-Q to leave.");
        let question = self.asked.filter(|asked| *asked == Question::Leave).map(|_| (LEAVE.into(), RED));
        // Where there is room for few words, they are the question's.
        let lines = [question, Some((sentence, STRONG))].into_iter().flatten();
        let lines = lines.flat_map(|(text, attr)| wrapped(&text, size.cols).into_iter().map(move |line| (line, attr)));
        let mut canvas = Canvas::new(size);
        lines.enumerate().for_each(|(row, (line, attr))| canvas.text(row, 0, &line, attr));
        Some(canvas)
    }
}

/// The page after an input: any key leads back, but for those that turn pages.
fn turned(page: Page, input: Input, size: Size) -> Option<Page> {
    let rows = rows_on_a_page(size.rows);
    match (page, input) {
        (Page::Submitted(back), Input::Back) => Some(Page::Submitted(back.saturating_add(rows))),
        (Page::Submitted(back), Input::Forth) => Some(Page::Submitted(back.saturating_sub(rows))),
        _ => None,
    }
}

#[cfg(test)]
mod tests {
    use super::*;

    const SMALLER: Size = Size { cols: NEEDED.cols, rows: NEEDED.rows - 1 };
    const A: Input = Input::Key(Key::Char(b'A'));
    const WIDTH: Input = Input::Key(Key::Width);

    /// What is done for each of the inputs, in a terminal that is large enough.
    fn taken(front: &mut Front, inputs: &[Input]) -> Vec<Option<Input>> {
        inputs.iter().map(|&input| front.take(input, NEEDED)).collect()
    }

    fn said(front: &Front) -> String {
        front.question(40).map_or(String::new(), |(question, _)| question)
    }

    #[test]
    fn what_was_typed_is_not_lost_without_a_question() {
        let mut front = Front::new(true);
        assert_eq!(taken(&mut front, &[WIDTH, Input::Leave]), [Some(WIDTH), Some(Input::Leave)], "nothing was typed yet");
        let right = Input::Key(Key::Right);
        assert_eq!(taken(&mut front, &[right, Input::Leave]), [Some(right), Some(Input::Leave)], "nor by a key that only moves");
        assert_eq!(taken(&mut front, &[A, Input::Leave]), [Some(A), None]);
        assert!(said(&front).contains("Ctrl-Q again: yes"));
        assert_eq!(taken(&mut front, &[A]), [Some(A)], "any other key goes on");
        assert_eq!(said(&front), "");
        assert_eq!(taken(&mut front, &[Input::Leave, Input::Leave]), [None, Some(Input::Leave)]);
        assert_eq!(taken(&mut front, &[WIDTH]), [None]);
        assert!(said(&front).contains("for 40 columns? Ctrl-W again: yes"));
        assert_eq!(taken(&mut front, &[Input::Leave, WIDTH, WIDTH]), [None, None, Some(WIDTH)], "each has a question of its own");
        assert_eq!(taken(&mut front, &[WIDTH, Input::Help, WIDTH]), [None, None, None], "a page is another key too");
        assert_eq!(taken(&mut front, &[Input::Leave, Input::Unknown, Input::Leave]), [None, Some(Input::Unknown), None], "any other key");
    }

    #[test]
    fn nobody_types_at_a_mirror() {
        let mut front = Front::new(false);
        assert_eq!(taken(&mut front, &[A, Input::Leave]), [Some(A), Some(Input::Leave)]);
    }

    #[test]
    fn a_page_covers_the_screen_until_a_key() {
        let mut front = Front::new(true);
        assert_eq!(taken(&mut front, &[Input::Help]), [None]);
        assert_eq!(front.page(), Some(Page::Help));
        assert_eq!((taken(&mut front, &[A]), front.page()), (vec![None], None), "that key is not typed");
        assert_eq!((taken(&mut front, &[Input::Help, Input::Unknown]), front.page()), (vec![None, None], None), "any key");
        taken(&mut front, &[Input::Submitted, Input::Back, Input::Back, Input::Forth]);
        assert_eq!(front.page(), Some(Page::Submitted(16)));
        front.is_back(3);
        taken(&mut front, &[Input::Forth]);
        assert_eq!(front.page(), Some(Page::Submitted(0)));
        assert_eq!((taken(&mut front, &[Input::Submitted]), front.page()), (vec![None], None));
        assert_eq!(taken(&mut front, &[Input::Help, Input::Leave]), [None, Some(Input::Leave)], "leaving is taken there too");
    }

    #[test]
    fn in_a_terminal_that_is_too_small_only_leaving_works() {
        let mut front = Front::new(true);
        let shown = |front: &Front| {
            let canvas = front.too_small(SMALLER).unwrap();
            (0..6).map(|row| canvas.line(row)).collect::<Vec<_>>().join(" ").trim_end().to_string()
        };
        taken(&mut front, &[A]);
        assert_eq!([A, WIDTH, Input::Help, Input::Leave].map(|input| front.take(input, SMALLER)), [None; 4]);
        let sentence = "The terminal is too small: it has 80 columns and 17 rows, and 80 and 18 are needed. \
                        Make it larger, or press Ctrl-Q to leave.";
        assert_eq!(shown(&front), format!("{} {sentence}", said(&front)));
        assert_eq!(front.take(A, SMALLER), None);
        assert_eq!(shown(&front), sentence);
        assert_eq!([Input::Leave; 2].map(|input| front.take(input, SMALLER)), [None, Some(Input::Leave)]);
    }
}
