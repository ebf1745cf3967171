//! What a waiting print is handed, and what it answers.
use crate::layout::WAITING;

/// What a waiting print ([`Screen::print_waiting`](crate::Screen::print_waiting)) has done.
#[derive(Clone, Copy, Debug, PartialEq, Eq)]
pub struct Waited {
    /// How many of the bytes it has taken.
    pub taken: usize,
    /// How many rows they have scrolled.
    pub scrolled: u32,
}

impl Waited {
    /// The answer of an accepted call: bytes taken + 65,536 × rows scrolled.
    pub(crate) fn of_answer(answer: u32) -> Self {
        Self { taken: (answer % 65_536) as usize, scrolled: answer / 65_536 }
    }
}

/// The front of a text that one call can take. No cut parts a 13 from its 10: a waiting print does not look what was printed before it, and would make two newlines of them.
pub(crate) fn piece(text: &[u8]) -> &[u8] {
    let Some((front, rest)) = text.split_at_checked(WAITING) else { return text };
    match (front, rest) {
        ([shorter @ .., 13], [10, ..]) => shorter,
        _ => front,
    }
}

#[cfg(test)]
mod tests {
    use super::*;

    /// A text of so many bytes, with a 13 and its 10 from `at` on.
    fn text(length: usize, at: usize) -> Vec<u8> {
        let mut text = vec![b'A'; length];
        text[at..at + 2].copy_from_slice(b"\r\n");
        text
    }

    #[test]
    fn a_text_that_fits_is_handed_over_whole() {
        for length in [0, 1, WAITING - 1, WAITING] {
            assert_eq!(piece(&vec![13; length]).len(), length);
        }
        assert_eq!(piece(&text(WAITING, WAITING - 2)).len(), WAITING);
    }

    #[test]
    fn no_cut_parts_a_line_end() {
        for more in [1, 2, WAITING] {
            let length = WAITING + more;
            assert_eq!(piece(&vec![13; length]).len(), WAITING);
            assert_eq!(piece(&vec![10; length]).len(), WAITING);
            assert_eq!(piece(&text(length, WAITING - 2)).len(), WAITING);
            assert_eq!(piece(&text(length, WAITING - 1)).len(), WAITING - 1);
            assert_eq!(piece(&text(length + 1, WAITING)).len(), WAITING);
        }
    }
}
