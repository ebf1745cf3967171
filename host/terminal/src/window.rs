//! Which rows of a screen are in sight where not all of them have room.

/// It follows the cursor, and moves no further than it must; unless it is moved by hand, and then it stays while that sitting is shown.
#[derive(Default)]
pub struct Window {
    top: usize,
    by_hand: bool,
    /// When it was last asked: how many rows were hidden, and of which sitting.
    hidden: usize,
    sitting: u32,
}

impl Window {
    /// The first of so many rows in sight, of all that there are, with the cursor in this one.
    pub fn top(&mut self, sitting: u32, cursor: usize, height: usize, of: usize) -> usize {
        if self.sitting != sitting {
            *self = Self { sitting, ..Self::default() };
        }
        self.hidden = of.saturating_sub(height);
        self.by_hand &= self.hidden > 0;
        if !self.by_hand {
            self.top = self.top.clamp((cursor + 1).saturating_sub(height), cursor);
        }
        self.top = self.top.min(self.hidden);
        self.top
    }

    /// By hand, a row up or down, if there is one.
    pub fn up(&mut self) {
        if self.top > 0 {
            (self.top, self.by_hand) = (self.top - 1, true);
        }
    }

    pub fn down(&mut self) {
        if self.top < self.hidden {
            (self.top, self.by_hand) = (self.top + 1, true);
        }
    }

    /// The cursor is followed again.
    pub fn follow(&mut self) {
        self.by_hand = false;
    }

    pub fn is_moved_by_hand(&self) -> bool {
        self.by_hand
    }
}

#[cfg(test)]
mod tests {
    use super::*;

    #[test]
    fn the_cursor_is_in_sight_and_nothing_moves_without_need() {
        let mut window = Window::default();
        let mut tops = |rows: &mut dyn Iterator<Item = usize>| rows.map(|row| window.top(1, row, 19, 24)).collect::<Vec<_>>();
        assert_eq!(tops(&mut (0..24)), [[0; 19].to_vec(), vec![1, 2, 3, 4, 5]].concat());
        assert_eq!(tops(&mut (0..24).rev()), [[5; 19].to_vec(), vec![4, 3, 2, 1, 0]].concat());
        for (height, of) in (1..=25).flat_map(|height| [(height, 24), (height, 25)]) {
            for row in [0, 12, of - 1, 5, 6, 0] {
                let top = window.top(1, row, height, of);
                assert!((top..top + height).contains(&row) && top + height.min(of) <= of, "row {row}, {height} of {of}");
            }
        }
    }

    #[test]
    fn a_terminal_that_grows_shows_more() {
        let mut window = Window::default();
        assert_eq!((window.top(1, 23, 10, 24), window.top(1, 23, 19, 24), window.top(1, 23, 24, 24)), (14, 5, 0));
        assert_eq!(window.top(1, 23, 24, 25), 0, "the key strip is off, and a row more is there");
    }

    #[test]
    fn by_hand_it_stays_until_it_is_to_follow() {
        let mut window = Window::default();
        assert_eq!(window.top(1, 23, 19, 24), 5);
        window.up();
        window.up();
        assert_eq!((window.top(1, 23, 19, 24), window.is_moved_by_hand()), (3, true));
        (0..9).for_each(|_| window.down());
        assert_eq!(window.top(1, 0, 19, 24), 5);
        (0..9).for_each(|_| window.up());
        assert_eq!(window.top(1, 23, 19, 24), 0);
        window.follow();
        assert_eq!((window.top(1, 23, 19, 24), window.is_moved_by_hand()), (5, false));
        window.down();
        assert!(!window.is_moved_by_hand(), "it is at the end");
        window.up();
        window.top(1, 23, 25, 25);
        assert!(!window.is_moved_by_hand(), "all rows are in sight");
        window.up();
        assert!(!window.is_moved_by_hand(), "there is nothing to move");
    }

    #[test]
    fn another_sitting_is_followed_from_its_first_row() {
        let mut window = Window::default();
        window.top(1, 23, 19, 24);
        window.up();
        assert_eq!((window.top(1, 23, 19, 24), window.top(2, 10, 19, 24), window.is_moved_by_hand()), (4, 0, false));
        assert_eq!((window.top(1, 10, 19, 24), window.is_moved_by_hand()), (0, false));
    }
}
