//! The time by which ages are told. The steady clock stands still on some systems while the machine sleeps, and a screen would seem younger than
//! it is; so it is put forward by what the calendar's clock went further in between. That one may be set: forward, an age is told too long
//! once; back, nothing follows.
use std::time::{Duration, Instant, SystemTime};

/// The two clocks are not read at the same moment.
const APART: Duration = Duration::from_millis(100);

pub struct Clock {
    last: (Instant, SystemTime),
    forward: Duration,
}

impl Clock {
    pub fn new() -> Self {
        Self { last: (Instant::now(), SystemTime::now()), forward: Duration::ZERO }
    }

    pub fn now(&mut self) -> Instant {
        self.read(Instant::now(), SystemTime::now())
    }

    fn read(&mut self, steady: Instant, calendar: SystemTime) -> Instant {
        let passed = steady.saturating_duration_since(self.last.0);
        let by_calendar = calendar.duration_since(self.last.1).unwrap_or_default();
        self.last = (steady, calendar);
        self.forward += Some(by_calendar.saturating_sub(passed)).filter(|more| *more > APART).unwrap_or_default();
        steady + self.forward
    }

    /// The machine has slept for so long, with a steady clock that stood still.
    #[cfg(test)]
    pub fn slept(&mut self, time: Duration) {
        self.last.1 -= time;
    }
}

impl Default for Clock {
    fn default() -> Self {
        Self::new()
    }
}

#[cfg(test)]
mod tests {
    use super::*;

    #[test]
    fn a_machine_that_sleeps_is_not_young_when_it_wakes() {
        let mut clock = Clock::new();
        let (steady, calendar) = clock.last;
        let second = Duration::from_secs(1);
        let mut after =
            |by_steady: u32, by_calendar: u32| clock.read(steady + second * by_steady, calendar + second * by_calendar) - steady;
        assert_eq!(after(1, 1), second);
        assert_eq!(after(2, 3602), second * 3602, "it slept for an hour");
        assert_eq!(after(3, 3), second * 3603, "the calendar's clock is set back");
        assert_eq!(after(4, 4), second * 3604);
        assert_eq!(clock.read(steady + second * 5, calendar + second * 5 + APART) - steady, second * 3605, "they are never quite the same");
    }
}
