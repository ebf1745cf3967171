//! What a candidate is told of its invigilator.
use crate::canvas::{Part, GREEN, RED, YELLOW};
use futonrobin::Pair;
use line::fresh::{seconds, SILENT_AFTER};
use std::time::{Duration, Instant};

/// What is known by what the end of the line was told, for the screen of this pair.
pub fn by(end: &line::Candidate, screen: Pair, now: Instant) -> Vec<Part> {
    match (end.told(), end.quiet(now)) {
        (Some((question, when)), Some(quiet)) => known(question.shown, screen, now.saturating_duration_since(when), quiet),
        _ => vec![("NO INVIGILATOR HEARD yet".into(), RED)],
    }
}

/// An invigilator showed this so long ago, or later, and was heard last so long ago.
fn known(shown: Option<Pair>, screen: Pair, ago: Duration, quiet: Duration) -> Vec<Part> {
    if quiet >= SILENT_AFTER {
        let silent = format!("NO INVIGILATOR HEARD for {} s", quiet.as_secs());
        return vec![(silent, RED), (format!("the last one {}", showed(shown, screen)), YELLOW)];
    }
    let (shows, attr) = match shown {
        Some(shown) if shown.sitting > screen.sitting => (format!("NOT SHOWN: the invigilator follows sitting {}", shown.sitting), RED),
        Some(shown) if shown.sitting == screen.sitting => {
            (format!("the invigilator shows {}", call(shown, screen)), if shown == screen && ago < SILENT_AFTER { GREEN } else { YELLOW })
        }
        Some(shown) => (format!("the invigilator still shows sitting {}", shown.sitting), YELLOW),
        None => ("the invigilator shows nothing yet".into(), YELLOW),
    };
    vec![(shows, attr), (format!("as of {} ago", seconds(ago)), attr)]
}

fn showed(shown: Option<Pair>, screen: Pair) -> String {
    match shown {
        Some(shown) if shown.sitting == screen.sitting => format!("showed {}", call(shown, screen)),
        Some(shown) => format!("showed sitting {}", shown.sitting),
        None => "showed nothing yet".into(),
    }
}

fn call(shown: Pair, screen: Pair) -> String {
    format!("call {} of {}", shown.serial, screen.serial)
}

#[cfg(test)]
mod tests {
    use super::*;

    #[test]
    fn what_an_invigilator_may_tell() {
        let told = |shown: Option<(u32, u32)>, ago, quiet| {
            let shown = shown.map(|(sitting, serial)| Pair { sitting, serial });
            let parts = known(shown, Pair { sitting: 7, serial: 20 }, Duration::from_millis(ago), Duration::from_millis(quiet));
            (parts.iter().map(|(text, _)| text.as_str()).collect::<Vec<_>>().join(", "), parts[0].1)
        };
        assert_eq!(told(None, 150, 0), ("the invigilator shows nothing yet, as of 0.2 s ago".into(), YELLOW));
        assert_eq!(told(Some((5, 20)), 150, 0), ("the invigilator still shows sitting 5, as of 0.2 s ago".into(), YELLOW));
        assert_eq!(told(Some((7, 19)), 150, 0), ("the invigilator shows call 19 of 20, as of 0.2 s ago".into(), YELLOW));
        assert_eq!(told(Some((7, 20)), 4_999, 4_999), ("the invigilator shows call 20 of 20, as of 5.0 s ago".into(), GREEN));
        assert_eq!(told(Some((7, 20)), 9_000, 200), ("the invigilator shows call 20 of 20, as of 9.0 s ago".into(), YELLOW), "a slow line");
        assert_eq!(told(Some((8, 0)), 150, 0), ("NOT SHOWN: the invigilator follows sitting 8, as of 0.2 s ago".into(), RED));
        assert_eq!(told(Some((7, 19)), 5_200, 5_000), ("NO INVIGILATOR HEARD for 5 s, the last one showed call 19 of 20".into(), RED));
        assert_eq!(told(Some((8, 0)), 60_200, 60_000), ("NO INVIGILATOR HEARD for 60 s, the last one showed sitting 8".into(), RED));
        assert_eq!(told(None, 60_200, 60_000), ("NO INVIGILATOR HEARD for 60 s, the last one showed nothing yet".into(), RED));
    }
}
