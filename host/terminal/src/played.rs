//! Recorded keys over a bad line, without a terminal, with a restart in mid-paper: the screens, and the verdict.
use crate::bad_line::Faults;
use crate::canvas::{Canvas, Size};
use crate::desk::Paper;
use crate::halves::Halves;
use crate::keys::{self, Key};
use crate::view;
use crate::witness::Witnesses;
use futonrobin::{KeyTable, Shown};
use line::Taken;
use std::io::{self, Write};
use std::time::{Duration, Instant};

/// So much time passes from key to key, on a clock that stands still otherwise.
pub const KEY: Duration = Duration::from_millis(50);

/// What a candidate typed.
pub fn recorded() -> Vec<Key> {
    keys::read(include_str!("../data/ward.keys")).expect("the recorded keys can be read")
}

/// Plays half of the keys, restarts, plays them all, prints what is on the screens, and answers whether all was as proved.
pub fn play(keys: &[Key], paper: Paper, width: u32, faults: Faults, seed: u64, out: &mut impl Write) -> io::Result<bool> {
    let half = &keys[..keys.len() / 2];
    writeln!(out, "{} of {} recorded keys, a restart, then all; {faults}, seed {seed}", half.len(), keys.len())?;
    let now = Instant::now();
    let mut halves = Halves::new(width, faults, seed, now).with(paper.clone());
    let mut verdict = Verdict { witnesses: Witnesses::new(keys, paper), now, level: 0, behind: 0, wrong: Vec::new() };
    let first = halves.full();
    verdict.sitting(&mut halves, first, half);
    let first = halves.restart();
    verdict.sitting(&mut halves, first, keys);
    // From here on the line is good, and a last full report arrives.
    (halves.there.faults, halves.back.faults) = (Faults::default(), Faults::default());
    let last = halves.full();
    verdict.sitting(&mut halves, last, &[]);
    verdict.print(&halves, out)
}

struct Verdict {
    witnesses: Witnesses,
    now: Instant,
    level: u64,
    behind: u64,
    wrong: Vec<String>,
}

impl Verdict {
    /// Something arrives, then keys are pressed.
    fn sitting(&mut self, halves: &mut Halves, arriving: Vec<Vec<u8>>, keys: &[Key]) {
        self.arrive(halves, arriving);
        for &key in keys {
            self.now += KEY;
            let pressed = halves.press(key);
            self.arrive(halves, pressed);
            let passed = halves.pass(self.now);
            self.arrive(halves, passed);
        }
    }

    /// Datagrams arrive, and the mirror is looked at after each report.
    fn arrive(&mut self, halves: &mut Halves, datagrams: Vec<Vec<u8>>) {
        for datagram in datagrams {
            match halves.hear(&datagram) {
                Taken::Garbage | Taken::Twice => self.wrong.push("what the candidate sent was not taken".into()),
                Taken::Sign | Taken::Piece => {}
                Taken::Arrived | Taken::Older => match self.witnesses.check(halves.follower()) {
                    Ok(true) => self.level += 1,
                    Ok(false) => self.behind += 1,
                    Err(difference) => self.wrong.push(difference),
                },
            }
        }
    }

    fn print(&mut self, halves: &Halves, out: &mut impl Write) -> io::Result<bool> {
        let (screen, follower, counts) = (&halves.desk.screen, halves.follower(), halves.invigilator.counts);
        for earlier in follower.earlier() {
            print_screen(&format!("LAST SCREEN: {} heard of", view::last_screen(earlier)), earlier, out)?;
        }
        print_screen("CANDIDATE", screen, out)?;
        let mirror = follower.mirror();
        if let Some(mirror) = mirror {
            print_screen("INVIGILATOR", mirror, out)?;
        }
        for (at, line) in halves.desk.submitted.iter().enumerate() {
            writeln!(out, "{}{}", line.before_text(at + 1), line.text)?;
        }
        self.wrong.extend(self.witnesses.check_earlier(follower));
        for difference in &self.wrong {
            writeln!(out, "WRONG: {difference}")?;
        }
        let (arrived, lost, Verdict { level, behind, wrong, .. }) = (counts.arrived + counts.older, halves.there.lost, self);
        let shown = mirror.map_or("nothing".into(), |mirror| mirror.pair().to_string());
        writeln!(out, "{arrived} reports arrived, {lost} datagrams were lost; the mirror shows {shown}")?;
        writeln!(out, "the mirror after each report: {level} times level, {behind} times behind, {} times wrong", wrong.len())?;
        let held = wrong.is_empty() && mirror.is_some_and(|mirror| mirror.is_level() && mirror.same_as(screen));
        writeln!(out, "{}", if held { "AS PROVED: both show the same screen, and no report showed another" } else { "NOT AS PROVED" })?;
        Ok(held)
    }
}

fn print_screen(title: &str, shown: &impl Shown, out: &mut impl Write) -> io::Result<()> {
    let mut canvas = Canvas::new(Size { cols: shown.width() as usize, rows: 25 });
    canvas.screen(0, 0, shown, &KeyTable::standard());
    writeln!(out, "{title}")?;
    (0..25).try_for_each(|row| writeln!(out, "│{}│", canvas.row(row).iter().map(|spot| spot.ch).collect::<String>()))
}
