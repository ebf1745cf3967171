//! What a network or an attacker without the key can do between the two programs, and that the invigilator's never shows more than it knows.
use crate::between::{Between, Way};
use crate::folder::Folder;
use crate::pane::{key, Pane, Shown, DEADLINE};
use crate::scene::{candidate, invigilator, number, Look, Scene, FAST, LEVEL, NEVER, PAINTING, SLOWLY};
use crate::two_terminals::first_row;
use futonrobin::{Pair, Report, Screen, Shown as _};
use line::message::{Piece, Said};
use line::pieces::Cutter;
use line::SharedKey;
use oorandom::Rand32;
use std::time::{Duration, Instant};
use terminal::key_file;

const DELAY: Duration = Duration::from_secs(20);

#[test]
fn all_delayed_by_20_seconds_both_ways_is_told_to_be_40_seconds_old_and_never_level() {
    delayed("both-ways", |between| between.both(Way::Delay(DELAY)), DELAY * 2);
}

#[test]
fn all_delayed_by_20_seconds_one_way_is_told_to_be_20_seconds_old_and_never_level() {
    delayed("one-way", |between| between.forth(Way::Delay(DELAY)), DELAY);
}

/// From a question to what arrives in answer it takes so long.
fn delayed(name: &str, delay: impl Fn(&Between), long: Duration) {
    let mut scene = Scene::begun(name, 5);
    delay(&scene.between);
    let begun = Instant::now();
    let first = scene.watch("what was typed during the delay, with its age", SLOWLY, |look| {
        assert_not_level_since(begun, look);
        look.age >= Some(long) && look.length > 5
    });
    scene.watch("more of it, all of that age", SLOWLY, |look| {
        assert!(!look.is_level() && look.age >= Some(long), "{}", look.shown.lines.join("\n"));
        look.says("OLD") && look.length >= first.length + 5
    });
    // The candidate hears of it as late, and is not told that nobody is there.
    let told = scene.candidate.wait_for("the invigilator shows call ");
    assert!(number(&told, "as of ").is_some_and(|seconds| seconds >= long.as_secs_f64()), "{}", told.lines.join("\n"));
    // What was on its way still comes late, beside what now comes at once.
    scene.between.both(Way::Pass);
    let again = scene.watch("LEVEL again", SLOWLY, Look::is_level_with_all);
    scene.watch("LEVEL with what is typed then", SLOWLY, |look| look.is_level_with_all() && look.typed >= again.typed + 4);
}

/// That LEVEL is no longer said, if nothing new came since that moment.
fn assert_not_level_since(moment: Instant, look: &Look) {
    let since = look.at.saturating_duration_since(moment);
    assert!(!look.is_level() || since < LEVEL + PAINTING, "LEVEL after {since:?}\n{}", look.shown.lines.join("\n"));
}

#[test]
fn what_is_replayed_is_never_level_while_the_candidate_types_nor_after_its_end() {
    let mut scene = Scene::begun("replayed", 10);
    // The questions still reach the candidate, and its answers are lost.
    scene.between.forth(Way::Replay);
    let begun = Instant::now();
    let old = |look: &Look| {
        assert_not_level_since(begun, look);
        assert_eq!(look.length, 10, "nothing new came");
    };
    scene.watch("37 more calls", FAST, |look| {
        old(look);
        look.typed >= 10 + 37
    });
    // The candidate takes no old question for a new one.
    scene.between.back(Way::Replay);
    let asked = |shown: &Shown| number(shown, "as of ").is_some_and(|seconds| seconds >= 3.0);
    watch_until(&scene, asked, old);
    let (before, _) = scene.between.replayed();
    scene.candidate.leave();
    let silent = begun.elapsed().as_secs_f64() + 9.0;
    scene.watch("SILENT, nine seconds after its end", NEVER, |look| {
        old(look);
        number(&look.shown, "SILENT for ").is_some_and(|seconds| seconds >= silent)
    });
    assert!(scene.between.replayed().0 > before + 100 && scene.between.replayed().1 > 100, "{:?}", scene.between.replayed());
}

/// Watches the invigilator's terminal until the candidate's shows that.
fn watch_until(scene: &Scene, seen: impl Fn(&Shown) -> bool, always: impl Fn(&Look)) {
    let begun = Instant::now();
    while !seen(&scene.candidate.shown()) {
        assert!(begun.elapsed() < DEADLINE, "never seen in\n{}", scene.candidate.shown().lines.join("\n"));
        always(&scene.look());
    }
}

#[test]
fn an_invigilator_started_anew_is_level_with_nothing_replayed_but_with_the_candidate_that_comes_beside() {
    let mut scene = Scene::begun("anew", 8);
    scene.between.forth(Way::Replay);
    let (anew, port) = invigilator("anew-second", key());
    scene.invigilator = anew;
    scene.candidate.wait_for("NO INVIGILATOR HEARD for ");
    scene.between.leads_to(port);
    let unknown = |look: &Look| assert!(!look.is_level() && look.age.is_none(), "{}", look.shown.lines.join("\n"));
    // Its questions reach the candidate, and the answers are lost; it has heard nothing that the candidate said since.
    let asked =
        |shown: &Shown| shown.has("the invigilator shows call 8 of 8") && number(shown, "as of ").is_some_and(|seconds| seconds >= 5.0);
    watch_until(&scene, asked, unknown);
    scene.watch("the old screen, of an unknown time", NEVER, |look| {
        unknown(look);
        look.length == 8 && look.says("SILENT for") && look.says("the screen of an unknown time")
    });
    scene.candidate.leave();

    let Scene { between, invigilator, .. } = scene;
    between.both(Way::ReplayBeside);
    let restarted = candidate("anew-restarted", &between, key());
    restarted.write("AFTER A RESTART");
    let level = |shown: &Shown| shown.has("LEVEL, ") && first_row(shown) == "AFTER A RESTART" && shown.has("2 sittings so far");
    invigilator.wait("the new one's screen, and LEVEL", level);
    let (before, _) = between.replayed();
    invigilator.wait("LEVEL after many more old ones", |shown| {
        assert!(first_row(shown) == "AFTER A RESTART" && !shown.has("older sitting"), "{}", shown.lines.join("\n"));
        between.replayed().0 > before + 200 && level(shown)
    });
}

/// Where a record has its serial (docs/ABI.md).
const SERIAL: std::ops::Range<usize> = 9..13;
const FORGED: &str = "FORGED";
const UNREADABLE: &str = "unreadable datagrams: ";
const LAST: u32 = u32::MAX;

fn forged_screen(sitting: u32, serial: u32) -> Screen {
    let mut screen = Screen::new(80, sitting);
    screen.print_checked(FORGED.as_bytes()).unwrap();
    let mut record = screen.record().to_vec();
    record[SERIAL].copy_from_slice(&serial.to_be_bytes());
    Screen::from_bytes(&record).unwrap()
}

/// Full reports and steps of a sitting with its last serial, and of the last sitting: under a wrong key, and without one.
fn forgeries(sitting: u32) -> Vec<Vec<u8>> {
    let now = Instant::now();
    let mut all = Vec::new();
    for screen in [forged_screen(sitting, LAST), forged_screen(LAST, LAST), forged_screen(LAST, 1)] {
        let mut wrong = line::Candidate::new(&SharedKey::draw(), &screen, now);
        for report in [screen.report_full(), screen.report_step()] {
            all.extend(wrong.send(&screen, &report, now));
            all.extend(unsealed(screen.pair(), &report));
        }
    }
    all
}

/// A report as it was sent before there were keys; and in clear as it is now, without a tag and with one of zeros.
fn unsealed(pair: Pair, report: &Report) -> [Vec<u8>; 3] {
    let before = [&b"FR\x02\x01\x50"[..], report.as_bytes()].concat();
    let pieces = Cutter::default().pieces(80, report.as_bytes());
    let said = Said { pair, echoes: Vec::new(), piece: Some(Piece { index: 0, count: 1, bytes: &pieces[0] }) };
    let clear = [&b"FR\x03"[..], &[7; 16], &[0; 8], &said.write()].concat();
    let tagged = [&clear[..], &[0; 16]].concat();
    [before, clear, tagged]
}

#[test]
fn forged_reports_are_counted_as_garbage_and_the_candidate_stays_level() {
    let mut scene = Scene::begun("forged", 5);
    let title = |shown: &Shown| number(shown, "  sitting ").unwrap() as u32;
    let sitting = title(&scene.candidate.shown());
    // Also one of its own with a bit changed, and what the invigilator has said itself.
    let mut changed = scene.between.said().remove(0);
    changed[40] ^= 1;
    let forged = [forgeries(sitting), vec![changed, scene.between.asked().remove(0)]].concat();
    let genuine = |look: &Look| assert!(!look.says(FORGED) && title(&look.shown) == sitting, "{}", look.shown.lines.join("\n"));
    for (before, datagram) in forged.iter().enumerate() {
        scene.between.forge(datagram);
        scene.watch("one more piece of garbage", NEVER, |look| {
            genuine(look);
            number(&look.shown, UNREADABLE) == Some(before as f64 + 1.0)
        });
    }
    scene.types(3);
    scene.watch("LEVEL with what is typed then", NEVER, |look| {
        genuine(look);
        look.is_level_with_all() && look.says("shows call 8 of 8") && look.says("1 sitting so far")
    });
}

#[test]
fn a_forged_first_report_leaves_the_invigilator_waiting() {
    let (invigilator, port) = invigilator("forged-first", key());
    let between = Between::new(port);
    let forged = forgeries(5);
    for (before, datagram) in forged.iter().enumerate() {
        between.forge(datagram);
        let shown = invigilator.wait("one more piece of garbage", |shown| number(shown, UNREADABLE) == Some(before as f64 + 1.0));
        assert!(
            shown.has("WAITING for a candidate") && shown.lines[1..26].iter().all(|line| line.is_empty()),
            "{}",
            shown.lines.join("\n")
        );
    }
    assert!(between.asked().is_empty(), "nobody is asked");
}

#[test]
fn what_another_pair_of_programs_says_under_its_key_is_garbage() {
    let folder = Folder::new("other-key");
    let other_key = folder.0.join("key");
    key_file::make(&other_key).unwrap();
    let mut other = Scene::with_key("other", &other_key);
    other.types(12);
    other.watch("the other pair, LEVEL", NEVER, Look::is_level_with_all);
    other.between.both(Way::Cut);
    let (said, asked) = (other.between.said(), other.between.asked());
    drop(other);

    let mut scene = Scene::begun("this", 5);
    said.iter().for_each(|datagram| scene.between.forge(datagram));
    asked.iter().for_each(|datagram| scene.between.forge_back(datagram));
    scene.watch("all of it counted", NEVER, |look| {
        assert!(look.length <= 5, "{}", look.shown.lines.join("\n"));
        number(&look.shown, UNREADABLE) == Some(said.len() as f64)
    });
    scene.types(3);
    scene.watch("LEVEL with what is typed then", NEVER, |look| look.is_level_with_all() && look.says("1 sitting so far"));
    scene.candidate.wait_for("the invigilator shows call 8 of 8  as of 0.");
}

/// IPv6 carries so much whole everywhere, and Ethernet so much of IPv4.
const CARRIED: [usize; 2] = [1_232, 1_472];

#[test]
fn where_longer_datagrams_are_dropped_the_screen_is_level_throughout() {
    let (invigilator, port) = invigilator("dropping-invigilator", key());
    let between = Between::new(port);
    between.both(Way::UpTo(CARRIED[0]));
    let candidate = candidate("dropping-candidate", &between, key());
    let wait = |what: &str, typed: &dyn Fn(&Shown) -> bool| wait_for_both(&candidate, &invigilator, what, typed);
    wait("the first screen, before any key", &|_| true);
    let mut random = Rand32::new(9);
    for most in CARRIED {
        between.both(Way::UpTo(most));
        for _ in 0..7 {
            let last = type_lines(&candidate, &mut random, 4);
            wait("four more lines", &|shown| shown.has(&last));
        }
        // When steps were lost a full report must come, and it has several pieces.
        between.both(Way::Cut);
        let last = type_lines(&candidate, &mut random, 2);
        candidate.wait_for(&last);
        between.both(Way::UpTo(most));
        wait("what was typed while the line was cut", &|shown| shown.has(&last));
        candidate.press("C-Home");
        wait("a clear screen", &|shown| shown.rows(1, 0, 80)[..24].iter().all(|row| row.is_empty()));
        candidate.write("AND ON");
        wait("what is typed on it", &|shown| first_row(shown) == "AND ON");
    }
    assert_eq!(between.too_long(), 0);
    assert!((1_100..=CARRIED[0]).contains(&between.longest()), "the longest has {} bytes", between.longest());
}

/// Lines that hardly become shorter when they are deflated, each in the next colour; the last of them.
fn type_lines(candidate: &Pane, random: &mut Rand32, lines: usize) -> String {
    const CHARACTERS: &[u8] = b"ABCDEFGHIJKLMNOPQRSTUVWXYZabcdefghijklmnopqrstuvwxyz0123456789";
    let mut character = || CHARACTERS[random.rand_range(0..CHARACTERS.len() as u32) as usize] as char;
    let lines: Vec<String> = (0..lines).map(|_| (0..79).map(|_| character()).collect()).collect();
    for line in &lines {
        candidate.write(line);
        candidate.press("Enter C-a");
    }
    lines.last().cloned().unwrap_or_default()
}

/// Waits until the candidate shows that, and the invigilator the same, LEVEL.
fn wait_for_both(candidate: &Pane, invigilator: &Pane, what: &str, typed: &dyn Fn(&Shown) -> bool) {
    invigilator.wait(what, |shown| {
        let own = candidate.shown();
        typed(&own) && shown.has("LEVEL, ") && shown.rows(1, 0, 80) == own.rows(1, 0, 80)
    });
}

/// A sign that the candidate is there is shorter, a report longer.
pub const SIGN: usize = 90;

#[test]
fn a_sign_that_later_calls_were_made_makes_the_screen_no_younger() {
    let (mut scene, long) = (Scene::begun("signs", 5), Duration::from_secs(3));
    scene.between.forth(Way::Cut);
    scene.watch("a screen of three seconds ago", SLOWLY, |look| look.age >= Some(long));
    // The candidate gives a sign only while a report may be on its way, so it types fast.
    scene.between.forth(Way::UpTo(SIGN));
    scene.watch("later calls", FAST, |look| {
        assert!(look.length == 5 && look.age >= Some(long), "{}", look.shown.lines.join("\n"));
        look.says("BEHIND by ")
    });
    scene.between.forth(Way::Pass);
    scene.watch("LEVEL again", NEVER, Look::is_level_with_all);
}
