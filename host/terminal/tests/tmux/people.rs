//! What the people at the programs are told: words and colours, the bell, the page of keys, the submitted lines, and questions before something is lost.
use crate::attacks::SIGN;
use crate::between::Way;
use crate::pane::{key, Pane, Shown};
use crate::scene::{number, Look, Scene, FAST, NEVER};
use crate::sizes::{two, GOOD_LINE, SIZES, USUAL};
use crate::two_terminals::first_row;
use std::fs;

/// By tmux's numbers of them.
const GREEN: &str = "\u{1b}[38;5;10m";
const YELLOW: &str = "\u{1b}[38;5;11m";
const RED: &str = "\u{1b}[38;5;9m";

fn wait_for_colour(pane: &Pane, colour: &str, words: &str) {
    let stands = |line: &str| line.split(words).next().is_some_and(|before| before != line && last_colour(before) == Some(colour));
    pane.wait(&format!("{words} in its colour"), |_| pane.coloured().lines().any(stands));
}

/// The colour that is set last.
fn last_colour(text: &str) -> Option<&str> {
    let at = text.rfind("\u{1b}[38;5;")?;
    text[at..].find('m').map(|end| &text[at..=at + end])
}

/// A scene in a terminal of each size, in which five characters are typed and shown, with a variable of the environment.
fn scenes(name: &str, variable: &str) -> Vec<Scene> {
    let mut scenes: Vec<_> = SIZES.iter().map(|size| Scene::of_size(&format!("{name}-{}", size.0), key(), *size, variable)).collect();
    scenes.iter_mut().for_each(|scene| scene.begins(5));
    scenes
}

#[test]
fn each_state_has_its_colour_and_silence_rings_once() {
    let mut scenes = scenes("colours", "X=");
    let written: Vec<_> = scenes.iter().map(|scene| scene.invigilator.record()).collect();
    let bells = |at: usize| fs::read(&written[at]).map_or(0, |bytes| bytes.iter().filter(|&&byte| byte == 7).count());
    for scene in &scenes {
        wait_for_colour(&scene.invigilator, GREEN, "LEVEL, ");
        wait_for_colour(&scene.candidate, GREEN, "the invigilator shows call 5 of 5");
    }
    // The candidate still comes, but answers nothing.
    scenes.iter().for_each(|scene| scene.between.back(Way::Cut));
    scenes.iter().for_each(|scene| wait_for_colour(&scene.invigilator, YELLOW, "OLD"));
    scenes.iter().for_each(|scene| scene.between.both(Way::Cut));
    for silences in 1..3 {
        for (at, scene) in scenes.iter().enumerate() {
            wait_for_colour(&scene.invigilator, RED, "SILENT for ");
            wait_for_colour(&scene.candidate, RED, "NO INVIGILATOR HEARD for ");
            scene
                .invigilator
                .wait("a silence of seven seconds", |shown| number(shown, "SILENT for ").is_some_and(|seconds| seconds >= 7.0));
            assert_eq!(bells(at), silences, "once for each time that it turns so");
            scene.between.both(Way::Pass);
        }
        for (at, scene) in scenes.iter_mut().enumerate() {
            scene.watch("LEVEL again", NEVER, Look::is_level_with_all);
            assert_eq!(bells(at), silences);
            scene.between.both(Way::Cut);
        }
    }
}

#[test]
fn two_states_at_once_are_both_told() {
    let mut scenes = scenes("two-states", "X=");
    for scene in &mut scenes {
        scene.between.forth(Way::UpTo(SIGN));
        scene.watch("later calls", FAST, |look| look.says("BEHIND by "));
        wait_for_colour(&scene.invigilator, YELLOW, "BEHIND by ");
        scene.between.both(Way::Cut);
    }
    for scene in &scenes {
        scene
            .invigilator
            .wait("both", |shown| shown.lines.iter().any(|line| line.contains("SILENT for ") && line.contains("  BEHIND by ")));
        wait_for_colour(&scene.invigilator, RED, "SILENT for ");
        wait_for_colour(&scene.invigilator, YELLOW, "BEHIND by ");
    }
}

#[test]
fn without_colours_the_words_suffice() {
    let scenes: Vec<_> = scenes("plain", "NO_COLOR=1").into_iter().chain(scenes("mono", "TERM=vt220")).collect();
    for scene in &scenes {
        // A colour of the screen's own is left out too.
        scene.candidate.press("C-a C-a C-a");
        scene.candidate.wait_for("the invigilator shows call 8 of 8");
        scene.invigilator.wait_for("shows call 8 of 8");
        for pane in [&scene.candidate, &scene.invigilator] {
            let shown = pane.coloured();
            assert!(!is_coloured(&shown), "{shown:?}");
            assert!(shown.contains("\u{1b}[7m1LIST"), "the key strip is reversed: {shown:?}");
        }
        scene.between.back(Way::Cut);
    }
    for scene in &scenes {
        scene.invigilator.wait_for("OLD  the screen of ");
        scene.between.both(Way::Cut);
    }
    for scene in &scenes {
        scene.invigilator.wait_for("SILENT for ");
        scene.candidate.wait_for("NO INVIGILATOR HEARD for ");
        assert!(!is_coloured(&scene.invigilator.coloured()));
    }
}

/// Whether any escape of the text sets a colour, and not only the terminal's own again.
fn is_coloured(shown: &str) -> bool {
    let codes = shown.split("\u{1b}[").skip(1).filter_map(|rest| rest.split_once('m')).flat_map(|(codes, _)| codes.split(';'));
    codes.filter_map(|code| code.parse::<u32>().ok()).any(|code| matches!(code, 30..=38 | 40..=48 | 90..=107))
}

#[test]
fn continuation_insert_and_cursor_are_shown_at_both_ends() {
    for (cols, rows) in SIZES {
        let (candidate, invigilator) = two(&format!("modes-{cols}"), (cols, rows), "");
        candidate.write(&"A".repeat(90));
        candidate.press("IC");
        let told = "INSERT  room for 165  line in rows 1 to 2";
        invigilator.wait("modes and line", |shown| shown.has(&format!("shows call 91 of 91  {told}")));
        candidate.wait_for(told);
        for pane in [&candidate, &invigilator] {
            pane.wait_for_cursor(2, 10);
            let row = pane.coloured().lines().nth(1).unwrap().to_string();
            let (before, after) = row.split_once("\u{1b}[4m").unwrap_or_else(|| panic!("the row that goes on ends underlined: {row:?}"));
            assert_eq!((before.matches('A').count(), after.matches('A').count()), (79, 1), "{row:?}");
            assert!(!pane.coloured().lines().nth(2).unwrap().contains("\u{1b}[4m"));
        }
    }
}

const CANDIDATE_KEYS: [&str; 9] = ["Enter", "Ins", "! Esc", "! Ctrl-W", "! Ctrl-Home", "! Ctrl-End", "F1 to F10", "! Ctrl-F", "! Ctrl-Q"];

#[test]
fn a_page_of_keys_at_both_ends_and_in_the_demo() {
    for (cols, rows) in SIZES {
        let (candidate, invigilator) = two(&format!("help-{cols}"), (cols, rows), "");
        let demo = Pane::screens(&format!("help-demo-{cols}"), cols, rows, GOOD_LINE);
        demo.wait_for("1LIST");
        for (pane, keys) in [
            (&candidate, &CANDIDATE_KEYS[..]),
            (&demo, &[&CANDIDATE_KEYS[..], &["Ctrl-T", "Ctrl-X", "! Ctrl-N", "PageUp"]].concat()),
            (&invigilator, &["PageUp", "PageDown", "Up, Down", "Ctrl-Q"]),
        ] {
            pane.wait_for("Ctrl-G: help");
            pane.press("C-g");
            let shown = pane.wait_for("Any key goes back.");
            keys.iter().for_each(|key| assert!(shown.has(key), "{key} is not in\n{}", shown.lines.join("\n")));
            pane.write("x");
            pane.wait("the screen again", |shown| !shown.has("Any key goes back.") && !first_row(shown).starts_with('x'));
        }
        invigilator.press("F1");
        invigilator.wait_for("Any key goes back.");
        invigilator.press("C-q");
        invigilator.wait_for_end();
    }
}

#[test]
fn what_was_typed_is_not_lost_without_a_question() {
    for (cols, rows) in SIZES {
        let (candidate, invigilator) = two(&format!("asked-{cols}"), (cols, rows), "");
        let demo = Pane::screens(&format!("asked-demo-{cols}"), cols, rows, GOOD_LINE);
        demo.wait_for("1LIST");
        for pane in [&candidate, &demo] {
            let starts = |shown: &Shown, text: &str| shown.lines[1].starts_with(text);
            pane.write("KEPT");
            pane.wait("what is typed", |shown| starts(shown, "KEPT"));
            pane.press("C-w");
            pane.wait("a question", |shown| shown.has("columns? Ctrl-W again: yes, else: no") && starts(shown, "KEPT"));
            pane.write("!");
            pane.wait("no question, and the key", |shown| !shown.has("Ctrl-W again") && starts(shown, "KEPT!"));
            pane.press("C-q");
            pane.wait("a question", |shown| shown.has("What was typed is lost. Ctrl-Q again: yes, else: no") && starts(shown, "KEPT!"));
            pane.press("C-w");
            pane.wait("the other question", |shown| shown.has("Ctrl-W again: yes, else: no") && !shown.has("Ctrl-Q again"));
            pane.press("C-w");
            pane.wait("a clear screen", |shown| !shown.has("KEPT") && !shown.has("Ctrl-W again"));
            pane.leave();
        }
        invigilator.press("x C-q");
        invigilator.wait_for_end();
    }
}

#[test]
fn submitted_lines_are_wrapped_and_not_cut() {
    let line: String = (0..255).map(|n| char::from(b'A' + (n * 7 + n / 26) as u8 % 26)).collect();
    for (cols, rows) in SIZES {
        let (candidate, _invigilator) = two(&format!("submitted-{cols}"), (cols, rows), "");
        let demo = Pane::screens(&format!("submitted-demo-{cols}"), cols, rows, GOOD_LINE);
        demo.wait_for("1LIST");
        for pane in [&candidate, &demo] {
            submit(pane, &line, rows < 31);
        }
    }
}

/// A short line and this one are submitted; where there are few rows the second is only named under the screen, and on the page it is whole.
fn submit(pane: &Pane, line: &str, few_rows: bool) {
    pane.write("SHORT");
    pane.press("Enter");
    pane.wait_for("submitted 1: SHORT");
    pane.write(line);
    pane.press("Enter");
    pane.wait_for("submitted 2: ");
    pane.press("C-p");
    let page = pane.wait("all of the page", |shown| shown.has("2 LINES SUBMITTED") && shown.has("any other key goes back"));
    let whole = |shown: &Shown| {
        let from = shown.lines.iter().position(|line| line.starts_with("submitted 2: "))?;
        let rows = shown.lines[from..].iter().map(|line| line.get(13..).unwrap_or("").trim());
        Some(rows.take_while(|row| !row.is_empty()).collect::<String>())
    };
    assert_eq!(whole(&page).as_deref(), Some(line), "{}", page.lines.join("\n"));
    pane.press("C-p");
    let named = |shown: &Shown| shown.has("submitted 2: Ctrl-P shows it");
    pane.wait("the screen again", |shown| {
        !shown.has("any other key goes back") && if few_rows { named(shown) } else { whole(shown).as_deref() == Some(line) }
    });
}

#[test]
fn an_invigilator_moves_the_window_by_hand() {
    let (candidate, invigilator) = two("by-hand", USUAL, "");
    for row in 0..23 {
        candidate.write(&format!("ROW {row}"));
        candidate.press("C-c");
    }
    invigilator.wait("the last rows", |shown| shown.has("▲ 5 rows above") && first_row(shown) == "ROW 5");
    invigilator.press("Up Up Up Up");
    invigilator.wait("others", |shown| shown.has("▲ 1 row above") && shown.has("▼ 4 rows below") && first_row(shown) == "ROW 1");
    candidate.write("MORE");
    invigilator.wait("that it stays there", |shown| {
        shown.has("shows call 155 of 155") && first_row(shown) == "ROW 1" && shown.has("Home: to the cursor")
    });
    assert_eq!(invigilator.cursor(), None);
    invigilator.press("Home");
    invigilator.wait("the cursor's row", |shown| first_row(shown) == "ROW 5" && !shown.has("Home: to the cursor"));
    invigilator.wait_for_cursor(19, 4);
}

#[test]
fn the_demo_has_colours_and_a_bell_too() {
    let panes: Vec<_> = SIZES.iter().map(|(cols, rows)| Pane::screens(&format!("demo-bell-{cols}"), *cols, *rows, GOOD_LINE)).collect();
    let written: Vec<_> = panes.iter().map(Pane::record).collect();
    let bells = |at: usize| fs::read(&written[at]).map_or(0, |bytes| bytes.iter().filter(|&&byte| byte == 7).count());
    for pane in &panes {
        wait_for_colour(pane, GREEN, "the invigilator shows call 0 of 0");
        if !pane.shown().has("INVIGILATOR") {
            pane.press("C-t");
        }
        wait_for_colour(pane, GREEN, "LEVEL, ");
        pane.press("C-x");
    }
    for (at, pane) in panes.iter().enumerate() {
        wait_for_colour(pane, RED, "line CUT");
        wait_for_colour(pane, RED, "SILENT for ");
        pane.wait("seven seconds", |shown| number(shown, "SILENT for ").is_some_and(|seconds| seconds >= 7.0));
        assert_eq!(bells(at), 1);
    }
}
