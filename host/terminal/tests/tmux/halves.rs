//! The candidate's screen and the invigilator's mirror in one terminal.
use crate::pane::{Pane, Shown, DEADLINE};
use crate::sizes::SIZES;
use std::process::Command;
use std::thread::sleep;
use std::time::{Duration, Instant};

const COLS: usize = 161;
const ROWS: usize = 36;
const GOOD_LINE: &str = "--width 80 --loss 0 --repeat 0 --reorder 0 --seed 1";

fn start(name: &str, words: &str) -> Pane {
    let pane = Pane::screens(name, COLS, ROWS, words);
    pane.wait_for("1LIST");
    pane
}

fn candidate(shown: &Shown) -> Vec<String> {
    shown.rows(1, 0, 80)
}

fn invigilator(shown: &Shown) -> Vec<String> {
    shown.rows(1, 81, 80)
}

/// Waits until this stands at the front of a row of the candidate's half, the mirror is level, and its half shows the same.
fn wait_for_both(pane: &Pane, row: usize, text: &str) {
    pane.wait(&format!("both halves alike, LEVEL, and in row {row} {text}"), |shown| {
        shown.has("LEVEL") && candidate(shown)[row].starts_with(text) && candidate(shown) == invigilator(shown)
    });
}

#[test]
fn typing_editing_wrapping_submitting() {
    let pane = start("typing", GOOD_LINE);
    pane.write("10 WARD 7, BED 21");
    pane.wait_for_cursor(1, 17);
    pane.press("BSpace BSpace");
    pane.write("12 FREE");
    pane.wait("the correction", |shown| candidate(shown)[0] == "10 WARD 7, BED 12 FREE");
    // Words, insert and delete.
    pane.press("Home C-Right");
    pane.wait_for_cursor(1, 3);
    pane.press("IC");
    pane.wait_for("INSERT");
    pane.write("OUR ");
    pane.press("IC DC");
    pane.write("w");
    pane.wait("the insertion", |shown| candidate(shown)[0] == "10 OUR wRD 7, BED 12 FREE");
    pane.press("C-Left C-Left");
    pane.wait_for_cursor(1, 3);
    pane.press("Enter");
    pane.wait_for("submitted 1: 10 OUR wRD 7, BED 12 FREE");
    // A line longer than a row is one line.
    let long = format!("20 REM {}", "beds ".repeat(20));
    pane.write(&long);
    pane.wait("the row's end passed", |shown| candidate(shown)[2].ends_with("beds"));
    pane.press("Up End");
    pane.wait_for_cursor(3, 26);
    pane.press("Enter");
    pane.wait_for(&format!("submitted 2: {}", long.trim_end()));
    wait_for_both(&pane, 0, "10 OUR wRD 7, BED 12 FREE");
}

#[test]
fn the_other_keys() {
    let pane = start("keys", GOOD_LINE);
    pane.press("F1 Tab");
    pane.wait_for_cursor(1, 8);
    pane.write("10-30");
    pane.press("Enter");
    pane.wait_for("submitted 1: LIST    10-30");
    pane.press("F2");
    pane.wait_for("submitted 2: RUN");
    pane.write("30 FIRST");
    pane.press("C-j");
    pane.wait_for_cursor(4, 0);
    pane.write("SECOND");
    pane.press("Enter");
    pane.wait("one line of two rows", |shown| shown.lines.iter().any(|l| l.starts_with("submitted 3: 30 FIRST") && l.ends_with("SECOND")));
    pane.write("40 gone");
    pane.press("Escape");
    pane.wait("the line gone", |shown| !shown.has("40 gone"));
    pane.press("Up Up End C-e Home C-End");
    pane.wait("the first line erased", |shown| candidate(shown)[0].is_empty());
    pane.press("Down Down C-c");
    pane.wait_for_cursor(4, 0);
    // Code page 437, a colour, the row under the key strip.
    pane.press("C-a");
    pane.write("Süd ½ ß");
    wait_for_both(&pane, 3, "Süd ½ ß");
    let coloured = pane.coloured();
    assert!(coloured.contains("\u{1b}[38;5;11m30 FIRST"), "the whole line in bright yellow: {coloured:?}");
    pane.press("C-k");
    pane.wait("no key strip", |shown| !shown.has("1LIST"));
    pane.press("C-k");
    pane.wait_for("1LIST");
    pane.press("C-Home");
    pane.wait("a clear screen on both halves", |shown| {
        candidate(shown)[..24].iter().all(|row| row.is_empty()) && candidate(shown) == invigilator(shown)
    });
}

#[test]
fn the_other_width() {
    let pane = start("width", GOOD_LINE);
    // Nothing was typed yet, so nothing is asked.
    pane.press("C-w");
    pane.write("AT FORTY COLUMNS");
    let shown = pane.wait("both at 40 columns", |shown| shown.lines[1].matches("AT FORTY COLUMNS").count() == 2);
    assert_eq!(shown.rows(1, 0, 40), shown.rows(1, 41, 40));
}

#[test]
fn the_line_cut_and_joined() {
    let pane = start("cut", GOOD_LINE);
    pane.write("BEFORE");
    wait_for_both(&pane, 0, "BEFORE");
    pane.press("C-x");
    pane.wait_for("line CUT");
    pane.write(" AND AFTER");
    pane.wait("what is typed on one half alone", |shown| candidate(shown)[0] == "BEFORE AND AFTER" && invigilator(shown)[0] == "BEFORE");
    pane.wait("both are told", |shown| shown.has("SILENT for") && shown.has("NO INVIGILATOR HEARD for"));
    pane.press("C-x");
    pane.wait("the line joined", |shown| !shown.has("CUT"));
    wait_for_both(&pane, 0, "BEFORE AND AFTER");
}

#[test]
fn a_restart_is_followed() {
    let pane = start("restart", GOOD_LINE);
    pane.wait("the first sitting", |shown| shown.has("INVIGILATOR  sitting 1") && shown.has("1 sitting so far"));
    pane.write("BEFORE");
    wait_for_both(&pane, 0, "BEFORE");
    pane.press("C-n");
    pane.wait("the next sitting", |shown| shown.has("INVIGILATOR  sitting 2") && shown.has("2 sittings so far"));
    wait_for_both(&pane, 0, "");
    pane.write("AFTER");
    wait_for_both(&pane, 0, "AFTER");
    // The screen before can be looked at, and the mirror goes on meanwhile.
    pane.press("PPage");
    pane.wait("the screen before", |shown| {
        invigilator(shown)[0] == "BEFORE"
            && ["NOT CURRENT: sitting 1", "shows call 6 of 6", "PageDown: newer"].iter().all(|text| shown.has(text))
    });
    pane.write(" ALL");
    pane.wait("the mirror goes on", |shown| invigilator(shown)[0] == "BEFORE" && shown.has("current: sitting 2, call 9 of 9  LEVEL, "));
    pane.press("PPage");
    pane.press("NPage");
    wait_for_both(&pane, 0, "AFTER ALL");
}

#[test]
fn a_sitting_whose_first_full_report_is_lost() {
    let pane = start("begun", GOOD_LINE);
    // Where the keys take a second, a full report passes too; then the scene is played again.
    let begun = (1..20).step_by(2).find_map(|sitting| begun(&pane, sitting));
    let (sitting, shown) = begun.expect("one of ten times the keys take less than a second");
    assert!(shown.has(&format!("BEGUN: sitting {sitting}")) && shown.has("no screen of it came yet"));
    assert!(invigilator(&shown)[0] == "BEFORE" && candidate(&shown)[0] == "A");
    pane.press("C-x");
    wait_for_both(&pane, 0, "A");
}

/// In this sitting the line is cut while the candidate restarts, joined for one step, and cut again: the sitting after it and what is then shown, or
/// nothing if the mirror has followed; then one further sitting has begun.
fn begun(pane: &Pane, sitting: u32) -> Option<(u32, Shown)> {
    pane.write("BEFORE");
    wait_for_both(pane, 0, "BEFORE");
    pane.press("C-x C-n C-x A C-x");
    let shown = pane.wait("all keys taken", |shown| shown.has("line CUT") && shown.has(&format!("sitting {}  call 1", sitting + 1)));
    if shown.has("BEGUN") {
        return Some((sitting + 1, shown));
    }
    pane.press("C-x C-n");
    wait_for_both(pane, 0, "");
    None
}

#[test]
fn faults_that_are_changed_while_it_runs() {
    let pane = start("faults", GOOD_LINE);
    pane.press("C-l C-l C-r C-r C-o C-o C-o C-o");
    pane.wait_for("loss 30%, repeat 30%, reorder 100%");
    pane.write(&"bad line, good keys; ".repeat(11));
    pane.press("Enter");
    pane.wait_for("submitted 1: bad line");
    pane.press("C-l C-l C-l C-r C-r C-r C-o");
    pane.wait_for("loss 0%, repeat 0%, reorder 0%");
    wait_for_both(&pane, 0, "bad line, good keys; bad line");
}

/// A sum of what `stty -g` prints in a shell, which is longer than a row.
fn modes(shell: &Pane, when: &str) -> String {
    shell.write(&format!("echo {when}-$(stty -g | cksum)\n"));
    // Not the line that was typed.
    shell.wait_to_find(when, |shown| {
        let after = |line: &String| line.split_once(&format!("{when}-")).map(|(_, modes)| modes.to_string());
        shown.lines.iter().filter_map(after).find(|modes| !modes.starts_with('$'))
    })
}

/// A shell, and the program started from it, with its process number.
fn from_a_shell(name: &str, (cols, rows): (usize, usize)) -> (Pane, String, String) {
    let name = &format!("{name}-{cols}");
    let shell = Pane::start(name, cols, rows, "PS1='ready> ' sh");
    shell.wait_for("ready>");
    let before = modes(&shell, "before");
    let file = format!("{}/pid-{}-{name}", env!("CARGO_TARGET_TMPDIR"), std::process::id());
    shell.write(&format!("sh -c 'echo $$ > {file}; exec {} --seed 1'\n", env!("CARGO_BIN_EXE_screens")));
    shell.wait_for("1LIST");
    let process = std::fs::read_to_string(&file).unwrap().trim().to_string();
    std::fs::remove_file(file).unwrap();
    (shell, before, process)
}

fn signal(signal: &str, process: &str) -> bool {
    Command::new("kill").args([signal, process]).output().unwrap().status.success()
}

/// What ends the program in a terminal of each size, and leaves the terminal as it was.
fn restored(name: &str, end: impl Fn(&Pane, &str)) {
    for size in SIZES {
        let (shell, before, process) = from_a_shell(name, size);
        end(&shell, &process);
        shell.wait("the shell again", |shown| shown.has("before") && !shown.has("1LIST"));
        assert_eq!(modes(&shell, "after"), before);
    }
}

#[test]
fn leaving_restores_the_terminal() {
    restored("leaving", |shell, _| shell.press("C-q"));
}

#[test]
fn a_request_to_end_restores_the_terminal() {
    restored("asked", |shell, process| {
        // What was typed is no reason to ask then.
        shell.write("TYPED");
        shell.wait_for("TYPED");
        assert!(signal("-TERM", process));
    });
}

#[test]
fn a_terminal_that_hangs_up_is_restored_if_it_is_still_there() {
    restored("hung-up", |_, process| assert!(signal("-HUP", process)));
}

#[test]
fn a_terminal_that_is_gone_ends_the_program() {
    let (shell, _, process) = from_a_shell("gone", SIZES[0]);
    drop(shell);
    let begun = Instant::now();
    while signal("-0", &process) {
        assert!(begun.elapsed() < DEADLINE, "the program goes on without a terminal");
        sleep(Duration::from_millis(20));
    }
}
