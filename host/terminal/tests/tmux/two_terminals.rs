//! The candidate's and the invigilator's program in two terminals, over UDP.
use crate::folder::Folder;
use crate::pane::{key, Pane, Shown};
use std::net::UdpSocket;

/// A terminal in which a whole screen has room.
pub const COLS: usize = 80;
pub const ROWS: usize = 29;

/// An invigilator on any free port, and that port.
fn invigilator(name: &str) -> (Pane, u16) {
    let pane = Pane::over_udp(name, COLS, ROWS, "invigilator --listen 127.0.0.1:0");
    let port = port_of(&pane);
    (pane, port)
}

/// The port at which an invigilator listens; it shows it while nobody is heard.
pub fn port_of(invigilator: &Pane) -> u16 {
    let port = |line: &String| line.split_once("listening at 127.0.0.1:").and_then(|(_, port)| port.trim().parse().ok());
    invigilator.wait_to_find("the address", |shown| shown.lines.iter().find_map(port))
}

fn candidate(name: &str, port: u16, more: &str) -> Pane {
    let pane = Pane::over_udp(name, COLS, ROWS, &format!("candidate --to 127.0.0.1:{port} --loss 20 --repeat 20 --reorder 50 {more}"));
    pane.wait_for("1LIST");
    pane
}

/// Up to the screen's edge.
pub fn first_row(shown: &Shown) -> &str {
    shown.lines[1].split('│').next().unwrap_or_default().trim_end()
}

#[test]
fn over_udp() {
    let (invigilator, port) = invigilator("watching");
    let first = candidate("first", port, "");
    first.write("40 WARD 9, BED 3");
    invigilator.wait("what is typed, and LEVEL", |shown| first_row(shown) == "40 WARD 9, BED 3" && shown.has("LEVEL"));
    first.wait_for("the invigilator shows call 16 of 16");
    invigilator.wait_for_cursor(1, 16);
    invigilator.wait_for("1 sitting so far");

    let garbage = UdpSocket::bind("127.0.0.1:0").unwrap();
    for bytes in [&b""[..], b"no report", &[0; 5000]] {
        garbage.send_to(bytes, ("127.0.0.1", port)).unwrap();
    }
    invigilator.wait("garbage counted, and nothing shown of it", |shown| {
        shown.has("unreadable datagrams: 3") && first_row(shown) == "40 WARD 9, BED 3"
    });

    drop(first);
    invigilator.wait_for("SILENT for");
    let second = candidate("second", port, "");
    second.write("AFTER A RESTART");
    invigilator.wait("the new sitting, and LEVEL", |shown| {
        first_row(shown) == "AFTER A RESTART" && shown.has("LEVEL") && shown.has("2 sittings so far")
    });
    second.wait_for("the invigilator shows call 15 of 15");

    invigilator.press("PPage");
    let past = ["NOT CURRENT: sitting", "PageDown: newer", "shows call 16 of 16", "current: sitting "];
    invigilator.wait("the earlier screen", |shown| first_row(shown) == "40 WARD 9, BED 3" && past.iter().all(|text| shown.has(text)));
    second.write("!");
    invigilator
        .wait("the mirror follows meanwhile", |shown| first_row(shown) == "40 WARD 9, BED 3" && shown.has(", call 16 of 16  LEVEL, "));
    invigilator.press("NPage");
    invigilator.wait("the current screen", |shown| first_row(shown) == "AFTER A RESTART!" && !shown.has("NOT CURRENT"));
    second.leave();
}

#[test]
fn a_smaller_sitting_is_told_at_both_ends_and_never_shown() {
    let (invigilator, port) = invigilator("followed");
    let newer = candidate("newer", port, "");
    newer.write("AFTER A RESTART!");
    invigilator.wait("what is typed", |shown| first_row(shown) == "AFTER A RESTART!");
    let older = candidate("older", port, "--sitting 5");
    older.wait("the notice", |shown| shown.has("NOT SHOWN where") && shown.has("nor where 5 was used before"));
    older.write("UNSEEN");
    older.wait_for("NOT SHOWN: the invigilator follows sitting");
    let shown = invigilator.wait("the older one, and LEVEL", |shown| shown.has("older sitting 5 heard") && shown.has("LEVEL"));
    assert_eq!(first_row(&shown), "AFTER A RESTART!");
}

#[test]
fn what_there_is_to_know_about_a_sitting() {
    let elsewhere = |name: &str, rows: usize, state: &str| {
        let (screens, key) = (env!("CARGO_BIN_EXE_screens"), key().display());
        let program = format!("env XDG_STATE_HOME={state} {screens} candidate --to 127.0.0.1:9 --key {key}");
        Pane::start(name, COLS, rows, &program)
    };
    // No folder can be made under a file: two notices, for which the screen makes room until something is typed.
    let unkept = elsewhere("unkept", 24, "/dev/null");
    let both = |shown: &Shown| shown.has("may be no larger than the last one") && shown.has("is NOT KEPT: the next one here");
    unkept.wait("both notices", both);
    unkept.write("A");
    unkept.wait("the screen", |shown| first_row(shown) == "A" && !shown.has("NOT KEPT"));
    unkept.press("C-p");
    unkept.wait("both on the page of submitted lines", both);
    // The path is longer than a row, and no letter of it is lost.
    let folder = Folder::new(&"long-".repeat(20));
    let state = folder.0.to_str().unwrap();
    let first = elsewhere("first-known", ROWS + 9, state);
    let shown = first.wait_for("is the first one known here: one used before may be larger");
    let after = shown.lines.iter().skip_while(|line| !line.contains("is the first one known here")).skip(1);
    let why: String = after.take_while(|line| line.starts_with("  ")).map(|line| line.trim()).collect();
    assert_eq!(why.replace(' ', ""), format!("therewasno{state}/futonrobin/sitting"));
}

#[test]
fn too_small_for_a_screen() {
    let invigilator = Pane::over_udp("small", 79, 24, "invigilator --listen 127.0.0.1:0");
    invigilator.wait("that it is, and what is needed", |shown| {
        shown.lines.join(" ").starts_with("The terminal is too small: it has 79 columns and 24 rows, and 80 and 18 are needed.")
    });
    invigilator.resize(80, 17);
    invigilator.wait_for("it has 80 columns and 17 rows");
    invigilator.resize(80, 18);
    invigilator.wait_for("WAITING for a candidate");
}
