//! Words that cannot be taken get a sentence on standard error and a status that is not 0.
mod folder;

use folder::Folder;
use std::fs;
use std::net::UdpSocket;
use std::os::unix::fs::PermissionsExt;
use std::process::{Command, Output, Stdio};

/// Where the sittings of these tests are kept.
const STATE: &str = concat!(env!("CARGO_TARGET_TMPDIR"), "/state-of-bad-use");

fn screens(words: &str) -> Output {
    let mut command = Command::new(env!("CARGO_BIN_EXE_screens"));
    command.args(words.split_whitespace()).env("XDG_STATE_HOME", STATE).stdin(Stdio::null()).output().unwrap()
}

fn refused(words: &str, status: i32, sentence: &str) {
    let done = screens(words);
    let told = String::from_utf8(done.stderr).unwrap();
    assert_eq!((done.status.code(), told.lines().count()), (Some(status), 1), "{words}: {told}");
    assert!(told.contains(sentence), "{words}: {told}");
    assert!(done.stdout.is_empty(), "{words}: nothing was begun");
}

#[test]
fn words() {
    refused("candiate", 2, "there is no program 'candiate'");
    refused("--lost 3", 2, "'--lost' is not understood here");
    refused("candidate --listen 127.0.0.1:4000", 2, "'--listen' is not understood here");
    refused("candidate more --to 127.0.0.1:4000", 2, "'more' is not understood here");
    refused("--loss", 2, "--loss needs a value after it");
    refused("--loss 101", 2, "--loss takes a number from 0 to 100, not '101'");
    refused("--width 60", 2, "--width takes 40 or 80, not '60'");
    refused("--seed x", 2, "--seed takes a number");
    refused("--print", 2, "--print needs a value after it");
    refused("--field", 2, "--field needs a value after it");
}

/// A new key in a folder, and the words that name it.
fn with_key(folder: &Folder) -> String {
    let file = folder.0.join("key").display().to_string();
    assert!(screens(&format!("key {file}")).status.success());
    format!("--key {file}")
}

#[test]
fn making_a_key() {
    let folder = Folder::new("making-a-key");
    let file = folder.0.join("key");
    let words = format!("key {}", file.display());
    let made = screens(&words);
    assert!(made.status.success() && String::from_utf8(made.stdout).unwrap().contains("holds a new key"));
    let held = fs::read(&file).unwrap();
    refused(&words, 1, "is there already, and is left as it is");
    assert_eq!(fs::read(&file).unwrap(), held);
    refused("key", 2, "a file for the key is missing");
    refused("key --force", 2, "'--force' is not understood here");
    refused("key one two", 2, "'two' is not understood here");
    refused("key no/such/folder/key", 1, "no/such/folder/key: ");
}

#[test]
fn without_a_key_nothing_starts() {
    let folder = Folder::new("without-a-key");
    for program in ["candidate --to 127.0.0.1:4000", "invigilator --listen 127.0.0.1:0"] {
        refused(program, 2, "--key is missing: ./run key FILE makes one");
        refused(&format!("{program} --keys /dev/null"), 2, "--key is missing: ./run key FILE makes one");
        refused(&format!("{program} --keys /dev/null --key"), 2, "--key needs a value after it");
        refused(&format!("{program} --keys /dev/null --key no-such-key"), 1, "there is no no-such-key: ./run key no-such-key makes a key");
        let file = folder.0.join("no-key");
        fs::write(&file, "WARD 7").unwrap();
        fs::set_permissions(&file, fs::Permissions::from_mode(0o600)).unwrap();
        refused(&format!("{program} --keys /dev/null --key {}", file.display()), 1, "holds no key");
        fs::set_permissions(&file, fs::Permissions::from_mode(0o644)).unwrap();
        refused(&format!("{program} --keys /dev/null --key {}", file.display()), 1, "chmod 600");
    }
    refused("--key FILE", 2, "'--key' is not understood here");
}

#[test]
fn sittings() {
    let range = "--sitting takes a number from 0 to 4294967295, not";
    for bad in ["x", "-1", "1.5", "4294967296"] {
        refused(&format!("candidate --to 127.0.0.1:4000 --key k --sitting {bad}"), 2, &format!("{range} '{bad}'"));
    }
    let folder = Folder::new("sittings");
    let key = with_key(&folder);
    refused("candidate --to 127.0.0.1:4000 --sitting", 2, "--sitting needs a value after it");
    refused("invigilator --listen 127.0.0.1:4000 --sitting 3", 2, "'--sitting' is not understood here");
    refused("--sitting 3", 2, "'--sitting' is not understood here");
    fs::create_dir_all(format!("{STATE}/futonrobin")).unwrap();
    fs::write(format!("{STATE}/futonrobin/sitting"), "4294967295\n").unwrap();
    let program = format!("candidate --to 127.0.0.1:4000 --keys /dev/null {key}");
    refused(&program, 1, "there is no larger one");
    refused(&format!("{program} --sitting 4294967295"), 1, "sitting 4294967295 was the last one here");
    fs::remove_dir_all(STATE).unwrap();
}

#[test]
fn addresses() {
    refused("candidate", 2, "--to is missing");
    refused("invigilator", 2, "--listen is missing");
    refused("candidate --to 127.0.0.1 --key k", 2, "'127.0.0.1' is no address");
    refused("candidate --to 127.0.0.1:65536 --key k", 2, "the port of '127.0.0.1:65536' is not a number from 1 to 65535");
    refused("candidate --to 127.0.0.1:0 --key k", 2, "is not a number from 1 to 65535");
    refused("invigilator --listen 127.0.0.1:70000 --key k", 2, "is not a number from 0 to 65535");
    refused("invigilator --listen 127.0.0.1:x --key k", 2, "is not a number from 0 to 65535");
    refused("invigilator --listen 256.0.0.1:4000 --key k", 2, "the host of '256.0.0.1:4000' was not found");
    let folder = Folder::new("addresses");
    let key = with_key(&folder);
    refused(&format!("invigilator --listen 192.0.2.1:4000 --keys /dev/null {key}"), 1, "is no address of this machine");
    let taken = UdpSocket::bind("127.0.0.1:0").unwrap();
    let address = taken.local_addr().unwrap();
    refused(&format!("invigilator --listen {address} --keys /dev/null {key}"), 1, &format!("{address} is in use"));
}

#[test]
fn keys_and_terminals() {
    let folder = Folder::new("keys-and-terminals");
    let key = with_key(&folder);
    refused(&format!("candidate --to 127.0.0.1:4000 {key}"), 1, "standard input and output are no terminal");
    refused(&format!("candidate --to 127.0.0.1:4000 --keys no-such-file {key}"), 1, "no-such-file: ");
    refused(&format!("invigilator --listen 127.0.0.1:0 {key}"), 1, "standard input and output are no terminal");
    let file = folder.0.join("keys");
    fs::write(&file, "A<Entr>").unwrap();
    refused(&format!("candidate --to 127.0.0.1:4000 --keys {} {key}", file.display()), 1, "there is no key <Entr>");
}

#[test]
fn texts_to_print() {
    let folder = Folder::new("texts-to-print");
    let key = with_key(&folder);
    for program in ["", "candidate --to 127.0.0.1:4000", "invigilator --listen 127.0.0.1:0"] {
        let words = if program.is_empty() { String::new() } else { format!("{program} --keys /dev/null {key}") };
        refused(&format!("{words} --print"), 2, "--print needs a value after it");
        refused(&format!("{words} --print no-such-text"), 1, "no-such-text: ");
        refused(&format!("{words} --print {}", folder.0.display()), 1, "directory");
        refused(&format!("{words} --print /dev/zero"), 1, "/dev/zero: it has more than 16777216 bytes");
    }
    refused("key --print no-such-text", 2, "'--print' is not understood here");
}

#[test]
fn fields() {
    for program in ["", "candidate --to 127.0.0.1:4000 --key k", "invigilator --listen 127.0.0.1:0 --key k"] {
        for bad in ["x", "0", "256", "-1", "60.0", "60x", "18446744073709551616"] {
            let sentence = format!("--field takes a number from 1 to 255, not '{bad}'");
            refused(&format!("{program} --field {bad}"), 2, &sentence);
        }
        refused(&format!("{program} --field"), 2, "--field needs a value after it");
    }
    refused("key --field 5", 2, "'--field' is not understood here");
    refused("key k --field", 2, "'--field' is not understood here");
}

/// Words with spaces in them, and empty ones, are written with `_` and `""`.
fn words_of(list: &str) -> Vec<String> {
    list.split_whitespace().map(|word| word.replace('_', " ").replace("\"\"", "")).collect()
}

const BAD: [&str; 37] = [
    "candiate",
    "\"\"",
    "candidate",
    "invigilator",
    "key",
    "key \"\"",
    "key a b",
    "key --force",
    "key -- a",
    "--",
    "-",
    "-x",
    "--lost 3",
    "--loss",
    "--loss=3",
    "--to a",
    "--key a",
    "--keys a",
    "--sitting 3",
    "--width_--loss 3",
    "--loss 3 more",
    "candidate more",
    "candidate --to",
    "candidate --to 127.0.0.1:9",
    "candidate --key a",
    "candidate --listen a",
    "invigilator --listen 127.0.0.1:9",
    "invigilator --to a",
    "invigilator --listen a --key b --sitting 3",
    "candiate --hlep",
    "--print",
    "candidate --to 127.0.0.1:9 --key a --print",
    "invigilator --print",
    "--field",
    "candidate --to 127.0.0.1:9 --key a --field",
    "invigilator --field",
    "key a --field 5",
];
const ANSWERED: [&str; 12] = [
    "--help",
    "-h",
    "help",
    "help me",
    "--version",
    "candidate --help",
    "invigilator -h",
    "key -h",
    "key a --help",
    "--loss x --help",
    "candidate --to x --version",
    "invigilator --listen bad --help",
];
const UNDERSTOOD: [&str; 9] = [
    "",
    "--width 40 --loss 1 --repeat 2 --reorder 3 --seed 4 --print a",
    "--width 40 --loss 1 --repeat 2 --reorder 3 --seed 4 --print a --field 5",
    "key a",
    "--loss --help",
    "candidate --to a --key b --keys c --sitting 5 --width 80 --print d",
    "candidate --to a --key b --keys c --sitting 5 --width 80 --print d --field 60",
    "invigilator --listen a --key b --keys c --print d",
    "invigilator --listen a --key b --keys c --print d --field 60",
];

/// `./run` with these words, where no archive is: it must answer before it looks for one, or say that there is none.
fn run(words: &[String], empty: &Folder) -> Output {
    let mut command = Command::new(concat!(env!("CARGO_MANIFEST_DIR"), "/../../run"));
    command.args(words).env("FUTONROBIN_ARCHIVE", &empty.0).stdin(Stdio::null()).output().unwrap()
}

fn text(bytes: &[u8]) -> String {
    String::from_utf8(bytes.to_vec()).unwrap()
}

#[test]
fn run_says_what_the_program_would_say_before_there_is_one() {
    let empty = Folder::new("no-archive");
    for list in BAD.into_iter().chain(ANSWERED) {
        let words = words_of(list);
        let program = Command::new(env!("CARGO_BIN_EXE_screens")).args(&words).stdin(Stdio::null()).output().unwrap();
        let early = run(&words, &empty);
        let told = text(&early.stderr).replace("run: ", "futonrobin: ");
        assert_eq!((told, text(&early.stdout)), (text(&program.stderr), text(&program.stdout)), "{list}");
        assert_eq!(
            (early.status.code(), program.status.code()),
            (Some(if BAD.contains(&list) { 2 } else { 0 }), early.status.code()),
            "{list}"
        );
    }
    for list in UNDERSTOOD {
        let early = run(&words_of(list), &empty);
        assert_eq!(early.status.code(), Some(1), "{list}");
        assert!(text(&early.stderr).starts_with("run: there is no "), "{list}");
    }
}

#[test]
fn a_word_that_is_no_text() {
    use std::os::unix::ffi::OsStrExt;
    let word = std::ffi::OsStr::from_bytes(b"k\xff");
    let done = Command::new(env!("CARGO_BIN_EXE_screens")).args(["key".as_ref(), word]).output().unwrap();
    assert_eq!((done.status.code(), text(&done.stderr).as_str()), (Some(2), "futonrobin: \"k\\xFF\" is no text in UTF-8\n"));
}

#[test]
fn help_and_the_recorded_keys() {
    let help = screens("--help");
    let told = String::from_utf8(help.stdout).unwrap();
    assert!(help.status.success() && told.contains("./run candidate --to HOST:PORT --key FILE"));
    assert!(told.lines().all(|line| line.chars().count() <= 80), "it fits the usual terminal");
    let text = concat!("--print ", env!("CARGO_MANIFEST_DIR"), "/help.txt");
    for words in ["", "--width 40", "--loss 60 --repeat 60 --reorder 60", "--loss 100", text, "--field 1", "--field 12 --width 40"] {
        let played = screens(words);
        let told = String::from_utf8(played.stdout).unwrap();
        assert!(played.status.success() && told.contains("\nAS PROVED: "), "{words}: {told}");
    }
    // They go into a field as any others.
    let told = String::from_utf8(screens("--field 1").stdout).unwrap();
    let submitted = told.lines().filter_map(|line| line.strip_prefix("submitted ")?.split_once(": ")).collect::<Vec<_>>();
    assert!(submitted.len() > 10 && submitted.iter().all(|(_, text)| text.chars().count() <= 1), "{told}");
    assert!(submitted.contains(&("1, cut", "5")), "{told}");
}
