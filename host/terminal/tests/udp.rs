//! The two processes over UDP on the loopback, without a terminal, over a line that the sender makes bad. The invigilator compares its mirror
//! with the keys after every report.
mod folder;

use folder::Folder;
use futonrobin::Screen;
use line::message::PIECE;
use line::{SharedKey, LONGEST};
use oorandom::Rand32;
use std::fs;
use std::io::{BufRead, BufReader, Read};
use std::net::UdpSocket;
use std::path::Path;
use std::process::{Child, ChildStdout, Command, Stdio};
use std::sync::atomic::{AtomicBool, Ordering};
use std::thread;
use std::time::{Duration, Instant, SystemTime, UNIX_EPOCH};
use terminal::key_file;
use terminal::keys::{self, Key, NAMED};

const KEYS: usize = 100_000;
const AT_MOST: Duration = Duration::from_secs(120);
const FAULTS: [&str; 6] = ["--loss", "30", "--repeat", "30", "--reorder", "100"];

/// The folder has the file of keys and that of the shared key, and is the state folder of the programs that a test starts.
impl Folder {
    fn with_keys(name: &str, keys: &str) -> Self {
        let folder = Self::new(name);
        fs::write(folder.0.join("keys"), keys).unwrap();
        key_file::make(&folder.0.join("key")).unwrap();
        folder
    }

    fn shared(&self) -> SharedKey {
        key_file::read(&self.0.join("key")).unwrap()
    }

    /// The program with these words, and the keys.
    fn screens(&self, words: &[&str]) -> Child {
        self.screens_with(words, &self.0)
    }

    fn screens_with(&self, words: &[&str], state: &Path) -> Child {
        let mut command = Command::new(env!("CARGO_BIN_EXE_screens"));
        command.args(words).arg("--keys").arg(self.0.join("keys")).arg("--key").arg(self.0.join("key")).env("XDG_STATE_HOME", state);
        command.stdin(Stdio::null()).stdout(Stdio::piped()).spawn().expect("the program starts")
    }
}

/// An invigilator's program, and what it tells.
struct Invigilator {
    program: Child,
    told: BufReader<ChildStdout>,
    address: String,
}

impl Invigilator {
    fn start(folder: &Folder) -> Self {
        Self::start_with(folder, &[])
    }

    fn start_with(folder: &Folder, more: &[&str]) -> Self {
        let mut program = folder.screens(&[&["invigilator", "--listen", "127.0.0.1:0"], more].concat());
        let told = BufReader::new(program.stdout.take().unwrap());
        let mut invigilator = Self { program, told, address: String::new() };
        invigilator.address = format!("127.0.0.1:{}", number_after(&invigilator.line(), "127.0.0.1:"));
        invigilator
    }

    fn line(&mut self) -> String {
        let mut line = String::new();
        self.told.read_line(&mut line).unwrap();
        line
    }

    /// The sitting that it says it follows, and the port from which that comes.
    fn follows(&mut self) -> (u64, u64) {
        let mut line = self.line();
        // How far the one before came may be told until then.
        while line.contains("has shown") {
            line = self.line();
        }
        (number_after(&line, "follows sitting"), number_after(&line, "from 127.0.0.1:"))
    }

    /// Whether all held, and the rest of what it tells.
    fn end(mut self) -> (bool, String) {
        let mut rest = String::new();
        self.told.read_to_string(&mut rest).unwrap();
        (self.program.wait().unwrap().success(), rest)
    }
}

/// A test that fails leaves no program behind.
impl Drop for Invigilator {
    fn drop(&mut self) {
        let _ = self.program.kill();
    }
}

/// Stretches in which two of three are characters and the others any named key; in turn with such as fill the screen with characters, so that a
/// full report does not fit into one datagram.
fn random_keys(seed: u64, count: usize) -> String {
    let mut random = Rand32::new(seed);
    let key = |n: usize| match (random.rand_range(0..1_000), n % 4_000 < 2_000) {
        (0..333, true) | (0, false) => NAMED[random.rand_range(0..NAMED.len() as u32) as usize].1,
        (1..10, false) => Key::Enter,
        _ => Key::Char(random.rand_range(32..256) as u8),
    };
    keys::write(&(0..count).map(key).collect::<Vec<_>>())
}

fn number_after(text: &str, word: &str) -> u64 {
    let rest = text.split(word).nth(1).unwrap_or_else(|| panic!("'{word}' is not told in\n{text}"));
    rest.trim_start().split(|c: char| !c.is_ascii_digit()).next().unwrap().parse().unwrap()
}

fn new_seed() -> u64 {
    let seed = SystemTime::now().duration_since(UNIX_EPOCH).unwrap().as_secs();
    println!("seed {seed}");
    seed
}

/// Garbage, a forged report of the last serial there is, and reports of a sitting of long ago, until told to stop; how many are garbage, and how many
/// of long ago.
fn disturb(address: &str, shared: &SharedKey, stop: &AtomicBool) -> (u64, u64) {
    let socket = UdpSocket::bind("127.0.0.1:0").unwrap();
    let (mut older, mut forged) = (Screen::new(80, 1), Screen::new(80, u32::MAX));
    for screen in [&mut older, &mut forged] {
        screen.print_checked(b"NOT THE CANDIDATE'S").unwrap();
    }
    let now = Instant::now();
    let mut candidate = line::Candidate::new(shared, &older, now);
    let forged = line::Candidate::new(&SharedKey::draw(), &forged, now).full(&forged, now).remove(0);
    let mut sent = (0, 0);
    while !stop.load(Ordering::Relaxed) {
        let older = candidate.full(&older, now).remove(0);
        for bytes in [&older[..older.len() - 1], b"garbage", &forged, &older] {
            socket.send_to(bytes, address).unwrap();
        }
        sent = (sent.0 + 3, sent.1 + 1);
        thread::sleep(Duration::from_millis(5));
    }
    sent
}

#[test]
fn a_hundred_thousand_keys_over_a_bad_line() {
    let (seed, begun) = (new_seed(), Instant::now());
    let folder = Folder::with_keys("hundred-thousand", &random_keys(seed, KEYS));
    let mut invigilator = Invigilator::start(&folder);
    let (address, seeded) = (invigilator.address.clone(), seed.to_string());
    let candidate = folder.screens(&[&["candidate", "--to", &address, "--seed", &seeded], &FAULTS[..]].concat());
    // A sitting of long ago may be the first that a mirror shows, but never one after the candidate's.
    let (sitting, _) = invigilator.follows();
    let stop = AtomicBool::new(false);
    let (candidate, disturbed) = thread::scope(|scope| {
        let disturbing = scope.spawn(|| disturb(&address, &folder.shared(), &stop));
        let candidate = candidate.wait_with_output().unwrap();
        stop.store(true, Ordering::Relaxed);
        (candidate, disturbing.join().unwrap())
    });
    let (held, rest) = invigilator.end();
    let (report, time) = (String::from_utf8(candidate.stdout).unwrap() + &rest, begun.elapsed());
    println!("{report}{:.1} s; {} pieces of garbage and {} older reports were sent", time.as_secs_f64(), disturbed.0, disturbed.1);

    assert!(candidate.status.success() && held, "seed {seed}\n{report}");
    assert_eq!((number_after(&report, "wrong arrivals"), number_after(&report, "candidate: sitting")), (0, sitting));
    assert!(report.contains(&format!("candidate: sitting {sitting} is the first one known here")), "{report}");
    assert!(number_after(&report, "ended at call") >= KEYS as u64);
    // The line was as bad as it was meant to be, and the network lost next to nothing beyond it.
    let (sent, lost) = (number_after(&report, "calls,"), number_after(&report, "sent,"));
    assert!(lost * 3 > sent && lost < sent, "{report}");
    // Reports in pieces were among them, and none was longer than a network carries.
    assert!((PIECE as u64..=LONGEST as u64).contains(&number_after(&report, "bytes in them,")), "{report}");
    assert!(number_after(&rest, "garbage") > 0 && number_after(&rest, "older") > 0, "{report}");
    assert!(report.contains("invigilator: kept sitting 1, call 1 of 1 heard of"), "it was never shown, but it can be looked at: {report}");
    assert!(!rest.contains("follows sitting"), "{report}");
    assert!(time < AT_MOST, "{time:?}");
}

/// Lines with so many ignored bytes between them that one page needs several calls; and some of many rows.
fn text_of_many_pages() -> Vec<u8> {
    let line = |n: usize| [format!("{n} ").into_bytes(), vec![b'A' + (n % 26) as u8; n * 7 % 300], vec![7; n % 3 * 12_000], b"\r\n".into()];
    (0..60).flat_map(|n| line(n).concat()).collect()
}

#[test]
fn a_text_that_both_ends_print_a_screen_at_a_time() {
    let keys = format!("TYPED{}{}<Esc>AFTER IT<Print>x<Esc><Enter>", "<Print>".repeat(9), "x<F1>".repeat(3));
    let folder = Folder::with_keys("printed", &keys);
    let file = folder.0.join("text");
    fs::write(&file, text_of_many_pages()).unwrap();
    let print = ["--print", file.to_str().unwrap()];
    for width in ["40", "80"] {
        let invigilator = Invigilator::start_with(&folder, &print);
        let words = ["candidate", "--to", &invigilator.address, "--width", width, "--seed", "7", "--loss", "20", "--reorder", "50"];
        let candidate = folder.screens(&[&words[..], &print].concat()).wait_with_output().unwrap();
        let (held, rest) = invigilator.end();
        assert!(candidate.status.success() && held && rest.contains("wrong arrivals 0"), "{rest}");
        let (calls, pressed) = (number_after(&rest, "ended at call"), keys::read(&keys).unwrap().len() as u64);
        assert!(calls > pressed, "some pages need several calls: {rest}");
    }
}

#[test]
fn a_field_that_both_ends_know() {
    let seed = new_seed();
    let (folder, seeded) = (Folder::with_keys("field", &random_keys(seed, 5_000)), seed.to_string());
    for field in [["--field", "1"], ["--field", "60"]] {
        let invigilator = Invigilator::start_with(&folder, &field);
        let words = ["candidate", "--to", &invigilator.address, "--seed", &seeded];
        let candidate = folder.screens(&[&words[..], &FAULTS, &field].concat()).wait_with_output().unwrap();
        let (held, rest) = invigilator.end();
        assert!(candidate.status.success() && held && rest.contains("wrong arrivals 0"), "seed {seed}, {field:?}\n{rest}");
    }
}

#[test]
fn a_candidate_killed_and_started_again_in_mid_run() {
    let seed = new_seed();
    let folder = Folder::with_keys("killed", &random_keys(seed, KEYS / 2));
    let mut invigilator = Invigilator::start(&folder);
    let (address, seeded) = (invigilator.address.clone(), seed.to_string());
    let start = || folder.screens(&[&["candidate", "--to", &address, "--seed", &seeded], &FAULTS[..]].concat());
    let mut first = start();
    let (sitting, port) = invigilator.follows();
    // In mid-run: some of its calls are shown, and many more are to come.
    assert!(number_after(&invigilator.line(), "has shown") > 0);
    first.kill().unwrap();
    assert!(!first.wait().unwrap().success(), "it was killed before its end");
    let second = start();
    let (next, other_port) = invigilator.follows();
    let second = second.wait_with_output().unwrap();
    let (held, rest) = invigilator.end();
    let report = String::from_utf8(second.stdout).unwrap() + &rest;
    println!("{report}");

    assert!(second.status.success() && held, "seed {seed}\n{report}");
    assert_eq!((number_after(&report, "wrong arrivals"), number_after(&report, "candidate: sitting")), (0, next));
    assert!(next > sitting && other_port != port, "sitting {sitting} from {port}, then {next} from {other_port}");
    assert!(number_after(&report, "ended at call") >= (KEYS / 2) as u64);
    // Its last screen was compared with the keys too.
    assert!(number_after(&report, &format!("invigilator: kept sitting {sitting}, call")) > 0, "{report}");
}

#[test]
fn a_last_datagram_that_is_sent_again_and_again_does_not_keep_the_invigilator_from_its_end() {
    let (folder, typed) = (Folder::with_keys("sent-again", "BED 12"), b"BED 12");
    let mut invigilator = Invigilator::start(&folder);
    let (mut screen, now) = (Screen::new(80, 7), Instant::now());
    typed.iter().for_each(|&ch| screen.type_char(ch).unwrap());
    let last = line::Candidate::new(&folder.shared(), &screen, now).full(&screen, now).remove(0);
    let socket = UdpSocket::bind("127.0.0.1:0").unwrap();
    while invigilator.program.try_wait().unwrap().is_none() {
        assert!(now.elapsed() < Duration::from_secs(20), "it goes on");
        socket.send_to(&last, &invigilator.address).unwrap();
        thread::sleep(Duration::from_millis(50));
    }
    let (held, rest) = invigilator.end();
    assert!(held && rest.contains("invigilator: ended at call 6, wrong arrivals 0"), "{rest}");
}

#[test]
fn a_candidate_that_nobody_follows_and_whose_sitting_is_not_kept_says_so() {
    let folder = Folder::with_keys("unfollowed", "BED 12");
    let silent = UdpSocket::bind("127.0.0.1:0").unwrap();
    let words = ["candidate", "--to", &silent.local_addr().unwrap().to_string()];
    let done = folder.screens_with(&words, &folder.0.join("keys")).wait_with_output().unwrap();
    let told = String::from_utf8(done.stdout).unwrap();
    assert_eq!(done.status.code(), Some(1));
    assert!(told.contains("HAS NOT TOLD THAT IT SHOWS") && told.contains(" is NOT KEPT: the next one here may be no larger ("), "{told}");
    assert!(told.contains("may be no larger than the last one, which is not known ("), "{told}");
}
