//! A terminal of tmux with a program in it: keys go in, what is shown is read, and one waits for what should be shown.
use crate::folder::Folder;
use std::fs;
use std::path::{Path, PathBuf};
use std::process::Command;
use std::sync::OnceLock;
use std::thread::sleep;
use std::time::{Duration, Instant};
use terminal::key_file;

/// The last sitting that a program finds when it starts. The clock is beyond it, so that there is nothing to be told of its own.
const LAST_SITTING: u32 = 1_000;

/// Longer than anything here takes; a test that waits so long has failed.
pub const DEADLINE: Duration = Duration::from_secs(60);

/// The file of the key that the programs share.
pub fn key() -> &'static Path {
    static KEY: OnceLock<PathBuf> = OnceLock::new();
    KEY.get_or_init(|| {
        let file = Path::new(env!("CARGO_TARGET_TMPDIR")).join("key-of-tmux");
        // It may be there from an earlier run.
        key_file::make(&file).or_else(|_| key_file::read(&file).map(drop)).unwrap();
        file
    })
}

pub struct Pane {
    /// Where the server has its socket, and the program its sittings.
    folder: Folder,
}

impl Pane {
    /// Starts a command in a terminal of this size, with a tmux server of its own.
    pub fn start(name: &str, cols: usize, rows: usize, command: &str) -> Self {
        let pane = Self { folder: Folder::new(name) };
        fs::create_dir_all(pane.folder.0.join("futonrobin")).unwrap();
        fs::write(pane.folder.0.join("futonrobin/sitting"), LAST_SITTING.to_string()).unwrap();
        let (cols, rows) = (cols.to_string(), rows.to_string());
        pane.tmux(&["-f", "/dev/null", "new-session", "-d", "-x", &cols, "-y", &rows, command]);
        pane
    }

    /// The program of this package with these words.
    pub fn screens(name: &str, cols: usize, rows: usize, words: &str) -> Self {
        Self::start(name, cols, rows, &format!("{} {words}", env!("CARGO_BIN_EXE_screens")))
    }

    /// One of the programs over UDP, with the shared key.
    pub fn over_udp(name: &str, cols: usize, rows: usize, words: &str) -> Self {
        Self::screens(name, cols, rows, &format!("{words} --key {}", key().display()))
    }

    /// From now on all that the program writes to the terminal goes to a file, too.
    pub fn record(&self) -> PathBuf {
        let file = self.folder.0.join("written");
        self.tmux(&["pipe-pane", "-O", &format!("cat > {}", file.display())]);
        file
    }

    fn tmux(&self, words: &[&str]) -> String {
        let done = self.server().args(words).output();
        let done = done.expect("tmux, in which these tests run the programs, is at hand (host/setup installs it)");
        assert!(done.status.success(), "tmux {words:?}: {}", String::from_utf8_lossy(&done.stderr));
        String::from_utf8(done.stdout).expect("tmux tells in UTF-8")
    }

    fn server(&self) -> Command {
        let mut tmux = Command::new("tmux");
        tmux.arg("-u").arg("-S").arg(self.folder.0.join("socket")).env("XDG_STATE_HOME", &self.folder.0);
        tmux
    }

    /// Waits until the program has ended, and tmux with it.
    pub fn wait_for_end(&self) {
        let begun = Instant::now();
        while self.server().arg("list-sessions").output().is_ok_and(|done| done.status.success()) {
            assert!(begun.elapsed() < DEADLINE, "the program has not ended");
            sleep(Duration::from_millis(20));
        }
    }

    /// Keys by tmux's names: `Left`, `C-Home`, `BSpace`.
    pub fn press(&self, keys: &str) {
        let keys: Vec<_> = keys.split_whitespace().collect();
        self.tmux(&[&["send-keys"], &keys[..]].concat());
    }

    /// Leaves a screen on which something was typed.
    pub fn leave(&self) {
        self.press("C-q");
        self.wait_for("Ctrl-Q again: yes, else: no");
        self.press("C-q");
        self.wait_for_end();
    }

    pub fn write(&self, text: &str) {
        self.tmux(&["send-keys", "-l", text]);
    }

    pub fn resize(&self, cols: usize, rows: usize) {
        self.tmux(&["resize-window", "-x", &cols.to_string(), "-y", &rows.to_string()]);
    }

    pub fn shown(&self) -> Shown {
        Shown { lines: self.tmux(&["capture-pane", "-p"]).lines().map(str::to_string).collect() }
    }

    /// What is shown, with the escapes for its colours.
    pub fn coloured(&self) -> String {
        self.tmux(&["capture-pane", "-p", "-e"])
    }

    /// Where the terminal's cursor is, if it is shown.
    pub fn cursor(&self) -> Option<(usize, usize)> {
        let told = self.tmux(&["display-message", "-p", "#{cursor_y} #{cursor_x} #{cursor_flag}"]);
        let numbers: Vec<usize> = told.split_whitespace().map(|number| number.parse().unwrap()).collect();
        (numbers[2] == 1).then_some((numbers[0], numbers[1]))
    }

    /// Waits until the terminal's cursor is there, and shown.
    pub fn wait_for_cursor(&self, row: usize, col: usize) {
        self.wait(&format!("the cursor in row {row}, column {col}"), |_| self.cursor() == Some((row, col)));
    }

    /// Waits until that is shown.
    pub fn wait(&self, what: &str, seen: impl Fn(&Shown) -> bool) -> Shown {
        self.wait_to_find(what, |shown| seen(shown).then(|| shown.clone()))
    }

    /// Waits until that is found in what is shown. One look finds it: at the next one the program may just be painting.
    pub fn wait_to_find<T>(&self, what: &str, find: impl Fn(&Shown) -> Option<T>) -> T {
        let begun = Instant::now();
        loop {
            let shown = self.shown();
            if let Some(found) = find(&shown) {
                return found;
            }
            assert!(begun.elapsed() < DEADLINE, "never seen: {what}. Shown is\n{}", shown.lines.join("\n"));
            sleep(Duration::from_millis(20));
        }
    }

    pub fn wait_for(&self, text: &str) -> Shown {
        self.wait(text, |shown| shown.has(text))
    }
}

impl Drop for Pane {
    fn drop(&mut self) {
        // The server has ended by itself if its program has.
        let _ = self.server().arg("kill-server").output();
    }
}

#[derive(Clone)]
pub struct Shown {
    pub lines: Vec<String>,
}

impl Shown {
    pub fn has(&self, text: &str) -> bool {
        self.lines.iter().any(|line| line.contains(text))
    }

    /// So many columns of the 25 rows of a screen, without spaces at the ends.
    pub fn rows(&self, top: usize, left: usize, width: usize) -> Vec<String> {
        let row = |line: &String| line.chars().skip(left).take(width).collect::<String>().trim_end().to_string();
        self.lines.iter().skip(top).take(25).map(row).collect()
    }
}
