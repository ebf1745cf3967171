//! The terminal, by crossterm: raw mode, the alternate screen, colours; and what is pressed there.
use crate::canvas::{differing, Canvas, Size, Spot};
use crate::front::Front;
use crate::glyphs;
use crate::keys::Key;
use crossterm::cursor::{Hide, MoveTo, Show};
use crossterm::event::{self, Event, KeyCode, KeyEvent, KeyEventKind, KeyModifiers};
use crossterm::event::{KeyboardEnhancementFlags, PopKeyboardEnhancementFlags, PushKeyboardEnhancementFlags};
use crossterm::style::{Attribute, Color, Print, ResetColor, SetAttribute, SetBackgroundColor, SetForegroundColor};
use crossterm::terminal::{self, Clear, ClearType, EnterAlternateScreen, LeaveAlternateScreen};
use crossterm::{execute, queue};
use signal_hook::consts::{SIGHUP, SIGINT, SIGTERM};
use signal_hook::flag;
use signal_hook::iterator::Signals;
use std::env;
use std::io::{self, BufWriter, Stdout, Write};
use std::panic;
use std::process;
use std::sync::atomic::{AtomicBool, Ordering};
use std::sync::Arc;
use std::thread::{self, sleep};
use std::time::Duration;

#[derive(Clone, Copy, PartialEq, Eq, Debug)]
pub enum Input {
    Key(Key),
    Leave,
    /// The page of keys, and that of the submitted lines.
    Help,
    Submitted,
    /// The other half of what has no room side by side.
    Other,
    /// The simulated line: the next percentage of each fault, and cut or joined.
    Loss,
    Repeat,
    Reorder,
    Cut,
    /// The candidate of the simulated line restarts.
    Restart,
    /// The invigilator looks at the sitting before, and at the one after.
    Back,
    Forth,
    /// A key that means nothing here.
    Unknown,
    Resized(Size),
    /// The program is asked to end from outside.
    Ended,
}

#[derive(Clone, Copy, PartialEq, Eq, Debug)]
pub enum Then {
    GoOn,
    Leave,
}

/// A program in a terminal.
pub trait Program {
    /// Time passes, and what has come is taken.
    fn tick(&mut self) -> io::Result<()>;
    /// What may cover what it shows.
    fn front(&self) -> &Front;
    /// What it shows in a terminal that is large enough.
    fn paint(&mut self, canvas: &mut Canvas);
    /// Something is pressed, in a terminal of this size.
    fn input(&mut self, input: Input, size: Size) -> Then;
    /// Whether the bell rings now.
    fn rings(&mut self) -> bool {
        false
    }

    fn canvas(&mut self, size: Size) -> Canvas {
        self.front().too_small(size).unwrap_or_else(|| {
            let mut canvas = Canvas::new(size);
            self.paint(&mut canvas);
            canvas
        })
    }
}

/// Runs it until it is left.
pub fn run(program: &mut impl Program) -> io::Result<()> {
    let mut terminal = Terminal::enter()?;
    let mut size = size()?;
    loop {
        program.tick()?;
        terminal.show(program.canvas(size))?;
        if program.rings() {
            terminal.ring()?;
        }
        for input in terminal.inputs(TICK)? {
            match input {
                Input::Ended => return Ok(()),
                Input::Resized(new) => size = new,
                _ if program.input(input, size) == Then::Leave => return Ok(()),
                _ => {}
            }
        }
    }
}

pub fn size() -> io::Result<Size> {
    let (cols, rows) = terminal::size()?;
    Ok(Size { cols: cols.into(), rows: rows.into() })
}

const TICK: Duration = Duration::from_millis(20);
/// What asks a program to end.
const ENDING: [i32; 3] = [SIGTERM, SIGINT, SIGHUP];
/// So many inputs are taken before the screen is shown again: a pasted text needs no painting for each key.
const BATCH: usize = 256;
/// So long a program that is asked to end may take to leave by itself, and then to restore the terminal.
const LEAVING: Duration = Duration::from_millis(500);
const RESTORING: Duration = Duration::from_millis(200);

/// While it lives the terminal is ours; what it was before comes back in any case, a panic and a request to end included.
struct Terminal {
    out: BufWriter<Stdout>,
    shown: Option<Canvas>,
    colours: bool,
    ended: Arc<AtomicBool>,
}

impl Terminal {
    fn enter() -> io::Result<Self> {
        let hook = panic::take_hook();
        panic::set_hook(Box::new(move |why| {
            restore();
            hook(why);
        }));
        let ended = Arc::new(AtomicBool::new(false));
        for signal in ENDING {
            flag::register(signal, ended.clone())?;
        }
        end_in_any_case()?;
        terminal::enable_raw_mode()?;
        let colours = has_colours(env::var("NO_COLOR").ok().as_deref(), env::var("TERM").ok().as_deref());
        let mut terminal = Self { out: BufWriter::new(io::stdout()), shown: None, colours, ended };
        // With these flags a terminal that knows them tells Ctrl-Enter from Enter; the others ignore them.
        let flags = PushKeyboardEnhancementFlags(KeyboardEnhancementFlags::DISAMBIGUATE_ESCAPE_CODES);
        execute!(terminal.out, EnterAlternateScreen, flags, Hide)?;
        Ok(terminal)
    }

    /// Shows a canvas: only what differs from what stands there.
    fn show(&mut self, canvas: Canvas) -> io::Result<()> {
        if self.shown.as_ref() == Some(&canvas) {
            return Ok(());
        }
        let shown = self.shown.take().filter(|shown| shown.size == canvas.size);
        queue!(self.out, Hide)?;
        if shown.is_none() {
            queue!(self.out, ResetColor, Clear(ClearType::All))?;
        }
        for row in 0..canvas.size.rows {
            let before = shown.as_ref().map(|shown| shown.row(row));
            for (col, text, look) in differing(before, canvas.row(row)) {
                queue!(self.out, MoveTo(col as u16, row as u16))?;
                self.look(look)?;
                queue!(self.out, Print(text))?;
            }
        }
        if let Some((row, col)) = canvas.cursor {
            queue!(self.out, MoveTo(col as u16, row as u16), Show)?;
        }
        self.shown = Some(canvas);
        self.out.flush()
    }

    /// What is printed next looks so. Without colours what is light on dark is bold, and what is dark on light is reversed.
    fn look(&mut self, Spot { attr, underlined, .. }: Spot) -> io::Result<()> {
        queue!(self.out, SetAttribute(Attribute::Reset))?;
        if self.colours {
            queue!(self.out, SetForegroundColor(colour(attr & 15)), SetBackgroundColor(colour(attr >> 4)))?;
        } else if attr >> 4 > attr & 15 {
            queue!(self.out, SetAttribute(Attribute::Reverse))?;
        } else if attr & 8 > 0 {
            queue!(self.out, SetAttribute(Attribute::Bold))?;
        }
        if underlined {
            queue!(self.out, SetAttribute(Attribute::Underlined))?;
        }
        Ok(())
    }

    fn ring(&mut self) -> io::Result<()> {
        queue!(self.out, Print('\x07'))?;
        self.out.flush()
    }

    /// What is pressed, if something is within this time; that it has ended, if the program is asked to.
    fn inputs(&mut self, wait: Duration) -> io::Result<Vec<Input>> {
        let (mut inputs, mut wait) = (Vec::new(), wait);
        while inputs.len() < BATCH && event::poll(wait)? {
            match event::read()? {
                Event::Key(key) if key.kind != KeyEventKind::Release => inputs.extend(pressed(key)),
                Event::Resize(cols, rows) => {
                    self.shown = None;
                    inputs.push(Input::Resized(Size { cols: cols.into(), rows: rows.into() }));
                }
                _ => {}
            }
            wait = Duration::ZERO;
        }
        if self.ended.load(Ordering::Relaxed) {
            inputs.push(Input::Ended);
        }
        Ok(inputs)
    }
}

impl Drop for Terminal {
    fn drop(&mut self) {
        restore();
    }
}

fn restore() {
    // There is no one left to tell if this fails. The modes first: they need no room in the terminal.
    let _ = terminal::disable_raw_mode();
    let _ = execute!(io::stdout(), ResetColor, PopKeyboardEnhancementFlags, LeaveAlternateScreen, Show);
}

/// A terminal that is gone may hold the program in its wait for a key, from which it does not come back, and one that takes nothing in its writing. Then it ends
/// nevertheless, and restores what it can.
fn end_in_any_case() -> io::Result<()> {
    let mut asked = Signals::new(ENDING)?;
    thread::spawn(move || {
        if asked.forever().next().is_some() {
            sleep(LEAVING);
            thread::spawn(restore);
            sleep(RESTORING);
            process::exit(0);
        }
    });
    Ok(())
}

/// Whether there are any, by `NO_COLOR`, which counts if it is not empty, and by the name of the terminal: DEC's with a number have none, nor those that
/// say so.
fn has_colours(no_color: Option<&str>, term: Option<&str>) -> bool {
    let of_dec = |term: &str| term.strip_prefix("vt").is_some_and(|rest| rest.starts_with(|c: char| c.is_ascii_digit()));
    let none = |term: &str| term.is_empty() || term == "dumb" || of_dec(term) || term.ends_with("-m") || term.ends_with("-mono");
    no_color.is_none_or(str::is_empty) && !term.is_none_or(none)
}

/// The sixteen colours of a text attribute, as the terminal names them.
fn colour(nibble: u8) -> Color {
    const COLOURS: [Color; 16] = [
        Color::Black,
        Color::DarkBlue,
        Color::DarkGreen,
        Color::DarkCyan,
        Color::DarkRed,
        Color::DarkMagenta,
        Color::DarkYellow,
        Color::Grey,
        Color::DarkGrey,
        Color::Blue,
        Color::Green,
        Color::Cyan,
        Color::Red,
        Color::Magenta,
        Color::Yellow,
        Color::White,
    ];
    COLOURS[nibble as usize]
}

/// What a key means. Alt with a character is sent as Esc and then the character, and is taken for these.
fn pressed(KeyEvent { code, modifiers, .. }: KeyEvent) -> Vec<Input> {
    let escape = matches!(code, KeyCode::Char(_)) && modifiers.contains(KeyModifiers::ALT);
    let meant = match code {
        KeyCode::PageUp => Some(Input::Back),
        KeyCode::PageDown => Some(Input::Forth),
        _ if modifiers.contains(KeyModifiers::CONTROL) => with_ctrl(code),
        _ => plain(code).map(Input::Key),
    };
    escape.then_some(Input::Key(Key::Escape)).into_iter().chain([meant.unwrap_or(Input::Unknown)]).collect()
}

fn plain(code: KeyCode) -> Option<Key> {
    Some(match code {
        KeyCode::Char(c) => Key::Char(glyphs::byte(c)?),
        KeyCode::Enter => Key::Enter,
        KeyCode::Tab => Key::Tab,
        KeyCode::Backspace => Key::Backspace,
        KeyCode::Delete => Key::Delete,
        KeyCode::Insert => Key::Insert,
        KeyCode::Esc => Key::Escape,
        KeyCode::Left => Key::Left,
        KeyCode::Right => Key::Right,
        KeyCode::Up => Key::Up,
        KeyCode::Down => Key::Down,
        KeyCode::Home => Key::Home,
        KeyCode::End => Key::End,
        KeyCode::F(number @ 1..=10) => Key::Function(number),
        _ => return None,
    })
}

fn with_ctrl(code: KeyCode) -> Option<Input> {
    Some(match code {
        KeyCode::Enter | KeyCode::Char('j' | 'J') => Input::Key(Key::CtrlEnter),
        KeyCode::Left => Input::Key(Key::CtrlLeft),
        KeyCode::Right => Input::Key(Key::CtrlRight),
        KeyCode::Home => Input::Key(Key::CtrlHome),
        KeyCode::End | KeyCode::Char('e' | 'E') => Input::Key(Key::CtrlEnd),
        KeyCode::Backspace | KeyCode::Char('h' | 'H') => Input::Key(Key::Backspace),
        KeyCode::Char('c' | 'C') => Input::Key(Key::Break),
        KeyCode::Char('a' | 'A') => Input::Key(Key::Colour),
        KeyCode::Char('k' | 'K') => Input::Key(Key::Strip),
        KeyCode::Char('w' | 'W') => Input::Key(Key::Width),
        KeyCode::Char('f' | 'F') => Input::Key(Key::Print),
        KeyCode::Char('q' | 'Q') => Input::Leave,
        KeyCode::Char('g' | 'G') => Input::Help,
        KeyCode::Char('p' | 'P') => Input::Submitted,
        KeyCode::Char('t' | 'T') => Input::Other,
        KeyCode::Char('l' | 'L') => Input::Loss,
        KeyCode::Char('r' | 'R') => Input::Repeat,
        KeyCode::Char('o' | 'O') => Input::Reorder,
        KeyCode::Char('x' | 'X') => Input::Cut,
        KeyCode::Char('n' | 'N') => Input::Restart,
        _ => return None,
    })
}

#[cfg(test)]
mod tests {
    use super::*;
    use crate::help;

    #[test]
    fn keys_mean_what_host_readme_says() {
        let (none, ctrl) = (KeyModifiers::NONE, KeyModifiers::CONTROL);
        let table = [
            (KeyCode::Char('A'), KeyModifiers::SHIFT, Key::Char(b'A')),
            (KeyCode::Char('ü'), none, Key::Char(129)),
            (KeyCode::Enter, none, Key::Enter),
            (KeyCode::Enter, ctrl, Key::CtrlEnter),
            (KeyCode::Char('j'), ctrl, Key::CtrlEnter),
            (KeyCode::Tab, none, Key::Tab),
            (KeyCode::Backspace, none, Key::Backspace),
            (KeyCode::Char('h'), ctrl, Key::Backspace),
            (KeyCode::Delete, none, Key::Delete),
            (KeyCode::Insert, none, Key::Insert),
            (KeyCode::Esc, none, Key::Escape),
            (KeyCode::Left, none, Key::Left),
            (KeyCode::Right, none, Key::Right),
            (KeyCode::Up, none, Key::Up),
            (KeyCode::Down, none, Key::Down),
            (KeyCode::Left, ctrl, Key::CtrlLeft),
            (KeyCode::Right, ctrl, Key::CtrlRight),
            (KeyCode::Home, none, Key::Home),
            (KeyCode::End, none, Key::End),
            (KeyCode::Home, ctrl, Key::CtrlHome),
            (KeyCode::End, ctrl, Key::CtrlEnd),
            (KeyCode::Char('e'), ctrl, Key::CtrlEnd),
            (KeyCode::Char('c'), ctrl, Key::Break),
            (KeyCode::F(1), none, Key::Function(1)),
            (KeyCode::F(10), none, Key::Function(10)),
            (KeyCode::Char('f'), ctrl, Key::Print),
        ];
        for (code, modifiers, key) in table {
            assert_eq!(pressed(KeyEvent::new(code, modifiers)), [Input::Key(key)], "{code:?} {modifiers:?}");
        }
        let alt = pressed(KeyEvent::new(KeyCode::Char('x'), KeyModifiers::ALT));
        assert_eq!(alt, [Input::Key(Key::Escape), Input::Key(Key::Char(b'x'))]);
        assert_eq!(pressed(KeyEvent::new(KeyCode::F(11), none)), [Input::Unknown]);
        assert_eq!(pressed(KeyEvent::new(KeyCode::Char('€'), none)), [Input::Unknown]);
    }

    #[test]
    fn commands_mean_what_host_readme_says() {
        let (none, ctrl) = (KeyModifiers::NONE, KeyModifiers::CONTROL);
        let commands = [
            (KeyCode::Char('q'), ctrl, Input::Leave),
            (KeyCode::Char('g'), ctrl, Input::Help),
            (KeyCode::Char('p'), ctrl, Input::Submitted),
            (KeyCode::Char('t'), ctrl, Input::Other),
            (KeyCode::Char('n'), ctrl, Input::Restart),
            (KeyCode::PageUp, none, Input::Back),
            (KeyCode::PageDown, none, Input::Forth),
        ];
        for (code, modifiers, input) in commands {
            assert_eq!(pressed(KeyEvent::new(code, modifiers)), [input], "{code:?} {modifiers:?}");
        }
    }

    /// The keys that an entry of the page of keys names.
    fn named(key: &str) -> Vec<String> {
        match key {
            "Arrows" => ["Left", "Right", "Up", "Down"].map(String::from).into(),
            "F1 to F10" => (1..=10).map(|n| format!("F{n}")).collect(),
            _ => {
                let before = key.split('-').next().filter(|_| key.contains('-')).map_or(String::new(), |before| format!("{before}-"));
                let names = key.split(", ").filter(|name| !name.is_empty());
                names.map(|name| name.trim_start_matches(&before).trim_start_matches('-')).map(|name| format!("{before}{name}")).collect()
            }
        }
    }

    /// All keys of a keyboard that could mean something, by the names that the page of keys has for them.
    fn keyboard() -> Vec<(String, KeyCode, KeyModifiers)> {
        use KeyCode::*;
        let codes = [Enter, Tab, Backspace, Delete, Insert, Esc, Left, Right, Up, Down, Home, End, PageUp, PageDown, BackTab, Null];
        let names = [
            "Enter",
            "Tab",
            "Backspace",
            "Del",
            "Ins",
            "Esc",
            "Left",
            "Right",
            "Up",
            "Down",
            "Home",
            "End",
            "PageUp",
            "PageDown",
            "?",
            "?",
        ];
        let functions = (1..=12).map(|n| (format!("F{n}"), F(n)));
        let plain = names.map(String::from).into_iter().zip(codes).chain(functions);
        let letters = ('a'..='z').map(|c| (c.to_ascii_uppercase().to_string(), Char(c)));
        let with_ctrl = plain.clone().chain(letters).map(|(name, code)| (format!("Ctrl-{name}"), code, KeyModifiers::CONTROL));
        plain.map(|(name, code)| (name, code, KeyModifiers::NONE)).chain(with_ctrl).collect()
    }

    #[test]
    fn the_page_of_keys_has_every_key_that_means_something() {
        let page: Vec<_> = help::CANDIDATE.iter().chain(help::DEMO).flat_map(|entry| named(entry.key)).collect();
        // The second names of some.
        let aliases = ["Ctrl-Backspace", "Ctrl-H", "Ctrl-PageUp", "Ctrl-PageDown"];
        for (name, code, modifiers) in keyboard() {
            let means = pressed(KeyEvent::new(code, modifiers)) != [Input::Unknown];
            assert_eq!(means, page.contains(&name) || aliases.contains(&name.as_str()), "{name}");
        }
        let known: Vec<_> = keyboard().into_iter().map(|(name, ..)| name).collect();
        page.iter().filter(|name| *name != "Alt-letter").for_each(|name| assert!(known.contains(name), "{name}"));
    }

    #[test]
    fn terminals_without_colours() {
        for (no_color, term, colours) in [
            (None, Some("xterm-256color"), true),
            (None, Some("linux"), true),
            (Some(""), Some("screen"), true),
            (Some("1"), Some("xterm"), false),
            (None, Some("vte-256color"), true),
            (None, Some("vt220"), false),
            (None, Some("dumb"), false),
            (None, Some("linux-m"), false),
            (None, Some("xterm-mono"), false),
            (None, Some(""), false),
            (None, None, false),
        ] {
            assert_eq!(has_colours(no_color, term), colours, "{no_color:?} {term:?}");
        }
    }

    #[test]
    fn colours_are_those_of_a_text_attribute() {
        assert_eq!(
            [1, 4, 6, 7, 8, 14].map(colour),
            [Color::DarkBlue, Color::DarkRed, Color::DarkYellow, Color::Grey, Color::DarkGrey, Color::Yellow]
        );
    }
}
