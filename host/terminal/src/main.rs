//! What `./run` starts. Status 0 if all held, 1 if not, 2 for words that are not understood.
#![forbid(unsafe_code)]
use std::io::{self, IsTerminal};
use std::process::exit;
use terminal::arguments::{self, Arguments, Asked, Place};
use terminal::bad_line::{new_seed, Faults};
use terminal::desk::Paper;
use terminal::keys::{self, Key};
use terminal::listing::Text;
use terminal::{candidate, halves, invigilator, key_file, played, sitting};

fn main() {
    let words = std::env::args_os().skip(1).map(|word| word.into_string().map_err(|word| format!("{word:?} is no text in UTF-8")));
    let asked = words.collect::<Result<Vec<_>, _>>().and_then(arguments::read).unwrap_or_else(|sentence| end(2, &sentence));
    let done = match asked {
        Asked::Help => {
            print!("{}", arguments::HELP);
            Ok(true)
        }
        Asked::Version => {
            println!("{}", arguments::VERSION);
            Ok(true)
        }
        Asked::Key(file) => key_file::make(&file).map(|()| {
            println!("{} holds a new key; the other end needs a copy, and whoever else has one can forge", file.display());
            true
        }),
        Asked::Run(arguments) => run(arguments),
    };
    match done {
        Ok(held) => exit(!held as i32),
        Err(sentence) => end(1, &sentence),
    }
}

fn end(status: i32, sentence: &str) -> ! {
    eprintln!("futonrobin: {sentence}");
    exit(status)
}

fn run(Arguments { place, key, width, faults, seed, sitting, keys, print, field }: Arguments) -> Result<bool, String> {
    let in_terminal = io::stdin().is_terminal() && io::stdout().is_terminal();
    let seed = seed.unwrap_or_else(new_seed);
    let (text, first) = text_of(print)?;
    let paper = Paper { text, field };
    let keys = keys.map(|file| from_file(&file)).transpose()?.map(|keys| [first, &keys].concat());
    let shared = key.map(|file| key_file::read(&file)).transpose()?;
    let columns = width.unwrap_or(80);
    let done = match (place, keys, shared) {
        (Place::Both, ..) if in_terminal => both(width, faults.unwrap_or(halves::FAULTS), seed, paper, first),
        (Place::Both, ..) => {
            let keys = [first, &played::recorded()].concat();
            played::play(&keys, paper, columns, faults.unwrap_or(Faults::BAD), seed, &mut io::stdout().lock())
        }
        (_, None, _) if !in_terminal => {
            return Err("standard input and output are no terminal; without one, --keys FILE has the keys".into())
        }
        (_, _, None) => return Err("--key is missing".into()),
        (Place::To(to), keys, Some(shared)) => {
            let sitting = sitting::of_this_start(sitting)?;
            let start = candidate::Start { to, shared, width: columns, faults: faults.unwrap_or_default(), seed, sitting, paper };
            match keys {
                Some(keys) => candidate::with_keys(start, &keys),
                None => candidate::in_terminal(start, first).map(|()| true),
            }
        }
        (Place::Listen(listen), Some(keys), Some(shared)) => invigilator::with_keys(listen, &shared, &keys, paper),
        (Place::Listen(listen), None, Some(shared)) => invigilator::in_terminal(listen, &shared, field).map(|()| true),
    };
    done.map_err(|problem| match place {
        Place::Listen(listen) => cannot_listen(listen, problem),
        _ => problem.to_string(),
    })
}

/// Both screens, as wide as the terminal has room for side by side; where it has none, one at a time.
fn both(width: Option<u32>, faults: Faults, seed: u64, paper: Paper, first: &[Key]) -> io::Result<bool> {
    let widest = if (81..161).contains(&terminal::terminal::size()?.cols) { 40 } else { 80 };
    halves::in_terminal(width.unwrap_or(widest), faults, seed, paper, first)?;
    Ok(true)
}

/// What is printed, and what is pressed at the start: who names a file wants to see it.
fn text_of(print: Option<String>) -> Result<(Text, &'static [Key]), String> {
    match print {
        Some(file) => Ok((Text::of_file(&file)?, &[Key::Print])),
        None => Ok((Text::wards(), &[])),
    }
}

fn from_file(file: &str) -> Result<Vec<Key>, String> {
    let text = std::fs::read_to_string(file).map_err(|problem| format!("{file}: {problem}"))?;
    keys::read(&text).map_err(|problem| format!("{file}: {problem}"))
}

fn cannot_listen(listen: std::net::SocketAddr, problem: io::Error) -> String {
    match problem.kind() {
        io::ErrorKind::AddrInUse => format!("{listen} is in use: another program listens there"),
        io::ErrorKind::AddrNotAvailable => format!("{listen} is no address of this machine"),
        io::ErrorKind::PermissionDenied => format!("{listen} may not be used: ports below 1024 want rights of their own"),
        _ => problem.to_string(),
    }
}
