//! The words after `./run`.
use crate::bad_line::Faults;
use crate::field::Field;
use std::net::{SocketAddr, ToSocketAddrs};
use std::ops::RangeInclusive;
use std::path::PathBuf;

/// The text of `--help`, which `./run` shows before there is a program.
pub const HELP: &str = include_str!("../help.txt");
pub const VERSION: &str = concat!("futonrobin ", env!("CARGO_PKG_VERSION"));

#[derive(Clone, Copy, PartialEq, Eq, Debug, Default)]
pub enum Place {
    #[default]
    Both,
    To(SocketAddr),
    Listen(SocketAddr),
}

/// What the words ask for.
#[derive(PartialEq, Eq, Debug)]
pub enum Asked {
    Help,
    Version,
    /// A key in this new file.
    Key(PathBuf),
    Run(Arguments),
}

#[derive(PartialEq, Eq, Debug, Default)]
pub struct Arguments {
    pub place: Place,
    /// The file of the shared key; over UDP there is one.
    pub key: Option<PathBuf>,
    pub width: Option<u32>,
    pub faults: Option<Faults>,
    pub seed: Option<u64>,
    pub sitting: Option<u32>,
    pub keys: Option<String>,
    /// The file of a text that is printed in the place of the ward list.
    pub print: Option<String>,
    /// No more than so many characters are typed into a line.
    pub field: Option<Field>,
}

/// What the words ask for, or a sentence about the first that cannot be taken. `./run` judges words in the same way before there is a program, but for
/// their values.
pub fn read(words: impl IntoIterator<Item = String>) -> Result<Asked, String> {
    let mut words = words.into_iter().peekable();
    let program = words.next_if(|word| !word.starts_with('-'));
    match program.as_deref() {
        None | Some("candidate" | "invigilator") => {}
        Some("help") => return Ok(Asked::Help),
        Some("key") => return key_to_make(words),
        Some(word) => return Err(format!("there is no program '{word}'; ./run --help lists the words")),
    }
    let mut given = Vec::new();
    while let Some(word) = words.next() {
        match word.as_str() {
            "--help" | "-h" => return Ok(Asked::Help),
            "--version" => return Ok(Asked::Version),
            known if words_of(program.as_deref()).contains(&known) => match words.next() {
                Some(value) => given.push((word, value)),
                None => return Err(format!("{word} needs a value after it; ./run --help lists the words")),
            },
            _ => return Err(not_understood(&word)),
        }
    }
    let missing = |needed: &&(&str, &str)| given.iter().all(|(word, _)| word != needed.0);
    if let Some((word, how)) = needed_of(program.as_deref()).iter().find(missing) {
        return Err(format!("{word} is missing: {how}"));
    }
    valued(&given).map(Asked::Run)
}

fn not_understood(word: &str) -> String {
    format!("'{word}' is not understood here; ./run --help lists the words")
}

/// The words that take one after them, by the program that is started.
fn words_of(program: Option<&str>) -> &'static [&'static str] {
    match program {
        None => &["--width", "--loss", "--repeat", "--reorder", "--seed", "--print", "--field"],
        Some("candidate") => {
            &["--to", "--key", "--keys", "--width", "--loss", "--repeat", "--reorder", "--seed", "--sitting", "--print", "--field"]
        }
        Some(_) => &["--listen", "--key", "--keys", "--print", "--field"],
    }
}

/// Those of them that it needs, and how they are used.
fn needed_of(program: Option<&str>) -> &'static [(&'static str, &'static str)] {
    const KEY: (&str, &str) = ("--key", "./run key FILE makes one, the other end needs a copy of that file, and --key FILE names it");
    match program {
        None => &[],
        Some("candidate") => &[("--to", "./run candidate --to HOST:PORT --key FILE"), KEY],
        Some(_) => &[("--listen", "./run invigilator --listen HOST:PORT --key FILE"), KEY],
    }
}

/// What the words mean with their values.
fn valued(given: &[(String, String)]) -> Result<Arguments, String> {
    let mut arguments = Arguments::default();
    for (word, value) in given {
        match word.as_str() {
            "--to" => arguments.place = Place::To(address_of(value, 1)?),
            "--listen" => arguments.place = Place::Listen(address_of(value, 0)?),
            "--key" => arguments.key = Some(value.into()),
            "--keys" => arguments.keys = Some(value.into()),
            "--print" => arguments.print = Some(value.into()),
            "--width" => arguments.width = Some(width_of(value)?),
            "--seed" => arguments.seed = Some(number_of(word, value, 0..=u64::MAX)?),
            "--field" => arguments.field = Field::new(number_of(word, value, 1..=u8::MAX.into())? as u8),
            "--sitting" => arguments.sitting = Some(number_of(word, value, 0..=u32::MAX.into())? as u32),
            _ => {
                let percent = number_of(word, value, 0..=100)? as u32;
                set_fault(arguments.faults.get_or_insert_default(), word, percent);
            }
        }
    }
    Ok(arguments)
}

fn set_fault(faults: &mut Faults, word: &str, percent: u32) {
    match word {
        "--loss" => faults.loss = percent,
        "--repeat" => faults.repeat = percent,
        _ => faults.reorder = percent,
    }
}

/// The one word after `key`.
fn key_to_make(mut words: impl Iterator<Item = String>) -> Result<Asked, String> {
    let help = |word: &Option<String>| word.as_deref().is_some_and(|word| ["--help", "-h"].contains(&word));
    match (words.next(), words.next()) {
        (first, second) if help(&first) || help(&second) => Ok(Asked::Help),
        (Some(word), _) if word.starts_with('-') => Err(not_understood(&word)),
        (Some(file), None) if !file.is_empty() => Ok(Asked::Key(file.into())),
        (Some(_), Some(word)) => Err(not_understood(&word)),
        _ => Err("a file for the key is missing: ./run key FILE".into()),
    }
}

fn address_of(text: &str, lowest: u16) -> Result<SocketAddr, String> {
    let (host, port) = text.rsplit_once(':').ok_or_else(|| format!("'{text}' is no address: HOST:PORT is wanted, as in 127.0.0.1:4000"))?;
    let port = port.parse::<u16>().ok().filter(|&port| port >= lowest);
    let port = port.ok_or_else(|| format!("the port of '{text}' is not a number from {lowest} to 65535"))?;
    let host = host.trim_start_matches('[').trim_end_matches(']');
    let found = (host, port).to_socket_addrs().map_err(|problem| format!("the host of '{text}' was not found: {problem}"))?.next();
    found.ok_or_else(|| format!("the host of '{text}' has no address"))
}

fn width_of(text: &str) -> Result<u32, String> {
    match text {
        "40" => Ok(40),
        "80" => Ok(80),
        _ => Err(format!("--width takes 40 or 80, not '{text}'")),
    }
}

fn number_of(word: &str, text: &str, range: RangeInclusive<u64>) -> Result<u64, String> {
    let number = text.parse().ok().filter(|number| range.contains(number));
    number.ok_or_else(|| format!("{word} takes a number from {} to {}, not '{text}'", range.start(), range.end()))
}
