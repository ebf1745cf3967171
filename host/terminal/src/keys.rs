//! The keys that a candidate can press, and files of them.
use crate::glyphs;
use futonrobin::KeyTable;

#[derive(Clone, Copy, PartialEq, Eq, Debug)]
pub enum Key {
    Char(u8),
    Enter,
    CtrlEnter,
    Tab,
    Backspace,
    Delete,
    Insert,
    Escape,
    Left,
    Right,
    Up,
    Down,
    CtrlLeft,
    CtrlRight,
    Home,
    End,
    CtrlHome,
    CtrlEnd,
    Break,
    Function(u8),
    /// The program's own: the next attribute, the other width, the key strip on or off, and the ward list or another text printed.
    Colour,
    Width,
    Strip,
    Print,
}

impl Key {
    /// Whether it moves the cursor, and changes nothing else.
    pub fn only_moves(self) -> bool {
        matches!(self, Left | Right | Up | Down | CtrlLeft | CtrlRight | Home | End)
    }
}

use Key::*;

/// The keys that have a name in a file of keys, written `<Name>`. The others are characters.
pub const NAMED: [(&str, Key); 32] = [
    ("Enter", Enter),
    ("CtrlEnter", CtrlEnter),
    ("Tab", Tab),
    ("Backspace", Backspace),
    ("Del", Delete),
    ("Ins", Insert),
    ("Esc", Escape),
    ("Left", Left),
    ("Right", Right),
    ("Up", Up),
    ("Down", Down),
    ("CtrlLeft", CtrlLeft),
    ("CtrlRight", CtrlRight),
    ("Home", Home),
    ("End", End),
    ("CtrlHome", CtrlHome),
    ("CtrlEnd", CtrlEnd),
    ("Break", Break),
    ("Colour", Colour),
    ("Width", Width),
    ("Strip", Strip),
    ("Print", Print),
    ("F1", Function(1)),
    ("F2", Function(2)),
    ("F3", Function(3)),
    ("F4", Function(4)),
    ("F5", Function(5)),
    ("F6", Function(6)),
    ("F7", Function(7)),
    ("F8", Function(8)),
    ("F9", Function(9)),
    ("F10", Function(10)),
];

/// The keys of a file: characters as they stand, `<Name>` for the others, `<lt>` for `<`. Its own line ends count for nothing.
pub fn read(text: &str) -> Result<Vec<Key>, String> {
    let mut keys = Vec::new();
    let mut rest = text.chars();
    while let Some(c) = rest.next() {
        match c {
            '\n' | '\r' => {}
            '<' => {
                let (name, after) = rest.as_str().split_once('>').ok_or("a < has no > after it; <lt> is the character")?;
                keys.push(named(name)?);
                rest = after.chars();
            }
            _ => keys.push(Char(glyphs::byte(c).ok_or_else(|| format!("'{c}' is not in code page 437"))?)),
        }
    }
    Ok(keys)
}

fn named(name: &str) -> Result<Key, String> {
    if name == "lt" {
        return Ok(Char(b'<'));
    }
    let found = NAMED.iter().find(|(known, _)| *known == name);
    found.map(|(_, key)| *key).ok_or_else(|| format!("there is no key <{}>", name.chars().take(20).collect::<String>()))
}

/// The file that `read` reads as these keys.
pub fn write(keys: &[Key]) -> String {
    let text = |key: &Key| match key {
        Char(b'<') => "<lt>".into(),
        Char(byte) => glyphs::glyph(*byte).into(),
        _ => format!("<{}>", NAMED.iter().find(|(_, named)| named == key).expect("every key but a character has a name").0),
    };
    keys.iter().map(text).collect()
}

/// What is pressed on a screen on which nothing waits, as keys that make one call each: a function key types its text, and a 13 in it submits the line.
pub fn single(key: Key, table: &KeyTable) -> Vec<Key> {
    match key {
        Function(number) => table.get(number).iter().map(|&byte| if byte == 13 { Enter } else { Char(byte) }).collect(),
        _ => vec![key],
    }
}

#[cfg(test)]
mod tests {
    use super::*;

    #[test]
    fn what_is_written_is_read_again() {
        let keys: Vec<_> = NAMED.iter().map(|(_, key)| *key).chain((32..=255).map(Char)).chain([Char(27)]).collect();
        assert_eq!(read(&write(&keys)), Ok(keys));
    }

    #[test]
    fn what_is_no_key_is_named() {
        assert_eq!(read("A<Entr>"), Err("there is no key <Entr>".into()));
        assert_eq!(read("A<Enter"), Err("a < has no > after it; <lt> is the character".into()));
        assert_eq!(read("5 €"), Err("'€' is not in code page 437".into()));
    }
}
