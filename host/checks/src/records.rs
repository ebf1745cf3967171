//! Random valid records, most of which no list of calls reaches, as proptest makes and shrinks them.
use crate::layout::*;
use crate::lists::{one_of, sittings};
use proptest::collection::vec;
use proptest::prelude::*;
use std::fmt;

/// What a record is made from. It shrinks to a blank screen.
#[derive(Clone)]
pub struct Sketch {
    pub head: Head,
    pub flags: u32,
    pub rows: Vec<Row>,
}

#[derive(Clone, Debug)]
pub struct Head {
    pub wide: bool,
    pub row: usize,
    pub column: usize,
    pub insert: bool,
    pub ended_in_cr: bool,
    pub keys: bool,
    pub attr: u8,
    pub serial: u32,
    pub sitting: u32,
    pub touched: u32,
}

/// One row: characters, and whether its attributes are all alike.
#[derive(Clone, Debug)]
pub struct Row {
    pub text: Text,
    pub attr: u8,
    pub striped: bool,
}

#[derive(Clone, Debug, PartialEq)]
pub enum Text {
    Blank,
    /// The first so many characters are this one.
    Start(u8, usize),
    /// One character stands in this column, and spaces elsewhere.
    Lone(u8, usize),
    /// Any characters at all, made from this number.
    Anything(u32),
}

impl Sketch {
    pub fn record(&self) -> Vec<u8> {
        let mut rec = vec![0; SIZE];
        let head = &self.head;
        let width = if head.wide { 80 } else { 40 };
        set_front(&mut rec);
        rec[WIDTH_AT] = width as u8;
        rec[ROW_AT] = head.row.min(ROWS - 1 - head.keys as usize) as u8;
        rec[COLUMN_AT] = head.column.min(width - 1) as u8;
        set_insert(&mut rec, head.insert);
        set_ended_in_cr(&mut rec, head.ended_in_cr);
        rec[KEYS_AT] = head.keys as u8;
        rec[ATTR_AT] = head.attr;
        set_pair(&mut rec, Pair { sitting: head.sitting, serial: head.serial });
        set_touched(&mut rec, head.touched);
        for (r, row) in self.rows.iter().enumerate() {
            set_flag(&mut rec, r, (self.flags >> r & 1) as u8);
            row.text.write(&mut chars_mut(&mut rec, r)[..width]);
            row.write_attrs(&mut attrs_mut(&mut rec, r)[..width]);
        }
        rec
    }
}

impl fmt::Debug for Sketch {
    /// The head, the flagged rows, and the rows that are not blank or have an attribute.
    fn fmt(&self, f: &mut fmt::Formatter) -> fmt::Result {
        let flagged: Vec<_> = (0..ROWS).filter(|r| self.flags >> r & 1 == 1).collect();
        write!(f, "  {:?}\n  flagged rows: {flagged:?}", self.head)?;
        let telling = |row: &Row| row.text != Text::Blank || row.attr != 0 || row.striped;
        self.rows.iter().enumerate().filter(|(_, row)| telling(row)).try_for_each(|(r, row)| write!(f, "\n  row {r}: {row:?}"))
    }
}

impl Row {
    fn write_attrs(&self, attrs: &mut [u8]) {
        for (c, attr) in attrs.iter_mut().enumerate() {
            *attr = if self.striped { self.attr.wrapping_add(c as u8) } else { self.attr };
        }
    }
}

impl Text {
    fn write(&self, chars: &mut [u8]) {
        chars.fill(b' ');
        match *self {
            Text::Blank => {}
            Text::Start(ch, n) => {
                let n = n.min(chars.len());
                chars[..n].fill(ch);
            }
            Text::Lone(ch, at) => chars[at.min(chars.len() - 1)] = ch,
            Text::Anything(number) => chars.iter_mut().enumerate().for_each(|(c, b)| *b = shown(scrambled(number, c as u32))),
        }
    }
}

/// A byte that differs widely for neighbours.
fn scrambled(number: u32, at: u32) -> u8 {
    let mixed = (number ^ at.wrapping_mul(0x9e37_79b9)).wrapping_mul(0x85eb_ca6b);
    (mixed ^ mixed >> 13).wrapping_mul(0xc2b2_ae35).to_be_bytes()[0]
}

/// A byte as a character that may stand in a cell: 27, or 32 and above.
fn shown(b: u8) -> u8 {
    match b {
        0..=7 => b' ',
        8..=31 => 27,
        _ => b,
    }
}

pub fn sketches() -> impl Strategy<Value = Sketch> {
    (heads(), flags(), vec(rows(), ROWS)).prop_map(|(head, flags, rows)| Sketch { head, flags, rows })
}

fn heads() -> impl Strategy<Value = Head> {
    let row = prop_oneof![one_of(&[0usize, 1, 21, 22, 23, 24]), 0..ROWS];
    let column = prop_oneof![one_of(&[0usize, 1, 8, 15, 38, 39, 40, 78, 79]), 0..80usize];
    let serial = prop_oneof![0..300u32, one_of(&[255, 256, 65_535, 65_536, LAST_SERIAL - 1, LAST_SERIAL]), any::<u32>()];
    let switches = any::<[bool; 4]>();
    let stamp = (serial, sittings(), 0..1u32 << 25);
    (row, column, switches, any::<u8>(), stamp).prop_map(
        |(row, column, [wide, insert, ended_in_cr, keys], attr, (serial, sitting, touched))| Head {
            wide,
            row,
            column,
            insert,
            ended_in_cr,
            keys,
            attr,
            serial,
            sitting,
            touched,
        },
    )
}

/// Flags as the bits of a mask: few, many, all, or one long run.
fn flags() -> impl Strategy<Value = u32> {
    prop_oneof![
        (any::<u32>(), any::<u32>(), any::<u32>()).prop_map(|(a, b, c)| a & b & c),
        any::<u32>(),
        (any::<u32>(), any::<u32>(), any::<u32>()).prop_map(|(a, b, c)| a | b | c),
        (0..25u32, 0..25u32).prop_map(|(from, n)| ((1 << n) - 1) << from),
        Just(u32::MAX),
    ]
}

fn rows() -> impl Strategy<Value = Row> {
    let ch = prop_oneof![b'A'..=b'Z', one_of(&[27u8, b' ', 133, 160, b'0', b'.', 255, 127])];
    let text = prop_oneof![
        2 => Just(Text::Blank),
        3 => (ch.clone(), prop_oneof![0..81usize, one_of(&[39usize, 40, 79, 80])]).prop_map(|(ch, n)| Text::Start(ch, n)),
        2 => (ch, prop_oneof![0..80usize, one_of(&[0usize, 39, 79])]).prop_map(|(ch, at)| Text::Lone(ch, at)),
        2 => any::<u32>().prop_map(Text::Anything),
    ];
    (text, any::<u8>(), any::<bool>()).prop_map(|(text, attr, striped)| Row { text, attr, striped })
}
