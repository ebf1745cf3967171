//! The key strip through the archive, against the Rust's `FunctionKeys` and against document 01, "Texts and key strip".
use crate::call::literal;
use crate::counts::Counts;
use crate::judge::{over, refused, Outcome};
use crate::oracle::keys::FunctionKeys;
use crate::random::runner;
use crate::trial::{self, filler, Lent};
use futonrobin::{ffi, KeyTable};
use proptest::prelude::RngCore;
use proptest::test_runner::TestRng;

const TABLE: usize = 160;
const KEYS: usize = 10;
const LONGEST: usize = 15;
const SLOT: usize = 1 + LONGEST;
const WIDTHS: [u32; 2] = [40, 80];

/// The bytes of a table: ten times a length and fifteen bytes, unused ones 0.
fn table(macros: &[Vec<u8>]) -> Vec<u8> {
    let mut tab = vec![0; TABLE];
    for (slot, bytes) in tab.chunks_mut(SLOT).zip(macros) {
        slot[0] = bytes.len() as u8;
        slot[1..=bytes.len()].copy_from_slice(bytes);
    }
    tab
}

/// The bytes that the lengths of a valid table leave.
fn macros(tab: &[u8]) -> Vec<Vec<u8>> {
    tab.chunks(SLOT).map(|slot| slot[1..=slot[0] as usize].to_vec()).collect()
}

fn valid(tab: &[u8]) -> bool {
    tab.chunks(SLOT).all(|slot| slot[0] as usize <= LONGEST && slot[1 + slot[0] as usize..].iter().all(|&b| b == 0))
}

/// The first refusal that applies, in document 01's order.
fn refusal(tab: &[u8], offset: u32, width: u32, room: usize) -> Option<u32> {
    let known = WIDTHS.contains(&width);
    if tab.len() != TABLE || known && room != width as usize {
        Some(1)
    } else if !valid(tab) {
        Some(2)
    } else if !known || offset > 9 {
        Some(3)
    } else {
        None
    }
}

/// Document 01's rule: slots from the offset, round ten; digit (the tenth is 0), first six display bytes, spaces to 8 columns.
fn by_rule(macros: &[Vec<u8>], offset: u32, width: u32) -> Vec<u8> {
    let slot = |number: u32| {
        let key = (offset + number) as usize % KEYS;
        let display = macros[key].iter().take(6).map(|&b| display(b));
        let digit = b"1234567890"[key];
        [digit].into_iter().chain(display).chain([b' '; 8]).take(8).collect::<Vec<_>>()
    };
    (0..width / 8).flat_map(slot).collect()
}

fn display(b: u8) -> u8 {
    match b {
        13 | 10 => 27,
        0..=31 | 127 => b'.',
        _ => b,
    }
}

/// The strip of the Rust with these macros, set as its users set them.
fn by_rust(macros: &[Vec<u8>], offset: u32, width: u32) -> Vec<u8> {
    let mut keys = FunctionKeys::standard();
    for (n, bytes) in (1..).zip(macros) {
        keys.set(n, bytes);
    }
    keys.offset = offset as usize;
    keys.strip(width as usize)
}

/// One call on a lent table and a lent output, compared with what document 01 says; where that is a strip, with the Rust's too.
fn attempt(tab: &[u8], offset: u32, width: u32, out: &[u8], counts: &mut Counts) -> Result<(), String> {
    let want = match refusal(tab, offset, width, out.len()) {
        Some(k) => Outcome { answer: refused(k), rec: tab.to_vec(), out: out.to_vec() },
        None => {
            let strip = by_rule(&macros(tab), offset, width);
            let rusts = by_rust(&macros(tab), offset, width);
            if strip != rusts {
                return Err(format!("the rule gives {}, the Rust {}", literal(&strip), literal(&rusts)));
            }
            Outcome { answer: width, rec: tab.to_vec(), out: over(&strip, out) }
        }
    };
    let (lent, mut lent_out) = (Lent::new(tab), Lent::new(out));
    let answer = ffi::keys_strip(lent.bytes(), offset, width, lent_out.bytes_mut());
    counts.add(if answer > refused(0) { "refused" } else { "strips" }, 1);
    trial::compare(answer, &lent, &lent_out, &want).map_err(|difference| {
        let table = literal(tab);
        format!("keys_strip, offset {offset}, width {width}, output of {} bytes: {difference}\ntable {table}", out.len())
    })
}

/// A valid table at every offset and both widths.
fn every_offset(tab: &[u8], counts: &mut Counts) -> Result<(), String> {
    counts.add("tables", 1);
    for width in WIDTHS {
        for offset in 0..KEYS as u32 {
            attempt(tab, offset, width, &filler(width as usize, offset as usize), counts)?;
        }
    }
    Ok(())
}

fn standard_macros() -> Vec<Vec<u8>> {
    let keys = FunctionKeys::standard();
    (1..=KEYS as u8).map(|n| keys.get(n).to_vec()).collect()
}

/// The standard table, compared with the Rust's own standard keys, and document 01's example.
pub fn standard(counts: &mut Counts) -> Result<(), String> {
    let tab = table(&standard_macros());
    if tab != KeyTable::standard().as_bytes() {
        return Err("the standard table of the crate futonrobin is not the Rust's".into());
    }
    every_offset(&tab, counts)?;
    let mut keys = FunctionKeys::standard();
    for width in WIDTHS {
        for offset in 0..KEYS {
            keys.offset = offset;
            let mut out = vec![0; width as usize];
            ffi::keys_strip(&tab, offset as u32, width, &mut out);
            if out != keys.strip(width as usize) {
                return Err(format!("standard keys, offset {offset}, width {width}: {}", literal(&out)));
            }
            if offset == 0 && !out.starts_with(b"1LIST   2RUN\x1b") {
                return Err(format!("document 01's example: {}", literal(&out)));
            }
        }
    }
    Ok(())
}

/// Every byte value in every place of every key, at every length.
pub fn every_value(counts: &mut Counts) -> Result<(), String> {
    for length in 0..=LONGEST {
        for value in 0..=255u8 {
            let bytes = |key: usize| (0..length).map(|at| value.wrapping_add((at * 17 + key * 29) as u8)).collect();
            every_offset(&table(&(0..KEYS).map(bytes).collect::<Vec<_>>()), counts)?;
        }
    }
    Ok(())
}

/// Tables of random lengths and bytes.
pub fn random_tables(seed: u64, tables: u32, counts: &mut Counts) -> Result<(), String> {
    let mut random = runner(seed, 1).new_rng();
    (0..tables).try_for_each(|_| every_offset(&random_table(&mut random), counts).map_err(|found| format!("seed {seed}: {found}")))
}

fn random_table(random: &mut TestRng) -> Vec<u8> {
    let mut below = |n: usize| random.next_u32() as usize % n;
    let mut bytes = |_| (0..below(LONGEST + 1)).map(|_| below(256) as u8).collect();
    table(&(0..KEYS).map(&mut bytes).collect::<Vec<_>>())
}

/// Each byte of some tables set to each of its 255 other values.
pub fn every_byte(counts: &mut Counts) -> Result<(), String> {
    let spread = (0..KEYS).map(|key| vec![b'A'; (key * 5 + 3) % SLOT]).collect::<Vec<_>>();
    for mut tab in [table(&standard_macros()), table(&spread), table(&vec![vec![0; LONGEST]; KEYS]), table(&[])] {
        for at in 0..TABLE {
            let kept = tab[at];
            for value in (0..=255).filter(|&value| value != kept) {
                tab[at] = value;
                counts.add("tables", 1);
                for width in WIDTHS {
                    attempt(&tab, at as u32 % 10, width, &filler(width as usize, at), counts)?;
                }
            }
            tab[at] = kept;
        }
    }
    Ok(())
}

/// Every length of table and output up to beyond the bounds, good and bad widths, offsets up to the largest, with a valid table and a broken
/// one: which refusal comes first.
pub fn refusals(counts: &mut Counts) -> Result<(), String> {
    let valid = table(&standard_macros());
    let mut broken = valid.clone();
    broken[0] = 16;
    for tab in [valid, broken] {
        let long = [&tab[..], &tab[..]].concat();
        for width in [0, 1, 8, 39, 40, 41, 48, 79, 80, 81, 88, 255, 256 + 40, 256 + 80, 65_536 + 80, 1 << 31, u32::MAX] {
            for offset in [0, 1, 4, 5, 9, 10, 11, 19, 255, 256, 256 + 9, 65_536, 1 << 31, u32::MAX - 9, u32::MAX - 1, u32::MAX] {
                for room in 0..=90 {
                    for length in [TABLE, TABLE - 1, TABLE + 1, 0, TABLE - SLOT, 2 * TABLE] {
                        attempt(&long[..length], offset, width, &filler(room, length), counts)?;
                    }
                }
            }
            for length in 0..=2 * TABLE {
                attempt(&long[..length], 3, width, &filler(80, length), counts)?;
            }
        }
    }
    Ok(())
}
