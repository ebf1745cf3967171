//! What the model and the fuzz share: the seed, addresses, and calls at random.
use futonrobin::{Refusal, Screen};
use oorandom::Rand32;
use std::env;
use std::net::SocketAddr;
use std::time::{SystemTime, UNIX_EPOCH};

/// From the clock, or SEED from the environment, so that a run can be had again. The keys are drawn anew even so; nothing depends on their bits.
pub fn seed() -> u64 {
    let given = env::var("SEED").ok().map(|seed| seed.parse().expect("SEED is a number"));
    let seed = given.unwrap_or_else(|| SystemTime::now().duration_since(UNIX_EPOCH).unwrap().as_micros() as u64);
    println!("SEED={seed}");
    seed
}

pub fn address(n: u32) -> SocketAddr {
    SocketAddr::from(([192, 0, 2, n as u8], 4_000))
}

/// Whether something happens that does so in this many of a hundred cases.
pub fn percent(random: &mut Rand32, chance: u32) -> bool {
    random.rand_range(0..100) < chance
}

pub fn noise(length: usize, random: &mut Rand32) -> Vec<u8> {
    (0..length).map(|_| random.rand_u32() as u8).collect()
}

pub fn pick<'a, T>(all: &'a [T], random: &mut Rand32) -> &'a T {
    &all[random.rand_range(0..all.len() as u32) as usize]
}

const KEYS: [fn(&mut Screen) -> Result<(), Refusal>; 14] = [
    Screen::backspace,
    Screen::delete_char,
    Screen::erase_to_end,
    Screen::escape_line,
    Screen::tab,
    Screen::ctrl_enter,
    Screen::break_line,
    Screen::move_left,
    Screen::move_up,
    Screen::move_down,
    Screen::home,
    Screen::word_left,
    Screen::end_of_line,
    Screen::clear,
];

/// A call at random, which may be refused.
pub fn call(screen: &mut Screen, random: &mut Rand32) {
    let byte = random.rand_u32() as u8;
    let _ = match random.rand_range(0..40) {
        0..20 => screen.type_char(byte | 32),
        20..28 => pick(&KEYS, random)(screen),
        28..30 => screen.set_width([40, 80, 41][usize::from(byte % 3)]),
        30..32 => screen.set_cursor((byte % 25).into(), (byte / 3).into()),
        32 => screen.set_keys_on(byte % 2 == 0),
        33 => screen.set_insert(byte % 2 == 0),
        34 => screen.take_logical_line().map(drop),
        35 => screen.print_checked([&b"\r"[..], b"\n", b""][usize::from(byte % 3)]),
        _ => screen.print_checked(&noise(byte.into(), random)),
    };
}

/// Two calls that leave something on the screen which cannot be deflated.
pub fn scribble(screen: &mut Screen, random: &mut Rand32) -> [Screen; 2] {
    screen.set_attr(random.rand_u32() as u8).unwrap();
    let coloured = screen.clone();
    screen.print_checked(&noise(60, random)).expect("the call before was no print, so no 13 is without its 10");
    [coloured, screen.clone()]
}
