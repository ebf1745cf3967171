//! Random lists of changing calls, answered by the Rust screen and written as claims that antt computes.
//!
//! `lists SEED CALLS N.. [--width W] [--prefix K] [--differ | --show]` writes a claim for each list N: after each of its calls the
//! definitions say what the Rust said. `--width` keeps to one width, and `--prefix` takes the first K calls alone. `--differ` writes the
//! opposite claims, and `--show` prints the calls for a reader.

mod calls;
mod chance;
mod limited;
mod scenes;
mod seen;
mod waiting;

use scenes::List;

/// The claim on the first calls of a list: `answer` is `true` if the definitions agree with the Rust.
fn claim(n: usize, list: &List, prefix: usize, answer: bool) -> String {
    let calls: String = list.calls[..prefix]
        .iter()
        .map(|call| call.antt() + " ∷ ")
        .collect();
    let sums: String = list.sums[..=prefix]
        .iter()
        .map(|sum| format!("{sum} ∷ "))
        .collect();
    let (width, sitting) = (list.first_width, list.sitting);
    format!(
        "\nlist_{n} : agrees (new_state {width} {sitting}) ({calls}[]) ({sums}[]) ≡ {answer}\n\
         unfolding agrees\n\
         list_{n} = refl\n"
    )
}

/// The calls for a reader, one to a line.
fn shown(list: &List, prefix: usize) -> String {
    let calls: String = (1..=prefix)
        .map(|k| format!("{k:4} {:?}\n", list.calls[k - 1]))
        .collect();
    let (width, sitting) = (list.first_width, list.sitting);
    format!("   0 new screen, width {width}, sitting {sitting}\n{calls}")
}

fn usage() -> ! {
    eprintln!("usage: lists SEED CALLS N.. [--width 40|80] [--prefix K] [--differ | --show]");
    std::process::exit(2)
}

fn number(word: Option<String>) -> usize {
    word.and_then(|word| word.parse().ok())
        .unwrap_or_else(|| usage())
}

pub fn main() {
    let mut numbers = Vec::new();
    let (mut width, mut prefix, mut differ, mut show) = (None, None, false, false);
    let mut words = std::env::args().skip(1);
    while let Some(word) = words.next() {
        match word.as_str() {
            "--width" => width = Some(number(words.next())),
            "--prefix" => prefix = Some(number(words.next())),
            "--differ" => differ = true,
            "--show" => show = true,
            _ => numbers.push(number(Some(word))),
        }
    }
    let [seed, calls, ref lists @ ..] = numbers[..] else {
        usage()
    };
    let prefix = prefix.unwrap_or(calls);
    if prefix > calls || width.is_some_and(|width| width != 40 && width != 80) {
        usage();
    }
    for &n in lists {
        let list = List::new(seed, n, calls, width);
        if show {
            print!("{}", shown(&list, prefix));
        } else {
            print!("{}", claim(n, &list, prefix, !differ));
        }
    }
}
