//! Recorded answers: `record FILE` writes the file that the crate `replay` reads, `record --check FILE` asks the Rust whether the answers
//! are its own, `record --replay FILE` replays the file through the archive.
//! The seed is fixed, so that the file is the same each time it is made with the same proptest.
use checks::answers;
use std::process::exit;

const SEED: u64 = 1983;
const LIMIT: usize = 900_000;

fn main() {
    let words: Vec<String> = std::env::args().skip(1).collect();
    let done = match words.iter().map(String::as_str).collect::<Vec<_>>()[..] {
        ["--check", file] => check(file),
        ["--replay", file] => replay(file),
        [file] if !file.starts_with('-') => record(file),
        _ => Err("it takes FILE, --check FILE or --replay FILE".into()),
    };
    if let Err(sentence) = done {
        eprintln!("record: {sentence}");
        exit(1);
    }
}

fn record(file: &str) -> Result<(), String> {
    let recording = answers::record(SEED, LIMIT);
    std::fs::write(file, &recording.bytes).map_err(|problem| format!("{file}: {problem}"))?;
    println!("{} lists, {} calls, {} bytes", recording.lists, recording.calls, recording.bytes.len());
    Ok(())
}

fn read(file: &str) -> Result<Vec<u8>, String> {
    std::fs::read(file).map_err(|problem| format!("{file}: {problem}"))
}

fn check(file: &str) -> Result<(), String> {
    if answers::is_the_rusts(&read(file)?)? {
        println!("the answers are the Rust's");
        Ok(())
    } else {
        Err(format!("{file}: the Rust answers otherwise"))
    }
}

fn replay(file: &str) -> Result<(), String> {
    let (calls, differing) = answers::replay(&read(file)?)?;
    println!("{calls} calls read, {differing} differ");
    if differing > 0 {
        return Err("not as recorded".into());
    }
    Ok(())
}
