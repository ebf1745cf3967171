//! The sitting that a start of the candidate's program begins, larger after each restart on its machine: the one that is asked for, or the
//! seconds of the clock, but at least one more than the last one used, which a file of the user's state folder keeps.
use std::env;
use std::ffi::OsString;
use std::fmt;
use std::fs::{self, File, TryLockError};
use std::io::{self, ErrorKind, Read, Write};
use std::path::{Path, PathBuf};
use std::thread::sleep;
use std::time::{Duration, Instant, SystemTime, UNIX_EPOCH};

/// How long the file of another start that is just at it is waited for.
const PATIENCE: Duration = Duration::from_secs(1);
/// No number of a sitting has so many digits.
const TOO_LONG: u64 = 32;

/// A sitting, and what there is to know about it.
#[derive(PartialEq, Eq, Debug)]
pub struct Chosen {
    pub number: u32,
    pub told: Vec<Told>,
}

/// What follows, in one line of a terminal of 80 columns, and why.
#[derive(Clone, PartialEq, Eq, Debug)]
pub struct Told {
    pub what: String,
    pub why: String,
}

impl fmt::Display for Told {
    fn fmt(&self, f: &mut fmt::Formatter) -> fmt::Result {
        write!(f, "{} ({})", self.what, self.why)
    }
}

/// The sitting of this start, which is in the file before anything is sent; or a sentence why there is none.
pub fn of_this_start(asked: Option<u32>) -> Result<Chosen, String> {
    let file = file_in(env::var_os("XDG_STATE_HOME"), env::var_os("HOME"));
    choose(asked, seconds(SystemTime::now()), file.as_deref(), PATIENCE)
}

/// The clock's seconds since 1970, as far as 32 bits hold them.
fn seconds(now: SystemTime) -> u32 {
    let seconds = now.duration_since(UNIX_EPOCH).map_or(0, |since| since.as_secs());
    u32::try_from(seconds).unwrap_or(u32::MAX)
}

/// The file, by the two variables that say where a user's state is kept. A folder that is not absolute counts as not named.
fn file_in(state: Option<OsString>, home: Option<OsString>) -> Option<PathBuf> {
    let absolute = |folder: Option<OsString>| folder.map(PathBuf::from).filter(|folder| folder.is_absolute());
    let state = absolute(state).or_else(|| Some(absolute(home)?.join(".local/state")))?;
    Some(state.join("futonrobin/sitting"))
}

/// The number, and what is to be told about it; or why there is none.
fn decide(asked: Option<u32>, clock: u32, last: Option<u32>) -> Result<(u32, Option<Told>), String> {
    let Some(last) = last else { return Ok((asked.unwrap_or(clock), None)) };
    match asked {
        // Two screens of one number would be one screen to a mirror, and it would show neither.
        Some(asked) if asked == last => Err(format!("sitting {asked} was the last one here: give a larger one, or leave --sitting out")),
        Some(asked) if asked < last => Ok((asked, Some(smaller(asked, last)))),
        Some(asked) => Ok((asked, None)),
        None if clock > last => Ok((clock, None)),
        None => match last.checked_add(1) {
            Some(next) => {
                let what = format!("sitting {next} is one more than the last one: the clock is not beyond that");
                Ok((next, Some(Told { what, why: format!("the clock says {clock}") })))
            }
            None => Err(format!(
                "sitting {last} was the last one here, and there is no larger one: \
                 make a new key, and give a small --sitting N to an invigilator that is started anew, or remove the file that keeps it"
            )),
        },
    }
}

/// One was asked for that is smaller than the last one.
fn smaller(asked: u32, last: u32) -> Told {
    let what = format!("NOT SHOWN where {last} was heard, nor where {asked} was used before");
    let why = format!(
        "an invigilator who has heard sitting {last}, the last one here, does not show {asked}; \
         and one who has heard {asked} before takes nothing of a second start with that number"
    );
    Told { what, why }
}

/// What the file holds.
#[derive(PartialEq, Eq, Debug)]
enum Held {
    Nothing,
    Last(u32),
    Damaged,
}

/// Decides by the file, and has it keep the largest number used. No other start comes in between.
fn choose(asked: Option<u32>, clock: u32, file: Option<&Path>, patience: Duration) -> Result<Chosen, String> {
    let Some(file) = file else {
        let (number, why) = (asked.unwrap_or(clock), "neither XDG_STATE_HOME nor HOME names a folder");
        return Ok(Chosen { number, told: vec![not_known(number, why.into()), not_kept(number, why)] });
    };
    let (lock, held) = (lock(file, patience), read(file));
    let last = if let Ok(Held::Last(last)) = held { Some(last) } else { None };
    let (number, decided) = decide(asked, clock, last).map_err(|why| format!("{why} ({})", file.display()))?;
    let without_last = of_no_last(number, &held, file);
    let kept = match (lock, held) {
        (Ok(_until_written), Ok(_)) => write(file, number.max(last.unwrap_or(number))),
        (Err(problem), _) | (_, Err(problem)) => Err(problem),
    };
    let unkept = kept.err().map(|problem| match problem.kind() {
        ErrorKind::WouldBlock => held_by_another(number, file),
        _ => not_kept(number, &format!("{}: {problem}", file.display())),
    });
    Ok(Chosen { number, told: [decided, without_last, unkept].into_iter().flatten().collect() })
}

/// What follows where the file names no last sitting.
fn of_no_last(number: u32, held: &io::Result<Held>, file: &Path) -> Option<Told> {
    let file = file.display();
    match held {
        Ok(Held::Last(_)) => None,
        Ok(Held::Nothing) => {
            let what = format!("sitting {number} is the first one known here: one used before may be larger");
            Some(Told { what, why: format!("there was no {file}") })
        }
        Ok(Held::Damaged) => Some(not_known(number, format!("{file} held no number"))),
        Err(problem) => Some(not_known(number, format!("{file}: {problem}"))),
    }
}

fn not_known(number: u32, why: String) -> Told {
    Told { what: format!("sitting {number} may be no larger than the last one, which is not known"), why }
}

fn not_kept(number: u32, why: &str) -> Told {
    let what = format!("sitting {number} is NOT KEPT: the next one here may be no larger");
    Told { what, why: format!("{why}; it will be no larger with a clock that is set back, or in the same second") }
}

/// The lock was waited for in vain.
fn held_by_another(number: u32, file: &Path) -> Told {
    let what = format!("another start holds the file: sitting {number} may be the same as its");
    let why = format!("sitting {number} is not kept in {}, and a mirror takes two screens of one sitting for one", file.display());
    Told { what, why }
}

/// Holds other starts back until it is dropped. It is no lock on the file itself, which gives way to another.
fn lock(file: &Path, patience: Duration) -> io::Result<File> {
    fs::create_dir_all(file.parent().unwrap_or(file))?;
    let lock = File::options().create(true).append(true).open(file.with_extension("lock"))?;
    let begun = Instant::now();
    loop {
        match lock.try_lock() {
            Ok(()) => return Ok(lock),
            Err(TryLockError::WouldBlock) if begun.elapsed() < patience => sleep(Duration::from_millis(5)),
            Err(problem) => return Err(problem.into()),
        }
    }
}

fn read(file: &Path) -> io::Result<Held> {
    let mut bytes = Vec::new();
    match File::open(file) {
        Err(problem) if problem.kind() == ErrorKind::NotFound => return Ok(Held::Nothing),
        opened => opened?.take(TOO_LONG).read_to_end(&mut bytes)?,
    };
    let number = String::from_utf8(bytes).ok().and_then(|text| text.trim_end().parse().ok());
    Ok(number.map_or(Held::Damaged, Held::Last))
}

/// The whole number or the one before, also if the machine stops meanwhile; the new one for certain once this has succeeded.
fn write(file: &Path, number: u32) -> io::Result<()> {
    let new = file.with_extension("new");
    let mut out = File::create(&new)?;
    writeln!(out, "{number}")?;
    out.sync_all()?;
    fs::rename(new, file)?;
    // The new name is on the disk only with its folder.
    File::open(file.parent().unwrap_or(file))?.sync_all()
}

#[cfg(test)]
mod tests {
    use super::*;
    use crate::folder::Folder;
    use std::collections::BTreeSet;
    use std::thread;

    /// Longer than eight starts take on a machine that has other work.
    const LONG: Duration = Duration::from_secs(60);

    fn folder(name: &str) -> Folder {
        Folder::new(&format!("sitting-{name}"))
    }

    impl Folder {
        fn file(&self) -> PathBuf {
            self.0.join("futonrobin/sitting")
        }

        fn holding(self, text: &[u8]) -> Self {
            fs::create_dir_all(self.0.join("futonrobin")).unwrap();
            fs::write(self.file(), text).unwrap();
            self
        }

        fn held(&self) -> String {
            fs::read_to_string(self.file()).unwrap()
        }

        /// The number, and what follows from it.
        fn choose(&self, asked: Option<u32>, clock: u32) -> (u32, Vec<String>) {
            let Chosen { number, told } = choose(asked, clock, Some(&self.file()), LONG).unwrap();
            (number, told.into_iter().map(|told| told.what).collect())
        }

        /// The number, without anything to be told.
        fn quietly(&self, asked: Option<u32>, clock: u32) -> u32 {
            let (number, told) = self.choose(asked, clock);
            assert_eq!(told, [""; 0]);
            number
        }

        /// The number, and the one thing that is told.
        fn telling(&self, asked: Option<u32>, clock: u32) -> (u32, Told) {
            let Chosen { number, told } = choose(asked, clock, Some(&self.file()), LONG).unwrap();
            let [told] = told.try_into().expect("one thing is told");
            (number, told)
        }
    }

    #[test]
    fn a_missing_file_is_told_and_leaves_it_to_the_clock() {
        let folder = folder("missing");
        let (number, told) = folder.telling(None, 1000);
        assert_eq!((number, folder.held()), (1000, "1000\n".into()));
        assert_eq!(told.what, "sitting 1000 is the first one known here: one used before may be larger");
        assert_eq!(told.why, format!("there was no {}", folder.file().display()));
        assert_eq!(folder.quietly(None, 1007), 1007);
        assert_eq!(folder.held(), "1007\n");
    }

    #[test]
    fn two_starts_in_one_second() {
        let folder = folder("second").holding(b"1000\n");
        let (next, told) = folder.telling(None, 1000);
        assert_eq!((next, folder.held()), (1001, "1001\n".into()));
        assert_eq!(told.to_string(), "sitting 1001 is one more than the last one: the clock is not beyond that (the clock says 1000)");
    }

    #[test]
    fn two_starts_at_the_very_same_time() {
        let folder = folder("at-once");
        let file = folder.file();
        let numbers: BTreeSet<_> = thread::scope(|scope| {
            let starts: Vec<_> = (0..8).map(|_| scope.spawn(|| choose(None, 1000, Some(&file), LONG).unwrap().number)).collect();
            starts.into_iter().map(|start| start.join().unwrap()).collect()
        });
        assert_eq!(numbers, (1000..1008).collect());
        assert_eq!(folder.held(), "1007\n");
    }

    #[test]
    fn a_clock_set_back() {
        let folder = folder("back").holding(b"1000\n");
        let (next, told) = folder.telling(None, 3);
        assert_eq!((next, folder.held()), (1001, "1001\n".into()));
        assert_eq!(told.why, "the clock says 3");
    }

    #[test]
    fn a_damaged_file_is_told_and_written_anew() {
        for damaged in [&b""[..], b"\n", b"bed 12", b"-1", b"4294967296", b"12\n13\n", b"\xff\xfe", &[b'1'; 5000]] {
            let folder = folder("damaged").holding(damaged);
            let (number, told) = folder.telling(None, 1000);
            assert_eq!((number, folder.held()), (1000, "1000\n".into()), "{damaged:?}");
            assert_eq!(told.what, "sitting 1000 may be no larger than the last one, which is not known");
            assert_eq!(told.why, format!("{} held no number", folder.file().display()));
        }
    }

    #[test]
    fn a_folder_that_cannot_be_written() {
        let folder = folder("closed");
        fs::write(folder.0.join("futonrobin"), "a file where a folder should be").unwrap();
        let Chosen { number, told } = choose(None, 1000, Some(&folder.file()), LONG).unwrap();
        assert_eq!((number, told.len()), (1000, 2));
        assert_eq!(told[0].what, "sitting 1000 may be no larger than the last one, which is not known");
        assert_eq!(told[1].what, "sitting 1000 is NOT KEPT: the next one here may be no larger");
        assert!(told.iter().all(|told| told.why.contains(folder.0.to_str().unwrap())), "{told:?}");
    }

    #[test]
    fn no_folder_is_named() {
        let Chosen { number, told } = choose(None, 1000, None, LONG).unwrap();
        assert_eq!((number, told.len(), choose(Some(7), 1000, None, LONG).unwrap().number), (1000, 2, 7));
        assert!(told.iter().all(|told| told.why.starts_with("neither XDG_STATE_HOME nor HOME names a folder")), "{told:?}");
    }

    #[test]
    fn a_file_that_cannot_be_written_is_still_read() {
        let folder = folder("unwritten").holding(b"1000\n");
        fs::create_dir(folder.file().with_extension("new")).unwrap();
        let (number, told) = folder.telling(None, 2000);
        assert_eq!((number, folder.held()), (2000, "1000\n".into()));
        assert!(told.what.contains("NOT KEPT"), "{told}");
        let (number, told) = folder.choose(None, 3);
        assert_eq!((number, told.len()), (1001, 2), "{told:?}");
        assert!(told[0].contains("is one more than the last one") && told[1].contains("NOT KEPT"), "{told:?}");
    }

    #[test]
    fn what_cannot_be_read_is_not_written_over() {
        let folder = folder("unread");
        fs::create_dir_all(folder.file()).unwrap();
        let (number, told) = folder.choose(None, 1000);
        assert_eq!((number, told.len()), (1000, 2), "{told:?}");
        assert!(told[0].contains("may be no larger than the last one") && told[1].contains("NOT KEPT"), "{told:?}");
        assert!(folder.file().is_dir() && !folder.file().with_extension("new").exists());
    }

    #[test]
    fn a_start_that_holds_the_lock_is_not_waited_for_for_ever() {
        let folder = folder("locked").holding(b"1000\n");
        let held = lock(&folder.file(), LONG).unwrap();
        let Chosen { number, told } = choose(None, 2000, Some(&folder.file()), Duration::from_millis(20)).unwrap();
        assert_eq!((number, told.len(), folder.held()), (2000, 1, "1000\n".into()));
        assert_eq!(told[0].what, "another start holds the file: sitting 2000 may be the same as its");
        drop(held);
        assert_eq!(folder.quietly(None, 2000), 2000);
    }

    #[test]
    fn the_one_that_is_asked_for() {
        let folder = folder("asked").holding(b"6\n");
        assert_eq!(folder.quietly(Some(7), 1000), 7);
        assert_eq!(folder.quietly(Some(8), 1000), 8);
        let (number, told) = folder.telling(Some(3), 1000);
        assert_eq!((number, folder.held()), (3, "8\n".into()), "the largest is kept");
        assert_eq!(told.what, "NOT SHOWN where 8 was heard, nor where 3 was used before");
        assert!(told.why.contains(
            "who has heard sitting 8, the last one here, does not show 3; and one who has heard 3 before takes nothing of a second start"
        ));
        let told = choose(Some(8), 1000, Some(&folder.file()), LONG).unwrap_err();
        assert!(told.starts_with("sitting 8 was the last one here: give a larger one, or leave --sitting out ("), "{told}");
        assert_eq!(folder.quietly(Some(5000), 1000), 5000);
        assert_eq!(folder.telling(None, 1000).0, 5001, "it counts for the next one too");
        assert_eq!(folder.quietly(Some(u32::MAX), 1000), u32::MAX);
    }

    #[test]
    fn after_the_largest_number_there_is_none() {
        let folder = folder("largest").holding(b"4294967295\n");
        let told = choose(None, 1000, Some(&folder.file()), LONG).unwrap_err();
        assert!(
            told.contains("there is no larger one") && told.contains("--sitting") && told.contains(folder.0.to_str().unwrap()),
            "{told}"
        );
        assert_eq!(folder.held(), "4294967295\n");
        assert_eq!(folder.telling(Some(0), 1000).0, 0);
    }

    #[test]
    fn what_follows_fits_into_one_line() {
        let (last, file) = (u32::MAX, Path::new("/state/futonrobin/sitting"));
        let decided = [decide(None, 1, Some(last - 1)), decide(Some(last - 1), 1, Some(last))].map(|decided| decided.unwrap().1);
        let unknown = [Held::Nothing, Held::Damaged].map(|held| of_no_last(last, &Ok(held), file));
        let unkept = [not_kept(last, ""), held_by_another(last, file)].map(Some);
        for told in [decided, unknown, unkept].concat() {
            let what = told.expect("something follows").what;
            assert!(what.chars().count() <= 80, "{what}");
        }
    }

    #[test]
    fn where_the_file_is() {
        let file = |state: &str, home: Option<&str>| file_in(Some(state.into()), home.map(Into::into));
        let in_home = Some("/home/anna/.local/state/futonrobin/sitting".into());
        assert_eq!(file("/state", Some("/home/anna")), Some("/state/futonrobin/sitting".into()));
        assert_eq!(file("", Some("/home/anna")), in_home);
        assert_eq!(file("not/absolute", Some("/home/anna")), in_home);
        assert_eq!(file_in(None, Some("/home/anna".into())), in_home);
        assert_eq!((file("", None), file("", Some("")), file_in(None, None)), (None, None, None));
    }

    #[test]
    fn a_clock_beyond_32_bits() {
        assert_eq!(seconds(UNIX_EPOCH - Duration::from_secs(5)), 0);
        assert_eq!(seconds(UNIX_EPOCH + Duration::from_secs(1_794_844_322)), 1_794_844_322);
        assert_eq!(seconds(UNIX_EPOCH + Duration::from_secs(1 << 32)), u32::MAX);
    }
}
