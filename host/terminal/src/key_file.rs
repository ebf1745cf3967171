//! The file with the key that both ends of the line share: 64 hexadecimal digits, readable by its owner alone.
use line::SharedKey;
use std::fs::{self, File, OpenOptions};
use std::io::{ErrorKind, Read, Write};
use std::path::Path;

#[cfg(unix)]
use std::os::unix::fs::{MetadataExt, OpenOptionsExt};

/// No key has so many bytes, with its line end; more are not read.
const TOO_LONG: u64 = 100;

/// Makes a key in a new file.
pub fn make(file: &Path) -> Result<(), String> {
    let told = |problem: std::io::Error| match problem.kind() {
        ErrorKind::AlreadyExists => format!("{} is there already, and is left as it is", file.display()),
        _ => format!("{}: {problem}", file.display()),
    };
    let mut options = OpenOptions::new();
    options.write(true).create_new(true);
    #[cfg(unix)]
    options.mode(0o600);
    let mut made = options.open(file).map_err(told)?;
    let written = writeln!(made, "{}", SharedKey::draw().digits()).and_then(|()| made.sync_all());
    written.map_err(|problem| {
        // Half a key is none; that it could not be written is what is told.
        let _ = fs::remove_file(file);
        told(problem)
    })
}

/// The key of a file, or a sentence about it.
pub fn read(file: &Path) -> Result<SharedKey, String> {
    let name = file.display();
    let told = |problem: std::io::Error| match problem.kind() {
        ErrorKind::NotFound => format!("there is no {name}: ./run key {name} makes a key, and the other end needs a copy of that file"),
        _ => format!("{name}: {problem}"),
    };
    let no_key = || format!("{name} holds no key, which is 64 hexadecimal digits: ./run key FILE makes one in a new file");
    // What is no file may keep one waiting who opens it.
    if !fs::metadata(file).map_err(told)?.is_file() {
        return Err(no_key());
    }
    let opened = File::open(file).map_err(told)?;
    #[cfg(unix)]
    if opened.metadata().map_err(told)?.mode() & 0o077 != 0 {
        return Err(format!("others than its owner may read or write {name}, and whoever has the key can forge: chmod 600 {name}"));
    }
    let mut held = String::new();
    match opened.take(TOO_LONG).read_to_string(&mut held) {
        Err(problem) if problem.kind() != ErrorKind::InvalidData => Err(told(problem)),
        _ => SharedKey::from_digits(held.trim()).filter(|_| held.len() < TOO_LONG as usize).ok_or_else(no_key),
    }
}

#[cfg(test)]
mod tests {
    use super::*;
    use crate::folder::Folder;

    #[test]
    fn a_key_is_made_once_and_read_by_its_owner() {
        let folder = Folder::new("key");
        let file = folder.0.join("key");
        assert!(read(&file).unwrap_err().contains("makes a key"));
        make(&file).unwrap();
        let key = read(&file).unwrap();
        assert!(make(&file).unwrap_err().ends_with("is there already, and is left as it is"));
        assert_eq!(read(&file).unwrap(), key);
        let other = folder.0.join("other");
        make(&other).unwrap();
        assert_ne!(read(&other).unwrap(), key);
        assert!(make(&folder.0.join("no/such/folder")).is_err());
    }

    #[cfg(unix)]
    #[test]
    fn a_key_that_others_can_read_is_not_taken() {
        use std::os::unix::fs::PermissionsExt;
        let folder = Folder::new("open-key");
        let file = folder.0.join("key");
        make(&file).unwrap();
        assert_eq!(fs::metadata(&file).unwrap().permissions().mode() & 0o777, 0o600);
        for mode in [0o640, 0o604, 0o620] {
            fs::set_permissions(&file, fs::Permissions::from_mode(mode)).unwrap();
            assert!(read(&file).unwrap_err().contains("chmod 600"), "{mode:o}");
        }
        fs::set_permissions(&file, fs::Permissions::from_mode(0o400)).unwrap();
        assert!(read(&file).is_ok());
    }

    #[test]
    fn what_holds_no_key() {
        let folder = Folder::new("no-key");
        let file = folder.0.join("key");
        make(&file).unwrap();
        let digits = fs::read(&file).unwrap();
        for bad in [&b""[..], b"key", &digits[..63], &[&digits[..64], b"0\n"].concat(), &[b'0'; 200], b"\xff\xfe"] {
            fs::write(&file, bad).unwrap();
            assert!(read(&file).unwrap_err().contains("holds no key"));
        }
        fs::write(&file, &digits[..64]).unwrap();
        assert!(read(&file).is_ok(), "without a line end");
        #[cfg(unix)]
        {
            use std::os::unix::fs::PermissionsExt;
            fs::set_permissions(&folder.0, fs::Permissions::from_mode(0o700)).unwrap();
            assert!(read(&folder.0).unwrap_err().contains("holds no key"), "a folder");
        }
    }
}
