//! A folder of a test's own, which goes with it.
use std::fs;
use std::path::PathBuf;

pub struct Folder(pub PathBuf);

impl Folder {
    /// The names of one program's tests differ.
    pub fn new(name: &str) -> Self {
        let folder = std::env::temp_dir().join(format!("futonrobin-{}-{name}", std::process::id()));
        fs::create_dir_all(&folder).unwrap();
        Self(folder)
    }
}

impl Drop for Folder {
    fn drop(&mut self) {
        let _ = fs::remove_dir_all(&self.0);
    }
}
