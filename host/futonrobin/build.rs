//! Links the archive that `tools/archive` makes.
use std::{env, path::PathBuf, process::exit};

fn main() {
    println!("cargo:rerun-if-env-changed=FUTONROBIN_ARCHIVE");
    let folder = match env::var_os("FUTONROBIN_ARCHIVE") {
        Some(folder) => PathBuf::from(folder),
        None => PathBuf::from(env::var_os("CARGO_MANIFEST_DIR").unwrap()).join("../../target/staticlib"),
    };
    let archive = folder.join("libapi.a");
    println!("cargo:rerun-if-changed={}", archive.display());
    if !archive.is_file() {
        eprintln!("There is no {}: `tools/archive`, in the repository's root, makes it.", archive.display());
        eprintln!("FUTONROBIN_ARCHIVE names another folder that holds libapi.a.");
        exit(1);
    }
    println!("cargo:rustc-link-search=native={}", folder.display());
    println!("cargo:rustc-link-lib=static=api");
}
