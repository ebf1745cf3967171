//! Brings in the Rust source that the archive is compared with, from the folder that GWBASIC_SRC names: unchanged, and its screen.rs once
//! more as a copy with a constructor appended inside its module, for screens that no list of calls reaches, and a method that answers how long its editing
//! content is. Both stand in OUT_DIR, none in the tree.
use std::{env, fs, path::Path, process::exit};

fn main() {
    println!("cargo:rerun-if-env-changed=GWBASIC_SRC");
    println!("cargo:rerun-if-changed=oracle/constructor.rs");
    let Some(folder) = env::var_os("GWBASIC_SRC") else {
        eprintln!("GWBASIC_SRC does not name the folder that holds the Rust's src/. `host/cargo` sets it, from tools/oracle.");
        exit(1);
    };
    let source = Path::new(&folder).join("src");
    let screen = read(&source.join("screen.rs"));
    let constructor = read(Path::new("oracle/constructor.rs"));
    let out = env::var("OUT_DIR").unwrap();
    let opened = Path::new(&out).join("opened.rs");
    fs::write(&opened, format!("{screen}\n{constructor}")).expect("OUT_DIR can be written");
    let keys = source.join("keys.rs");
    read(&keys);
    let modules = [("screen", source.join("screen.rs")), ("keys", keys), ("opened", opened)];
    let text: String = modules.iter().map(|(name, path)| module(name, path)).collect();
    fs::write(Path::new(&out).join("oracle.rs"), text).expect("OUT_DIR can be written");
}

fn read(path: &Path) -> String {
    println!("cargo:rerun-if-changed={}", path.display());
    fs::read_to_string(path).unwrap_or_else(|problem| {
        eprintln!("{}: {problem}", path.display());
        exit(1)
    })
}

fn module(name: &str, path: &Path) -> String {
    format!("#[allow(dead_code, clippy::all)]\n#[rustfmt::skip]\n#[path = {path:?}]\npub mod {name};\n")
}
