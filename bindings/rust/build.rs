//! Builds the proved static library and links it.
//!
//! `bindings/archive` is run. It proves the crate and what it depends on and writes target/staticlib/libyadvorkhul.a; where nothing
//! changed since, it does nothing. Where the environment names a folder in YADVORKHUL_LIB, the archive of that folder is linked instead
//! and nothing is proved.

use std::path::{Path, PathBuf};
use std::process::Command;

fn main() {
    println!("cargo:rerun-if-env-changed=YADVORKHUL_LIB");
    let folder = match std::env::var_os("YADVORKHUL_LIB") {
        Some(folder) => PathBuf::from(folder),
        None => prove(),
    };
    println!("cargo:rerun-if-changed={}", folder.join("libyadvorkhul.a").display());
    println!("cargo:rustc-link-search=native={}", folder.display());
    println!("cargo:rustc-link-lib=static=yadvorkhul");
}

/// Runs `bindings/archive` and answers the folder of the archive.
fn prove() -> PathBuf {
    let here = PathBuf::from(std::env::var_os("CARGO_MANIFEST_DIR").expect("set by cargo"));
    let root = here.join("../..").canonicalize().expect("the repository's root");
    println!("cargo:rerun-if-changed={}", root.join("crates.txt").display());
    for name in below_archive(&root) {
        for part in ["src", "specs", "proofs"] {
            let folder = root.join("crates").join(&name).join(part);
            if Path::new(&folder).exists() {
                println!("cargo:rerun-if-changed={}", folder.display());
            }
        }
    }
    let status = Command::new("bindings/archive").current_dir(&root).status();
    match status {
        Ok(status) if status.success() => root.join("target/staticlib"),
        Ok(status) => panic!("`bindings/archive` ended with {status}: the Rattle kit's `rt` must be on the PATH, or YADVORKHUL_LIB name the folder of libyadvorkhul.a"),
        Err(error) => panic!("`bindings/archive` could not be run: {error}"),
    }
}

/// `yadvorkhul` and every crate of the repository that it depends on, as crates.txt has it.
fn below_archive(root: &Path) -> Vec<String> {
    let text = std::fs::read_to_string(root.join("crates.txt")).expect("crates.txt in the repository's root");
    let lines: Vec<(&str, &str)> = text.lines().filter_map(|line| line.split('#').next()?.split_once(':')).collect();
    // a line is `name: ..`, or `name staticlib: ..`
    let is_of = |head: &str, name: &str| head.split_whitespace().next() == Some(name);
    let mut names = vec![String::from("yadvorkhul")];
    let mut seen = 0;
    while seen < names.len() {
        let below = lines.iter().find(|(head, _)| is_of(head, &names[seen])).map_or("", |(_, below)| *below);
        let more: Vec<String> =
            below.split_whitespace().map(String::from).filter(|name| !names.contains(name)).collect();
        names.extend(more);
        seen += 1;
    }
    names
}
