//! Compiles lemon.cpp for release and links it.

use std::process::Command;

fn main() {
    println!("cargo:rerun-if-changed=lemon.cpp");
    let out = std::env::var("OUT_DIR").expect("set by cargo");
    let object = format!("{out}/lemon.o");
    let archive = format!("{out}/liblemonsplit.a");
    run("g++", &["-std=c++14", "-O3", "-DNDEBUG", "-w", "-c", "lemon.cpp", "-o", &object]);
    let _ = std::fs::remove_file(&archive);
    run("ar", &["rcs", &archive, &object]);
    println!("cargo:rustc-link-search=native={out}");
    println!("cargo:rustc-link-lib=static=lemonsplit");
    println!("cargo:rustc-link-lib=lemon");
    println!("cargo:rustc-link-lib=stdc++");
}

fn run(program: &str, words: &[&str]) {
    let status = Command::new(program).args(words).status();
    assert!(status.as_ref().is_ok_and(|s| s.success()), "{program} {words:?}: {status:?}");
}
