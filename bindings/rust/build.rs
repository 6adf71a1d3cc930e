//! Makes the static libraries where one is missing or older than its sources, and says where they are.
use std::env;
use std::fs;
use std::path::{Path, PathBuf};
use std::process::{exit, Command};
use std::time::SystemTime;

/// The reader's library and the checker's.
const LIBRARIES: [&str; 2] = ["capi", "capicheck"];

fn main() {
    let root = PathBuf::from(env::var("CARGO_MANIFEST_DIR").unwrap_or_default()).join("../..");
    let sources = sources(&root);
    for source in &sources {
        println!("cargo:rerun-if-changed={}", source.display());
    }
    target();
    let newest = sources.iter().filter_map(|s| newest(s)).max();
    println!("cargo:rustc-link-search=native={}", root.join("target/staticlib").display());
    for name in LIBRARIES {
        let archive = root.join(format!("target/staticlib/lib{name}.a"));
        println!("cargo:rerun-if-changed={}", archive.display());
        if modified(&archive) < newest {
            make(&root, name);
        }
        println!("cargo:rustc-link-lib=static={name}");
    }
}

/// What a library is made of; what `rt` keeps beside it in out/ is no source.
fn sources(root: &Path) -> Vec<PathBuf> {
    let crates = fs::read_dir(root.join("crates")).into_iter().flatten().flatten();
    let parts = crates.flat_map(|c| ["src", "specs", "proofs"].map(|part| c.path().join(part)));
    std::iter::once(root.join("crates.txt")).chain(parts.filter(|p| p.exists())).collect()
}

/// The libraries are compiled for one processor and one system.
fn target() {
    let is = |name: &str, value: &str| env::var(name).map_or(false, |v| v == value);
    if !(is("CARGO_CFG_TARGET_ARCH", "x86_64") && is("CARGO_CFG_TARGET_OS", "linux")) {
        fail("they are compiled for x86-64 Linux alone, and this build is for another machine. Add --target x86_64-unknown-linux-gnu; README.md says what that needs");
    }
}

fn make(root: &Path, name: &str) {
    println!("cargo:warning=proving and compiling {name}; the first time takes some minutes");
    match Command::new(root.join("bindings/libraries")).arg(name).output() {
        Ok(done) if done.status.success() => (),
        Ok(done) => fail(&format!("`bindings/libraries {name}` failed:\n{}{}", String::from_utf8_lossy(&done.stdout), String::from_utf8_lossy(&done.stderr))),
        Err(why) => fail(&format!("`bindings/libraries {name}` makes target/staticlib/lib{name}.a, and can't be run ({why})")),
    }
}

fn fail(why: &str) -> ! {
    eprintln!("vealtikum: the static libraries can't be used: {why}.");
    exit(1)
}

fn modified(path: &Path) -> Option<SystemTime> {
    fs::metadata(path).and_then(|m| m.modified()).ok()
}

/// When a file, or the newest file of a folder, was last changed.
fn newest(path: &Path) -> Option<SystemTime> {
    match fs::read_dir(path) {
        Ok(entries) => entries.flatten().filter_map(|e| newest(&e.path())).max(),
        Err(_) => modified(path),
    }
}
