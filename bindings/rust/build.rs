//! Links libluskadorv.a: from the folder that LUSKADORV_LIB names, else from out/ at the top of the repository, else from where
//! pkg-config finds the library installed.
//!
//! Without an archive the package is still checked, documented and packaged. What is linked then asks the linker for a library
//! whose name says what to do.

use std::env;
use std::path::{Path, PathBuf};
use std::process::Command;

const ARCHIVE: &str = "libluskadorv.a";

fn main() {
    println!("cargo:rerun-if-env-changed=LUSKADORV_LIB");
    println!("cargo:rerun-if-env-changed=PKG_CONFIG_PATH");
    match folders().into_iter().find(|it| it.join(ARCHIVE).exists()) {
        Some(folder) => link(&folder.join(ARCHIVE)),
        None => say_what_to_do(),
    }
}

fn folders() -> Vec<PathBuf> {
    if let Some(named) = env::var_os("LUSKADORV_LIB") {
        return vec![named.into()];
    }
    let beside = Path::new(&env::var_os("CARGO_MANIFEST_DIR").expect("Cargo sets it")).join("../../out");
    // The archive may be made later, in the repository.
    if beside.join("../crates/ist_c").exists() {
        watch(&beside.join(ARCHIVE));
    }
    std::iter::once(beside).chain(installed()).collect()
}

fn installed() -> Option<PathBuf> {
    let asked = Command::new("pkg-config").args(["--variable=libdir", "luskadorv"]).output().ok()?;
    let folder = String::from_utf8(asked.stdout).ok()?;
    (asked.status.success() && !folder.trim().is_empty()).then(|| PathBuf::from(folder.trim()))
}

// The archive is linked from Cargo's own folder, since Cargo reads no path that isn't UTF-8.
fn link(archive: &Path) {
    watch(archive);
    let out = PathBuf::from(env::var_os("OUT_DIR").expect("Cargo sets it"));
    let copy = out.join(ARCHIVE);
    // (a copy would have the permissions of an installed file, and could not be replaced)
    let bytes = std::fs::read(archive).unwrap_or_else(|why| panic!("{}: {why}", archive.display()));
    std::fs::write(&copy, bytes).unwrap_or_else(|why| panic!("{}: {why}", copy.display()));
    println!("cargo:rustc-link-search=native={}", out.display());
    println!("cargo:rustc-link-lib=static=luskadorv");
}

fn watch(path: &Path) {
    if let Some(path) = path.to_str() {
        println!("cargo:rerun-if-changed={path}");
    }
}

fn say_what_to_do() {
    println!("cargo:warning={ARCHIVE} isn't there, so no program can be linked: `bash tools/library.sh` at the top of the repository");
    println!("cargo:warning=makes it in out/, and LUSKADORV_LIB names another folder that has it");
    println!("cargo:rustc-link-lib=dylib=luskadorv.a-isn't-there.-Make-it-by-tools/library.sh-and-name-its-folder-by-LUSKADORV_LIB");
}
