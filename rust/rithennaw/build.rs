//! Finds the archive, librithennaw.a: in the folder named by RITHENNAW_LIB_DIR, else where `make lib` writes it.

use std::path::{Path, PathBuf};
use std::{env, path, process};

const FOLDER: &str = "RITHENNAW_LIB_DIR";

fn folder() -> PathBuf {
    let make_lib = || Path::new(env!("CARGO_MANIFEST_DIR")).join("../../target/staticlib");
    env::var_os(FOLDER).map_or_else(make_lib, PathBuf::from)
}

fn main() {
    // cargo and the linker work in other folders than this program, so no path may be relative to one.
    let folder = path::absolute(folder()).unwrap_or_else(|error| {
        eprintln!("{FOLDER}: {error}");
        process::exit(1);
    });
    let archive = folder.join("librithennaw.a");
    println!("cargo:rerun-if-env-changed={FOLDER}");
    println!("cargo:rerun-if-changed={}", archive.display());
    if !archive.is_file() {
        eprintln!("There is no archive {}.", archive.display());
        eprintln!(
            "Run `make lib` at the root of the repository, or set {FOLDER} to the folder that has librithennaw.a."
        );
        process::exit(1);
    }
    println!("cargo:rustc-link-search=native={}", folder.display());
}
