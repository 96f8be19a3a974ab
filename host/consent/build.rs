//! Links the static library of the proved crates.

use std::path::{Path, PathBuf};
use std::{env, process};

/// Says where the archive is, if not where `tools/library.sh` writes it.
const FOLDER: &str = "CONSENT_LIB_DIR";

fn main() {
    let folder = folder();
    let archive = folder.join("libconsent.a");
    println!("cargo:rerun-if-env-changed={FOLDER}");
    println!("cargo:rerun-if-changed={}", archive.display());
    if !archive.is_file() {
        eprintln!("There is no {}.", archive.display());
        eprintln!("Run `tools/library.sh` at the repository's top, or set {FOLDER} to the folder that holds it.");
        process::exit(1);
    }
    println!("cargo:rustc-link-search=native={}", folder.display());
    println!("cargo:rustc-link-lib=static=consent");
}

fn folder() -> PathBuf {
    match env::var_os(FOLDER) {
        Some(folder) => PathBuf::from(folder),
        None => {
            let manifest = env::var_os("CARGO_MANIFEST_DIR").expect("cargo says where the crate is");
            Path::new(&manifest).join("../../target/staticlib")
        }
    }
}
