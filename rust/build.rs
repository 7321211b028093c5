//! Links the archive of proved functions: from the folder in ERMOPINAW_LIB, or from the repository's own.

use std::path::{Path, PathBuf};
use std::{env, process};

const VARIABLE: &str = "ERMOPINAW_LIB";
const ARCHIVE: &str = "libexports.a";

fn main() {
    println!("cargo:rerun-if-env-changed={VARIABLE}");
    let folder = match env::var_os(VARIABLE) {
        Some(folder) => PathBuf::from(folder),
        None => Path::new(&env::var_os("CARGO_MANIFEST_DIR").unwrap_or_default())
            .join("../target/staticlib"),
    };
    let archive = folder.join(ARCHIVE);
    println!("cargo:rerun-if-changed={}", archive.display());
    if !archive.is_file() {
        eprintln!("There is no {}.", archive.display());
        eprintln!("`tools/staticlib` in the repository's root proves and writes it, and so does ./build;");
        eprintln!("or set {VARIABLE} to the folder that has it.");
        process::exit(1);
    }
    println!("cargo:rustc-link-search=native={}", folder.display());
    println!("cargo:rustc-link-lib=static=exports");
}
