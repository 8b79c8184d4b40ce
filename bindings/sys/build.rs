//! Finds libventolaire.a: in the folder that VENTOLAIRE_LIB names, else in
//! target/staticlib of a folder above this one, where `./build-library` puts it.
//!
//! With neither there is a warning and no error: the documentation, and a check
//! of the types, need no library. A program that is linked without it fails with
//! the linker's message.

use std::env;
use std::path::{Path, PathBuf};
use std::process::exit;

const LIBRARY: &str = "libventolaire.a";

fn main() {
    println!("cargo:rerun-if-changed=build.rs");
    println!("cargo:rerun-if-env-changed=VENTOLAIRE_LIB");
    println!("cargo:rerun-if-env-changed=DOCS_RS");
    if env::var_os("DOCS_RS").is_some() {
        return;
    }
    match named().or_else(above) {
        Some(folder) => {
            let folder = folder.display();
            println!("cargo:rerun-if-changed={folder}/{LIBRARY}");
            println!("cargo:rustc-link-search=native={folder}");
            println!("cargo:rustc-link-lib=static=ventolaire");
        }
        None => println!(
            "cargo:warning=no {LIBRARY}: VENTOLAIRE_LIB is not set, and no folder above has it in \
             target/staticlib; programs cannot be linked"
        ),
    }
}

/// The folder that VENTOLAIRE_LIB names, which has to hold the library.
fn named() -> Option<PathBuf> {
    let folder = PathBuf::from(env::var_os("VENTOLAIRE_LIB")?);
    let shown = folder.display();
    // Cargo runs this in the package's folder, not in the caller's.
    if !folder.is_absolute() {
        fail(&format!("VENTOLAIRE_LIB has to be an absolute path, not {shown}"));
    }
    if !folder.join(LIBRARY).is_file() {
        fail(&format!("there is no {LIBRARY} in {shown}, the folder in VENTOLAIRE_LIB"));
    }
    Some(folder)
}

/// The nearest target/staticlib above this package that holds the library. Cargo
/// looks for it again at each build until it is there.
fn above() -> Option<PathBuf> {
    let package = env::var_os("CARGO_MANIFEST_DIR")?;
    let folders = Path::new(&package).ancestors().map(|folder| folder.join("target/staticlib"));
    let mut passed = Vec::new();
    for folder in folders {
        if folder.join(LIBRARY).is_file() {
            return Some(folder);
        }
        passed.push(folder);
    }
    for folder in passed {
        println!("cargo:rerun-if-changed={}", folder.join(LIBRARY).display());
    }
    None
}

fn fail(message: &str) -> ! {
    eprintln!("ventolaire: {message}");
    exit(1)
}
