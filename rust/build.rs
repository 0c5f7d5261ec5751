//! Finds the static library of the proved calls.

use std::env;
use std::path::{absolute, Path, PathBuf};

/// Names the folder that has the library, where that isn't the project's own.
const FOLDER: &str = "WINDOSPRIO_LIB_DIR";

fn main() {
    let folder = folder();
    let library = folder.join("libgateway.a");
    println!("cargo::rerun-if-env-changed={FOLDER}");
    println!("cargo::rerun-if-changed={}", library.display());
    println!("cargo::rustc-link-search=native={}", folder.display());
    println!("cargo::rustc-link-lib=static=gateway");
    if !library.is_file() {
        println!(
            "cargo::error={} is missing: run `./build gateway` in the project, or name the folder that has it in {FOLDER}",
            library.display()
        );
    }
}

fn folder() -> PathBuf {
    let folder = match env::var_os(FOLDER) {
        Some(folder) => PathBuf::from(folder),
        None => Path::new(env!("CARGO_MANIFEST_DIR")).join("../target/staticlib"),
    };
    absolute(&folder).unwrap_or(folder)
}
