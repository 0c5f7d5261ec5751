//! Finds the static library of the product's inner layers.

use std::path::Path;

fn main() {
    let folder = Path::new(env!("CARGO_MANIFEST_DIR")).join("../../target/staticlib");
    let library = folder.join("libprobe.a");
    println!("cargo::rerun-if-changed={}", library.display());
    println!("cargo::rustc-link-search=native={}", folder.display());
    println!("cargo::rustc-link-lib=static=probe");
    if !library.is_file() {
        println!("cargo::error=target/staticlib/libprobe.a is missing: run `./build probe` in the project");
    }
}
