//! Finds the proved library's archive: in the folder that VACHODIEN_ARCHIVE names (an absolute path), else in
//! target/staticlib of the repository, where `./build` writes it.

use std::env;
use std::path::PathBuf;

fn main() {
    println!("cargo::rerun-if-env-changed=VACHODIEN_ARCHIVE");
    let here = PathBuf::from(env::var_os("CARGO_MANIFEST_DIR").expect("cargo says it"));
    let folder = match env::var_os("VACHODIEN_ARCHIVE") {
        Some(folder) => PathBuf::from(folder),
        None => here.join("../../target/staticlib"),
    };
    let archive = folder.join("libvachodien.a");
    println!("cargo::rerun-if-changed={}", archive.display());
    if !archive.is_file() {
        println!(
            "cargo::error=there is no proved library at {}",
            archive.display()
        );
        println!("cargo::error=run `./build` in the repository's root first, or let VACHODIEN_ARCHIVE name the folder that has libvachodien.a");
        return;
    }
    println!("cargo::rustc-link-search=native={}", folder.display());
    println!("cargo::rustc-link-lib=static=vachodien");
    // For the tests that compile C.
    println!("cargo::metadata=archive={}", archive.display());
    println!(
        "cargo::rustc-env=VACHODIEN_ARCHIVE_FILE={}",
        archive.display()
    );
}
