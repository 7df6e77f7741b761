//! Links libfloesedge.a from the folder FLOESEDGE_LIB, or else from the repository's target/library.

use std::env;
use std::path::PathBuf;

fn main() {
    println!("cargo:rerun-if-env-changed=FLOESEDGE_LIB");
    let folder = match env::var_os("FLOESEDGE_LIB") {
        Some(folder) => PathBuf::from(folder),
        None => PathBuf::from(env::var_os("CARGO_MANIFEST_DIR").unwrap()).join("../../target/library"),
    };
    let archive = folder.join("libfloesedge.a");
    println!("cargo:rerun-if-changed={}", archive.display());
    if !archive.is_file() {
        eprintln!("there is no {}", archive.display());
        eprintln!("make it by `tools/library` in the repository, or set FLOESEDGE_LIB to its folder, a whole path");
        std::process::exit(1);
    }
    println!("cargo:rustc-link-search=native={}", folder.display());
    println!("cargo:rustc-link-lib=static=floesedge");
}
