//! Where the proved library is: in the folder LINEENGINE_LIB_DIR, an absolute path, or where `rt lib` in crates/lineengine of this
//! repository writes it. Another archive there is linked anew.

use std::env;
use std::path::{Path, PathBuf};

fn main() {
    println!("cargo:rerun-if-env-changed=LINEENGINE_LIB_DIR");
    let folder = env::var_os("LINEENGINE_LIB_DIR").map_or_else(folder_of_the_repository, PathBuf::from);
    let archive = folder.join("liblineengine.a");
    if !folder.is_absolute() || !archive.is_file() {
        eprintln!("there is no archive {}", archive.display());
        eprintln!("`rt lib` in crates/lineengine writes it; LINEENGINE_LIB_DIR names another folder, by its absolute path");
        std::process::exit(1);
    }
    println!("cargo:rerun-if-changed={}", archive.display());
    println!("cargo:rustc-link-search=native={}", folder.display());
}

fn folder_of_the_repository() -> PathBuf {
    let package = env::var_os("CARGO_MANIFEST_DIR").expect("cargo says where the package is");
    Path::new(&package).join("../../crates/lineengine/out")
}
