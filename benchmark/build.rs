//! Where the proved libraries are: those of this commit, and in the folder OLD_LIBRARY, if it is set, those of another one
//! (tools/build-benchmark), which are then timed too. New ones are linked anew.

use std::env;

const LIBRARIES: [&str; 2] = ["bench", "lineengine"];

fn main() {
    println!("cargo:rustc-check-cfg=cfg(old)");
    println!("cargo:rerun-if-env-changed=OLD_LIBRARY");
    let package = env::var("CARGO_MANIFEST_DIR").expect("cargo says where the package is");
    for library in LIBRARIES {
        link(&format!("{package}/../crates/{library}/out"), library);
    }
    if let Ok(folder) = env::var("OLD_LIBRARY") {
        println!("cargo:rustc-cfg=old");
        for library in LIBRARIES {
            link(&folder, &format!("old_{library}"));
        }
    }
}

fn link(folder: &str, library: &str) {
    println!("cargo:rustc-link-search=native={folder}");
    println!("cargo:rerun-if-changed={folder}/lib{library}.a");
    println!("cargo:rustc-link-lib=static={library}");
}
