//! Links the static libraries of the folder that HAKKIYOLU_LIBS names. Each has
//! only its exported functions as global names, so the two do not clash.

use std::path::Path;

const FOLDER: &str = "../target/staticlib";

fn main() {
    println!("cargo:rerun-if-env-changed=HAKKIYOLU_LIBS");
    let folder = std::env::var("HAKKIYOLU_LIBS").unwrap_or_else(|_| FOLDER.to_string());
    println!("cargo:rustc-link-search=native={folder}");
    for library in ["boundary", "lookup"] {
        let archive = Path::new(&folder).join(format!("lib{library}.a"));
        println!("cargo:rerun-if-changed={}", archive.display());
        println!("cargo:rustc-link-lib=static={library}");
    }
}
