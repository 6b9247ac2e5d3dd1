//! Links the static library, or says how to get it.

use std::env;
use std::path::{self, PathBuf};
use std::process;

const ARCHIVE: &str = "liblukhtari.a";

fn main() {
    let folder = folder();
    let archive = folder.join(ARCHIVE);
    if !archive.is_file() {
        eprintln!("{ARCHIVE} is missing in {}.", folder.display());
        eprintln!("`rt lib` in crates/lukhtari of the repository makes it, in its folder out;");
        eprintln!("LUKHTARI_LIB_DIR names another folder that has it, by its whole path.");
        process::exit(1);
    }
    println!("cargo:rerun-if-changed=build.rs");
    println!("cargo:rerun-if-env-changed=LUKHTARI_LIB_DIR");
    println!("cargo:rerun-if-changed={}", archive.display());
    println!("cargo:rustc-env=LUKHTARI_ARCHIVE={}", archive.display());
    println!("cargo:rustc-link-search=native={}", folder.display());
    println!("cargo:rustc-link-lib=static=lukhtari");
}

// The archive's folder: LUKHTARI_LIB_DIR, or crates/lukhtari/out of the repository.
fn folder() -> PathBuf {
    match env::var_os("LUKHTARI_LIB_DIR") {
        Some(folder) => path::absolute(&folder).unwrap_or(PathBuf::from(folder)),
        None => {
            let package = env::var_os("CARGO_MANIFEST_DIR").expect("set by cargo");
            PathBuf::from(package).with_file_name("crates/lukhtari/out")
        }
    }
}
