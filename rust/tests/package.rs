//! The package as a user builds it: what it says without the archive.

use std::env;
use std::fs;
use std::path::{Path, PathBuf};
use std::process::Command;

// An empty folder of a test's own.
fn folder(name: &str) -> PathBuf {
    let folder = Path::new(env!("CARGO_TARGET_TMPDIR")).join(name);
    let _ = fs::remove_dir_all(&folder);
    fs::create_dir_all(&folder).expect("a folder");
    folder
}

#[test]
fn a_missing_archive_is_said() {
    let (empty, target) = (folder("no_archive"), folder("no_archive_target"));
    let built = Command::new(env!("CARGO"))
        .args(["build", "--offline", "--locked", "--manifest-path"])
        .arg(Path::new(env!("CARGO_MANIFEST_DIR")).join("Cargo.toml"))
        .arg("--target-dir")
        .arg(target)
        .env("LUKHTARI_LIB_DIR", &empty)
        .output()
        .expect("cargo runs");
    let said = String::from_utf8_lossy(&built.stderr);
    assert!(!built.status.success(), "{said}");
    let missing = format!("liblukhtari.a is missing in {}.", empty.display());
    for words in [&missing, "`rt lib`", "LUKHTARI_LIB_DIR"] {
        assert!(said.contains(words), "{words}: {said}");
    }
}
