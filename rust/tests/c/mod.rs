//! C and C++ in tests: sources compiled against the header and the archive, and run.

#![allow(dead_code)]

use std::fs;
use std::path::{Path, PathBuf};
use std::process::Command;

pub fn repository() -> PathBuf {
    Path::new(env!("CARGO_MANIFEST_DIR")).join("..")
}

// A text of the repository.
pub fn text(path: &str) -> String {
    let path = repository().join(path);
    fs::read_to_string(&path).unwrap_or_else(|error| panic!("{}: {error}", path.display()))
}

// A source in the folder for temporary files.
pub fn source(name: &str, text: &str) -> PathBuf {
    let path = Path::new(env!("CARGO_TARGET_TMPDIR")).join(name);
    fs::write(&path, text).expect("a source is written");
    path
}

// Compiles a source with the header's folder and all warnings as errors.
#[track_caller]
pub fn compile(compiler: &str, standard: &str, source: &Path, more: &[&str]) {
    let output = Command::new(compiler)
        .arg(format!("-std={standard}"))
        .args(["-Wall", "-Wextra", "-Werror", "-pedantic", "-I"])
        .arg(repository().join("include"))
        .arg(source)
        .args(more)
        .output()
        .expect("the compiler runs");
    let said = String::from_utf8_lossy(&output.stderr);
    assert!(output.status.success(), "{compiler} {standard}: {said}");
}

// Compiles a source, links it with the archive, runs it and returns what it prints.
#[track_caller]
pub fn run(standard: &str, source: &Path) -> String {
    let program = Path::new(env!("CARGO_TARGET_TMPDIR"))
        .join(source.file_name().expect("a file"))
        .with_extension("run");
    let (archive, program_name) = (env!("LUKHTARI_ARCHIVE"), program.to_str().unwrap());
    // Outer functions are bound before the program starts.
    let link = [archive, "-Wl,-z,now", "-o", program_name];
    compile("gcc", standard, source, &link);
    let output = Command::new(&program).output().expect("the program runs");
    let printed = String::from_utf8(output.stdout).expect("text");
    assert!(output.status.success(), "{}: {printed}", source.display());
    printed
}
