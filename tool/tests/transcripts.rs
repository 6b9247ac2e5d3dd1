//! Stored transcripts: command lines with the output, standard error and exit status that they have.
//!
//! A line that begins with a dollar sign is run by the shell, in a folder that has the examples. The
//! lines up to the next one are its output; an exit status other than 0 follows in brackets.

mod common;

use common::{folder_with_examples, repository, shell};
use std::fs;
use std::path::Path;

// What a transcript says when it is run.
fn replayed(name: &str, transcript: &str) -> String {
    let folder = folder_with_examples(&format!("transcript_{name}"));
    let mut text = String::new();
    for line in transcript
        .lines()
        .filter_map(|line| line.strip_prefix("$ "))
    {
        let ran = shell(&folder, line);
        text += &format!("$ {line}\n{}{}", ran.text(), ran.said);
        if ran.status != Some(0) {
            text += &format!("[{}]\n", ran.status.unwrap_or(-1));
        }
    }
    text
}

#[track_caller]
fn check(name: &str, transcript: &str) {
    let replayed = replayed(name, transcript);
    // Where they differ, what was said is left for comparison.
    let left = Path::new(env!("CARGO_TARGET_TMPDIR")).join(format!("{name}.said"));
    if replayed != transcript {
        fs::write(&left, &replayed).expect("a file");
    }
    let first = replayed
        .lines()
        .zip(transcript.lines())
        .find(|(a, b)| a != b);
    assert!(
        replayed == transcript,
        "{name}: {first:?}, {}",
        left.display()
    );
}

// Tells of a stored transcript by its name.
macro_rules! transcripts {
    ($($name:ident)*) => {
        const STORED: &[&str] = &[$(stringify!($name)),*];
        $(#[test]
        fn $name() {
            check(stringify!($name), include_str!(concat!("transcripts/", stringify!($name), ".txt")));
        })*
    };
}

transcripts! {
    show ask ramp total powers import pool diff draw keys files_refused texts_refused usage help
}

#[test]
fn all_transcripts_are_run() {
    let folder = Path::new(env!("CARGO_MANIFEST_DIR")).join("tests/transcripts");
    for entry in fs::read_dir(folder).expect("a folder") {
        let path = entry.expect("an entry").path();
        let name = path
            .file_stem()
            .expect("a name")
            .to_string_lossy()
            .to_string();
        assert!(STORED.contains(&&name[..]), "{name}");
    }
}

// The README's transcripts, in the order in which they stand there.
#[test]
fn readme() {
    let readme = fs::read_to_string(repository().join("README.md")).expect("the README");
    let blocks = readme.split("\n```console\n").skip(1);
    let transcript: String = blocks
        .filter_map(|block| block.split("```").next())
        .collect();
    assert!(transcript.contains("$ lukhtari "));
    check("readme", &transcript);
}
