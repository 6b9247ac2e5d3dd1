//! The program's stored runs, which `rt ci` holds the program to, are what the model prints.

mod common;
mod model;

use model::program::output;
use std::fs;
use std::path::PathBuf;

fn stored(name: &str) -> PathBuf {
    PathBuf::from(env!("CARGO_MANIFEST_DIR"))
        .join("../crates")
        .join(name)
}

fn text(name: &str) -> String {
    fs::read_to_string(stored(name)).expect("a stored text")
}

#[test]
fn largest_table() {
    let input = fs::read(stored("cell_doses/stdin")).expect("a table file");
    assert_eq!(output(&input), text("cell_doses/stdout"));
}

#[test]
fn runs() {
    let mut expected = String::new();
    for name in text("cell_doses_runs/args").lines() {
        let path = stored("cell_doses_runs/data").join(name);
        let input = fs::read(path).expect("a stored input");
        expected += &format!("{name}\n{}", output(&input));
    }
    assert_eq!(expected, text("cell_doses_runs/stdout"));
}
