//! The documents: their width, the names in backquotes, and where their links lead.
//!
//! A name of the form crate::item is declared in the crate's code; one that ends in two dots stands
//! for all that begin so. After a file and a colon, as in `lattice/specs/Outcome`: `first`, names
//! are declared in that file, up to a semicolon or the end of the item; elsewhere in any file.

mod c;
mod names;

use c::{repository, text};
use names::{path, Names};
use std::fs;

const COLUMNS: usize = 100;

// Words of tools and languages, which the repository does not declare.
const WORDS: [&str; 6] = ["rt", "cargo", "gcc", "requires", "ensures", "usize"];

// Endings by which a name is a file.
const ENDINGS: [&str; 10] = [
    ".rs", ".rt", ".md", ".antt", ".h", ".c", ".toml", ".txt", ".table", ".svg",
];

// A line's number and what is wrong with it.
type Fault = (usize, String);

// The paths of all documents.
fn documents() -> Vec<String> {
    let mut all = vec!["README.md".to_string()];
    for entry in fs::read_dir(repository().join("docs")).expect("a folder") {
        let name = entry.expect("an entry").file_name();
        all.push(format!("docs/{}", name.to_string_lossy()));
    }
    // The folder has a picture too.
    all.retain(|name| name.ends_with(".md"));
    all.sort();
    all
}

// No document has a fault.
#[track_caller]
fn check(faults: impl Fn(&str, &str) -> Vec<Fault>) {
    check_in(documents(), faults);
}

// No file of these has a fault.
#[track_caller]
fn check_in(files: Vec<String>, faults: impl Fn(&str, &str) -> Vec<Fault>) {
    let mut all = Vec::new();
    for document in files {
        let found = faults(&document, &text(&document));
        all.extend(
            found
                .iter()
                .map(|(line, fault)| format!("{document}:{line}: {fault}")),
        );
    }
    assert!(all.is_empty(), "\n{}", all.join("\n"));
}

// The lines of a document outside its blocks of code, with their numbers.
fn prose(text: &str) -> Vec<(usize, &str)> {
    let mut code = false;
    let mut all = Vec::new();
    for (index, line) in text.lines().enumerate() {
        let fence = line.starts_with("```");
        if !code && !fence {
            all.push((index + 1, line));
        }
        code ^= fence;
    }
    all
}

// Whether a line begins a paragraph, an item, a heading or a row.
fn begins(line: &str) -> bool {
    let line = line.trim_start();
    let number = line.trim_start_matches(|letter: char| letter.is_ascii_digit());
    let item = line.starts_with("- ") || number.len() < line.len() && number.starts_with(". ");
    item || line.is_empty() || line.starts_with(['#', '|'])
}

fn is_path(word: &str) -> bool {
    let ends = ENDINGS.iter().any(|ending| word.ends_with(ending));
    ends || word.contains('/') || word.starts_with('.')
}

fn is_name(word: &str) -> bool {
    let part = |letter: char| letter.is_alphanumeric() || "_-':.".contains(letter);
    word.starts_with(|letter: char| letter.is_alphabetic()) && word.chars().all(part)
}

// What is wrong with a path; what commands make is not looked for.
fn path_fault(word: &str) -> Option<String> {
    let made = word.starts_with("target/") || word.contains("/out/");
    (!made && path(word).is_none()).then(|| format!("there is no file `{word}`"))
}

// What is wrong with a text in backquotes, where names are those of a file or of all files.
fn fault(names: &Names, file: Option<&str>, quoted: &str) -> Option<String> {
    if quoted.contains(' ') {
        let mut words = quoted.split(' ').filter(|word| word.contains('/'));
        return words.find_map(path_fault);
    }
    if is_path(quoted) {
        return path_fault(quoted);
    }
    if !is_name(quoted) || WORDS.contains(&quoted) {
        return None;
    }
    match file {
        Some(file) => {
            let missing = !names.in_file(file, quoted);
            missing.then(|| format!("`{quoted}` is not declared in {file}"))
        }
        None => (!names.has(quoted)).then(|| format!("`{quoted}` is declared nowhere")),
    }
}

// Names in backquotes that do not exist.
fn missing(names: &Names, text: &str) -> Vec<Fault> {
    let mut faults = Vec::new();
    let mut file = None;
    for (number, line) in prose(text) {
        if begins(line) {
            file = None;
        }
        let parts: Vec<&str> = line.split('`').collect();
        if parts.len() % 2 == 0 {
            faults.push((number, "a backquote is left over".to_string()));
        }
        for part in parts.windows(3).step_by(2) {
            let (before, quoted, after) = (part[0], part[1], part[2]);
            if before.contains([';', '|']) {
                file = None;
            }
            faults.extend(fault(names, file.as_deref(), quoted).map(|fault| (number, fault)));
            if is_path(quoted) && after.starts_with(':') {
                file = path(quoted);
            }
        }
    }
    faults
}

#[test]
fn lines_are_at_most_100_columns_wide() {
    let mut files = documents();
    files.push("include/lukhtari.h".to_string());
    check_in(files, |_, text| {
        let wide = |(index, line): (usize, &str)| {
            let columns = line.chars().count();
            let fault = (index + 1, format!("{columns} columns"));
            (columns > COLUMNS).then_some(fault)
        };
        text.lines().enumerate().filter_map(wide).collect()
    });
}

#[test]
fn names_in_backquotes_exist() {
    let names = Names::collect();
    check(|_, text| missing(&names, text));
}

#[test]
fn links_lead_to_files() {
    check(|document, text| {
        let folder = repository().join(document);
        let folder = folder.parent().expect("a folder");
        let mut faults = Vec::new();
        for (number, line) in prose(text) {
            for link in line.split("](").skip(1) {
                let target = link.split(')').next().unwrap_or_default();
                if !folder.join(target).exists() {
                    faults.push((number, format!("there is no file {target}")));
                }
            }
        }
        faults
    });
}

#[test]
fn reading_of_names() {
    let names = Names::collect();
    let outcome = "crates/lattice/specs/Outcome.antt";
    for (text, expected) in [
        ("`lattice/specs/Outcome`: `first`, `first_of`", vec![]),
        (
            "`lattice/specs/Outcome`: `first`,\n  `node_number`",
            vec![(2, format!("`node_number` is not declared in {outcome}"))],
        ),
        ("`lattice/specs/Outcome`: `first`; `node_number`", vec![]),
        ("`lattice/specs/Outcome`: it\n\n`node_number`", vec![]),
        ("`faults_in_order..`, `claims::estimate_and_ask`", vec![]),
        (
            "`arith::estimate_and_ask`",
            vec![(
                1,
                "`arith::estimate_and_ask` is declared nowhere".to_string(),
            )],
        ),
        (
            "`lattice/no_edit` and `cargo run no/file`",
            vec![
                (1, "there is no file `lattice/no_edit`".to_string()),
                (1, "there is no file `no/file`".to_string()),
            ],
        ),
        ("```c\n`nowhere`\n```\n`x = 1`", vec![]),
    ] {
        assert_eq!(missing(&names, text), expected, "{text}");
    }
}
