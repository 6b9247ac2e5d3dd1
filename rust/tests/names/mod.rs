//! Names that the repository declares, file by file, and the files themselves.

use crate::c::{repository, text};
use std::collections::{BTreeMap, BTreeSet};
use std::fs;

// Folders whose sources declare names.
const FOLDERS: [&str; 6] = ["crates", "rust", "tool", "bench", "include", "scripts"];

// Declared names by the path of their file, and all of them with the crates' names.
pub struct Names {
    files: BTreeMap<String, BTreeSet<String>>,
    all: BTreeSet<String>,
}

impl Names {
    pub fn collect() -> Names {
        let mut files = BTreeMap::new();
        for folder in FOLDERS {
            collect_folder(folder, &mut files);
        }
        let mut all: BTreeSet<String> = files.values().flatten().cloned().collect();
        all.extend(entries("crates"));
        Names { files, all }
    }

    // Whether a name is declared; a name that ends in two dots stands for all that begin so.
    pub fn has(&self, name: &str) -> bool {
        match name.split_once("::") {
            Some((krate, item)) => self.in_crate(krate, item),
            None => declares(&self.all, name),
        }
    }

    fn in_crate(&self, krate: &str, item: &str) -> bool {
        let source = format!("crates/{krate}/src/");
        let mut sources = self
            .files
            .iter()
            .filter(|(path, _)| path.starts_with(&source));
        sources.any(|(_, names)| declares(names, item))
    }

    // Whether a file declares a name; a file without names of its own declares none.
    pub fn in_file(&self, path: &str, name: &str) -> bool {
        let names = self.files.get(path);
        names.is_some_and(|names| declares(names, name))
    }
}

fn declares(names: &BTreeSet<String>, name: &str) -> bool {
    match name.strip_suffix("..") {
        Some(start) => names.iter().any(|name| name.starts_with(start)),
        None => names.contains(name),
    }
}

// The path of a file or folder that a document names: from the repository's folder, from that of
// the crates or of the tests, a folder that crates have, a definition or proof without its
// extension, or a must-fail edit as crate/edit.
pub fn path(name: &str) -> Option<String> {
    let name = name.strip_suffix('/').unwrap_or(name);
    let mut places = vec![
        name.to_string(),
        format!("crates/{name}"),
        format!("crates/{name}.antt"),
        format!("crates/lattice/{name}"),
        format!("rust/tests/{name}"),
    ];
    if let Some((krate, edit)) = name.split_once('/') {
        places.push(format!("crates/{krate}/must-fail/{edit}.edit"));
    }
    let exists = |place: &String| repository().join(place).exists();
    places.into_iter().find(exists)
}

// The names in a folder.
fn entries(folder: &str) -> Vec<String> {
    let listed = fs::read_dir(repository().join(folder)).expect("a folder");
    let name = |entry: fs::DirEntry| entry.file_name().to_string_lossy().to_string();
    listed.map(|entry| name(entry.expect("an entry"))).collect()
}

// Adds the names of all sources in a folder and below.
fn collect_folder(folder: &str, files: &mut BTreeMap<String, BTreeSet<String>>) {
    for name in entries(folder) {
        let path = format!("{folder}/{name}");
        if repository().join(&path).is_dir() {
            if name != "target" && name != "out" {
                collect_folder(&path, files);
            }
            continue;
        }
        let declared = match path.rsplit('.').next() {
            Some("antt") => antt_names(&text(&path)),
            Some("rt" | "rs") => rust_names(&text(&path)),
            Some("h") => words(&text(&path)),
            _ if folder == "scripts" => words(&text(&path)),
            _ => continue,
        };
        files.insert(path, declared);
    }
}

// Definitions and theorems: the name before the colon of a signature, records and data.
fn antt_names(text: &str) -> BTreeSet<String> {
    let name = |line: &str| {
        let modifier = |word: &&str| ["pub", "abbrev", "unfoldable"].contains(word);
        let mut words = line.split_whitespace().skip_while(modifier);
        match (words.next()?, words.next()?) {
            ("record" | "data", name) => Some(name.to_string()),
            (name, ":") => Some(name.to_string()),
            _ => None,
        }
    };
    text.lines().filter_map(name).collect()
}

// Functions, structs, enums, constants and modules of Rust and Rattle, with fields and variants.
fn rust_names(text: &str) -> BTreeSet<String> {
    let kinds = ["fn", "struct", "enum", "const", "mod", "trait", "type"];
    let mut names = BTreeSet::new();
    for line in text.lines() {
        let all: Vec<&str> = line.split(|letter| !is_letter(letter)).collect();
        let after = all.windows(2).filter(|pair| kinds.contains(&pair[0]));
        names.extend(after.map(|pair| pair[1].to_string()));
        let field = line.trim().strip_prefix("pub ").unwrap_or(line.trim());
        if let Some((name, _)) = field.split_once([':', ',']) {
            names.insert(name.to_string());
        }
        // Variables of the environment.
        let variable = |word: &&&str| word.starts_with("LUKHTARI_");
        names.extend(all.iter().filter(variable).map(|word| word.to_string()));
    }
    names
}

// All words of a text.
fn words(text: &str) -> BTreeSet<String> {
    let words = text.split(|letter| !is_letter(letter));
    words.map(str::to_string).collect()
}

fn is_letter(letter: char) -> bool {
    letter.is_alphanumeric() || letter == '_'
}
