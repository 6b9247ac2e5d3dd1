//! What the tests share: the command, folders, random tables.

#![allow(dead_code)]

use std::env;
use std::fs;
use std::io::Write;
use std::path::{Path, PathBuf};
use std::process::{Command, Stdio};

const COMMAND: &str = env!("CARGO_BIN_EXE_lukhtari");

pub fn repository() -> PathBuf {
    let package = Path::new(env!("CARGO_MANIFEST_DIR"));
    package.parent().expect("a folder").to_path_buf()
}

// An empty folder of a test's own.
pub fn folder(name: &str) -> PathBuf {
    let folder = Path::new(env!("CARGO_TARGET_TMPDIR")).join(name);
    let _ = fs::remove_dir_all(&folder);
    fs::create_dir_all(&folder).expect("a folder");
    folder
}

// Such a folder with a copy of the examples.
pub fn folder_with_examples(name: &str) -> PathBuf {
    let folder = folder(name);
    let examples = folder.join("examples");
    fs::create_dir(&examples).expect("a folder");
    for entry in fs::read_dir(repository().join("examples")).expect("a folder") {
        let entry = entry.expect("an entry");
        fs::copy(entry.path(), examples.join(entry.file_name())).expect("a copy");
    }
    folder
}

pub struct Ran {
    pub status: Option<i32>,
    pub out: Vec<u8>,
    pub said: String,
}

impl Ran {
    pub fn text(&self) -> String {
        String::from_utf8(self.out.clone()).expect("text")
    }
}

// Runs the command in a folder with bytes on standard input.
pub fn run_with(folder: &Path, arguments: &[&str], input: &[u8]) -> Ran {
    let mut child = Command::new(COMMAND)
        .args(arguments)
        .current_dir(folder)
        .stdin(Stdio::piped())
        .stdout(Stdio::piped())
        .stderr(Stdio::piped())
        .spawn()
        .expect("the command runs");
    // A command that does not read its input closes the pipe.
    let _ = child.stdin.take().expect("a pipe").write_all(input);
    let done = child.wait_with_output().expect("the command ends");
    Ran {
        status: done.status.code(),
        out: done.stdout,
        said: String::from_utf8(done.stderr).expect("text"),
    }
}

pub fn run(folder: &Path, arguments: &[&str]) -> Ran {
    run_with(folder, arguments, b"")
}

// The output of a command that is done.
#[track_caller]
pub fn done(folder: &Path, arguments: &[&str], input: &[u8]) -> Vec<u8> {
    let ran = run_with(folder, arguments, input);
    assert_eq!((ran.status, &ran.said[..]), (Some(0), ""), "{arguments:?}");
    ran.out
}

// A shell in which the command is on the path.
pub fn shell(folder: &Path, line: &str) -> Ran {
    let commands = Path::new(COMMAND).parent().expect("a folder");
    let mut paths = vec![commands.to_path_buf()];
    paths.extend(env::split_paths(&env::var_os("PATH").expect("a path")));
    let done = Command::new("sh")
        .args(["-c", line])
        .current_dir(folder)
        .env("PATH", env::join_paths(paths).expect("a path"))
        .stdin(Stdio::null())
        .output()
        .expect("a shell");
    Ran {
        status: done.status.code(),
        out: done.stdout,
        said: String::from_utf8(done.stderr).expect("text"),
    }
}

// Splitmix64: seeded and reproducible.
pub struct Random(pub u64);

impl Random {
    fn next(&mut self) -> u64 {
        self.0 = self.0.wrapping_add(0x9E37_79B9_7F4A_7C15);
        let mut x = self.0;
        x = (x ^ x >> 30).wrapping_mul(0xBF58_476D_1CE4_E5B9);
        x = (x ^ x >> 27).wrapping_mul(0x94D0_49BB_1331_11EB);
        x ^ x >> 31
    }

    // A number from low to high, both included.
    pub fn range(&mut self, low: i64, high: i64) -> i64 {
        low + (self.next() % ((high - low) as u64 + 1)) as i64
    }

    // Node counts of so many axes.
    pub fn counts(&mut self, axes: u32, most: i64) -> [u32; 3] {
        [0, 1, 2].map(|axis| match axis < axes {
            true => self.range(2, most) as u32,
            false => 1,
        })
    }

    // Samples within a limit, some of them at it.
    pub fn samples(&mut self, counts: [u32; 3], limit: i64) -> Vec<i32> {
        let nodes: u32 = counts.iter().product();
        let mut sample = || match self.range(0, 9) {
            0 => limit,
            1 => -limit,
            2 => self.range(-9, 9),
            _ => self.range(-limit, limit),
        };
        (0..nodes).map(|_| sample() as i32).collect()
    }
}

// A list with commas.
pub fn list<T: ToString>(numbers: &[T]) -> String {
    let all: Vec<String> = numbers.iter().map(T::to_string).collect();
    all.join(",")
}

// The bytes of a table file by the words of `docs/FORMAT.md`.
pub fn table_file(axes: u32, counts: [u32; 3], samples: &[i32], second_edition: bool) -> Vec<u8> {
    let mut numbers = vec![axes];
    numbers.extend(&counts[..axes as usize]);
    numbers.push(samples.len() as u32);
    numbers.extend(samples.iter().map(|&sample| sample as u32));
    if second_edition {
        numbers.extend([1, 2]);
    }
    numbers
        .iter()
        .flat_map(|number| number.to_le_bytes())
        .collect()
}
