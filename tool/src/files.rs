//! Input and output: files by name, standard input and output by a minus sign.

use crate::failure::Failure;
use std::fs::{self, File, OpenOptions};
use std::io::{self, Read, Write};
use std::path::{Path, PathBuf};
use std::process;

const STANDARD: &str = "-";

fn failed(path: &str, error: io::Error) -> Failure {
    Failure::File(format!("{}: {error}", name(path)))
}

// The name by which messages call an input.
pub fn name(path: &str) -> String {
    match path {
        STANDARD => "standard input".to_string(),
        _ => path.to_string(),
    }
}

// The last part of a file's name.
pub fn last_part(name: &str) -> String {
    let last = Path::new(name).file_name();
    last.map_or(name.to_string(), |last| last.to_string_lossy().to_string())
}

// The bytes of a file, at most so many.
pub fn read(path: &str, most: usize) -> Result<Vec<u8>, Failure> {
    let mut bytes = Vec::new();
    let read = if path == STANDARD {
        io::stdin().take(most as u64).read_to_end(&mut bytes)
    } else {
        File::open(path).and_then(|file| file.take(most as u64).read_to_end(&mut bytes))
    };
    match read {
        Ok(_) => Ok(bytes),
        Err(error) => Err(failed(path, error)),
    }
}

// Writes all bytes; a file has its old bytes until all new ones are written.
pub fn write(path: &str, bytes: &[u8]) -> Result<(), Failure> {
    let written = if path == STANDARD {
        print(bytes)
    } else {
        // A link stays a link, and what is no plain file is written in place.
        let target = fs::canonicalize(path).unwrap_or(PathBuf::from(path));
        match fs::metadata(&target) {
            Ok(there) if !there.is_file() => in_place(&target, bytes),
            _ => replace(&target, bytes),
        }
    };
    written.map_err(|error| match path {
        STANDARD => Failure::File(format!("standard output: {error}")),
        _ => failed(path, error),
    })
}

fn print(bytes: &[u8]) -> io::Result<()> {
    let mut out = io::stdout().lock();
    out.write_all(bytes)?;
    out.flush()
}

fn in_place(target: &Path, bytes: &[u8]) -> io::Result<()> {
    OpenOptions::new()
        .write(true)
        .open(target)?
        .write_all(bytes)
}

// Writes a temporary file beside the target and renames it.
fn replace(target: &Path, bytes: &[u8]) -> io::Result<()> {
    let name = target.file_name().unwrap_or_default().to_string_lossy();
    let temporary = target.with_file_name(format!(".{name}.{}.new", process::id()));
    let mut file = OpenOptions::new()
        .write(true)
        .create_new(true)
        .open(&temporary)?;
    // The new file has the permissions of the old one.
    let old = fs::metadata(target).map(|old| old.permissions());
    let renamed = file
        .write_all(bytes)
        .and_then(|()| old.map_or(Ok(()), |old| file.set_permissions(old)))
        .and_then(|()| file.sync_all())
        .and_then(|()| fs::rename(&temporary, target));
    if renamed.is_err() {
        let _ = fs::remove_file(&temporary);
    }
    renamed
}
