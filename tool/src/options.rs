//! The command line: names with and without values, and what stands for itself.

use crate::failure::{usage, Failure};
use crate::words;
use lukhtari::Key;
use std::str::FromStr;

// An option's name and whether a value follows it.
pub type Named = (&'static str, bool);

// Options of every command.
const COMMON: [Named; 2] = [("--key", true), ("-o", true)];

#[derive(Default)]
pub struct Options {
    plain: Vec<String>,
    named: Vec<(&'static str, String)>,
}

impl Options {
    // Reads the arguments of a command that has these options beside the common ones.
    pub fn parse(arguments: &[String], own: &[Named]) -> Result<Options, Failure> {
        let mut options = Options::default();
        let mut rest = arguments.iter();
        while let Some(argument) = rest.next() {
            if argument == "--" {
                options.plain.extend(rest.by_ref().cloned());
            } else if !is_option(argument) {
                options.plain.push(argument.clone());
            } else {
                options.take(argument, &mut rest, own)?;
            }
        }
        Ok(options)
    }

    // Takes an option, with its value from behind an equals sign or from the next argument.
    fn take<'a>(
        &mut self,
        argument: &str,
        rest: &mut impl Iterator<Item = &'a String>,
        own: &[Named],
    ) -> Result<(), Failure> {
        let (name, joined) = match argument.split_once('=') {
            Some((name, value)) => (name, Some(value.to_string())),
            None => (argument, None),
        };
        let known = own.iter().chain(&COMMON).find(|named| named.0 == name);
        let Some(&(name, valued)) = known else {
            return usage(format!("there is no option {name}"));
        };
        if self.has(name) {
            return usage(format!("{name} stands twice"));
        }
        let value = match (valued, joined) {
            (true, joined) => joined.or_else(|| rest.next().cloned()),
            (false, None) => Some(String::new()),
            (false, Some(_)) => return usage(format!("{name} takes no value")),
        };
        let Some(value) = value else {
            return usage(format!("{name} takes a value"));
        };
        self.named.push((name, value));
        Ok(())
    }

    pub fn has(&self, name: &str) -> bool {
        self.get(name).is_some()
    }

    pub fn get(&self, name: &str) -> Option<&str> {
        let found = self.named.iter().find(|named| named.0 == name);
        found.map(|named| named.1.as_str())
    }

    // The plain arguments, from `least` to `most` of them.
    pub fn plain(&self, least: usize, most: usize) -> Result<&[String], Failure> {
        match self.plain.len() {
            0 if least > 0 => usage("arguments are missing"),
            given if given < least => {
                usage(format!("after {} more is missing", self.plain[given - 1]))
            }
            given if given > most => {
                usage(format!("{} is one argument too many", self.plain[most]))
            }
            _ => Ok(&self.plain),
        }
    }

    pub fn output(&self) -> &str {
        self.get("-o").unwrap_or("-")
    }

    // The output of a command that makes a file.
    pub fn need_output(&self) -> Result<(), Failure> {
        match self.has("-o") {
            true => Ok(()),
            false => usage("-o FILE is missing"),
        }
    }

    pub fn key(&self) -> Result<Key, Failure> {
        match self.get("--key") {
            None | Some("service") => Ok(Key::Service),
            Some("colourist") => Ok(Key::Colourist),
            Some("operator") => Ok(Key::Operator),
            Some(other) => usage(format!(
                "--key {other} is not operator, colourist or service"
            )),
        }
    }

    // The degree that is named, if one is.
    pub fn degree(&self) -> Result<Option<u32>, Failure> {
        match self.get("--degree") {
            None => Ok(None),
            Some("3") => Ok(Some(3)),
            Some("5") => Ok(Some(5)),
            Some(other) => usage(format!("--degree {other} is not 3 or 5")),
        }
    }

    // The axis that an option names, if it is there.
    pub fn axis(&self, name: &str) -> Result<Option<u32>, Failure> {
        self.get(name).map(axis).transpose()
    }
}

// A minus sign by itself or before a number begins no option.
fn is_option(argument: &str) -> bool {
    let after = argument.strip_prefix('-');
    after.is_some_and(|after| {
        after.starts_with(|letter: char| letter == '-' || letter.is_ascii_alphabetic())
    }) && argument.parse::<f32>().is_err()
}

pub fn axis(letter: &str) -> Result<u32, Failure> {
    match letter {
        "x" => Ok(0),
        "y" => Ok(1),
        "z" => Ok(2),
        _ => usage(format!("{letter} is not one of the axes x, y, z")),
    }
}

// A number of a kind.
pub fn number<T: FromStr>(text: &str, kind: &str) -> Result<T, Failure> {
    let text = text.trim();
    text.parse()
        .or_else(|_| usage(format!("{text} is not {kind}")))
}

// One number for each used axis, the others `rest` where they are not given.
pub fn triple<T: FromStr + Copy>(
    parts: &[&str],
    axes: usize,
    rest: T,
    kind: &str,
) -> Result<[T; 3], Failure> {
    if parts.len() < axes {
        return usage(format!(
            "the table has {} and takes a number for each",
            words::axes(axes)
        ));
    }
    if parts.len() > 3 {
        return usage(format!("{} has more than three numbers", parts.join(",")));
    }
    let mut all = [rest; 3];
    for (place, part) in all.iter_mut().zip(parts) {
        *place = number(part, kind)?;
    }
    Ok(all)
}

pub const WHOLE: &str = "a whole number from 0 on";
pub const SIGNED: &str = "a whole number of steps";
pub const DECIMAL: &str = "a number of cells";

// Cell indices or steps within a cell, with commas between them.
pub fn cell(text: &str, axes: usize) -> Result<[u32; 3], Failure> {
    let parts: Vec<&str> = text.split(',').collect();
    triple(&parts, axes, 0, WHOLE)
}
