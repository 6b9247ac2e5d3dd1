//! The command `lukhtari`: tables of doses shown, asked, drawn and made. Every answer comes from the
//! library's proved calls, and refusals are said in words.

mod calls;
mod commands;
mod exact;
mod failure;
mod files;
mod options;
mod picture;
mod progress;
mod refusals;
mod survey;
mod table;
mod words;

use calls::Calls;
use commands::{Command, COMMANDS};
use failure::{usage, Failure};
use options::Options;
use std::env;
use std::process::ExitCode;

const HELP: &str = "\
Usage: lukhtari COMMAND ...

  show TABLE                  what a table is, its largest jump and its steepest slope
  ask TABLE X [Y [Z]]         a dose, slope or curvature
  ramp TABLE FROM TO COUNT    doses along a line
  total TABLE [BOX]           the integral of the dose over cells
  powers TABLE CELL           the coefficients of powers of x and y
  import TEXT -o TABLE        a table from decimal text
  export TABLE                decimal text from a table
  pool A B -o TABLE           two tables pooled by weight
  diff A B                    where two tables differ most
  draw TABLE -o PICTURE       a picture of a table

lukhtari COMMAND --help says more of each. TABLE is a table file; - is standard input, or after -o
standard output, which is where answers go without -o. Samples, doses and slopes are in units, which
are hundredths of a gram per kilogram; positions are in cells, so that node 3 is at 3.

Every command takes --key operator|colourist|service, before it or behind it, whose rights it has;
without it those of service. Doses, slopes, ramps and pictures take the operator's rights: to be
asked or drawn a table is loaded with service's key, whichever is named. show, import, export, pool
and diff take the colourist's rights; curvatures, --explain, total and powers those of service.

Exit status: 0 done; 1 refused, with the reason; 2 the usage is wrong, or a file could not be read or
written. What is refused writes nothing.
";

fn main() -> ExitCode {
    let arguments: Result<Vec<String>, _> =
        env::args_os().skip(1).map(|a| a.into_string()).collect();
    let done = match arguments {
        Ok(arguments) => run(arguments),
        Err(other) => usage(format!("{} is no text", other.to_string_lossy())),
    };
    match done {
        Ok(()) => ExitCode::SUCCESS,
        Err(failure) => {
            eprintln!("lukhtari: {}", failure.text());
            ExitCode::from(failure.status())
        }
    }
}

// How many of the first arguments name a key.
fn key_arguments(arguments: &[String]) -> usize {
    match arguments.first() {
        Some(first) if first == "--key" => 2,
        Some(first) if first.starts_with("--key=") => 1,
        _ => 0,
    }
}

fn run(mut arguments: Vec<String>) -> Result<(), Failure> {
    let key = key_arguments(&arguments);
    if arguments.len() <= key {
        return usage("a command is missing");
    }
    // A key that is named before the command goes behind it.
    arguments[..=key].rotate_right(1);
    let (name, rest) = (&arguments[0], &arguments[1..]);
    if is_help(name) {
        return files::write("-", HELP.as_bytes());
    }
    let Some(command) = COMMANDS.iter().find(|command| command.name == name) else {
        return usage(format!("there is no command {name}"));
    };
    if rest
        .iter()
        .take_while(|argument| *argument != "--")
        .any(|argument| is_help(argument))
    {
        return files::write("-", command.help.as_bytes());
    }
    answer(command, rest)
}

fn is_help(argument: &str) -> bool {
    argument == "--help" || argument == "-h"
}

// Runs a command; its output is written once it is whole.
fn answer(command: &Command, arguments: &[String]) -> Result<(), Failure> {
    let options = Options::parse(arguments, command.options)?;
    let calls = Calls::new(options.key()?);
    let bytes = (command.run)(&calls, &options)?;
    files::write(options.output(), &bytes)
}
