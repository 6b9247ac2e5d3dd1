//! Decimal text from a table.

use super::Command;
use crate::calls::Calls;
use crate::failure::Failure;
use crate::options::Options;
use crate::table::Table;
use crate::words;

pub const COMMAND: Command = Command {
    name: "export",
    help: "\
Usage: lukhtari export TABLE [-o TEXT]

Prints the samples of a table as decimal text in grams per kilogram: a line for each row along x, and
an empty line before each further plane. lukhtari import makes the same table of it, given the same
node counts and edition, which lukhtari show tells.
",
    options: &[],
    run,
};

fn run(calls: &Calls, options: &Options) -> Result<Vec<u8>, Failure> {
    let table = Table::read(calls, &options.plain(1, 1)?[0])?;
    let [x, y, _] = table.form.counts.map(|count| count as usize);
    let texts: Vec<String> = table
        .samples
        .iter()
        .map(|&sample| words::grams(sample))
        .collect();
    let lines = words::columns(&texts, x);
    let rows: Vec<&str> = lines.lines().collect();
    let planes: Vec<String> = rows.chunks(y).map(|plane| plane.join("\n")).collect();
    Ok((planes.join("\n\n") + "\n").into_bytes())
}
