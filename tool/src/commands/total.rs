//! The integral of the dose over cells.

use super::Command;
use crate::calls::{Calls, LOADING};
use crate::failure::Failure;
use crate::options::{self, Options};
use crate::refusals::{self, Asked};
use crate::table::Table;
use crate::words;
use lukhtari::limits::total_divisor;

pub const COMMAND: Command = Command {
    name: "total",
    help: "\
Usage: lukhtari total TABLE [BOX] [--degree 3|5]

Prints the integral of the dose over a table or over a box of its cells, each of which has the size
1, as an exact fraction and as the numerator and divisor of the library, and the mean dose. BOX is
FIRST:LAST, the indices of its first and last cell, as 0,0:2,1; one cell is named by itself. The
degree is 3 where none is named.
",
    options: &[("--degree", true)],
    run,
};

fn run(calls: &Calls, options: &Options) -> Result<Vec<u8>, Failure> {
    let arguments = options.plain(1, 2)?;
    let degree = options.degree()?.unwrap_or(3);
    let table = Table::read(&LOADING, &arguments[0])?;
    let (first, last) = match arguments.get(1) {
        Some(text) => corners(text, table.axes())?,
        None => ([0; 3], table.last_cell()),
    };
    let records = table.records(&LOADING, degree)?;
    let total = calls
        .box_total(&records, first, last)
        .map_err(|refusal| refusals::of_query(&table, refusal, Asked::Cell))?;
    let divisor = total_divisor(table.form.axes, degree);
    let cells: u128 = [0, 1, 2]
        .map(|axis| u128::from(last[axis] - first[axis]) + 1)
        .iter()
        .product();
    let text = format!(
        "total  {} times cells, {total}/{divisor}\nmean   {}\n",
        words::units(words::mixed(total.into(), divisor as u128)),
        words::units(words::mixed(total.into(), divisor as u128 * cells))
    );
    Ok(text.into_bytes())
}

// The first and the last cell of a box.
fn corners(text: &str, axes: usize) -> Result<([u32; 3], [u32; 3]), Failure> {
    let (first, last) = text.split_once(':').unwrap_or((text, text));
    Ok((options::cell(first, axes)?, options::cell(last, axes)?))
}
