//! The coefficients of powers of x and y.

use super::Command;
use crate::calls::{Calls, LOADING};
use crate::failure::Failure;
use crate::options::{self, Options};
use crate::refusals::{self, Asked};
use crate::table::Table;
use crate::words;
use lukhtari::limits::POWER_COEFFICIENTS;

pub const COMMAND: Command = Command {
    name: "powers",
    help: "\
Usage: lukhtari powers TABLE CELL

Prints the coefficients of powers of x and y of a cell of a two-axis table, cubic, in units: powers of
x from 0 to 3 from left to right, of y from 0 to 3 downwards. x and y run from 0 to 1 in the cell.
CELL is I,J. The numbers are whole quarters and exact.
",
    options: &[],
    run,
};

fn run(calls: &Calls, options: &Options) -> Result<Vec<u8>, Failure> {
    let arguments = options.plain(2, 2)?;
    let table = Table::read(&LOADING, &arguments[0])?;
    let cell = options::cell(&arguments[1], table.axes())?;
    let records = table.records(&LOADING, 3)?;
    let mut numbers = [0; POWER_COEFFICIENTS];
    calls
        .powers(&records, cell, &mut numbers)
        .map_err(|refusal| refusals::of_query(&table, refusal, Asked::Cell))?;
    let texts: Vec<String> = numbers.iter().map(|&number| quarters(number)).collect();
    let mut lines = words::columns(&texts, 4);
    lines.push('\n');
    Ok(lines.into_bytes())
}

// A number of quarters as a decimal number.
fn quarters(number: i32) -> String {
    (f64::from(number) / 4.0).to_string()
}
