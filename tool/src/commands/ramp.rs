//! Doses along a line.

use super::ask::nearest;
use super::Command;
use crate::calls::{Calls, LOADING};
use crate::failure::{usage, Failure};
use crate::options::{self, Options, DECIMAL, SIGNED};
use crate::table::{Records, Table};
use crate::{refusals, words};
use lukhtari::limits::RAMP_MAX;
use lukhtari::Refusal;

pub const COMMAND: Command = Command {
    name: "ramp",
    help: "\
Usage: lukhtari ramp TABLE FROM TO COUNT [--steps] [--degree 3|5]

Prints COUNT doses, at most 256, at even distances from one position to another, in units. FROM and
TO are positions X, X,Y or X,Y,Z in cells, with --steps in whole steps; the positions between them
are the nearest steps. Each line has a position in cells and its dose. The degree is 3 where none is
named.
",
    options: &[("--steps", false), ("--degree", true)],
    run,
};

fn run(calls: &Calls, options: &Options) -> Result<Vec<u8>, Failure> {
    let arguments = options.plain(4, 4)?;
    let degree = options.degree()?.unwrap_or(3);
    let count: usize = options::number(&arguments[3], options::WHOLE)?;
    let table = Table::read(&LOADING, &arguments[0])?;
    let from = end(options, &arguments[1], table.axes())?;
    let to = end(options, &arguments[2], table.axes())?;
    let records = table.records(&LOADING, degree)?;
    // One position more than the library takes is refused as any larger number is.
    let at: Vec<[i32; 3]> = (0..count.min(RAMP_MAX + 1))
        .map(|index| between(from, to, index, count))
        .collect();
    let mut doses = vec![0; at.len()];
    calls
        .ramp(&records, &at, &mut doses)
        .map_err(|refusal| refused(calls, &table, &records, &at, refusal))?;
    let mut text = String::new();
    for (at, dose) in at.iter().zip(&doses) {
        let cells: Vec<String> = at[..table.axes()]
            .iter()
            .map(|&p| words::cells(p))
            .collect();
        text += &format!("{} {dose}\n", cells.join(" "));
    }
    Ok(text.into_bytes())
}

// An end of the line, in steps.
fn end(options: &Options, text: &str, axes: usize) -> Result<[i32; 3], Failure> {
    let parts: Vec<&str> = text.split(',').collect();
    if options.has("--steps") {
        return options::triple(&parts, axes, 0, SIGNED);
    }
    let cells: [f32; 3] = options::triple(&parts, axes, 0.0, DECIMAL)?;
    match cells.iter().all(|cells| cells.is_finite()) {
        true => Ok(nearest(cells)),
        false => usage(format!("{text} is not finite")),
    }
}

// The step nearest to a place between two ends, halves up.
fn between(from: [i32; 3], to: [i32; 3], index: usize, count: usize) -> [i32; 3] {
    let parts = count.saturating_sub(1).max(1) as i128;
    [0, 1, 2].map(|axis| {
        let (from, to) = (i128::from(from[axis]), i128::from(to[axis]));
        let twice = 2 * (to - from) * index as i128 + parts;
        (from + twice.div_euclid(2 * parts)) as i32
    })
}

// A refusal; one of a position has that position's own reason.
fn refused(
    calls: &Calls,
    table: &Table,
    records: &Records,
    at: &[[i32; 3]],
    refusal: Refusal,
) -> Failure {
    let of_position = [
        Refusal::POSITION_BEYOND,
        Refusal::POSITION_BELOW_ZERO,
        Refusal::POSITION_UNUSED_AXIS,
    ];
    if !of_position.contains(&refusal.number) {
        return refusals::of_ramp(table, refusal, None);
    }
    let at = at[refusal.place as usize];
    let own = calls.dose(records, at).err().unwrap_or(refusal);
    refusals::of_ramp(table, refusal, Some((at, own)))
}
