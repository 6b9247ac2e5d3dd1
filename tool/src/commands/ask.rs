//! A dose, slope or curvature at one place.

use super::{explain, Command};
use crate::calls::{Calls, LOADING};
use crate::failure::{usage, Failure};
use crate::options::{self, Options, DECIMAL, SIGNED};
use crate::refusals::{self, Asked};
use crate::table::{Records, Table};
use lukhtari::limits::STEPS_MAX;
use lukhtari::Refusal;

pub const COMMAND: Command = Command {
    name: "ask",
    help: "\
Usage: lukhtari ask TABLE X [Y [Z]] [--steps] [--degree 3|5] [--slope AXIS | --curvature AXIS]
                    [--explain]
       lukhtari ask TABLE --cell I[,J[,K]] --u U[,V[,W]] ...

Prints the dose at a position, in units. X, Y and Z are in cells, and the nearest of the 256 steps a
cell is taken; with --steps they are whole steps. --cell and --u name a cell and the steps within it.

--slope x, y or z prints the slope along an axis, in units per cell, and --curvature the second
derivative, in units per cell squared. The degree is 3 where none is named, 5 for a curvature.

--explain prints the answer with its mark, the position, the cell, the samples at its corners, the
exact interpolant as a fraction, and how far the answer is from it and may be.
",
    options: &[
        ("--steps", false),
        ("--cell", true),
        ("--u", true),
        ("--degree", true),
        ("--slope", true),
        ("--curvature", true),
        ("--explain", false),
    ],
    run,
};

// What is asked for, with its axis.
#[derive(Clone, Copy)]
pub enum Want {
    Dose,
    Slope(u32),
    Curvature(u32),
}

// Where it is asked for.
#[derive(Clone, Copy)]
pub enum Where {
    Cells([f32; 3]),
    Steps([i32; 3]),
    Cell([u32; 3], [u32; 3]),
}

fn run(calls: &Calls, options: &Options) -> Result<Vec<u8>, Failure> {
    let arguments = options.plain(1, 4)?;
    let want = want(options)?;
    let degree = options.degree()?.unwrap_or(match want {
        Want::Curvature(_) => 5,
        _ => 3,
    });
    let table = Table::read(&LOADING, &arguments[0])?;
    let at = where_asked(options, &arguments[1..], table.axes())?;
    let records = table.records(&LOADING, degree)?;
    let asked = match at {
        Where::Cell(..) => Asked::Cell,
        _ => Asked::Position,
    };
    let refused = |refusal| refusals::of_query(&table, refusal, asked);
    let value = value(calls, &records, at, want).map_err(refused)?;
    if options.has("--explain") {
        return explain::explain(calls, &table, &records, at, want, value);
    }
    Ok(format!("{value}\n").into_bytes())
}

fn want(options: &Options) -> Result<Want, Failure> {
    match (options.axis("--slope")?, options.axis("--curvature")?) {
        (None, None) => Ok(Want::Dose),
        (Some(axis), None) => Ok(Want::Slope(axis)),
        (None, Some(axis)) => Ok(Want::Curvature(axis)),
        _ => usage("--slope and --curvature are two questions"),
    }
}

fn where_asked(options: &Options, at: &[String], axes: usize) -> Result<Where, Failure> {
    let parts: Vec<&str> = at.iter().map(String::as_str).collect();
    match (options.get("--cell"), options.get("--u")) {
        (None, None) if options.has("--steps") => {
            Ok(Where::Steps(options::triple(&parts, axes, 0, SIGNED)?))
        }
        (None, None) => Ok(Where::Cells(options::triple(&parts, axes, 0.0, DECIMAL)?)),
        (Some(cell), Some(u)) if at.is_empty() && !options.has("--steps") => {
            let (cell, u) = (options::cell(cell, axes)?, options::cell(u, axes)?);
            Ok(Where::Cell(cell, u))
        }
        (Some(_), Some(_)) => usage("--cell and --u stand in place of a position"),
        _ => usage("--cell and --u stand together"),
    }
}

// The answer's whole number.
fn value(calls: &Calls, of: &Records, at: Where, want: Want) -> Result<i32, Refusal> {
    match (at, want) {
        (Where::Cells(at), Want::Dose) => Ok(calls.dose_float(of, at)? as i32),
        (Where::Cells(at), Want::Slope(axis)) => Ok(calls.slope_float(of, at, axis)? as i32),
        (Where::Cells(at), Want::Curvature(axis)) => {
            // There is no curvature by float; after 30 the dose tells a position not taken.
            let curvature = calls.curvature(of, nearest(at), axis);
            match curvature {
                Err(refusal) if refusal.number == Refusal::KEY => curvature,
                _ => calls.dose_float(of, at).and(curvature),
            }
        }
        (Where::Steps(at), Want::Dose) => Ok(calls.dose(of, at)?.value),
        (Where::Steps(at), Want::Slope(axis)) => calls.slope(of, at, axis),
        (Where::Steps(at), Want::Curvature(axis)) => calls.curvature(of, at, axis),
        (Where::Cell(cell, u), Want::Dose) => Ok(calls.dose_in_cell(of, cell, u)?.value),
        (Where::Cell(cell, u), Want::Slope(axis)) => calls.slope_in_cell(of, cell, u, axis),
        (Where::Cell(cell, u), Want::Curvature(axis)) => calls.curvature_in_cell(of, cell, u, axis),
    }
}

// The steps nearest to a position in cells, halves up.
pub fn nearest(at: [f32; 3]) -> [i32; 3] {
    at.map(|cells| (f64::from(cells) * f64::from(STEPS_MAX) + 0.5).floor() as i32)
}
