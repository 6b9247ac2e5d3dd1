//! How an answer comes about.

use super::ask::{nearest, Want, Where};
use crate::calls::Calls;
use crate::exact::{Exact, Orders};
use crate::failure::Failure;
use crate::refusals::{self, Asked};
use crate::table::{Records, Table};
use crate::words;
use lukhtari::Refusal;

// Distances within which answers lie of the exact interpolant, on 1, 2 and 3 axes.
const DOSE: [&str; 3] = ["1/2", "37/64", "173/256"];
const SLOPE: [&str; 3] = ["1/2", "13/16", "77/64"];
const CURVATURE: [&str; 3] = ["1/2", "3/2", "11/4"];

// The text of an answer that was given.
pub fn explain(
    calls: &Calls,
    table: &Table,
    records: &Records,
    at: Where,
    want: Want,
    value: i32,
) -> Result<Vec<u8>, Failure> {
    let refused = |refusal| refusals::of_query(table, refusal, Asked::Cell);
    let (cell, u) = within(table, at);
    let mark = mark(calls, records, at, want).map_err(refused)?;
    let exact = exact(calls, records, cell, u, want).map_err(refused)?;
    let mut text = answer(records.shape.degree, want, value, mark);
    text += &location(table, cell, u);
    text += &corners(table, cell);
    text += &format!("exact      {exact}, about {:.4}\n", exact.near());
    let allowed = allowed(want)[table.axes() - 1];
    let distance = exact.distance(value);
    text += &format!("distance   {distance}, and {allowed} is allowed\n");
    Ok(text.into_bytes())
}

// The cell that is read and the steps within it.
fn within(table: &Table, at: Where) -> ([u32; 3], [u32; 3]) {
    let at = match at {
        Where::Cell(cell, u) => return (cell, u),
        Where::Cells(at) => nearest(at),
        Where::Steps(at) => at,
    };
    let (steps, last) = (table.form.steps, table.last_cell());
    let cell = [0, 1, 2].map(|axis| (at[axis] as u32 / steps[axis]).min(last[axis]));
    let u = [0, 1, 2].map(|axis| at[axis] as u32 - steps[axis] * cell[axis]);
    (cell, u)
}

// The mark of a dose; other answers have none.
fn mark(calls: &Calls, of: &Records, at: Where, want: Want) -> Result<Option<bool>, Refusal> {
    let dose = match (want, at) {
        (Want::Dose, Where::Cell(cell, u)) => calls.dose_in_cell(of, cell, u)?,
        (Want::Dose, Where::Steps(at)) => calls.dose(of, at)?,
        (Want::Dose, Where::Cells(at)) => calls.dose(of, nearest(at))?,
        _ => return Ok(None),
    };
    Ok(Some(dose.exact))
}

// The exact interpolant, from the cell's coefficients.
fn exact(
    calls: &Calls,
    of: &Records,
    cell: [u32; 3],
    u: [u32; 3],
    want: Want,
) -> Result<Exact, Refusal> {
    let mut coefficients = vec![0; of.shape.coefficients()];
    calls.coefficients(of, cell, &mut coefficients)?;
    Ok(Exact::new(of.shape, &coefficients, u, orders(want)))
}

fn orders(want: Want) -> Orders {
    let mut orders = [0; 3];
    match want {
        Want::Dose => {}
        Want::Slope(axis) => orders[axis as usize] = 1,
        Want::Curvature(axis) => orders[axis as usize] = 2,
    }
    orders
}

fn allowed(want: Want) -> [&'static str; 3] {
    match want {
        Want::Dose => DOSE,
        Want::Slope(_) => SLOPE,
        Want::Curvature(_) => CURVATURE,
    }
}

fn answer(degree: u32, want: Want, value: i32, mark: Option<bool>) -> String {
    let degree = words::degree(degree);
    let axis = |axis: u32| words::axis(u64::from(axis));
    let units = words::units(value);
    match want {
        Want::Dose => {
            let mark = if mark == Some(true) {
                "exact"
            } else {
                "rounded"
            };
            let grams = words::grams(value);
            format!("dose       {units}, {grams} g/kg, {degree}, marked {mark}\n")
        }
        Want::Slope(along) => {
            format!(
                "slope      {units} per cell along {}, {degree}\n",
                axis(along)
            )
        }
        Want::Curvature(along) => {
            let along = axis(along);
            format!("curvature  {units} per cell squared along {along}, {degree}\n")
        }
    }
}

// Position, cell and steps.
fn location(table: &Table, cell: [u32; 3], u: [u32; 3]) -> String {
    let axes = table.axes();
    let steps = table.form.steps;
    let at = [0, 1, 2].map(|axis| (steps[axis] * cell[axis] + u[axis]) as i32);
    format!(
        "position   {}\ncell       {}\nsteps      {} of {}\n",
        words::position(at, axes),
        words::indices(cell, axes),
        words::indices(u, axes),
        words::by(steps, axes)
    )
}

// The samples at the corners of a cell, x fastest.
fn corners(table: &Table, cell: [u32; 3]) -> String {
    let mut text = String::new();
    for corner in 0..1 << table.axes() {
        let label = if corner == 0 { "corners" } else { "" };
        let node = [0, 1, 2].map(|axis| cell[axis] + (corner >> axis & 1));
        let sample = table.sample(node);
        let node = words::indices(node, table.axes());
        text += &format!("{label:11}{sample} at node {node}\n");
    }
    text
}
