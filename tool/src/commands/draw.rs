//! A picture of a table.

use super::ask::nearest;
use super::Command;
use crate::calls::{Calls, LOADING};
use crate::failure::{usage, Failure};
use crate::options::{self, Options};
use crate::picture::curves::{Curve, Curves};
use crate::picture::shades::{Shades, Side};
use crate::picture::Shown;
use crate::refusals::{self, Asked};
use crate::survey::Grid;
use crate::table::{Records, Table};
use crate::{files, words};
use lukhtari::limits::RAMP_MAX;
use lukhtari::Refusal;

pub const COMMAND: Command = Command {
    name: "draw",
    help: "\
Usage: lukhtari draw TABLE -o PICTURE.svg [--degree 3|5] [--slice AXIS=CELLS] [--slope AXIS]

Draws a table of one axis as curves of its doses, cubic and quintic or in the degree that is named,
with the samples as points and straight lines between them for comparison. A table of two axes, or a
slice of one of three, is drawn as shades of its doses, darker where they are larger, with rings at
the nodes, short lines beside them where they are many, and a scale; the degree is 3 where none is
named. --slice z=1.5 is the plane where z is 1.5 cells, at the nearest step.

--slope x, y or z draws slopes along an axis in place of doses; as shades red is above 0, blue below.
",
    options: &[("--degree", true), ("--slice", true), ("--slope", true)],
    run,
};

// Most positions of a curve.
const MOST: usize = 1300;

fn run(calls: &Calls, options: &Options) -> Result<Vec<u8>, Failure> {
    let path = &options.plain(1, 1)?[0];
    let degree = options.degree()?;
    let shown = options.axis("--slope")?.map_or(Shown::Dose, Shown::Slope);
    options.need_output()?;
    let slice = options.get("--slice").map(slice).transpose()?;
    let table = Table::read(&LOADING, path)?;
    let picture = match (table.axes(), slice) {
        (1, None) => curves(calls, &table, degree, shown),
        (2, None) => shades(calls, &table, degree.unwrap_or(3), shown, None),
        (3, Some(slice)) => shades(calls, &table, degree.unwrap_or(3), shown, Some(slice)),
        (3, None) => usage("a table of three axes is drawn as a slice, as --slice z=1.5"),
        (axes, Some(_)) => usage(format!(
            "--slice is for three axes, and the table has {}",
            words::axes(axes)
        )),
        _ => usage("the table has no axes"),
    }?;
    Ok(picture.into_bytes())
}

// The axis of a slice and its position in steps.
fn slice(text: &str) -> Result<(usize, i32), Failure> {
    let Some((letter, cells)) = text.split_once('=') else {
        return usage(format!(
            "--slice {text} is not an axis, an equals sign and a position"
        ));
    };
    let axis = options::axis(letter)? as usize;
    let cells: f32 = options::number(cells, options::DECIMAL)?;
    match cells.is_finite() {
        true => Ok((axis, nearest([cells; 3])[axis])),
        false => usage(format!("{text} is not finite")),
    }
}

fn curves(
    calls: &Calls,
    table: &Table,
    degree: Option<u32>,
    shown: Shown,
) -> Result<String, Failure> {
    let grid = Grid::at_most(table.form.counts, MOST);
    let at: Vec<[i32; 3]> = (0..grid.positions())
        .map(|number| grid.position(number))
        .collect();
    let mut curves = Vec::new();
    for degree in degree.map_or(vec![3, 5], |degree| vec![degree]) {
        let records = table.records(&LOADING, degree)?;
        let values = values(calls, table, &records, &at, shown)?;
        curves.push(Curve { degree, values });
    }
    let picture = Curves {
        title: title(table, None, None),
        samples: &table.samples,
        every: grid.every,
        curves,
        shown,
    };
    Ok(picture.draw())
}

fn shades(
    calls: &Calls,
    table: &Table,
    degree: u32,
    shown: Shown,
    slice: Option<(usize, i32)>,
) -> Result<String, Failure> {
    let mut sides = (0..table.axes()).filter(|&axis| slice.map(|slice| slice.0) != Some(axis));
    let mut side = |most, pixels| {
        let axis = sides.next().expect("two axes");
        Side::new(axis, table.form.counts[axis], most, pixels)
    };
    let (across, up) = (side(160, 480), side(120, 360));
    let mut at = Vec::new();
    for row in 0..up.number() {
        for column in 0..across.number() {
            let mut position = [0; 3];
            position[across.axis] = (column * across.every()) as i32;
            position[up.axis] = (row * up.every()) as i32;
            if let Some((axis, step)) = slice {
                position[axis] = step;
            }
            at.push(position);
        }
    }
    let records = table.records(&LOADING, degree)?;
    let picture = Shades {
        title: title(table, Some(degree), slice),
        across,
        up,
        values: values(calls, table, &records, &at, shown)?,
        shown,
    };
    Ok(picture.draw())
}

fn title(table: &Table, degree: Option<u32>, slice: Option<(usize, i32)>) -> String {
    let degree = degree.map(|degree| format!(", {}", words::degree(degree)));
    let slice =
        slice.map(|(axis, step)| format!(", {} = {}", words::AXES[axis], words::cells(step)));
    format!(
        "{}{}, edition {}{}",
        files::last_part(&table.name),
        degree.unwrap_or_default(),
        words::edition(table.form.second_edition),
        slice.unwrap_or_default()
    )
}

// The doses or slopes at a list of positions.
fn values(
    calls: &Calls,
    table: &Table,
    records: &Records,
    at: &[[i32; 3]],
    shown: Shown,
) -> Result<Vec<i32>, Failure> {
    let answers = || -> Result<Vec<i32>, Refusal> {
        if let Shown::Slope(axis) = shown {
            return at
                .iter()
                .map(|&at| calls.slope(records, at, axis))
                .collect();
        }
        // A position outside the table is refused here, with its axis.
        calls.dose(records, at[0])?;
        let mut doses = vec![0; at.len()];
        for (at, out) in at.chunks(RAMP_MAX).zip(doses.chunks_mut(RAMP_MAX)) {
            calls.ramp(records, at, out)?;
        }
        Ok(doses)
    };
    answers().map_err(|refusal| refusals::of_query(table, refusal, Asked::Position))
}
