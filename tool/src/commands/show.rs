//! What a table is.

use super::Command;
use crate::calls::Calls;
use crate::failure::{usage, Failure};
use crate::options::Options;
use crate::progress::Progress;
use crate::survey::{self, Grid, Largest};
use crate::table::{Records, Table};
use crate::{refusals, words};
use lukhtari::limits::{estimate_limit, STEPS_MAX};
use lukhtari::Refusal;

pub const COMMAND: Command = Command {
    name: "show",
    help: "\
Usage: lukhtari show TABLE [--every STEPS]

Prints the axes of a table, its node counts, steps and edition, the range of its samples, and whether
estimation takes it; if not, the first sample in the way. Then for each degree the largest jump
between neighbouring doses and the steepest slope, the first of several that are as large.

Neighbouring doses are one step apart along one axis. A table with more than 4,194,304 positions is
looked at every 2, 4, .. or 256 steps, the fewest that give no more positions, and neighbours are
that far apart; --every 1, 2, 4, .. or 256 says how many.
",
    options: &[("--every", true)],
    run,
};

fn run(calls: &Calls, options: &Options) -> Result<Vec<u8>, Failure> {
    let path = &options.plain(1, 1)?[0];
    let every = every(options)?;
    let table = Table::read(calls, path)?;
    let grid = Grid::fitting(table.form.counts, every);
    let mut text = form(&table);
    match table.estimate(calls, 3) {
        Ok(_) => {
            let limit = estimate_limit(table.form.axes);
            text += &format!("estimation  takes it: no sample is beyond {limit}\n");
            text += &heading(grid);
            for degree in [3, 5] {
                text += &extremes(calls, &table, grid, degree)?;
            }
        }
        Err(refusal) if refusal.number == Refusal::BEYOND_ESTIMATE_LIMIT => {
            let reason = refusals::samples_reason(&table, refusal);
            text += &format!("estimation  refuses it: {reason}\n");
        }
        Err(refusal) => return Err(refusals::of_samples(&table, refusal)),
    }
    Ok(text.into_bytes())
}

// The steps between positions that are looked at, if they are named.
pub fn every(options: &Options) -> Result<Option<u32>, Failure> {
    let Some(text) = options.get("--every") else {
        return Ok(None);
    };
    match text.parse() {
        Ok(every) if every <= STEPS_MAX && u32::is_power_of_two(every) => Ok(Some(every)),
        _ => usage(format!("--every {text} is not 1, 2, 4, .. or 256")),
    }
}

// Axes, node counts, steps, edition and samples.
fn form(table: &Table) -> String {
    let axes = table.axes();
    let form = &table.form;
    let rule = match form.second_edition {
        true => "halves go to the even number",
        false => "halves go up",
    };
    format!(
        "table       {}\naxes        {axes}: {}\nnodes       {}\nsteps       {} a cell\n\
         edition     {}: {rule}\nsamples     {}\n",
        table.name,
        words::AXES[..axes].join(", "),
        words::by(form.counts, axes),
        words::by(form.steps, axes),
        words::edition(form.second_edition),
        samples(table),
    )
}

// The range of samples, with the first nodes that have its ends.
fn samples(table: &Table) -> String {
    let least = table.samples.iter().copied().min().unwrap_or(0);
    let most = table.samples.iter().copied().max().unwrap_or(0);
    let place = |sample: i32| {
        let number = table.samples.iter().position(|&other| other == sample);
        words::indices(table.node(number.unwrap_or(0)), table.axes())
    };
    if least == most {
        return format!("all {least}");
    }
    format!(
        "from {least} at node {} to {most} at node {}",
        place(least),
        place(most)
    )
}

fn heading(grid: Grid) -> String {
    match grid.every {
        1 => "doses       at every step\n".to_string(),
        every => format!("doses       at every {every} steps\n"),
    }
}

// The largest jump and the steepest slope in a degree.
fn extremes(calls: &Calls, table: &Table, grid: Grid, degree: u32) -> Result<String, Failure> {
    let records = table.records(calls, degree)?;
    let refused = |refusal| refusals::of_query(table, refusal, refusals::Asked::Position);
    let name = words::degree(degree);
    let mut progress = Progress::new(name, 2 * grid.positions());
    let jump = survey::jump(calls, &records, grid, &mut progress).map_err(refused)?;
    let slope = survey::steepest(calls, &records, grid, &mut progress).map_err(refused)?;
    Ok(format!(
        "{name:12}{}\n{:12}{}\n",
        jump_text(jump, grid, &records),
        "",
        slope_text(slope, grid, &records)
    ))
}

fn jump_text(jump: Largest, grid: Grid, records: &Records) -> String {
    if jump.value == 0 {
        return "no jump: all doses are the same".to_string();
    }
    let axes = records.shape.axes as usize;
    let from = grid.position(jump.number);
    let mut to = from;
    to[jump.axis] += grid.every as i32;
    format!(
        "largest jump {}, from {} to {}",
        words::units(jump.value),
        words::position(from, axes),
        words::position(to, axes)
    )
}

fn slope_text(slope: Largest, grid: Grid, records: &Records) -> String {
    if slope.value == 0 {
        return "no slope".to_string();
    }
    format!(
        "steepest slope {} a cell, along {} at {}",
        words::units(slope.value),
        words::AXES[slope.axis],
        words::position(grid.position(slope.number), records.shape.axes as usize)
    )
}
