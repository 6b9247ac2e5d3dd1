//! Where two tables differ most.

use super::pool::pooled;
use super::{pair, show, Command};
use crate::calls::Calls;
use crate::failure::Failure;
use crate::options::Options;
use crate::progress::Progress;
use crate::refusals::{self, Asked};
use crate::survey::{self, Grid};
use crate::table::Table;
use crate::words;

pub const COMMAND: Command = Command {
    name: "diff",
    help: "\
Usage: lukhtari diff A B [--every STEPS]

Prints where two tables of one shape differ most: in samples, and for each degree in doses, in units,
the number of B less that of A and the first place of several that differ as much. Doses are compared
at the positions at which lukhtari show looks, and --every is the same.
",
    options: &[("--every", true)],
    run,
};

fn run(calls: &Calls, options: &Options) -> Result<Vec<u8>, Failure> {
    let every = show::every(options)?;
    let (a, b) = pair(calls, options)?;
    // Pooling says whether the shapes are one.
    pooled(calls, &a, &b, [1, 1]).map_err(|refusal| refusals::of_pair(&a, &b, refusal))?;
    let grid = Grid::fitting(a.form.counts, every);
    let mut text = samples(&a, &b);
    for degree in [3, 5] {
        text += &doses(calls, &a, &b, grid, degree)?;
    }
    Ok(text.into_bytes())
}

fn samples(a: &Table, b: &Table) -> String {
    let most = survey::difference(&a.samples, &b.samples);
    let node = words::indices(a.node(most.number), a.axes());
    let place = format!("at node {node}");
    line("samples", most.value, a.samples[most.number], &place)
}

fn doses(calls: &Calls, a: &Table, b: &Table, grid: Grid, degree: u32) -> Result<String, Failure> {
    let refused = |refusal| refusals::of_query(a, refusal, Asked::Position);
    let name = words::degree(degree);
    let records = [a.records(calls, degree)?, b.records(calls, degree)?];
    let mut progress = Progress::new(name, grid.positions());
    let both = [&records[0], &records[1]];
    let most = survey::dose_difference(calls, both, grid, &mut progress).map_err(refused)?;
    let at = grid.position(most.number);
    let from = calls.dose(&records[0], at).map_err(refused)?.value;
    let place = format!("at {}", words::position(at, a.axes()));
    Ok(line(name, most.value, from, &place))
}

// The difference, its place, and both numbers.
fn line(what: &str, difference: i32, from: i32, place: &str) -> String {
    match difference {
        0 => format!("{what:9}no difference\n"),
        _ => {
            let to = from + difference;
            format!("{what:9}{difference:+} {place}, from {from} to {to}\n")
        }
    }
}
