//! A table from decimal text.

use super::Command;
use crate::calls::Calls;
use crate::failure::{usage, Failure};
use crate::options::{self, Options};
use crate::table::Table;
use crate::{files, refusals};
use lukhtari::limits::NODES_MAX;
use lukhtari::Shape;

pub const COMMAND: Command = Command {
    name: "import",
    help: "\
Usage: lukhtari import TEXT --counts CX[,CY[,CZ]] -o TABLE [--edition 1|2]

Makes a table file from decimal text: one number in grams per kilogram for each node, x fastest, as
0.5 or 5e-1, with spaces, tabs or ends of lines between them. --counts has the number of nodes along
each axis, 2 to 64. The table is of edition one where none is named.
",
    options: &[("--counts", true), ("--edition", true)],
    run,
};

fn run(calls: &Calls, options: &Options) -> Result<Vec<u8>, Failure> {
    let path = &options.plain(1, 1)?[0];
    let shape = shape(options)?;
    options.need_output()?;
    let text = files::read(path, usize::MAX)?;
    let name = files::name(path);
    // Node counts that are not allowed are refused before any sample is written.
    let mut samples = vec![0; shape.nodes().min(NODES_MAX)];
    calls
        .import(shape, &text, &mut samples)
        .map_err(|refusal| refusals::of_text(&name, refusal, shape, &text))?;
    let form = lukhtari::Table {
        axes: shape.axes,
        counts: shape.counts,
        steps: shape.steps,
        second_edition: shape.second_edition,
    };
    let table = Table {
        name,
        form,
        samples,
    };
    table.bytes(calls)
}

fn shape(options: &Options) -> Result<Shape, Failure> {
    let Some(text) = options.get("--counts") else {
        return usage("--counts is missing");
    };
    let parts: Vec<&str> = text.split(',').collect();
    let counts = options::triple(&parts, parts.len().min(3), 1, options::WHOLE)?;
    let second_edition = match options.get("--edition") {
        None | Some("1") => false,
        Some("2") => true,
        Some(other) => return usage(format!("--edition {other} is not 1 or 2")),
    };
    Ok(Shape {
        second_edition,
        ..Shape::new(parts.len() as u32, 3, counts)
    })
}
