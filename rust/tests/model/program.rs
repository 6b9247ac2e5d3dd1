//! The program's output for its whole input.

use super::estimate::estimate;
use super::file::{read, Table};
use super::query::{query, Where};
use super::shape::*;
use super::stages::Want;
use std::fmt::Write;

// Nodes and bytes that the program holds.
pub const NODES: usize = 512;
pub const BYTES: usize = 4096;

pub fn output(input: &[u8]) -> String {
    match cell_lines(input) {
        Ok(lines) => lines,
        Err(refusal) => format!("refused {}\n", refusal.number),
    }
}

// One line for each cell, x fastest.
fn cell_lines(input: &[u8]) -> Answer<String> {
    refuse_unless(input.len() <= BYTES, 9, 0)?;
    let table = read(input, NODES)?;
    let used = |axis: usize| axis < table.axes as usize;
    let cells = [0, 1, 2].map(|axis| match used(axis) {
        true => table.counts[axis] as usize - 1,
        false => 1,
    });
    let u = [0, 1, 2].map(|axis| if used(axis) { table.steps[axis] / 2 } else { 0 });
    let (cubic, quintic) = (Estimated::new(&table, 3)?, Estimated::new(&table, 5)?);
    let mut text = String::new();
    for [x, y, z] in indices(cells) {
        let at = Where::Cell([x, y, z].map(|index| index as u32), u);
        let (a, b) = (cubic.dose(at)?, quintic.dose(at)?);
        writeln!(text, "{x} {y} {z} {a} {b}").expect("text");
    }
    Ok(text)
}

// A table's records of one degree.
struct Estimated {
    shape: Shape,
    records: Vec<i32>,
}

impl Estimated {
    fn new(table: &Table, degree: u32) -> Answer<Estimated> {
        let shape = Shape::new(table.axes, degree, table.counts)
            .in_steps(table.steps)
            .in_edition(table.second_edition);
        let records = estimate(&shape, &table.samples, shape.entries())?;
        Ok(Estimated { shape, records })
    }

    fn dose(&self, at: Where) -> Answer<i32> {
        query(&self.shape, &self.records, at, Want::Dose)
    }
}
