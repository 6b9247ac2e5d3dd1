//! Totals of boxes, in nanoseconds a cell.

use super::clock::{side_by_side, Run};
use super::hand::totals as by_hand;
use super::inputs::{cube, estimable, KINDS};
use super::report::{heading, kind, line};
use lukhtari::{box_total, cell_total, estimate, Key, Refusal, Shape};

type Call = fn(Shape, &[i32], [u32; 3], [u32; 3]) -> Result<i64, Refusal>;

const CALLS: [Call; 3] = [
    |shape, records, first, last| box_total(Key::Service, shape, records, first, last),
    by_hand::box_total,
    cell_by_cell,
];

// The same by a call for each cell.
fn cell_by_cell(
    shape: Shape,
    records: &[i32],
    first: [u32; 3],
    last: [u32; 3],
) -> Result<i64, Refusal> {
    let mut sum = 0;
    for z in first[2]..=last[2] {
        for y in first[1]..=last[1] {
            for x in first[0]..=last[0] {
                sum += cell_total(Key::Service, shape, records, [x, y, z])?;
            }
        }
    }
    Ok(sum)
}

// Whole tables of the largest size, then of one cell.
pub fn run() {
    for (title, count) in [("whole tables", 64), ("tables of one cell", 2)] {
        let title = format!("Totals of {title}, a cell");
        heading(&title, &["library", "by hand", "cell by cell"]);
        for (degree, axes) in KINDS {
            table(cube(degree, axes, count));
        }
    }
}

fn table(shape: Shape) {
    let mut records = vec![0; shape.entries()];
    estimate(Key::Service, shape, &estimable(shape), &mut records).expect("accepted table");
    let records = &records;
    let last = [0, 1, 2].map(|axis| shape.counts[axis].saturating_sub(2));
    let totals = CALLS.map(|call| call(shape, records, [0; 3], last));
    assert_eq!([totals[0]; 2], [totals[1], totals[2]]);
    let run = |call: Call| -> Run {
        Box::new(move || call(shape, records, [0; 3], last).expect("accepted box"))
    };
    let cells: usize = last.iter().map(|&index| index as usize + 1).product();
    let times = side_by_side(cells, &mut CALLS.map(run));
    line(&kind(shape.degree, shape.axes), &times);
}
