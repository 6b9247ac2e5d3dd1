//! Doses and slopes of 64 steps on each axis, beside the same points of 256 steps.

use super::clock::{side_by_side, Run};
use super::hand;
use super::hand::checks::Answer;
use super::hand::method::Folded;
use super::hand::query::{by_cell, by_float, by_position};
use super::hand::stages::Specialised;
use super::inputs::{cell_and_u, cube, estimable, positions, Want, KINDS};
use super::report::{heading, kind, line};
use lukhtari::{dose, dose_float, dose_in_cell, estimate, ramp, slope, Key, Shape};

const POINTS: usize = 1024;
const STEPS: u32 = 64;
const FACTOR: i32 = 256 / STEPS as i32;

// Positions of one ramp.
const LIST: usize = 256;

type Form = Specialised<Folded>;

// The sum of the answers at all points of a table.
type Sum = fn(&Table) -> Answer<i64>;

// The calls that are measured: by the library and by hand.
const CALLS: [(&str, Sum, Sum); 5] = [
    ("dose", doses, doses_by_hand),
    ("slope", slopes, slopes_by_hand),
    ("dose by cell", by_cells, by_cells_by_hand),
    ("dose by float", by_floats, by_floats_by_hand),
    ("ramp", ramps, ramps_by_hand),
];

pub fn run() {
    let columns = ["library", "library, 256 steps", "specialised, folded"];
    heading("64 steps on each axis", &columns);
    for (degree, axes) in KINDS {
        let (coarse, fine) = tables(degree, axes);
        for (name, library, by_hand) in CALLS {
            let mut runs = [
                over(&coarse, library),
                over(&fine, library),
                over(&coarse, by_hand),
            ];
            let sums = runs.each_mut().map(|run| run());
            assert_eq!(sums, [sums[0]; 3]);
            let times = side_by_side(POINTS, &mut runs);
            line(&format!("{}, {name}", kind(degree, axes)), &times);
        }
    }
}

fn over(table: &Table, sum: Sum) -> Run<'_> {
    Box::new(move || sum(table).expect("accepted queries"))
}

// An estimated table with random points, which are named in each way.
struct Table {
    shape: Shape,
    records: Vec<i32>,
    positions: Vec<[i32; 3]>,
    cells: Vec<([u32; 3], [u32; 3])>,
    floats: Vec<[f32; 3]>,
}

impl Table {
    fn new(shape: Shape, positions: Vec<[i32; 3]>) -> Table {
        let mut records = vec![0; shape.entries()];
        estimate(Key::Service, shape, &estimable(shape), &mut records).expect("accepted table");
        let cells = positions.iter().map(|&at| cell_and_u(shape, at)).collect();
        let in_cells = |at: [i32; 3]| [0, 1, 2].map(|a| at[a] as f32 / shape.steps[a] as f32);
        let floats = positions.iter().map(|&at| in_cells(at)).collect();
        Table {
            shape,
            records,
            positions,
            cells,
            floats,
        }
    }
}

// The table of 64 steps, and that of 256 with the same points.
fn tables(degree: u32, axes: u32) -> (Table, Table) {
    let fine = cube(degree, axes, if axes == 3 { 17 } else { 33 });
    let number = |axis: u32| if axis < axes { STEPS } else { 1 };
    let steps = [0, 1, 2].map(number);
    let coarse = Shape { steps, ..fine };
    let points = positions(coarse, POINTS);
    let finer = points.iter().map(|at| at.map(|step| FACTOR * step));
    let finer = finer.collect();
    (Table::new(coarse, points), Table::new(fine, finer))
}

#[inline(always)]
fn sum<P: Copy>(points: &[P], answer: impl Fn(P) -> Answer<i32>) -> Answer<i64> {
    points.iter().map(|&at| answer(at).map(i64::from)).sum()
}

fn doses(table: &Table) -> Answer<i64> {
    sum(&table.positions, |at| {
        dose(Key::Service, table.shape, &table.records, at).map(|dose| dose.value)
    })
}

fn doses_by_hand(table: &Table) -> Answer<i64> {
    sum(&table.positions, |at| {
        by_position::<Form>(table.shape, &table.records, at, Want::Dose)
    })
}

fn slopes(table: &Table) -> Answer<i64> {
    let axis = table.shape.axes - 1;
    sum(&table.positions, |at| {
        slope(Key::Service, table.shape, &table.records, at, axis)
    })
}

fn slopes_by_hand(table: &Table) -> Answer<i64> {
    let want = Want::Slope(table.shape.axes - 1);
    sum(&table.positions, |at| {
        by_position::<Form>(table.shape, &table.records, at, want)
    })
}

fn by_cells(table: &Table) -> Answer<i64> {
    sum(&table.cells, |(cell, u)| {
        dose_in_cell(Key::Service, table.shape, &table.records, cell, u).map(|dose| dose.value)
    })
}

fn by_cells_by_hand(table: &Table) -> Answer<i64> {
    sum(&table.cells, |(cell, u)| {
        by_cell::<Form>(table.shape, &table.records, cell, u, Want::Dose)
    })
}

fn by_floats(table: &Table) -> Answer<i64> {
    sum(&table.floats, |at| {
        dose_float(Key::Service, table.shape, &table.records, at).map(|dose| dose as i32)
    })
}

fn by_floats_by_hand(table: &Table) -> Answer<i64> {
    sum(&table.floats, |at| {
        let dose = by_float::<Form>(table.shape, &table.records, at, Want::Dose);
        dose.map(|dose| dose as i32)
    })
}

// The doses of all points, ramp by ramp.
#[inline(always)]
fn ramped(table: &Table, call: impl Fn(&[[i32; 3]], &mut [i32]) -> Answer<u64>) -> Answer<i64> {
    let mut answers = [0; LIST];
    let mut sum = 0;
    for list in table.positions.chunks(LIST) {
        call(list, &mut answers)?;
        sum += answers.iter().map(|&answer| answer as i64).sum::<i64>();
    }
    Ok(sum)
}

fn ramps(table: &Table) -> Answer<i64> {
    ramped(table, |list, answers| {
        ramp(Key::Service, table.shape, &table.records, list, answers)
    })
}

fn ramps_by_hand(table: &Table) -> Answer<i64> {
    ramped(table, |list, answers| {
        hand::ramp::ramp(table.shape, &table.records, list, answers)
    })
}
