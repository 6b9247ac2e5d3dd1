//! Ramps of 256 doses beside 256 calls of their own, and beside hand-written Rust of the same call.

use super::clock::{side_by_side, Run};
use super::hand::ramp::ramp as by_hand;
use super::inputs::{cube, estimable, Random, KINDS};
use super::report::{heading, kind, line};
use lukhtari::{dose, estimate, ramp, Key, Refusal, Shape};

const DOSES: usize = 256;
const LISTS: usize = 4;

type Call = fn(Shape, &[i32], &[[i32; 3]], &mut [i32]) -> Result<u64, Refusal>;

const COLUMNS: [&str; 3] = ["library", "256 calls", "specialised, folded"];
const CALLS: [Call; 3] = [
    |shape, records, list, out| ramp(Key::Service, shape, records, list, out),
    own_calls,
    by_hand,
];

// How many doses follow each other in one cell, and what a row calls it.
const STAYS: [(usize, &str); 3] = [(DOSES, "1 cell"), (DOSES / 4, "4 cells"), (1, "256 cells")];

pub fn run() {
    heading("Ramps of 256 doses, nanoseconds a dose", &COLUMNS);
    for (degree, axes) in KINDS {
        let shape = cube(degree, axes, if axes == 3 { 17 } else { 33 });
        let mut records = vec![0; shape.entries()];
        estimate(Key::Service, shape, &estimable(shape), &mut records).expect("accepted table");
        for (stay, name) in STAYS {
            let times = times(shape, &records, stay);
            line(&format!("{}, {name}", kind(degree, axes)), &times);
        }
    }
}

// A dose for each position by its own call.
fn own_calls(
    shape: Shape,
    records: &[i32],
    positions: &[[i32; 3]],
    answers: &mut [i32],
) -> Result<u64, Refusal> {
    for (answer, &position) in answers.iter_mut().zip(positions) {
        *answer = dose(Key::Service, shape, records, position)?.value;
    }
    Ok(0)
}

fn times(shape: Shape, records: &[i32], stay: usize) -> Vec<f64> {
    let lists = lists(shape, stay);
    let run = |call: Call| -> Run {
        let mut answers = [0; DOSES];
        for list in &lists {
            let mut expected = [0; DOSES];
            let fetches = ramp(Key::Service, shape, records, list, &mut expected);
            assert_eq!(fetches, Ok((DOSES / stay) as u64));
            call(shape, records, list, &mut answers).expect("accepted ramp");
            assert_eq!(answers, expected);
        }
        let lists = &lists;
        Box::new(move || {
            let sum = |list: &Vec<[i32; 3]>| {
                call(shape, records, list, &mut answers).expect("accepted ramp");
                answers.iter().map(|&answer| answer as i64).sum::<i64>()
            };
            lists.iter().map(sum).sum()
        })
    };
    let mut runs = CALLS.map(run);
    side_by_side(LISTS * DOSES, &mut runs)
}

// Lists of random steps, so many of them in one cell before another cell comes.
fn lists(shape: Shape, stay: usize) -> Vec<Vec<[i32; 3]>> {
    let mut random = Random::new(17);
    let mut cell = [0; 3];
    let mut list = || {
        let mut list = Vec::new();
        for index in 0..DOSES {
            if index % stay == 0 {
                cell = other_cell(&mut random, shape, cell);
            }
            list.push([0, 1, 2].map(|axis| match axis < shape.axes as usize {
                true => 256 * cell[axis] + random.below(256) as i32,
                false => 0,
            }));
        }
        list
    };
    (0..LISTS).map(|_| list()).collect()
}

// A random cell that is not this one.
fn other_cell(random: &mut Random, shape: Shape, cell: [i32; 3]) -> [i32; 3] {
    loop {
        // An unused axis has the one index 0.
        let other = shape
            .counts
            .map(|count| random.below(count.max(2) as u64 - 1) as i32);
        if other != cell {
            return other;
        }
    }
}
