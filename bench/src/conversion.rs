//! Coefficients of a cell, and back.

use super::clock::{side_by_side, Run};
use super::hand::conversion;
use super::inputs::{cell_and_u, cube, estimable, positions, KINDS};
use super::report::{heading, kind, line};
use lukhtari::{coefficients, corners, estimate, Key, Refusal, Shape};

type Forward = fn(Shape, &[i32], [u32; 3], &mut [i32]) -> Result<(), Refusal>;
type Back = fn(u32, u32, &[i32], &mut [i32]) -> Result<(), Refusal>;

const FORWARD: [Forward; 2] = [
    |shape, records, cell, out| coefficients(Key::Service, shape, records, cell, out),
    conversion::coefficients,
];
const BACK: [Back; 2] = [
    |axes, degree, from, out| corners(Key::Service, axes, degree, from, out),
    conversion::corners,
];

pub fn run() {
    heading(
        "Coefficients of a cell, and back",
        &["library", "specialised"],
    );
    for (degree, axes) in KINDS {
        let shape = cube(degree, axes, 9);
        let mut records = vec![0; shape.entries()];
        estimate(Key::Service, shape, &estimable(shape), &mut records).expect("accepted table");
        let cells: Vec<[u32; 3]> = positions(shape, 256)
            .into_iter()
            .map(|position| cell_and_u(shape, position).0)
            .collect();
        let name = kind(degree, axes);
        line(&name, &forward(shape, &records, &cells));
        line(&format!("{name}, back"), &back(shape, &records, &cells));
    }
}

fn forward(shape: Shape, records: &[i32], cells: &[[u32; 3]]) -> Vec<f64> {
    let run = |call: Forward| -> Run {
        let mut out = [0; 216];
        Box::new(move || {
            let mut sum = 0;
            for &cell in cells {
                call(shape, records, cell, &mut out).expect("accepted cell");
                sum += out[1] as i64;
            }
            sum
        })
    };
    for &cell in cells {
        let all = FORWARD.map(|call| {
            let mut out = [0; 216];
            call(shape, records, cell, &mut out).map(|()| out)
        });
        assert_eq!(all[0], all[1]);
    }
    side_by_side(cells.len(), &mut FORWARD.map(run))
}

fn back(shape: Shape, records: &[i32], cells: &[[u32; 3]]) -> Vec<f64> {
    let of_cell = |&cell: &[u32; 3]| {
        let mut out = vec![0; shape.coefficients()];
        coefficients(Key::Service, shape, records, cell, &mut out).expect("accepted cell");
        out
    };
    let all: Vec<Vec<i32>> = cells.iter().map(of_cell).collect();
    let all = &all;
    let run = |call: Back| -> Run {
        let mut out = [0; 216];
        Box::new(move || {
            let mut sum = 0;
            for numbers in all {
                call(shape.axes, shape.degree, numbers, &mut out).expect("permitted records");
                sum += out[1] as i64;
            }
            sum
        })
    };
    for numbers in all {
        let all = BACK.map(|call| {
            let mut out = [0; 216];
            call(shape.axes, shape.degree, numbers, &mut out).map(|()| out)
        });
        assert_eq!(all[0], all[1]);
    }
    let mut runs = BACK.map(run);
    side_by_side(cells.len(), &mut runs)
}
