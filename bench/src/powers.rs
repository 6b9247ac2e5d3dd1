//! Power coefficients of a cell.

use super::clock::{side_by_side, Run};
use super::hand::powers as by_hand;
use super::inputs::{cell_and_u, cube, estimable, positions};
use super::report::{heading, kind, line};
use lukhtari::{estimate, powers, Key, Refusal, Shape};

type Call = fn(Shape, &[i32], [u32; 3], &mut [i32]) -> Result<(), Refusal>;

const CALLS: [Call; 2] = [
    |shape, records, cell, out| powers(Key::Service, shape, records, cell, out),
    by_hand::powers,
];

pub fn run() {
    heading("Power coefficients of a cell", &["library", "by axes"]);
    let shape = cube(3, 2, 9);
    let mut records = vec![0; shape.entries()];
    estimate(Key::Service, shape, &estimable(shape), &mut records).expect("accepted table");
    let records = &records;
    let cells: &Vec<[u32; 3]> = &positions(shape, 256)
        .into_iter()
        .map(|position| cell_and_u(shape, position).0)
        .collect();
    for &cell in cells {
        let all = CALLS.map(|call| {
            let mut out = [0; 16];
            call(shape, records, cell, &mut out).map(|()| out)
        });
        assert_eq!(all[0], all[1]);
    }
    let run = |call: Call| -> Run {
        let mut out = [0; 16];
        Box::new(move || {
            let mut sum = 0;
            for &cell in cells {
                call(shape, records, cell, &mut out).expect("accepted cell");
                sum += out[10] as i64;
            }
            sum
        })
    };
    line(&kind(3, 2), &side_by_side(cells.len(), &mut CALLS.map(run)));
}
