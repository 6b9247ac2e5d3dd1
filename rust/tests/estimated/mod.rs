//! Tables that are estimated and then asked, by position, by cell and by float.

#![allow(dead_code)]

use crate::common::{cells, Random};
use crate::model;
use crate::queries::answer;
use lukhtari::*;
use model::query::Where;
use model::Want;

// A table whose records the library estimated.
#[derive(Clone)]
pub struct Estimated {
    pub shape: Shape,
    pub records: Vec<i32>,
}

impl Estimated {
    pub fn new(shape: Shape, samples: &[i32]) -> Estimated {
        let mut records = vec![0; shape.entries()];
        estimate(Key::Service, shape, samples, &mut records).expect("accepted table");
        Estimated { shape, records }
    }

    // The answer; by float that of a dose or slope.
    pub fn ask(&self, at: Where, want: Want) -> Result<i32, Refusal> {
        let (shape, records) = (self.shape, &self.records[..]);
        match (at, want) {
            (Where::Float(p), Want::Dose) => {
                dose_float(Key::Service, shape, records, p).map(|x| x as i32)
            }
            (Where::Float(p), Want::Slope(axis)) => {
                slope_float(Key::Service, shape, records, p, axis).map(|x| x as i32)
            }
            _ => answer(shape, records, at, want),
        }
    }
}

// The cells that contain a point, with its steps in them.
pub fn cells_at(shape: Shape, point: [u32; 3]) -> Vec<([u32; 3], [u32; 3])> {
    let holds = |cell: &[u32; 3]| {
        (0..shape.axes as usize).all(|axis| {
            let low = shape.steps[axis] * cell[axis];
            (low..=low + shape.steps[axis]).contains(&point[axis])
        })
    };
    let cells = cells(shape).into_iter().filter(holds);
    let step = |cell: [u32; 3], axis: usize| point[axis] - shape.steps[axis] * cell[axis];
    let with_u = |cell: [u32; 3]| (cell, [0, 1, 2].map(|axis| step(cell, axis)));
    cells.map(with_u).collect()
}

// A point with about every second step at a node.
pub fn shared_point(random: &mut Random, shape: Shape) -> [u32; 3] {
    let mut step = |axis: usize| {
        let cells = shape.counts[axis] as i64 - 1;
        let steps = shape.steps[axis] as i64;
        let node = steps * random.range(0, cells);
        let inside = random.range(0, steps * cells);
        random.pick(&[node, inside]) as u32
    };
    [0, 1, 2].map(&mut step)
}
