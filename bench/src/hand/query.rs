//! Doses, slopes and curvatures: the calls, over the way in which the answer at a point is worked
//! out.

use super::checks::Answer;
use super::point::{of_cell, of_float, of_position, Point};
use crate::inputs::Want;
use lukhtari::Shape;

// The answer in an accepted cell.
pub trait Form {
    fn at(shape: Shape, records: &[i32], point: Point) -> Answer<i32>;
}

pub fn by_position<F: Form>(
    shape: Shape,
    records: &[i32],
    position: [i32; 3],
    want: Want,
) -> Answer<i32> {
    let point = of_position(shape, records, position, want)?;
    F::at(shape, records, point)
}

pub fn by_cell<F: Form>(
    shape: Shape,
    records: &[i32],
    cell: [u32; 3],
    u: [u32; 3],
    want: Want,
) -> Answer<i32> {
    let point = of_cell(shape, records, cell, u, want)?;
    F::at(shape, records, point)
}

pub fn by_float<F: Form>(
    shape: Shape,
    records: &[i32],
    position: [f32; 3],
    want: Want,
) -> Answer<f32> {
    let point = of_float(shape, records, position, want)?;
    F::at(shape, records, point).map(|whole| whole as f32)
}
