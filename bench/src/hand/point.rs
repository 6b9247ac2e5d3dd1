//! Points of a query, with the checks that come before the limit test.

use super::checks::*;
use crate::inputs::Want;
use lukhtari::Shape;

// The in-cell steps are of 256.
#[derive(Clone, Copy)]
pub struct Point {
    pub cell: [u32; 3],
    pub u: [u32; 3],
    pub want: Want,
}

// 1, 2, 3, 26, 4, 12, 21, then on each axis its own test, 23, 22 and 11
#[inline(always)]
fn located(
    shape: Shape,
    records: &[i32],
    want: Want,
    step: impl Fn(usize) -> Answer<i64>,
) -> Answer<Point> {
    check_query(shape, records, want)?;
    let mut cell = [0; 3];
    let mut u = [0; 3];
    for axis in 0..3 {
        (cell[axis], u[axis]) = locate(shape, axis, step(axis)?)?;
    }
    Ok(Point { cell, u, want })
}

// 1, 2, 3, 26, 4, 12, 21, then 23, 22 and 11 on each axis
#[inline(always)]
pub fn of_position(shape: Shape, records: &[i32], position: [i32; 3], want: Want) -> Answer<Point> {
    located(shape, records, want, |axis| Ok(position[axis] as i64))
}

// 1, 2, 3, 26, 4, 12, 21, 14, then 23 and 11 on each axis
#[inline(always)]
pub fn of_cell(
    shape: Shape,
    records: &[i32],
    cell: [u32; 3],
    u: [u32; 3],
    want: Want,
) -> Answer<Point> {
    check_query(shape, records, want)?;
    check_cell(shape, cell)?;
    let u = check_u(shape, u)?;
    Ok(Point { cell, u, want })
}

// 1, 2, 3, 26, 4, 12, then 10, 23, 22 and 11 on each axis
#[inline(always)]
pub fn of_float(shape: Shape, records: &[i32], position: [f32; 3], want: Want) -> Answer<Point> {
    located(shape, records, want, |axis| {
        let float = position[axis];
        if !float.is_finite() {
            return refuse(10, axis);
        }
        // Exact in f64 wherever the step is within a table.
        let used = axis < shape.axes as usize;
        let steps = if used { shape.steps[axis] } else { 256 };
        Ok((float as f64 * steps as f64 + 0.5).floor() as i64)
    })
}
