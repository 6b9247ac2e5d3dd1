//! Doses and slopes by position, by cell and by float, curvatures by position and by cell.

use super::coefficients::{check_cell, check_corners};
use super::float::float_step;
use super::int::Int;
use super::shape::*;
use super::stages::{marked, staged, Point, Want};

// How a query names its point.
#[derive(Clone, Copy, Debug)]
pub enum Where {
    Position([i32; 3]),
    Cell([u32; 3], [u32; 3]),
    Float([f32; 3]),
}

// A dose, slope or curvature: 1, 2, 3, 26, 4, 12, 21, the point's refusals, 5.
pub fn query(shape: &Shape, records: &[i32], at: Where, want: Want) -> Answer<i32> {
    let point = checked_point(shape, records, at, want)?;
    Ok(staged(shape, records, &point) as i32)
}

// A dose and its mark.
pub fn marked_dose(shape: &Shape, records: &[i32], at: Where) -> Answer<(i32, bool)> {
    let point = checked_point(shape, records, at, Want::Dose)?;
    let (value, exact) = marked(shape, records, &point);
    Ok((value as i32, exact))
}

// A dose or slope as a float.
pub fn query_float(shape: &Shape, records: &[i32], at: [f32; 3], want: Want) -> Answer<f32> {
    let whole = query(shape, records, Where::Float(at), want)?;
    let float = whole as f32;
    assert_eq!(float as i64, whole as i64, "the float is not exact");
    Ok(float)
}

// The point of a query that is not refused.
pub fn checked_point(shape: &Shape, records: &[i32], at: Where, want: Want) -> Answer<Point> {
    check_shape(shape)?;
    check_length(records.len(), shape.entries())?;
    check_want(shape, want)?;
    let (cell, u) = locate(shape, at)?;
    check_corners(shape, records, cell)?;
    Ok(Point { cell, u, want })
}

// 12, 21
fn check_want(shape: &Shape, want: Want) -> Answer<()> {
    let used = want.axis().is_none_or(|axis| axis < shape.axes);
    refuse_unless(used, 12, 0)?;
    refuse_unless(want.order() < 2 || shape.degree == 5, 21, 0)
}

// The cell and in-cell steps of a point: 14 on all axes, then on each axis 10, 23, 22, 11.
pub fn locate(shape: &Shape, at: Where) -> Answer<([u32; 3], [u32; 3])> {
    match at {
        Where::Position(position) => {
            let step = |axis: usize| Ok(Int::from(position[axis] as i64));
            locate_steps(shape, step)
        }
        Where::Float(position) => {
            let step = |axis: usize| {
                let step = float_step(position[axis], float_steps(shape, axis));
                step.ok_or(refusal(10, axis))
            };
            locate_steps(shape, step)
        }
        Where::Cell(cell, u) => {
            check_cell(shape, cell)?;
            let step = |axis: usize| Int::from(u[axis] as i64);
            (0..3).try_for_each(|axis| {
                let last = shape.steps_on(axis);
                check_step(shape, axis, step(axis), last)
            })?;
            Ok((cell, u))
        }
    }
}

// The steps of a cell that a float is taken to: on an unused axis 256.
fn float_steps(shape: &Shape, axis: usize) -> i64 {
    match axis < shape.used() {
        true => shape.steps_on(axis),
        false => 256,
    }
}

fn refusal(number: u32, axis: usize) -> Refusal {
    let place = axis as u64;
    Refusal { number, place }
}

// The cell and in-cell steps of table steps.
fn locate_steps(
    shape: &Shape,
    step: impl Fn(usize) -> Answer<Int>,
) -> Answer<([u32; 3], [u32; 3])> {
    let mut cell = [0; 3];
    let mut u = [0; 3];
    for axis in 0..3 {
        let step = step(axis)?;
        check_step(shape, axis, step, last_step(shape, axis))?;
        if axis < shape.used() {
            let step = step.to_i64().expect("within the table");
            let steps = shape.steps_on(axis);
            let index = (step / steps).min(shape.counts[axis] as i64 - 2);
            cell[axis] = index as u32;
            u[axis] = (step - steps * index) as u32;
        }
    }
    Ok((cell, u))
}

// Table position of the last node, 0 on an unused axis.
pub fn last_step(shape: &Shape, axis: usize) -> i64 {
    if axis < shape.used() {
        shape.steps_on(axis) * (shape.counts[axis] as i64 - 1)
    } else {
        0
    }
}

// 23, 22, 11 for a step of the table or of a cell
fn check_step(shape: &Shape, axis: usize, step: Int, last: i64) -> Answer<()> {
    refuse_unless(axis < shape.used() || step.is_zero(), 23, axis)?;
    refuse_unless(!step.is_negative(), 22, axis)?;
    refuse_unless(step <= Int::from(last), 11, axis)
}
