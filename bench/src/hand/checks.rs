//! Refusals.

use crate::inputs::Want;
use lukhtari::{Refusal, Shape};

pub type Answer<T> = Result<T, Refusal>;

pub fn refuse<T>(number: u32, place: usize) -> Answer<T> {
    let place = place as u64;
    Err(Refusal { number, place })
}

// 1, 2, 3, 26
pub fn check_shape(shape: Shape) -> Answer<()> {
    if shape.axes < 1 || shape.axes > 3 {
        return refuse(1, 0);
    }
    if shape.degree != 3 && shape.degree != 5 {
        return refuse(2, 0);
    }
    for axis in 0..3 {
        let count = shape.counts[axis];
        let allowed = if axis < shape.axes as usize {
            (2..=64).contains(&count)
        } else {
            count == 1
        };
        if !allowed {
            return refuse(3, axis);
        }
    }
    for axis in 0..3 {
        let steps = shape.steps[axis];
        let allowed = if axis < shape.axes as usize {
            steps.is_power_of_two() && (16..=256).contains(&steps)
        } else {
            steps == 1
        };
        if !allowed {
            return refuse(26, axis);
        }
    }
    Ok(())
}

// Entries of a record of an accepted shape.
pub fn record(shape: Shape) -> usize {
    let m = shape.degree as usize / 2 + 1;
    m.pow(shape.axes)
}

pub fn nodes(shape: Shape) -> usize {
    let [x, y, z] = shape.counts.map(|count| count as usize);
    x * y * z
}

// 1, 2, 3, 26, 4, 12, 21
pub fn check_query(shape: Shape, records: &[i32], want: Want) -> Answer<()> {
    check_shape(shape)?;
    if records.len() != nodes(shape) * record(shape) {
        return refuse(4, 0);
    }
    match want {
        Want::Slope(axis) | Want::Curvature(axis) if axis >= shape.axes => refuse(12, 0),
        Want::Curvature(_) if shape.degree == 3 => refuse(21, 0),
        _ => Ok(()),
    }
}

// 14
pub fn check_cell(shape: Shape, cell: [u32; 3]) -> Answer<()> {
    for axis in 0..3 {
        let used = axis < shape.axes as usize;
        let last = if used { shape.counts[axis] - 2 } else { 0 };
        if cell[axis] > last {
            return refuse(14, axis);
        }
    }
    Ok(())
}

// 23, 22 or 11 for a step that is refused
#[cold]
fn refuse_step<T>(shape: Shape, axis: usize, step: i64) -> Answer<T> {
    let number = match axis < shape.axes as usize {
        true if step < 0 => 22,
        true => 11,
        false => 23,
    };
    refuse(number, axis)
}

// 23 and 11 for in-cell steps, else the same in steps of 256
pub fn check_u(shape: Shape, mut u: [u32; 3]) -> Answer<[u32; 3]> {
    for axis in 0..3 {
        let used = axis < shape.axes as usize;
        let last = if used { shape.steps[axis] } else { 0 };
        if u[axis] > last {
            return refuse_step(shape, axis, u[axis] as i64);
        }
        u[axis] <<= 8 - shape.steps[axis].trailing_zeros();
    }
    Ok(u)
}

// 23, 22 and 11 for one step, else its cell, and its in-cell step in steps of 256
pub fn locate(shape: Shape, axis: usize, step: i64) -> Answer<(u32, u32)> {
    let used = axis < shape.axes as usize;
    let cells = if used { shape.counts[axis] - 1 } else { 0 };
    let bits = shape.steps[axis].trailing_zeros();
    if step < 0 || step > (cells as i64) << bits {
        return refuse_step(shape, axis, step);
    }
    let cell = (step as u32 >> bits).min(cells.saturating_sub(1));
    Ok((cell, (step as u32 - (cell << bits)) << (8 - bits)))
}

// 5: the first entry of a record beyond its limit.
#[cold]
pub fn first_beyond(record: &[i32], limits: &[i32], start: usize) -> Refusal {
    let pairs = record.iter().zip(limits);
    let within = pairs.take_while(|(entry, limit)| entry.unsigned_abs() <= **limit as u32);
    let place = (start + within.count()) as u64;
    Refusal { number: 5, place }
}
