//! Positions of every kind on each axis, good and bad.

#![allow(dead_code)]

use crate::common::refused;
use crate::model::Answer;

// A position on an axis, and the number it is refused with where the axis is used and where it is
// not; 0 where it is taken.
pub type Kind<T> = (T, u32, u32);

// Every combination on three axes, and its refusal: that of the first axis that has one.
pub fn combinations<T: Copy>(axes: u32, kinds: &[Kind<T>]) -> Vec<([T; 3], Answer<()>)> {
    let number = |axis: u32, kind: Kind<T>| if axis < axes { kind.1 } else { kind.2 };
    let mut all = Vec::new();
    for &x in kinds {
        for &y in kinds {
            for &z in kinds {
                let numbers = [number(0, x), number(1, y), number(2, z)];
                let expected = match numbers.iter().position(|&number| number != 0) {
                    Some(axis) => refused(numbers[axis], axis as u64),
                    None => Ok(()),
                };
                all.push(([x.0, y.0, z.0], expected));
            }
        }
    }
    all
}

// Table positions, where the last node stands at `last`.
pub fn position_kinds(last: i32) -> [Kind<i32>; 8] {
    [
        (0, 0, 0),
        (1, 0, 23),
        (last, 0, 23),
        (last + 1, 11, 23),
        (i32::MAX, 11, 23),
        (-1, 22, 23),
        (-256, 22, 23),
        (i32::MIN, 22, 23),
    ]
}

// In-cell steps of an axis of so many: none of them is below 0.
pub fn step_kinds(steps: u32) -> [Kind<u32>; 8] {
    [
        (0, 0, 0),
        (1, 0, 23),
        (steps, 0, 23),
        (steps + 1, 11, 23),
        (i32::MAX as u32, 11, 23),
        (1 << 31, 11, 23),
        ((1 << 31) + steps, 11, 23),
        (u32::MAX, 11, 23),
    ]
}

// Floats, where the last node stands at `last` cells: all but 10 look at the step.
pub fn float_kinds(last: f32) -> [Kind<f32>; 12] {
    [
        (0.0, 0, 0),
        (-0.001, 0, 0),
        (0.003, 0, 23),
        (last, 0, 23),
        (last + 0.001, 0, 23),
        (last + 0.003, 11, 23),
        (f32::MAX, 11, 23),
        (-0.003, 22, 23),
        (-1.0, 22, 23),
        (f32::MIN, 22, 23),
        (f32::NAN, 10, 10),
        (f32::NEG_INFINITY, 10, 10),
    ]
}
