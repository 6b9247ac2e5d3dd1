//! Weights, the exact value and the rounded stages.

use super::block::{cell_block, Block};
use super::coefficients::{axis_coefficients, cell_coefficients};
use super::int::Int;
use super::rational::Rational;
use super::shape::{indices, Shape};

// What is asked for: a dose, or its first or second derivative along an axis.
#[derive(Clone, Copy, Debug, PartialEq, Eq)]
pub enum Want {
    Dose,
    Slope(u32),
    Curvature(u32),
}

impl Want {
    // The order of the derivative.
    pub fn order(self) -> u32 {
        match self {
            Want::Dose => 0,
            Want::Slope(_) => 1,
            Want::Curvature(_) => 2,
        }
    }

    // Its axis.
    pub fn axis(self) -> Option<u32> {
        match self {
            Want::Dose => None,
            Want::Slope(axis) | Want::Curvature(axis) => Some(axis),
        }
    }
}

// A cell of a table, the in-cell steps, and what is asked for.
#[derive(Clone, Copy, Debug, PartialEq, Eq)]
pub struct Point {
    pub cell: [u32; 3],
    pub u: [u32; 3],
    pub want: Want,
}

// A step of a cell along an axis of n steps: u, and n - u, which is left of it.
#[derive(Clone, Copy, Debug)]
pub struct Step {
    u: Int,
    rest: Int,
    n: Int,
}

impl Step {
    pub fn of(n: i64, u: u32) -> Step {
        let [n, u] = [n, u as i64].map(Int::from);
        Step { u, rest: n - u, n }
    }
}

// Weight i is (n-u)^(d-i) u^i.
pub fn weights(degree: u32, step: Step) -> Vec<Int> {
    let Step { u, rest, .. } = step;
    let weight = |i| rest.power(degree - i) * u.power(i);
    (0..=degree).map(weight).collect()
}

// Derivative i is i (n-u)^(d-i) u^(i-1) - (d-i) (n-u)^(d-i-1) u^i.
pub fn slope_weights(degree: u32, step: Step) -> Vec<Int> {
    let Step { u, rest, .. } = step;
    let rising = |i: u32| match i {
        0 => Int::ZERO,
        _ => Int::from(i as i64) * rest.power(degree - i) * u.power(i - 1),
    };
    let falling = |i: u32| match degree - i {
        0 => Int::ZERO,
        left => Int::from(left as i64) * rest.power(left - 1) * u.power(i),
    };
    (0..=degree).map(|i| rising(i) - falling(i)).collect()
}

// Second derivative i is i (i-1) (n-u)^(d-i) u^(i-2) - 2 i (d-i) (n-u)^(d-i-1) u^(i-1)
// + (d-i) (d-i-1) (n-u)^(d-i-2) u^i.
pub fn curvature_weights(degree: u32, step: Step) -> Vec<Int> {
    let Step { u, rest, .. } = step;
    let weight = |i: u32| {
        let left = degree - i;
        let mut sum = Int::ZERO;
        if i > 1 {
            let factor = Int::from((i * (i - 1)) as i64);
            sum = sum + factor * rest.power(left) * u.power(i - 2);
        }
        if i > 0 && left > 0 {
            let factor = Int::from((2 * i * left) as i64);
            sum = sum - factor * rest.power(left - 1) * u.power(i - 1);
        }
        if left > 1 {
            let factor = Int::from((left * (left - 1)) as i64);
            sum = sum + factor * rest.power(left - 2) * u.power(i);
        }
        sum
    };
    (0..=degree).map(weight).collect()
}

// Weights of an axis of n steps and their divisor: 2 n^d, along a slope's axis 2 n^(d-1), along a
// curvature's 2 n^(d-2).
pub fn axis_weights(shape: &Shape, point: &Point, axis: usize) -> (Vec<Int>, Int) {
    let degree = shape.degree;
    let step = Step::of(shape.steps_on(axis), point.u[axis]);
    let along = point.want.axis() == Some(axis as u32);
    let order = if along { point.want.order() } else { 0 };
    let weights = match order {
        0 => weights(degree, step),
        1 => slope_weights(degree, step),
        _ => curvature_weights(degree, step),
    };
    let divisor = Int::from(2) * step.n.power(degree - order);
    (weights, divisor)
}

// Sum of all coefficients times their weights, divided once, with no rounding.
pub fn exact(shape: &Shape, records: &[i32], point: &Point) -> Rational {
    let coefficients = cell_coefficients(shape, records, point.cell);
    let mut weights = [vec![Int::ONE], vec![Int::ONE], vec![Int::ONE]];
    let mut divisor = Int::ONE;
    for axis in 0..shape.used() {
        let (along, by) = axis_weights(shape, point, axis);
        weights[axis] = along;
        divisor = divisor * by;
    }
    let mut sum = Int::ZERO;
    for at in indices(coefficients.sides()) {
        let coefficient = Int::from(coefficients.at(at).to_i64().expect("whole"));
        let weight = weights[0][at[0]] * weights[1][at[1]] * weights[2][at[2]];
        sum = sum + coefficient * weight;
    }
    Rational::new(sum, divisor)
}

// Used axes in the order x, y, z, the axis of a slope or curvature last.
pub fn stage_order(axes: usize, want: Want) -> Vec<usize> {
    let last = want.axis().map(|axis| axis as usize);
    let mut order: Vec<usize> = (0..axes).filter(|&axis| Some(axis) != last).collect();
    order.extend(last);
    order
}

// The numbers after each stage in the document's order of axes.
pub fn stages(shape: &Shape, records: &[i32], point: &Point) -> Vec<Block> {
    let order = stage_order(shape.used(), point.want);
    stages_in_order(shape, records, point, &order)
}

// The numbers after each stage: all but the last in eighths, the last in units.
pub fn stages_in_order(
    shape: &Shape,
    records: &[i32],
    point: &Point,
    order: &[usize],
) -> Vec<Block> {
    let stages = worked_off(shape, records, point, order);
    stages.into_iter().map(|stage| stage.rounded).collect()
}

// One stage: its axis with the number of its ends' numbers, its numbers before rounding, the parts
// of a unit that they are rounded to, and its numbers.
pub struct Stage {
    pub axis: usize,
    pub side: usize,
    pub sums: Block,
    pub parts: i64,
    pub rounded: Block,
}

// The stages of these axes.
pub fn worked_off(shape: &Shape, records: &[i32], point: &Point, order: &[usize]) -> Vec<Stage> {
    let mut block = cell_block(shape, records, point.cell);
    let mut stages = Vec::new();
    for (number, &axis) in order.iter().enumerate() {
        let parts = if number + 1 == order.len() { 1 } else { 8 };
        let (weights, divisor) = axis_weights(shape, point, axis);
        let side = block.sides()[axis];
        let sums = block.map_lines(axis, |ends| {
            vec![stage_value(shape.degree, ends, &weights, divisor)]
        });
        let round = |sum: Rational| round_to(sum, parts, shape.second_edition);
        block = sums.map_lines(axis, |sum| vec![round(sum[0])]);
        let rounded = block.clone();
        stages.push(Stage {
            axis,
            side,
            sums,
            parts,
            rounded,
        });
    }
    stages
}

impl Stage {
    // A number before rounding, in parts.
    pub fn in_parts(&self, at: [usize; 3]) -> Rational {
        self.sums.at(at) * Rational::whole(self.parts)
    }

    // The places of the numbers that a number is made of.
    pub fn made_of(&self, at: [usize; 3]) -> impl Iterator<Item = [usize; 3]> {
        let axis = self.axis;
        (0..self.side).map(move |index| {
            let mut place = at;
            place[axis] = index;
            place
        })
    }
}

// Whether nothing is dropped of a number of the last of these stages: it is a whole number of parts
// before rounding, and all numbers that it is made of are clean, whatever their weights. An entry
// of a record is clean.
pub fn clean(stages: &[Stage], at: [usize; 3]) -> bool {
    match stages.split_last() {
        None => true,
        Some((stage, before)) => {
            stage.in_parts(at).is_whole() && stage.made_of(at).all(|place| clean(before, place))
        }
    }
}

// Coefficients of the two ends times weights, summed and divided.
fn stage_value(degree: u32, ends: &[Rational], weights: &[Int], divisor: Int) -> Rational {
    let mut sum = Rational::ZERO;
    for (coefficient, &weight) in axis_coefficients(degree, ends).into_iter().zip(weights) {
        sum = sum + coefficient * Rational::from(weight);
    }
    sum / Rational::from(divisor)
}

// The nearest multiple of one part of a unit: halves towards plus infinity, in edition two to the
// even multiple.
pub fn round_to(value: Rational, parts: i64, second_edition: bool) -> Rational {
    let parts = Rational::whole(parts);
    let rounded = match second_edition {
        false => (value * parts).round(),
        true => (value * parts).round_even(),
    };
    Rational::from(rounded) / parts
}

// Whether a number of some stage lies in the middle between the two that it could be rounded to.
pub fn meets_half(shape: &Shape, records: &[i32], point: &Point) -> bool {
    let order = stage_order(shape.used(), point.want);
    let is_half = |stage: &Stage, sum: Rational| {
        let twice = sum * Rational::whole(2 * stage.parts);
        twice.is_whole() && !twice.floor().is_even()
    };
    let meets = |stage: &Stage| stage.sums.numbers().iter().any(|&sum| is_half(stage, sum));
    worked_off(shape, records, point, &order).iter().any(meets)
}

// The dose, slope or curvature that the stages give.
pub fn staged(shape: &Shape, records: &[i32], point: &Point) -> i64 {
    let last = stages(shape, records, point).pop().expect("a used axis");
    last.at([0, 0, 0]).to_i64().expect("whole")
}

// The dose that the stages give, and its mark: it is clean.
pub fn marked(shape: &Shape, records: &[i32], point: &Point) -> (i64, bool) {
    let order = stage_order(shape.used(), Want::Dose);
    let stages = worked_off(shape, records, point, &order);
    let last = stages.last().expect("a used axis").rounded.at([0; 3]);
    (last.to_i64().expect("whole"), clean(&stages, [0; 3]))
}
