//! Two lattices pooled by weight.

use super::rational::Rational;
use super::shape::*;

// The most of a weight.
pub const WEIGHT_MAX: u32 = 10_000;

// A lattice with its weight.
#[derive(Clone, Debug)]
pub struct Measurement {
    pub shape: Shape,
    pub samples: Vec<i32>,
    pub weight: u32,
}

// The exact mean of two samples by their weights.
pub fn mean(a: i32, v: u32, b: i32, w: u32) -> Rational {
    let [a, v, b, w] = [a as i64, v as i64, b as i64, w as i64].map(Rational::whole);
    (a * v + b * w) / (v + w)
}

// 28
fn check_weights(v: u32, w: u32) -> Answer<()> {
    let allowed = [v, w].iter().all(|&weight| weight <= WEIGHT_MAX) && (v, w) != (0, 0);
    refuse_unless(allowed, 28, 0)
}

// A test of the first, then of the second.
fn in_turn<T>(pair: [&T; 2], test: impl Fn(&T) -> Answer<()>) -> Answer<()> {
    pair.into_iter().try_for_each(test)
}

// The call: 1, 2, 3, 26, 27, 28, 4, 9, 5, else the pooled samples.
pub fn pool(a: &Measurement, b: &Measurement, room: usize) -> Answer<Vec<i32>> {
    let shapes = [&a.shape, &b.shape];
    in_turn(shapes, |shape| check_axes(shape.axes))?;
    in_turn(shapes, |shape| check_degree(shape.degree))?;
    in_turn(shapes, |shape| check_counts(shape.axes, shape.counts))?;
    in_turn(shapes, |shape| check_steps(shape.axes, shape.steps))?;
    refuse_unless(a.shape == b.shape, 27, 0)?;
    check_weights(a.weight, b.weight)?;
    in_turn([a, b], |one| {
        check_length(one.samples.len(), one.shape.nodes())
    })?;
    check_room(room, a.shape.nodes())?;
    in_turn([a, b], |one| check_samples(&one.samples))?;
    let pooled = |(&x, &y): (&i32, &i32)| mean(x, a.weight, y, b.weight).round();
    let pooled = a.samples.iter().zip(&b.samples).map(pooled);
    Ok(pooled
        .map(|sample| sample.to_i64().expect("small") as i32)
        .collect())
}
