//! Search for the largest distance between an answer and the exact interpolant.
//!
//! A guess in f64 guides the search; each record is then worked out by the model in rational
//! numbers, held to the bound, and printed. LUKHTARI_SEARCH sets the number of trials of each
//! combination, LUKHTARI_SEED another seed.

mod common;
mod model;
mod queries;

use common::*;
use lukhtari::{estimate, Key, Shape};
use model::query::Where;
use model::stages::{exact, Point};
use model::{Rational, Want};
use std::env;
use std::io::{stdout, Write};

fn setting(name: &str, default: u64) -> u64 {
    match env::var(name) {
        Ok(text) => text.parse().expect("a whole number"),
        Err(_) => default,
    }
}

// What is searched.
#[derive(Clone, Copy)]
struct Kind {
    axes: u32,
    degree: u32,
    order: u32,
    second_edition: bool,
}

// A table and a point in it.
#[derive(Clone)]
struct Trial {
    shape: Shape,
    samples: Vec<i32>,
    point: Point,
}

impl Trial {
    // A random table of small samples, which have the widest choice of fractions.
    fn new(random: &mut Random, kind: Kind) -> Trial {
        let (axes, order) = (kind.axes, kind.order);
        let shape = random.shape(axes, kind.degree, 4);
        let shape = in_edition(shape, kind.second_edition);
        let size = random.pick(&[1, 2, 8, 100, 1000]);
        let samples = (0..shape.nodes()).map(|_| random.range(-size, size) as i32);
        let samples = samples.collect();
        let mut u = [0; 3];
        u[..axes as usize].fill_with(|| random.below(257) as u32);
        let axis = random.below(axes as u64) as u32;
        let want = [Want::Dose, Want::Slope(axis), Want::Curvature(axis)][order as usize];
        let cell = random.pick(&cells(shape));
        let point = Point { cell, u, want };
        Trial {
            shape,
            samples,
            point,
        }
    }

    // The same with a sample or a step changed.
    fn changed(&self, random: &mut Random) -> Trial {
        let mut trial = self.clone();
        for _ in 0..random.range(1, 3) {
            if random.chance(4) {
                let axis = random.below(self.shape.axes as u64) as usize;
                let by = random.pick(&[-16, -3, -1, 1, 3, 16]);
                let u = trial.point.u[axis] as i64 + by;
                trial.point.u[axis] = u.clamp(0, 256) as u32;
            } else {
                let node = random.below(self.samples.len() as u64) as usize;
                let by = random.pick(&[-64, -9, -2, -1, 1, 2, 9, 64]);
                trial.samples[node] = (trial.samples[node] + by).clamp(-2000, 2000);
            }
        }
        trial
    }

    fn records(&self) -> Vec<i32> {
        let mut records = vec![0; self.shape.entries()];
        estimate(Key::Service, self.shape, &self.samples, &mut records).expect("accepted table");
        records
    }

    fn answer(&self, records: &[i32]) -> i32 {
        let Point { cell, u, want } = self.point;
        let answer = queries::answer(self.shape, records, Where::Cell(cell, u), want);
        answer.expect("accepted query")
    }

    // The distance in f64.
    fn guess(&self) -> f64 {
        let records = self.records();
        let value = interpolant(self.shape, &records, &self.point);
        (self.answer(&records) as f64 - value).abs()
    }

    // The distance in rational numbers, from the records that the model estimates.
    fn distance(&self) -> Rational {
        let shape = plain_shape(self.shape);
        let records = model::estimate::estimate(&shape, &self.samples, shape.entries());
        let value = exact(&shape, &records.expect("accepted table"), &self.point);
        let answer = self.answer(&self.records());
        (Rational::whole(answer as i64) - value).abs()
    }
}

// The derivative of (1-t)^i t^j of an order.
fn weight(i: i32, j: i32, t: f64, order: u32) -> f64 {
    if order == 0 {
        return (1.0 - t).powi(i) * t.powi(j);
    }
    let rising = match j {
        0 => 0.0,
        _ => j as f64 * weight(i, j - 1, t, order - 1),
    };
    let falling = match i {
        0 => 0.0,
        _ => i as f64 * weight(i - 1, j, t, order - 1),
    };
    rising - falling
}

// Weights of the low end's orders and the high end's at t, or their derivatives.
fn basis(degree: u32, t: f64, order: u32) -> Vec<f64> {
    let mut weights = [0.0; 6];
    for i in 0..=degree {
        weights[i as usize] = weight((degree - i) as i32, i as i32, t, order);
    }
    let w = weights.map(|weight| weight / 2.0);
    match degree {
        3 => vec![
            2.0 * w[0] + 6.0 * w[1],
            w[1],
            6.0 * w[2] + 2.0 * w[3],
            -w[2],
        ],
        _ => vec![
            2.0 * w[0] + 10.0 * w[1] + 20.0 * w[2],
            w[1] + 4.0 * w[2],
            w[2],
            20.0 * w[3] + 10.0 * w[4] + 2.0 * w[5],
            -4.0 * w[3] - w[4],
            w[3],
        ],
    }
}

// The interpolant in f64: a sum over all corner entries.
fn interpolant(shape: Shape, records: &[i32], point: &Point) -> f64 {
    let m = shape.degree as usize / 2 + 1;
    let mut along = [vec![1.0], vec![1.0], vec![1.0]];
    for (axis, weights) in along.iter_mut().enumerate().take(shape.axes as usize) {
        let t = point.u[axis] as f64 / 256.0;
        let along = point.want.axis() == Some(axis as u32);
        *weights = basis(shape.degree, t, if along { point.want.order() } else { 0 });
    }
    let plain = plain_shape(shape);
    let mut sum = 0.0;
    for (z, wz) in along[2].iter().enumerate() {
        for (y, wy) in along[1].iter().enumerate() {
            for (x, wx) in along[0].iter().enumerate() {
                let at = [x, y, z];
                let node = [0, 1, 2].map(|axis| point.cell[axis] as usize + at[axis] / m);
                let index = plain.entry_index(node, at.map(|number| number % m));
                sum += wx * wy * wz * records[index] as f64;
            }
        }
    }
    sum
}

// Climbs from random starts and returns the trial with the largest guess.
fn search(random: &mut Random, kind: Kind, trials: u64) -> Trial {
    let mut best = Trial::new(random, kind);
    let mut best_guess = best.guess();
    let climb = 400;
    for _ in 0..trials / climb {
        let mut here = Trial::new(random, kind);
        // About every second climb goes on from the best so far.
        if random.chance(2) {
            here = best.clone();
        }
        let mut guess = here.guess();
        for _ in 0..climb {
            let next = here.changed(random);
            let next_guess = next.guess();
            if next_guess >= guess {
                (here, guess) = (next, next_guess);
            }
        }
        if guess > best_guess {
            (best, best_guess) = (here, guess);
        }
    }
    best
}

fn run(axes: u32, degree: u32, order: u32) {
    for second_edition in [false, true] {
        let kind = Kind {
            axes,
            degree,
            order,
            second_edition,
        };
        run_kind(kind);
    }
}

fn run_kind(kind: Kind) {
    let trials = setting("LUKHTARI_SEARCH", 200_000);
    let mut random = Random::new(setting("LUKHTARI_SEED", 1));
    let best = search(&mut random, kind, trials);
    let (distance, bound) = (best.distance(), distance_bound(kind.axes, kind.order));
    let asked = ["dose", "slope", "curvature"][kind.order as usize];
    let edition = if kind.second_edition { "two" } else { "one" };
    let name = format!(
        "{asked}, degree {}, axes {}, edition {edition}",
        kind.degree, kind.axes
    );
    let (found, most) = (distance.to_f64(), bound.to_f64());
    // Written past the test harness, so that the figures always show.
    let line = format!("largest distance, {name}: {found:.6}, bound {bound:?} = {most:.6}\n");
    stdout().write_all(line.as_bytes()).expect("output");
    assert!(distance <= bound, "{name}: {distance:?}");
    assert!(
        (best.guess() - found).abs() < 1e-4,
        "the search follows the distance"
    );
}

#[test]
fn doses_on_1_axis() {
    run(1, 3, 0);
    run(1, 5, 0);
}

#[test]
fn doses_on_2_axes() {
    run(2, 3, 0);
    run(2, 5, 0);
}

#[test]
fn doses_on_3_axes() {
    run(3, 3, 0);
    run(3, 5, 0);
}

#[test]
fn slopes_on_1_axis() {
    run(1, 3, 1);
    run(1, 5, 1);
}

#[test]
fn slopes_on_2_axes() {
    run(2, 3, 1);
    run(2, 5, 1);
}

#[test]
fn slopes_on_3_axes() {
    run(3, 3, 1);
    run(3, 5, 1);
}

#[test]
fn curvatures_on_1_axis() {
    run(1, 5, 2);
}

#[test]
fn curvatures_on_2_axes() {
    run(2, 5, 2);
}

#[test]
fn curvatures_on_3_axes() {
    run(3, 5, 2);
}
