//! Random calls against the model, in all combinations of degree, axes and kind.
//!
//! LUKHTARI_CALLS sets the number of calls in all, LUKHTARI_SEED another seed.

mod common;
mod model;
mod queries;
mod ramps;
mod texts;

use common::*;
use lukhtari::*;
use model::query::{checked_point, last_step, Where};
use model::{Rational, Want};
use ramps::{run_ramp, Ramp};
use std::env;
use texts::damaged;

// What is asked for.
#[derive(Clone, Copy, PartialEq)]
enum Kind {
    Dose,
    Slope,
    Curvature,
}

fn setting(name: &str, default: u64) -> u64 {
    match env::var(name) {
        Ok(text) => text.parse().expect("a whole number"),
        Err(_) => default,
    }
}

// Makes this combination's share of the calls.
fn run(degree: u32, axes: u32, kind: Kind) {
    let share = setting("LUKHTARI_CALLS", 300_000).div_ceil(15);
    let combination = (10 * degree + 3 * axes) as u64 + kind as u64;
    let mut seed = setting("LUKHTARI_SEED", 1) << 40 | combination << 32;
    let mut made = 0;
    while made < share {
        seed += 1;
        made += run_table(&mut Random::new(seed), seed, (degree, axes, kind));
    }
}

// Imports and estimates one table, asks it, and returns the number of calls.
fn run_table(random: &mut Random, seed: u64, (degree, axes, kind): (u32, u32, Kind)) -> u64 {
    let most = match axes {
        1 => random.pick(&[2, 3, 8, 64]),
        2 => random.pick(&[2, 3, 5, 9]),
        _ => random.pick(&[2, 3, 3, 4]),
    };
    let shape = random.stepped(axes, degree, most);
    let estimates = estimated(random, seed, shape);
    let from_samples = estimates.is_ok() && !random.chance(3);
    let records = match estimates {
        Ok(records) if from_samples => records,
        _ => random.records(shape),
    };
    let mut query = Query::new(shape, records, Where::Position([0; 3]), Want::Dose);
    let queries = 24;
    for _ in 0..queries {
        query.at = random_point(random, shape, kind);
        let axis = random.below(axes as u64) as u32;
        query.want = match kind {
            Kind::Dose => Want::Dose,
            Kind::Slope => Want::Slope(axis),
            Kind::Curvature => Want::Curvature(axis),
        };
        if random.chance(8) {
            let _ = ask(&faulty(random, &query), seed);
        } else {
            let answer = ask(&query, seed);
            if from_samples && random.chance(4) {
                check_distance(&query, answer.expect("accepted query"), seed);
            }
        }
    }
    convert(&query, seed);
    export(random, &query, seed);
    totals(random, &query, seed);
    along_path(random, &query, seed);
    queries + 9
}

// Records by the library, or its refusal, equal to the model's.
fn estimated(random: &mut Random, seed: u64, shape: Shape) -> model::Answer<Vec<i32>> {
    let samples = imported(random, seed, shape);
    let mut records = vec![0; shape.entries()];
    let got = estimate(Key::Service, shape, &samples, &mut records).map(|()| records);
    let expected = model::estimate::estimate(&plain_shape(shape), &samples, shape.entries());
    assert!(plain(got) == expected, "seed {seed}");
    expected
}

// Samples by the library from text, equal to those that were typed; and a damaged text.
fn imported(random: &mut Random, seed: u64, shape: Shape) -> Vec<i32> {
    // Some texts have samples that estimation does not take.
    let typed = match random.chance(5) {
        true => random.samples(shape.nodes()),
        false => random.estimable(shape),
    };
    let text = random.typed(&typed);
    let mut samples = vec![0; shape.nodes()];
    import(Key::Service, shape, &text, &mut samples).expect("accepted text");
    assert!(samples == typed, "seed {seed}");
    let text = damaged(random, &text);
    let got = import(Key::Service, shape, &text, &mut samples).map(|()| samples);
    let expected = model::text::import(&plain_shape(shape), &text, typed.len());
    assert!(plain(got) == expected, "seed {seed}");
    typed
}

// A point in the table: by position, by cell or, unless a curvature is asked for, by float.
fn random_point(random: &mut Random, shape: Shape, kind: Kind) -> Where {
    let plain = plain_shape(shape);
    let mut step = |axis| {
        let last = last_step(&plain, axis);
        let steps = plain.steps_on(axis);
        let node = steps * random.range(0, last / steps);
        let inside = random.range(0, last);
        random.pick(&[node, last, inside, inside])
    };
    let steps = [0, 1, 2].map(&mut step);
    let ways = if kind == Kind::Curvature { 2 } else { 3 };
    match random.below(ways) {
        0 => Where::Position(steps.map(|step| step as i32)),
        1 => {
            let (mut cell, mut u) = ([0; 3], [0; 3]);
            for axis in 0..shape.axes as usize {
                let last = shape.counts[axis] as i64 - 2;
                cell[axis] = random.range(0, last) as u32;
                let steps = shape.steps[axis];
                let inside = random.below(steps as u64 + 1) as u32;
                u[axis] = random.pick(&[0, steps, inside, inside]);
            }
            Where::Cell(cell, u)
        }
        // A float within a half step of the step; the sum is exact up to the last step of 64 nodes.
        _ => Where::Float([0, 1, 2].map(|axis| {
            let part = random.range(-511, 511) as f32 / 1024.0;
            let number = if axis < shape.axes as usize {
                shape.steps[axis]
            } else {
                256
            };
            (steps[axis] as f32 + part) / number as f32
        })),
    }
}

// The query with one to three faults of any kind.
fn faulty(random: &mut Random, query: &Query) -> Query {
    let mut query = query.clone();
    for _ in 0..random.range(1, 3) {
        let axis = random.below(3) as usize;
        match random.below(8) {
            0 => query.shape.axes = random.below(5) as u32,
            1 => query.shape.degree = random.below(8) as u32,
            2 => query.shape.counts[axis] = random.below(67) as u32,
            3 => query.records.push(0),
            4 => query.want = other_want(random, query.at),
            5 => {
                let index = random.below(query.records.len() as u64) as usize;
                query.records[index] = random.next() as i32;
            }
            _ => misplace(random, &mut query.at, axis),
        }
    }
    query
}

// A slope or, unless it is asked for by float, a curvature, along any axis, used or not.
fn other_want(random: &mut Random, at: Where) -> Want {
    let axis = random.below(5) as u32;
    match at {
        Where::Float(_) => Want::Slope(axis),
        _ => random.pick(&[Want::Slope(axis), Want::Curvature(axis)]),
    }
}

// Moves the point along an axis, mostly out of the table.
fn misplace(random: &mut Random, at: &mut Where, axis: usize) {
    match at {
        Where::Position(position) => position[axis] = random.range(-300, 900) as i32,
        Where::Cell(cell, _) if random.chance(2) => cell[axis] = random.below(5) as u32,
        Where::Cell(_, u) => u[axis] = (random.next() >> random.pick(&[32, 55])) as u32,
        Where::Float(position) => position[axis] = f32::from_bits(random.next() as u32),
    }
}

// Makes the call, compares it with the model, a dose with its mark, and returns the answer.
fn ask(query: &Query, seed: u64) -> model::Answer<i32> {
    let (shape, records) = (query.shape, &query.records[..]);
    if let (Where::Position(_) | Where::Cell(..), Want::Dose) = (query.at, query.want) {
        let got = plain(queries::marked(shape, records, query.at));
        let got = got.map(|dose| (dose.value, dose.exact));
        let expected = model::query::marked_dose(&plain_shape(shape), records, query.at);
        assert_eq!(got, expected, "seed {seed}: {shape:?} {:?}", query.at);
        return expected.map(|(value, _)| value);
    }
    let whole = |answer: Result<f32, Refusal>| {
        answer.map(|float| {
            assert!(float != 0.0 || float.is_sign_positive(), "minus zero");
            assert_eq!(float, float.trunc());
            float as i32
        })
    };
    let got = match (query.at, query.want) {
        (Where::Float(p), Want::Dose) => whole(dose_float(Key::Service, shape, records, p)),
        (Where::Float(p), Want::Slope(axis)) => {
            whole(slope_float(Key::Service, shape, records, p, axis))
        }
        (at, want) => queries::answer(shape, records, at, want),
    };
    let expected = model::query::query(&plain_shape(shape), records, query.at, query.want);
    let context = (shape, query.at, query.want);
    assert_eq!(plain(got), expected, "seed {seed}: {context:?}");
    expected
}

// The answer is within the promised distance of the exact interpolant.
fn check_distance(query: &Query, answer: i32, seed: u64) {
    let shape = plain_shape(query.shape);
    let point = checked_point(&shape, &query.records, query.at, query.want);
    let exact = model::stages::exact(&shape, &query.records, &point.expect("accepted query"));
    let distance = (Rational::whole(answer as i64) - exact).abs();
    let bound = distance_bound(query.shape.axes, query.want.order());
    assert!(distance <= bound, "seed {seed}: {distance:?}");
}

// Coefficients of the first cell, and back again.
fn convert(query: &Query, seed: u64) {
    let shape = query.shape;
    let mut out = vec![0; shape.coefficients()];
    coefficients(Key::Service, shape, &query.records, [0; 3], &mut out).expect("accepted cell");
    let plain = plain_shape(shape);
    let expected = model::coefficients::coefficients(&plain, &query.records, [0; 3], out.len());
    assert!(Ok(&out) == expected.as_ref(), "seed {seed}");
    let mut back = vec![0; cube(shape.axes, shape.degree, 2).entries()];
    corners(Key::Service, shape.axes, shape.degree, &out, &mut back).expect("permitted records");
    let entries = corner_entries(shape, [0; 3]);
    let same = |(entry, (index, _)): (&i32, &(usize, i32))| *entry == query.records[*index];
    assert!(back.iter().zip(&entries).all(same), "seed {seed}");
}

// The totals of any cell and of any box, or their refusals.
fn totals(random: &mut Random, query: &Query, seed: u64) {
    let (shape, records) = (query.shape, &query.records);
    let [mut first, mut last] = [0; 2].map(|_: u32| random.pick(&cells(shape)));
    if random.chance(4) {
        last[random.below(3) as usize] += random.below(3) as u32;
    } else {
        for axis in 0..3 {
            (first[axis], last[axis]) = (first[axis].min(last[axis]), first[axis].max(last[axis]));
        }
    }
    let got = plain(cell_total(Key::Service, shape, records, last));
    let expected = model::totals::cell_total(&plain_shape(shape), records, last);
    assert_eq!(got, expected, "seed {seed}");
    let got = plain(box_total(Key::Service, shape, records, first, last));
    let expected = model::totals::box_total(&plain_shape(shape), records, first, last);
    assert_eq!(got, expected, "seed {seed}");
}

// Power coefficients of any cell, or their refusal, in a buffer that may be too short.
fn export(random: &mut Random, query: &Query, seed: u64) {
    let (shape, records) = (query.shape, &query.records);
    let mut cell = random.pick(&cells(shape));
    if random.chance(8) {
        cell[random.below(3) as usize] += random.below(3) as u32;
    }
    let mut buffer = Lent::new(random.pick(&[16, 16, 17, 40, 15]));
    let room = buffer.slice().len();
    let got = plain(powers(Key::Service, shape, records, cell, buffer.slice()));
    let expected = model::powers::powers(&plain_shape(shape), records, cell, room);
    assert_eq!(got, outcome(&expected), "seed {seed}");
    buffer.check(expected.as_deref().unwrap_or_default());
}

// A ramp on the query's table, some of them with faults, against the model and against own calls.
fn along_path(random: &mut Random, query: &Query, seed: u64) {
    let length = random.pick(&[0, 1, 3, 6]);
    let list = random.path(query.shape, length);
    let mut call = Ramp::new(query.shape, &query.records, &list);
    call.room += random.below(3) as usize;
    if random.chance(3) {
        spoil(random, &mut call);
    }
    if let Ok(ramped) = run_ramp(&call) {
        let own =
            |at| dose(Key::Service, call.shape, &call.records, at).expect("accepted position");
        let own: Vec<i32> = call.list().into_iter().map(|at| own(at).value).collect();
        assert_eq!(ramped.answers, own, "seed {seed}");
    }
}

// One to three faults of any kind in a ramp.
fn spoil(random: &mut Random, call: &mut Ramp) {
    for _ in 0..random.range(1, 3) {
        let any = random.next() as i32;
        match random.below(8) {
            0 => call.shape.axes = random.below(5) as u32,
            1 => call.shape.degree = random.below(8) as u32,
            2 => call.shape.counts[random.below(3) as usize] = random.below(67) as u32,
            3 => call.shape.steps[random.below(3) as usize] = random.below(258) as u32,
            4 => call.positions.push(0),
            5 => call.records.push(0),
            6 => call.room = call.room.saturating_sub(3),
            _ if random.chance(2) => {
                let index = random.below(call.records.len() as u64) as usize;
                call.records[index] = any;
            }
            _ => {
                let numbers = call.positions.len() as u64;
                if numbers > 0 {
                    let step = random.pick(&[-1, any, 255, 256]);
                    call.positions[random.below(numbers) as usize] = step;
                }
            }
        }
    }
}

#[test]
fn cubic_dose_on_1_axis() {
    run(3, 1, Kind::Dose);
}

#[test]
fn cubic_dose_on_2_axes() {
    run(3, 2, Kind::Dose);
}

#[test]
fn cubic_dose_on_3_axes() {
    run(3, 3, Kind::Dose);
}

#[test]
fn cubic_slope_on_1_axis() {
    run(3, 1, Kind::Slope);
}

#[test]
fn cubic_slope_on_2_axes() {
    run(3, 2, Kind::Slope);
}

#[test]
fn cubic_slope_on_3_axes() {
    run(3, 3, Kind::Slope);
}

#[test]
fn quintic_dose_on_1_axis() {
    run(5, 1, Kind::Dose);
}

#[test]
fn quintic_dose_on_2_axes() {
    run(5, 2, Kind::Dose);
}

#[test]
fn quintic_dose_on_3_axes() {
    run(5, 3, Kind::Dose);
}

#[test]
fn quintic_slope_on_1_axis() {
    run(5, 1, Kind::Slope);
}

#[test]
fn quintic_slope_on_2_axes() {
    run(5, 2, Kind::Slope);
}

#[test]
fn quintic_slope_on_3_axes() {
    run(5, 3, Kind::Slope);
}

#[test]
fn quintic_curvature_on_1_axis() {
    run(5, 1, Kind::Curvature);
}

#[test]
fn quintic_curvature_on_2_axes() {
    run(5, 2, Kind::Curvature);
}

#[test]
fn quintic_curvature_on_3_axes() {
    run(5, 3, Kind::Curvature);
}
