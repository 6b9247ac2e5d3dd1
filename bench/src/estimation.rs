//! Estimation: beside hand-written Rust, and its growth with the table.

use super::clock::{side_by_side, Run};
use super::hand::estimation::{by_neighbourhood, by_window};
use super::inputs::{cube, estimable};
use super::report::{heading, kind, line};
use lukhtari::{estimate, Key, Refusal, Shape};

type Call = fn(Shape, &[i32], &mut [i32]) -> Result<(), Refusal>;

const COLUMNS: [&str; 3] = ["library", "neighbourhood", "sliding window"];
const CALLS: [Call; 3] = [
    |shape, samples, out| estimate(Key::Service, shape, samples, out),
    by_neighbourhood,
    by_window,
];

pub fn run() {
    heading("Estimation of a table", &COLUMNS);
    for (degree, axes, count) in [
        (3, 1, 64),
        (3, 2, 64),
        (3, 3, 16),
        (5, 1, 64),
        (5, 2, 64),
        (5, 3, 16),
        (5, 3, 64),
    ] {
        let shape = cube(degree, axes, count);
        let name = format!("{}, {count} nodes an axis", kind(degree, axes));
        line(&name, &times(shape));
    }
    growth();
}

// Nanoseconds a table of each call.
fn times(shape: Shape) -> Vec<f64> {
    let samples = estimable(shape);
    let mut expected = vec![0; shape.entries()];
    estimate(Key::Service, shape, &samples, &mut expected).expect("accepted table");
    let samples = &samples;
    let run = |call: Call| -> Run {
        let mut records = vec![0; shape.entries()];
        assert_eq!(call(shape, samples, &mut records), Ok(()));
        assert_eq!(records, expected);
        Box::new(move || {
            call(shape, samples, &mut records).expect("accepted table");
            records[records.len() / 2] as i64
        })
    };
    let mut runs = CALLS.map(run);
    side_by_side(1, &mut runs)
}

// Time for each entry of tables that grow.
fn growth() {
    heading("Estimation of quintic tables on 3 axes, an entry", &COLUMNS);
    for count in [8, 16, 32, 64] {
        let shape = cube(5, 3, count);
        let each = |time: f64| format!("{:.3}", time / shape.entries() as f64);
        let times: Vec<String> = times(shape).into_iter().map(each).collect();
        println!("| {count} nodes an axis | {} |", times.join(" | "));
    }
}
