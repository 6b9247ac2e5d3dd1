//! Pooling of two lattices: beside hand-written Rust of the same whole call.

use super::clock::{side_by_side, Run};
use super::hand::pooling::{reciprocal, signed, unsigned};
use super::inputs::{cube, samples, Random};
use super::report::heading;
use lukhtari::{pool, Key, Measurement, Refusal, Shape};

type Call = fn(Measurement, Measurement, &mut [i32]) -> Result<(), Refusal>;

const CALLS: [Call; 4] = [
    |a, b, out| pool(Key::Service, a, b, out),
    signed,
    unsigned,
    reciprocal,
];

pub fn run() {
    heading(
        "Pooling of two lattices, nanoseconds a sample",
        &["library", "signed", "unsigned", "reciprocal"],
    );
    for (axes, count) in [(1, 2), (1, 64), (2, 33), (3, 17), (3, 64)] {
        row(cube(3, axes, count));
    }
}

// The same table measured on another day.
fn other_day(samples: &[i32]) -> Vec<i32> {
    let mut random = Random::new(11);
    let off = |sample: &i32| sample + random.below(41) as i32 - 20;
    samples.iter().map(off).collect()
}

// Prints the nanoseconds a sample of each call.
fn row(shape: Shape) {
    let one = samples(shape);
    let other = other_day(&one);
    let mut expected = vec![0; shape.nodes()];
    let [a, b] = [(&one, 7_000), (&other, 3_001)].map(|(samples, weight)| Measurement {
        shape,
        samples,
        weight,
    });
    pool(Key::Service, a, b, &mut expected).expect("accepted lattices");
    let run = |call: Call| -> Run {
        let mut out = vec![0; shape.nodes()];
        assert_eq!(call(a, b, &mut out), Ok(()));
        assert_eq!(out, expected);
        Box::new(move || {
            call(a, b, &mut out).expect("accepted lattices");
            out[out.len() / 2] as i64
        })
    };
    let times = side_by_side(shape.nodes(), &mut CALLS.map(run));
    let mut row = format!("| {} samples | {:.2} |", shape.nodes(), times[0]);
    for time in &times[1..] {
        row += &format!(" {time:.2} ({:.2}) |", times[0] / time);
    }
    println!("{row}");
}
