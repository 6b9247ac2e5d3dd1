//! Doses and slopes by position in edition two, beside the same in edition one.

use super::clock::{side_by_side, Run};
use super::hand::checks::Answer;
use super::hand::method::Folded;
use super::hand::query::by_position;
use super::hand::stages::Specialised;
use super::inputs::{cube, estimable, positions, Want, KINDS};
use super::report::{heading, kind, line, wanted};
use lukhtari::{dose, estimate, slope, Key, Shape};

const POINTS: usize = 1024;

pub fn run() {
    let columns = ["library", "library, edition one", "specialised, folded"];
    heading("Edition two, by position", &columns);
    for (degree, axes) in KINDS {
        for want in [Want::Dose, Want::Slope(axes - 1)] {
            let name = format!("{}, {}", kind(degree, axes), wanted(want));
            line(&name, &times(degree, axes, want));
        }
    }
}

// The library's answer.
fn ask(shape: Shape, records: &[i32], at: [i32; 3], want: Want) -> Answer<i32> {
    match want {
        Want::Slope(axis) => slope(Key::Service, shape, records, at, axis),
        _ => dose(Key::Service, shape, records, at).map(|dose| dose.value),
    }
}

fn times(degree: u32, axes: u32, want: Want) -> Vec<f64> {
    let first = cube(degree, axes, if axes == 3 { 17 } else { 33 });
    let second = Shape {
        second_edition: true,
        ..first
    };
    let mut records = vec![0; first.entries()];
    estimate(Key::Service, first, &estimable(first), &mut records).expect("accepted table");
    let (records, points) = (&records[..], &positions(first, POINTS)[..]);
    for &at in points {
        let by_hand = by_position::<Specialised<Folded>>(second, records, at, want);
        assert_eq!(ask(second, records, at, want), by_hand);
    }
    let mut runs = [
        over(points, |at| ask(second, records, at, want)),
        over(points, |at| ask(first, records, at, want)),
        over(points, |at| {
            by_position::<Specialised<Folded>>(second, records, at, want)
        }),
    ];
    side_by_side(POINTS, &mut runs)
}

// A run of one call over all points.
fn over<'a>(points: &'a [[i32; 3]], call: impl Fn([i32; 3]) -> Answer<i32> + 'a) -> Run<'a> {
    Box::new(move || {
        let answer = |&at: &[i32; 3]| call(at).expect("accepted query") as i64;
        points.iter().map(answer).sum()
    })
}
