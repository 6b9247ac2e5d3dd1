//! Doses and slopes by float.

use super::clock::{side_by_side, Run};
use super::hand::method::{Folded, Printed};
use super::hand::plain::Plain;
use super::hand::query;
use super::hand::stages::Specialised;
use super::inputs::{cube, estimable, positions, Want, KINDS};
use super::queries::WHOLE;
use super::report::{heading, kind, line, wanted};
use lukhtari::{dose_float, estimate, slope_float, Key, Refusal};

const POINTS: usize = 1024;

type Answer = Result<f32, Refusal>;

pub fn run() {
    heading("By float", &WHOLE);
    for (degree, axes) in KINDS {
        for want in [Want::Dose, Want::Slope(0)] {
            let name = format!("{}, {}", kind(degree, axes), wanted(want));
            line(&name, &times(degree, axes, want));
        }
    }
}

fn times(degree: u32, axes: u32, want: Want) -> Vec<f64> {
    let shape = cube(degree, axes, if axes == 3 { 17 } else { 33 });
    let mut records = vec![0; shape.entries()];
    estimate(Key::Service, shape, &estimable(shape), &mut records).expect("accepted table");
    let records = &records[..];
    let points = positions(shape, POINTS);
    let points: Vec<[f32; 3]> = points
        .iter()
        .map(|p| p.map(|step| step as f32 / 256.0))
        .collect();
    let library = |p| match want {
        Want::Dose => dose_float(Key::Service, shape, records, p),
        Want::Slope(axis) => slope_float(Key::Service, shape, records, p, axis),
        Want::Curvature(_) => panic!("there is no curvature by float"),
    };
    let expected: &[Answer] = &points.iter().map(|&p| library(p)).collect::<Vec<_>>();
    let mut runs = [
        over(&points, expected, library),
        over(&points, expected, |p| {
            query::by_float::<Specialised<Printed>>(shape, records, p, want)
        }),
        over(&points, expected, |p| {
            query::by_float::<Specialised<Folded>>(shape, records, p, want)
        }),
        over(&points, expected, |p| {
            query::by_float::<Plain<Printed>>(shape, records, p, want)
        }),
        over(&points, expected, |p| {
            query::by_float::<Plain<Folded>>(shape, records, p, want)
        }),
    ];
    side_by_side(POINTS, &mut runs)
}

// A run of one call over all points, where it gives the expected answers.
fn over<'a>(
    points: &'a [[f32; 3]],
    expected: &[Answer],
    call: impl Fn([f32; 3]) -> Answer + 'a,
) -> Run<'a> {
    let answers: Vec<Answer> = points.iter().map(|&p| call(p)).collect();
    assert_eq!(answers, expected);
    Box::new(move || {
        let answer = |&p: &[f32; 3]| call(p).expect("accepted query") as i64;
        points.iter().map(answer).sum()
    })
}
