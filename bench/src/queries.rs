//! Doses, slopes and curvatures by position and by cell.

use super::clock::{side_by_side, Run};
use super::double::{Double, Source};
use super::hand::method::{Folded, Printed};
use super::hand::plain::Plain;
use super::hand::query;
use super::hand::stages::Specialised;
use super::inputs::{cell_and_u, cube, estimable, positions, Want, KINDS};
use super::report::{heading, kind, line, wanted};
use lukhtari::{curvature, curvature_in_cell, dose, dose_in_cell, slope, slope_in_cell, Key};
use lukhtari::{estimate, Refusal, Shape};

const POINTS: usize = 1024;

type Answer = Result<i32, Refusal>;
type CellAndU = ([u32; 3], [u32; 3]);

// The columns of whole calls by hand.
pub const WHOLE: [&str; 5] = [
    "library",
    "specialised, printed",
    "specialised, folded",
    "plain, printed",
    "plain, folded",
];
const REAL: [&str; 4] = ["library", "f64 published", "f64 by axes", "f64 stored"];

// Name and times of a row.
type Row = (String, Vec<f64>);

pub fn run() {
    let (mut by_position, mut by_cell) = (Vec::new(), Vec::new());
    for (degree, axes) in KINDS {
        let table = Table::new(degree, axes);
        for want in wants(degree, axes) {
            let name = format!("{}, {}", kind(degree, axes), wanted(want));
            by_position.push((name.clone(), table.by_position(want)));
            by_cell.push((name, table.by_cell(want)));
        }
    }
    let real = |(name, times): &Row| (name.clone(), [&times[..1], &times[5..]].concat());
    let in_reals: Vec<Row> = by_position.iter().map(real).collect();
    by_position.iter_mut().for_each(|row| row.1.truncate(5));
    print("By position", &WHOLE, &by_position);
    print("By position, beside f64", &REAL, &in_reals);
    print("By cell", &WHOLE, &by_cell);
}

// A dose, and along the first and the last axis a slope and, in degree 5, a curvature.
fn wants(degree: u32, axes: u32) -> Vec<Want> {
    let mut all = vec![Want::Dose, Want::Slope(0), Want::Slope(axes - 1)];
    if degree == 5 {
        all.extend([Want::Curvature(0), Want::Curvature(axes - 1)]);
    }
    all.dedup();
    all
}

fn print(title: &str, columns: &[&str], rows: &[Row]) {
    heading(title, columns);
    for (name, times) in rows {
        line(name, times);
    }
}

// An estimated table and random points in it.
struct Table {
    shape: Shape,
    records: Vec<i32>,
    double: Double,
    positions: Vec<[i32; 3]>,
}

impl Table {
    fn new(degree: u32, axes: u32) -> Table {
        let shape = cube(degree, axes, if axes == 3 { 17 } else { 33 });
        let mut records = vec![0; shape.entries()];
        estimate(Key::Service, shape, &estimable(shape), &mut records).expect("accepted table");
        let double = Double::new(shape, &records);
        let positions = positions(shape, POINTS);
        Table {
            shape,
            records,
            double,
            positions,
        }
    }

    // A run of one call over all positions, where it gives the expected answers.
    fn whole<'a>(&'a self, expected: &[Answer], call: impl Fn([i32; 3]) -> Answer + 'a) -> Run<'a> {
        let answers: Vec<Answer> = self.positions.iter().map(|&p| call(p)).collect();
        assert_eq!(answers, expected);
        Box::new(move || {
            let answer = |&p: &[i32; 3]| call(p).expect("accepted query") as i64;
            self.positions.iter().map(answer).sum()
        })
    }

    // A run in f64 over all positions, where its sum is within the rounding of each answer.
    fn real<'a>(&'a self, expected: &[Answer], call: impl Fn([i32; 3]) -> f64 + 'a) -> Run<'a> {
        let run = move || {
            let sum: f64 = self.positions.iter().map(|&p| call(p)).sum();
            sum as i64
        };
        let whole = |answer: &Answer| answer.expect("accepted query") as i64;
        let sum: i64 = expected.iter().map(whole).sum();
        assert!((run() - sum).abs() < 2 * POINTS as i64);
        Box::new(run)
    }

    fn by_position(&self, want: Want) -> Vec<f64> {
        let (shape, records) = (self.shape, &self.records[..]);
        let library = |p| match want {
            Want::Dose => dose(Key::Service, shape, records, p).map(|dose| dose.value),
            Want::Slope(axis) => slope(Key::Service, shape, records, p, axis),
            Want::Curvature(axis) => curvature(Key::Service, shape, records, p, axis),
        };
        let expected: Vec<Answer> = self.positions.iter().map(|&p| library(p)).collect();
        let expected = &expected[..];
        let mut runs = [
            self.whole(expected, library),
            self.whole(expected, |p| {
                query::by_position::<Specialised<Printed>>(shape, records, p, want)
            }),
            self.whole(expected, |p| {
                query::by_position::<Specialised<Folded>>(shape, records, p, want)
            }),
            self.whole(expected, |p| {
                query::by_position::<Plain<Printed>>(shape, records, p, want)
            }),
            self.whole(expected, |p| {
                query::by_position::<Plain<Folded>>(shape, records, p, want)
            }),
            self.real(expected, |p| self.double.at(p, want, Source::Sums)),
            self.real(expected, |p| self.double.at(p, want, Source::Axes)),
            self.real(expected, |p| self.double.at(p, want, Source::Stored)),
        ];
        side_by_side(POINTS, &mut runs)
    }

    fn by_cell(&self, want: Want) -> Vec<f64> {
        let (shape, records) = (self.shape, &self.records[..]);
        let points = self.positions.iter().map(|&p| cell_and_u(shape, p));
        let points: &[CellAndU] = &points.collect::<Vec<_>>();
        let library = |cell, u| match want {
            Want::Dose => {
                dose_in_cell(Key::Service, shape, records, cell, u).map(|dose| dose.value)
            }
            Want::Slope(axis) => slope_in_cell(Key::Service, shape, records, cell, u, axis),
            Want::Curvature(axis) => curvature_in_cell(Key::Service, shape, records, cell, u, axis),
        };
        let expected: &[Answer] = &points
            .iter()
            .map(|&(cell, u)| library(cell, u))
            .collect::<Vec<_>>();
        let mut runs = [
            over(points, expected, library),
            over(points, expected, |cell, u| {
                query::by_cell::<Specialised<Printed>>(shape, records, cell, u, want)
            }),
            over(points, expected, |cell, u| {
                query::by_cell::<Specialised<Folded>>(shape, records, cell, u, want)
            }),
            over(points, expected, |cell, u| {
                query::by_cell::<Plain<Printed>>(shape, records, cell, u, want)
            }),
            over(points, expected, |cell, u| {
                query::by_cell::<Plain<Folded>>(shape, records, cell, u, want)
            }),
        ];
        side_by_side(POINTS, &mut runs)
    }
}

// A run of one call over cells and steps, where it gives the expected answers.
fn over<'a>(
    points: &'a [CellAndU],
    expected: &[Answer],
    call: impl Fn([u32; 3], [u32; 3]) -> Answer + 'a,
) -> Run<'a> {
    let answers: Vec<Answer> = points.iter().map(|&(cell, u)| call(cell, u)).collect();
    assert_eq!(answers, expected);
    Box::new(move || {
        let answer = |&(cell, u): &CellAndU| call(cell, u).expect("accepted query") as i64;
        points.iter().map(answer).sum()
    })
}
