//! Queries by position and by cell: the calls and what their tests share.

#![allow(dead_code)]

use crate::common::{editions, plain, plain_shape, Query, SERVICE};
use crate::model;
use lukhtari::{curvature, curvature_in_cell, dose, dose_in_cell, slope, slope_in_cell, Key};
use lukhtari::{ffi, Shape};
use model::query::Where;
use model::Want::{Curvature, Dose, Slope};
use model::{Answer, Want};

// Makes the call in both editions, compares each with the model, of doses also the mark, and returns
// the query's answer.
#[track_caller]
pub fn run(query: &Query) -> Answer<i32> {
    let Query { at, want, .. } = *query;
    let records = &query.records[..];
    let mut answers = Vec::new();
    for shape in editions(query.shape) {
        answers.push(match want {
            Dose => run_dose(shape, records, at).map(|(value, _)| value),
            _ => run_derivative(shape, records, at, want),
        });
    }
    answers[usize::from(query.shape.second_edition)]
}

#[track_caller]
fn run_derivative(shape: Shape, records: &[i32], at: Where, want: Want) -> Answer<i32> {
    let got = plain(answer(shape, records, at, want));
    let expected = model::query::query(&plain_shape(shape), records, at, want);
    assert_eq!(got, expected, "{shape:?} {at:?} {want:?}");
    got
}

// Asks for a dose, compares value and mark with the model, and returns both.
#[track_caller]
pub fn run_dose(shape: Shape, records: &[i32], at: Where) -> Answer<(i32, bool)> {
    let got = plain(marked(shape, records, at)).map(|dose| (dose.value, dose.exact));
    let expected = model::query::marked_dose(&plain_shape(shape), records, at);
    assert_eq!(got, expected, "{shape:?} {at:?}");
    got
}

pub fn call(query: &Query) -> Result<i32, lukhtari::Refusal> {
    answer(query.shape, &query.records, query.at, query.want)
}

// A dose with its mark.
pub fn marked(
    shape: Shape,
    records: &[i32],
    at: Where,
) -> Result<lukhtari::Dose, lukhtari::Refusal> {
    match at {
        Where::Position(p) => dose(Key::Service, shape, records, p),
        Where::Cell(cell, u) => dose_in_cell(Key::Service, shape, records, cell, u),
        Where::Float(_) => panic!("a float carries no mark"),
    }
}

// The answer to a query in whole numbers.
pub fn answer(
    shape: Shape,
    records: &[i32],
    at: Where,
    want: Want,
) -> Result<i32, lukhtari::Refusal> {
    match (at, want) {
        (_, Dose) => marked(shape, records, at).map(|dose| dose.value),
        (Where::Position(p), Slope(axis)) => slope(Key::Service, shape, records, p, axis),
        (Where::Position(p), Curvature(axis)) => curvature(Key::Service, shape, records, p, axis),
        (Where::Cell(cell, u), Slope(axis)) => {
            slope_in_cell(Key::Service, shape, records, cell, u, axis)
        }
        (Where::Cell(cell, u), Curvature(axis)) => {
            curvature_in_cell(Key::Service, shape, records, cell, u, axis)
        }
        (Where::Float(_), _) => panic!("not a query in whole numbers"),
    }
}

// The result as it crosses the C interface; a slope or curvature as one that is not marked.
pub fn raw(query: &Query) -> ffi::Marked {
    match query.at {
        Where::Position(at) => raw_at(query, ffi::Position { at }),
        Where::Cell(cell, u) => raw_in_cell(query, ffi::Index { at: cell }, ffi::Index { at: u }),
        Where::Float(_) => panic!("not a query in whole numbers"),
    }
}

fn unmarked(result: ffi::Whole) -> ffi::Marked {
    ffi::Marked {
        number: result.number,
        place: result.place,
        value: result.value,
        exact: false,
    }
}

fn raw_at(query: &Query, at: ffi::Position) -> ffi::Marked {
    let (shape, records, len) = (query.shape, query.records.as_ptr(), query.records.len());
    // SAFETY: pointer and length are those of the records.
    unsafe {
        match query.want {
            Dose => ffi::lukhtari_dose(SERVICE, shape, records, len, at),
            Slope(axis) => unmarked(ffi::lukhtari_slope(SERVICE, shape, records, len, at, axis)),
            Curvature(axis) => unmarked(ffi::lukhtari_curvature(
                SERVICE, shape, records, len, at, axis,
            )),
        }
    }
}

fn raw_in_cell(query: &Query, cell: ffi::Index, u: ffi::Index) -> ffi::Marked {
    let (shape, records, len) = (query.shape, query.records.as_ptr(), query.records.len());
    // SAFETY: pointer and length are those of the records.
    unsafe {
        match query.want {
            Dose => ffi::lukhtari_dose_in_cell(SERVICE, shape, records, len, cell, u),
            Slope(axis) => {
                let slope =
                    ffi::lukhtari_slope_in_cell(SERVICE, shape, records, len, cell, u, axis);
                unmarked(slope)
            }
            Curvature(axis) => {
                let curvature =
                    ffi::lukhtari_curvature_in_cell(SERVICE, shape, records, len, cell, u, axis);
                unmarked(curvature)
            }
        }
    }
}
