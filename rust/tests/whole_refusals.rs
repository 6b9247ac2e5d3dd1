//! Doses, slopes and curvatures by position and by cell: refusals.

mod common;
mod model;
mod positions;
mod queries;

use common::*;
use lukhtari::{ffi, Shape};
use model::query::{last_step, Where};
use model::Answer;
use model::Want::{self, Curvature, Dose, Slope};
use positions::{combinations, position_kinds, step_kinds};
use queries::*;

// The outcome; a refused result has value 0 and no mark, and any other has place 0.
#[track_caller]
fn run_checked(query: &Query) -> Answer<()> {
    let answer = run(query);
    let result = raw(query);
    match answer {
        Ok(value) => assert_eq!((result.number, result.place, result.value), (0, 0, value)),
        Err(refusal) => {
            let refused = ffi::Marked {
                number: refusal.number,
                place: refusal.place,
                value: 0,
                exact: false,
            };
            assert_eq!(result, refused);
        }
    }
    outcome(&answer)
}

// Accepted queries of each kind: by position or cell, for all that the shape has.
fn kinds(shape: Shape) -> Vec<Query> {
    let records = vec![7; shape.entries()];
    let mut all = Vec::new();
    for at in [Where::Position([0; 3]), Where::Cell([0; 3], [0; 3])] {
        for want in wants(shape) {
            all.push(Query::new(shape, records.clone(), at, want));
        }
    }
    all
}

fn set_position(query: &mut Query, axis: usize, to: i32) {
    if let Where::Position(position) = &mut query.at {
        position[axis] = to;
    }
}

fn set_cell(query: &mut Query, axis: usize, to: u32) {
    if let Where::Cell(cell, _) = &mut query.at {
        cell[axis] = to;
    }
}

fn set_u(query: &mut Query, axis: usize, to: u32) {
    if let Where::Cell(_, u) = &mut query.at {
        u[axis] = to;
    }
}

#[test]
fn wrong_shapes_are_refused() {
    for (axes, degree) in KINDS {
        for query in kinds(cube(axes, degree, 2)) {
            for (shape, number, place) in wrong_shapes(axes, degree) {
                let mut query = query.clone();
                query.shape = shape;
                assert_eq!(run_checked(&query), refused(number, place), "{shape:?}");
            }
        }
    }
}

#[test]
fn wrong_lengths() {
    for (axes, degree) in KINDS {
        let shape = cube(axes, degree, 3);
        let entries = shape.entries();
        for query in kinds(shape) {
            for length in [0, shape.nodes(), entries - 1, entries + 1, 2 * entries] {
                let mut query = query.clone();
                query.records.resize(length, 7);
                assert_eq!(run_checked(&query), refused(4, 0));
            }
        }
    }
}

#[test]
fn axes_of_slopes_and_curvatures() {
    for (axes, degree) in KINDS {
        for mut query in kinds(cube(axes, degree, 3)) {
            for axis in [0, 1, 2, 3, 4, 256, u32::MAX] {
                let expected = if axis < axes { Ok(()) } else { refused(12, 0) };
                query.want = Slope(axis);
                assert_eq!(run_checked(&query), expected);
                // An axis that is not used is 12 in both degrees.
                query.want = Curvature(axis);
                let curved = if degree == 3 { refused(21, 0) } else { Ok(()) };
                assert_eq!(run_checked(&query), expected.and(curved));
            }
        }
    }
}

#[test]
fn cubic_tables_have_no_curvature() {
    for axes in 1..=3 {
        for count in [2, 3, 64] {
            let shape = match (axes, count) {
                (3, 64) => shape(3, 3, [64, 2, 2]),
                _ => cube(axes, 3, count),
            };
            for mut query in kinds(shape) {
                query.want = Curvature(axes - 1);
                assert_eq!(run_checked(&query), refused(21, 0));
                query.shape.degree = 5;
                query.records.resize(query.shape.entries(), 7);
                assert_eq!(run_checked(&query), Ok(()));
            }
        }
    }
}

#[test]
fn positions_outside() {
    for (axes, degree) in KINDS {
        for count in [2, 3, 5] {
            let shape = cube(axes, degree, count);
            for axis in 0..3 {
                let used = axis < axes as usize;
                let last = last_step(&plain_shape(shape), axis) as i32;
                let at = Where::Position([0; 3]);
                let mut query = Query::new(shape, vec![7; shape.entries()], at, Dose);
                for p in [0, last] {
                    set_position(&mut query, axis, p);
                    assert_eq!(run_checked(&query), Ok(()));
                }
                for p in [-1, -256, i32::MIN, last + 1, last + 256, i32::MAX] {
                    set_position(&mut query, axis, p);
                    let number = match used {
                        true if p < 0 => 22,
                        true => 11,
                        false => 23,
                    };
                    assert_eq!(run_checked(&query), refused(number, axis as u64));
                }
            }
        }
    }
}

#[test]
fn cells_outside() {
    for (axes, degree) in KINDS {
        let shape = cube(axes, degree, 4);
        for axis in 0..3 {
            let last = if axis < axes as usize { 2 } else { 0 };
            let at = Where::Cell([0; 3], [0; 3]);
            let mut query = Query::new(shape, vec![7; shape.entries()], at, Dose);
            for cell in [0, last] {
                set_cell(&mut query, axis, cell);
                assert_eq!(run_checked(&query), Ok(()));
            }
            for cell in [last + 1, last + 2, 64, 256, u32::MAX] {
                set_cell(&mut query, axis, cell);
                assert_eq!(run_checked(&query), refused(14, axis as u64));
            }
        }
    }
}

#[test]
fn steps_outside_the_cell() {
    for (axes, degree) in KINDS {
        let shape = cube(axes, degree, 3);
        for axis in 0..3 {
            let last = if axis < axes as usize { 256 } else { 0 };
            let at = Where::Cell([0; 3], [0; 3]);
            let mut query = Query::new(shape, vec![7; shape.entries()], at, Slope(0));
            for u in [0, last] {
                set_u(&mut query, axis, u);
                assert_eq!(run_checked(&query), Ok(()));
            }
            // None is below 0: also from 2^31 on a step is above 256.
            for u in [last + 1, last + 2, 512, 65536, 1 << 31, u32::MAX] {
                set_u(&mut query, axis, u);
                let number = if last == 256 { 11 } else { 23 };
                assert_eq!(run_checked(&query), refused(number, axis as u64));
            }
        }
    }
}

#[test]
fn every_combination_of_positions() {
    for (axes, degree) in KINDS {
        let shape = cube(axes, degree, 3);
        for want in [Dose, wants(shape).pop().unwrap()] {
            let at = Where::Position([0; 3]);
            let mut query = Query::new(shape, vec![7; shape.entries()], at, want);
            for (position, expected) in combinations(axes, &position_kinds(512)) {
                query.at = Where::Position(position);
                assert_eq!(run_checked(&query), expected, "{position:?}");
            }
        }
    }
}

#[test]
fn every_combination_of_steps() {
    for (axes, degree) in KINDS {
        let shape = cube(axes, degree, 3);
        let cell = [0, 1, 2].map(|axis| u32::from(axis < axes));
        for want in [Dose, wants(shape).pop().unwrap()] {
            let at = Where::Cell(cell, [0; 3]);
            let mut query = Query::new(shape, vec![7; shape.entries()], at, want);
            for (u, expected) in combinations(axes, &step_kinds(256)) {
                query.at = Where::Cell(cell, u);
                assert_eq!(run_checked(&query), expected, "{u:?}");
                // A cell index on an unused axis stays 14.
                for axis in axes as usize..3 {
                    let mut query = query.clone();
                    set_cell(&mut query, axis, 1);
                    assert_eq!(run_checked(&query), refused(14, axis as u64));
                }
            }
        }
    }
}

#[test]
fn entries_beyond_their_limit() {
    for (axes, degree) in KINDS {
        let shape = cube(axes, degree, 3);
        let cell = [0, 1, 2].map(|axis| u32::from(axis < axes));
        let position = cell.map(|index| 256 * index as i32 + 100 * index as i32);
        let entries = corner_entries(shape, cell);
        for at in [Where::Position(position), Where::Cell(cell, [0; 3])] {
            for &(index, limit) in &entries {
                let mut query = Query::new(shape, vec![7; shape.entries()], at, Dose);
                for within in [limit, -limit] {
                    query.records[index] = within;
                    assert_eq!(run_checked(&query), Ok(()));
                }
                for beyond in [limit + 1, -limit - 1, i32::MAX, i32::MIN] {
                    query.records[index] = beyond;
                    assert_eq!(run_checked(&query), refused(5, index as u64));
                }
            }
        }
    }
}

#[test]
fn entries_beyond_their_limit_in_corner_order() {
    let mut random = Random::new(1);
    for (axes, degree) in KINDS {
        let shape = cube(axes, degree, 4);
        for cell in cells(shape) {
            let entries = corner_entries(shape, cell);
            let at = Where::Cell(cell, [0; 3]);
            let mut query = Query::new(shape, vec![7; shape.entries()], at, Dose);
            let mut first = entries.len();
            for _ in 0..3 {
                let number = random.below(entries.len() as u64) as usize;
                query.records[entries[number].0] = i32::MIN;
                first = first.min(number);
            }
            assert_eq!(run_checked(&query), refused(5, entries[first].0 as u64));
        }
    }
}

// Faults that queries by position and by cell share, before those of the point.
fn first_faults(axes: u32, want: Want) -> Vec<Fault<Query>> {
    let mut faults = shape_faults(|query: &mut Query| &mut query.shape, axes);
    faults.push(fault(4, 0, |query: &mut Query| query.records.push(0)));
    let unused = match want {
        Dose => None,
        Slope(_) => Some(Slope(3)),
        Curvature(_) => Some(Curvature(3)),
    };
    if let Some(want) = unused {
        faults.push(fault(12, 0, move |query: &mut Query| query.want = want));
    }
    if want.order() == 2 {
        faults.push(fault(21, 0, make_cubic));
    }
    faults
}

// A cubic table with as many records as it needs.
fn make_cubic(query: &mut Query) {
    query.shape.degree = 3;
    query.records.resize(query.shape.entries(), 7);
}

// Two entries beyond their limits in the first cell, the earlier first.
fn last_faults(shape: Shape) -> Vec<Fault<Query>> {
    let last = corner_entries(shape, [0; 3]).last().unwrap().0;
    vec![
        fault(5, 1, |query: &mut Query| query.records[1] = i32::MAX),
        fault(5, last as u64, move |query: &mut Query| {
            query.records[last] = i32::MIN
        }),
    ]
}

#[test]
fn faults_in_order_by_position() {
    for (axes, degree) in KINDS {
        let shape = cube(axes, degree, 3);
        for want in wants(shape) {
            let mut faults = first_faults(axes, want);
            for axis in 0..3 {
                let used = axis < axes as usize;
                for (number, p) in [(11, 513), (22, -1)] {
                    let make = move |query: &mut Query| set_position(query, axis, p);
                    let number = if used { number } else { 23 };
                    faults.push(fault(number, axis as u64, make));
                }
            }
            faults.extend(last_faults(shape));
            let at = Where::Position([0; 3]);
            let query = Query::new(shape, vec![7; shape.entries()], at, want);
            check_faults(&query, &faults, run_checked);
        }
    }
}

#[test]
fn faults_in_order_by_cell() {
    for (axes, degree) in KINDS {
        let shape = cube(axes, degree, 3);
        for want in wants(shape) {
            let mut faults = first_faults(axes, want);
            for axis in 0..3 {
                let make = move |query: &mut Query| set_cell(query, axis, 2);
                faults.push(fault(14, axis as u64, make));
            }
            for axis in 0..3 {
                let make = move |query: &mut Query| set_u(query, axis, 257);
                let number = if axis < axes as usize { 11 } else { 23 };
                faults.push(fault(number, axis as u64, make));
            }
            faults.extend(last_faults(shape));
            let at = Where::Cell([0; 3], [0; 3]);
            let query = Query::new(shape, vec![7; shape.entries()], at, want);
            check_faults(&query, &faults, run_checked);
        }
    }
}
