//! Coefficients in the order of Listings 1 to 4 of source document 003: what stands after each
//! number of corners.

mod common;
mod model;

use common::*;
use lukhtari::{coefficients, Key, Shape};
use model::coefficients::coefficient_count;
use model::listing::{corners, filled_after, NUMBERS};
use std::fs;

// The corner records of a cell, by corner and orders.
fn entries(
    shape: Shape,
    records: &[i32],
    cell: [u32; 3],
) -> impl Fn([usize; 3], [usize; 3]) -> i64 + '_ {
    move |corner, orders| {
        let node = [0, 1, 2].map(|axis| cell[axis] as usize + corner[axis]);
        records[plain_shape(shape).entry_index(node, orders)] as i64
    }
}

// What the call writes.
fn written(shape: Shape, records: &[i32], cell: [u32; 3]) -> Vec<i64> {
    let mut buffer = Lent::new(NUMBERS);
    coefficients(Key::Service, shape, records, cell, buffer.slice()).expect("accepted cell");
    let count = coefficient_count(shape.axes, shape.degree);
    let numbers = buffer.slice()[..count].to_vec();
    buffer.check(&numbers);
    numbers.into_iter().map(i64::from).collect()
}

// The call writes the front of the array; the numbers behind are 0.
#[track_caller]
fn assert_written(shape: Shape, records: &[i32], cell: [u32; 3], filled: &[i64]) {
    let numbers = written(shape, records, cell);
    let (front, rest) = filled.split_at(numbers.len());
    assert_eq!(numbers, front, "{shape:?} {cell:?}");
    assert!(rest.iter().all(|&number| number == 0));
}

// What the program filled_runs prints, which `rt ci` holds it to.
const STORED: &str = "crates/filled_runs/stdout";

// Its records: the entry at an index of the corner records.
fn stored_entry(index: usize) -> i32 {
    let index = index as i32;
    (37 * index * index + 11 * index + 5) % 101 - 50
}

// What it prints for an array: degree, number of axes, number of corners, and all its numbers.
fn stored_line(shape: Shape, k: usize, filled: &[i64]) -> String {
    let words: Vec<String> = filled.iter().map(i64::to_string).collect();
    format!("{} {} {k}: {}\n", shape.degree, shape.axes, words.join(" "))
}

#[test]
fn arrays_after_every_number_of_corners_as_stored() {
    let mut expected = String::new();
    for degree in [3, 5] {
        for axes in 1..=3 {
            let shape = cube(axes, degree, 2);
            let records: Vec<i32> = (0..shape.entries()).map(stored_entry).collect();
            for k in 0..=1 << axes {
                let filled = filled_after(axes, degree, entries(shape, &records, [0; 3]), k);
                expected += &stored_line(shape, k, &filled);
            }
        }
    }
    let stored = fs::read_to_string(repository().join(STORED)).expect(STORED);
    assert_eq!(stored, expected);
}

#[test]
fn the_last_axis_is_innermost() {
    assert_eq!(corners(1), [[0, 0, 0], [1, 0, 0]]);
    assert_eq!(corners(2), [[0, 0, 0], [0, 1, 0], [1, 0, 0], [1, 1, 0]]);
    let three = corners(3).into_iter().map(|[x, y, z]| 4 * x + 2 * y + z);
    assert_eq!(three.collect::<Vec<usize>>(), [0, 1, 2, 3, 4, 5, 6, 7]);
}

#[test]
fn all_corners_give_the_coefficients() {
    let mut random = Random::new(1);
    for (axes, degree) in KINDS {
        for _ in 0..40 {
            let shape = random.shape(axes, degree, 4);
            let records = random.records(shape);
            for cell in cells(shape) {
                let entry = entries(shape, &records, cell);
                let filled = filled_after(axes, degree, entry, 1 << axes);
                assert_written(shape, &records, cell, &filled);
            }
        }
    }
}

#[test]
fn coefficients_of_the_first_corners_stand_and_all_others_are_0() {
    let mut random = Random::new(2);
    for (axes, degree) in KINDS {
        let shape = cube(axes, degree, 2);
        let all = random.records(shape);
        let record = plain_shape(shape).record();
        for k in 0..=1 << axes {
            let after = |k| filled_after(axes, degree, entries(shape, &all, [0; 3]), k);
            let filled = after(k);
            // With records of 0 at the other corners the call gives the array after k corners.
            let mut records = vec![0; all.len()];
            for corner in &corners(axes)[..k] {
                let first = plain_shape(shape).node_number(*corner) * record;
                records[first..first + record].copy_from_slice(&all[first..first + record]);
            }
            assert_written(shape, &records, [0; 3], &filled);
            // A corner writes as many numbers as its record has, over zeros, and no other.
            if k > 0 {
                let before = after(k - 1);
                let changed = (0..NUMBERS).filter(|&number| filled[number] != before[number]);
                let changed: Vec<usize> = changed.collect();
                assert!(changed.iter().all(|&number| before[number] == 0));
                assert!(changed.len() <= record);
            }
        }
    }
}
