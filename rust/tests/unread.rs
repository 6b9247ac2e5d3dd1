//! Refusals that follow from the lengths and the numbers handed over: nothing of a slice is read.
//! NULL with length 0 is such a slice, and its call is refused, unless it is a ramp.
//!
//! Every slice here but the text of an import and the positions of a ramp that are refused for them
//! is a pointer to no memory, so that a read or a write ends the test by a fault.
//! The calls are the raw ones of the C interface, which take the pointer and the length as they
//! are: no Rust slice is made of them, and a call that reads and writes nothing is sound with them.

mod common;
mod model;

use common::{cube, editions, in_steps, KINDS, SERVICE};
use lukhtari::ffi::*;
use std::ptr::{null, null_mut, NonNull};

// A length that no memory has.
const LONG: usize = 1 << 40;

// An address in the page of address 0, which is never mapped.
fn nowhere<T>() -> *mut T {
    NonNull::dangling().as_ptr()
}

fn estimate(shape: Shape, samples: usize, room: usize) -> u32 {
    // SAFETY: nothing is read or written.
    unsafe { lukhtari_estimate(SERVICE, shape, nowhere(), samples, nowhere(), room) }.number
}

fn write(shape: Shape, samples: usize, room: usize) -> u32 {
    let (axes, edition) = (shape.axes, shape.second_edition);
    let (counts, steps) = (Index { at: shape.counts }, Index { at: shape.steps });
    let (from, to) = (nowhere(), nowhere());
    // SAFETY: nothing is read or written.
    unsafe {
        lukhtari_write(
            SERVICE, axes, counts, steps, edition, from, samples, to, room,
        )
    }
    .number
}

fn coefficients(shape: Shape, records: usize, cell: u32, room: usize) -> u32 {
    let cell = Index { at: [cell, 0, 0] };
    // SAFETY: nothing is read or written.
    unsafe { lukhtari_coefficients(SERVICE, shape, nowhere(), records, cell, nowhere(), room) }
        .number
}

fn powers(shape: Shape, records: usize, cell: u32, room: usize) -> u32 {
    let cell = Index { at: [cell, 0, 0] };
    // SAFETY: nothing is read or written.
    unsafe { lukhtari_powers(SERVICE, shape, nowhere(), records, cell, nowhere(), room) }.number
}

fn total(shape: Shape, records: usize, cell: u32) -> u32 {
    let cell = Index { at: [cell, 0, 0] };
    // SAFETY: nothing is read.
    unsafe { lukhtari_cell_total(SERVICE, shape, nowhere(), records, cell) }.number
}

fn total_of_box(shape: Shape, records: usize, first: u32, last: u32) -> u32 {
    let [first, last] = [first, last].map(|at| Index { at: [at, 0, 0] });
    // SAFETY: nothing is read.
    unsafe { lukhtari_box_total(SERVICE, shape, nowhere(), records, first, last) }.number
}

fn corners(axes: u32, degree: u32, coefficients: usize, room: usize) -> u32 {
    // SAFETY: nothing is read or written.
    unsafe {
        lukhtari_corners(
            SERVICE,
            axes,
            degree,
            nowhere(),
            coefficients,
            nowhere(),
            room,
        )
    }
    .number
}

// With a text at no place.
fn import_nowhere(shape: Shape, length: usize, room: usize) -> u32 {
    // SAFETY: nothing is read or written.
    unsafe { lukhtari_import(SERVICE, shape, nowhere(), length, nowhere(), room) }.number
}

// With a slice for the samples at no place.
fn import(shape: Shape, text: &str, room: usize) -> u32 {
    // SAFETY: the text is lent; the samples are neither read nor written.
    unsafe { lukhtari_import(SERVICE, shape, text.as_ptr(), text.len(), nowhere(), room) }.number
}

#[test]
fn importing() {
    for (axes, degree) in KINDS {
        let shape = cube(axes, degree, 2);
        for room in [LONG, shape.nodes(), 0] {
            assert_eq!(import_nowhere(Shape { axes: 0, ..shape }, LONG, room), 1);
            assert_eq!(import_nowhere(Shape { degree: 4, ..shape }, LONG, room), 2);
            assert_eq!(import_nowhere(cube(axes, degree, 65), LONG, room), 3);
            assert_eq!(import_nowhere(in_steps(shape, [0; 3]), LONG, room), 26);
            assert_eq!(import_nowhere(shape, 0, room), 4);
        }
        let mut tokens = vec!["1"; shape.nodes()];
        for room in [shape.nodes() - 1, 1, 0] {
            assert_eq!(import(shape, &tokens.join(" "), room), 9);
        }
        let long = "1".repeat(65);
        for (last, number) in [(&long[..], 16), ("1.", 17), ("0.001", 18), ("1e3", 5)] {
            *tokens.last_mut().unwrap() = last;
            for room in [LONG, shape.nodes()] {
                assert_eq!(import(shape, &tokens.join("\n"), room), number);
            }
        }
        tokens.push("1");
        for room in [LONG, 0] {
            assert_eq!(import(shape, &tokens.join(" "), room), 4);
        }
    }
}

// With positions at no place.
fn ramp_nowhere(shape: Shape, records: usize, numbers: usize, room: usize) -> Ramped {
    // SAFETY: nothing is read or written.
    unsafe {
        lukhtari_ramp(
            SERVICE,
            shape,
            nowhere(),
            records,
            nowhere(),
            numbers,
            nowhere(),
            room,
        )
    }
}

// With records and answers at no place.
fn ramp(shape: Shape, positions: &[i32]) -> Ramped {
    let (list, numbers) = (positions.as_ptr(), positions.len());
    // SAFETY: the positions are lent; no record is read and no answer written.
    unsafe {
        lukhtari_ramp(
            SERVICE,
            shape,
            nowhere(),
            shape.entries(),
            list,
            numbers,
            nowhere(),
            256,
        )
    }
}

#[test]
fn ramps() {
    for (axes, degree) in KINDS {
        let shape = cube(axes, degree, 64);
        let entries = shape.entries();
        for (records, numbers, room) in [(LONG, LONG, LONG), (0, 3, 0), (entries, 0, 0)] {
            let number = |shape| ramp_nowhere(shape, records, numbers, room).number;
            assert_eq!(number(Shape { axes: 0, ..shape }), 1);
            assert_eq!(number(Shape { degree: 4, ..shape }), 2);
            assert_eq!(number(cube(axes, degree, 65)), 3);
            assert_eq!(number(in_steps(shape, [0; 3])), 26);
        }
        for numbers in [LONG, 1, 2, 4, 767, 769, 771, 3 * 65_536, usize::MAX] {
            for (records, room) in [(LONG, LONG), (entries, 256), (0, 0)] {
                assert_eq!(ramp_nowhere(shape, records, numbers, room).number, 20);
            }
        }
        for numbers in [0, 3, 768] {
            for records in [LONG, entries - 1, entries + 1] {
                assert_eq!(ramp_nowhere(shape, records, numbers, LONG).number, 4);
            }
        }
        for (numbers, room) in [(3, 0), (768, 255), (768, 1)] {
            assert_eq!(ramp_nowhere(shape, entries, numbers, room).number, 9);
        }
        // The first position is outside the table, or the list is empty.
        let outside = ramp(shape, &[-1, 0, 0, 0, 0, 0]);
        assert_eq!((outside.number, outside.place), (22, 0));
        let empty = ramp_nowhere(shape, entries, 0, LONG);
        assert_eq!((empty.number, empty.place, empty.fetches), (0, 0, 0));
    }
}

#[test]
fn estimation() {
    for (axes, degree) in KINDS {
        let shape = cube(axes, degree, 64);
        let (nodes, entries) = (shape.nodes(), shape.entries());
        for samples in [LONG, nodes + 1, nodes - 1] {
            for room in [LONG, entries, entries - 1, 0] {
                assert_eq!(estimate(shape, samples, room), 4);
            }
        }
        for room in [entries - 1, nodes, 0] {
            assert_eq!(estimate(shape, nodes, room), 9);
        }
        assert_eq!(estimate(Shape { axes: 0, ..shape }, LONG, LONG), 1);
        assert_eq!(estimate(Shape { degree: 4, ..shape }, LONG, LONG), 2);
        assert_eq!(estimate(cube(axes, degree, 65), LONG, LONG), 3);
        assert_eq!(estimate(in_steps(shape, [0; 3]), LONG, LONG), 26);
    }
}

#[test]
fn writing() {
    for axes in 1..=3 {
        for shape in editions(cube(axes, 3, 64)) {
            let (nodes, needed) = (shape.nodes(), shape.file_bytes());
            for samples in [LONG, nodes + 1, nodes - 1] {
                for room in [LONG, needed, needed - 1, 0] {
                    assert_eq!(write(shape, samples, room), 4);
                }
            }
            for room in [needed - 1, needed - 8, nodes, 0] {
                assert_eq!(write(shape, nodes, room), 9);
            }
            assert_eq!(write(Shape { axes: 4, ..shape }, LONG, LONG), 1);
            let counts = [1; 3];
            assert_eq!(write(Shape { counts, ..shape }, LONG, LONG), 3);
            assert_eq!(write(in_steps(shape, [0; 3]), LONG, LONG), 26);
        }
    }
}

// Of two lattices with their numbers of samples, weights 1 and w.
fn pool(a: Shape, samples_a: usize, b: Shape, samples_b: usize, w: u32, room: usize) -> u32 {
    let at = nowhere();
    // SAFETY: nothing is read or written.
    unsafe { lukhtari_pool(SERVICE, a, at, samples_a, 1, b, at, samples_b, w, at, room) }.number
}

#[test]
fn pooling() {
    for (axes, degree) in KINDS {
        let shape = cube(axes, degree, 64);
        let nodes = shape.nodes();
        for (samples, w, room) in [(LONG, 10_001, LONG), (0, 1, 0), (nodes, 1, nodes)] {
            let number = |a, b| pool(a, samples, b, samples, w, room);
            let wrong = [
                (Shape { axes: 0, ..shape }, 1),
                (Shape { degree: 4, ..shape }, 2),
                (cube(axes, degree, 65), 3),
            ];
            for (wrong, expected) in wrong {
                assert_eq!([number(wrong, shape), number(shape, wrong)], [expected; 2]);
            }
            assert_eq!(number(shape, cube(axes, degree, 63)), 27);
        }
        assert_eq!(pool(shape, LONG, shape, LONG, 10_001, LONG), 28);
        for room in [LONG, nodes, 0] {
            assert_eq!(pool(shape, LONG, shape, nodes, 1, room), 4);
            assert_eq!(pool(shape, nodes, shape, nodes - 1, 1, room), 4);
        }
        for room in [nodes - 1, 0] {
            assert_eq!(pool(shape, nodes, shape, nodes, 1, room), 9);
        }
    }
}

#[test]
fn conversion() {
    for (axes, degree) in KINDS {
        let shape = cube(axes, degree, 64);
        let entries = shape.entries();
        let count = (degree as usize + 1).pow(axes);
        for room in [LONG, count, count - 1] {
            assert_eq!(coefficients(shape, LONG, 0, room), 4);
            assert_eq!(corners(axes, degree, LONG, room), 15);
        }
        assert_eq!(coefficients(in_steps(shape, [0; 3]), LONG, 0, count), 26);
        assert_eq!(coefficients(shape, entries, 0, count - 1), 9);
        assert_eq!(coefficients(shape, entries, 63, count), 14);
        assert_eq!(corners(axes, degree, count, count - 1), 9);
    }
}

#[test]
fn totals() {
    for (axes, degree) in KINDS {
        let shape = cube(axes, degree, 64);
        let entries = shape.entries();
        for (records, cell) in [(LONG, 63), (0, 0), (entries, 0)] {
            let wrong = [
                (Shape { axes: 0, ..shape }, 1),
                (Shape { degree: 4, ..shape }, 2),
                (cube(axes, degree, 65), 3),
                (in_steps(shape, [0; 3]), 26),
            ];
            for (shape, number) in wrong {
                assert_eq!(total(shape, records, cell), number);
                assert_eq!(total_of_box(shape, records, cell, cell), number);
            }
        }
        for records in [LONG, entries - 1, entries + 1] {
            assert_eq!(total(shape, records, 63), 4);
            assert_eq!(total_of_box(shape, records, 1, 0), 4);
        }
        assert_eq!(total(shape, entries, 63), 14);
        for (first, last) in [(0, 63), (1, 0), (63, 63), (u32::MAX, u32::MAX)] {
            assert_eq!(total_of_box(shape, entries, first, last), 29);
        }
    }
}

#[test]
fn power_coefficients() {
    for (axes, degree) in KINDS {
        let shape = cube(axes, degree, 64);
        let entries = shape.entries();
        for (records, cell, room) in [(LONG, 63, LONG), (0, 0, 0), (entries, 0, 16)] {
            assert_eq!(powers(Shape { axes: 0, ..shape }, records, cell, room), 1);
            assert_eq!(powers(Shape { degree: 4, ..shape }, records, cell, room), 2);
            assert_eq!(powers(cube(axes, degree, 65), records, cell, room), 3);
            let none = in_steps(shape, [0; 3]);
            assert_eq!(powers(none, records, cell, room), 26);
            if (axes, degree) != (2, 3) {
                assert_eq!(powers(shape, records, cell, room), 24);
            }
        }
    }
    let shape = cube(2, 3, 64);
    let entries = shape.entries();
    for room in [LONG, 16, 15, 0] {
        for records in [LONG, entries - 1, entries + 1] {
            assert_eq!(powers(shape, records, 63, room), 4);
        }
    }
    for room in [15, 0] {
        assert_eq!(powers(shape, entries, 63, room), 9);
    }
    for room in [LONG, 16] {
        assert_eq!(powers(shape, entries, 63, room), 14);
    }
}

// The refusals of all queries, where the position or the step in cell 0 is `at` on the x axis.
fn queries(shape: Shape, records: usize, at: i32, axis: u32) -> [u32; 8] {
    let p = Position { at: [at, 0, 0] };
    let index = |x: i32| Index {
        at: [x as u32, 0, 0],
    };
    let (cell, u) = (index(0), index(at));
    let (x, y, z) = (at as f32 / 256.0, 0.0, 0.0);
    let f = FloatPosition { x, y, z };
    let r = nowhere();
    // SAFETY: nothing is read.
    unsafe {
        [
            lukhtari_dose(SERVICE, shape, r, records, p).number,
            lukhtari_dose_in_cell(SERVICE, shape, r, records, cell, u).number,
            lukhtari_dose_float(SERVICE, shape, r, records, f).number,
            lukhtari_slope(SERVICE, shape, r, records, p, axis).number,
            lukhtari_slope_in_cell(SERVICE, shape, r, records, cell, u, axis).number,
            lukhtari_slope_float(SERVICE, shape, r, records, f, axis).number,
            lukhtari_curvature(SERVICE, shape, r, records, p, axis).number,
            lukhtari_curvature_in_cell(SERVICE, shape, r, records, cell, u, axis).number,
        ]
    }
}

#[test]
fn doses_slopes_and_curvatures() {
    for (axes, degree) in KINDS {
        let shape = cube(axes, degree, 64);
        let entries = shape.entries();
        assert_eq!(queries(shape, LONG, 0, 0), [4; 8]);
        assert_eq!(queries(in_steps(shape, [0; 3]), LONG, -1, axes), [26; 8]);
        assert_eq!(queries(shape, entries, -1, axes)[3..], [12; 5]);
        // Below 0, which within a cell is a step above 256; and beyond the last node.
        let cubic = degree == 3;
        let below = queries(shape, entries, -1, 0);
        assert_eq!(below[..6], [22, 11, 22, 22, 11, 22]);
        assert_eq!(below[6..], if cubic { [21, 21] } else { [22, 11] });
        let beyond = queries(shape, entries, 16129, 0);
        assert_eq!(beyond[..6], [11; 6]);
        assert_eq!(beyond[6..], if cubic { [21; 2] } else { [11; 2] });
    }
    // 21 also where the point is in the table.
    let shape = cube(3, 3, 64);
    assert_eq!(curvatures(shape, shape.entries()), [21; 2]);
}

// The refusals of both curvatures at the first node.
fn curvatures(shape: Shape, records: usize) -> [u32; 2] {
    let (p, i) = (Position { at: [0; 3] }, Index { at: [0; 3] });
    // SAFETY: nothing is read.
    unsafe {
        [
            lukhtari_curvature(SERVICE, shape, nowhere(), records, p, 0).number,
            lukhtari_curvature_in_cell(SERVICE, shape, nowhere(), records, i, i, 0).number,
        ]
    }
}

#[test]
fn cells_and_floats() {
    for (axes, degree) in KINDS {
        let shape = cube(axes, degree, 64);
        let (r, entries) = (nowhere(), shape.entries());
        let (cell, u) = (Index { at: [63, 0, 0] }, Index { at: [0; 3] });
        let (x, y, z) = (f32::NAN, 0.0, 0.0);
        let f = FloatPosition { x, y, z };
        // SAFETY: nothing is read.
        let numbers = unsafe {
            [
                lukhtari_dose_in_cell(SERVICE, shape, r, entries, cell, u).number,
                lukhtari_dose_float(SERVICE, shape, r, entries, f).number,
                lukhtari_curvature_in_cell(SERVICE, shape, r, entries, cell, u, 0).number,
            ]
        };
        assert_eq!(numbers, [14, 10, if degree == 3 { 21 } else { 14 }]);
    }
}

#[test]
fn reading() {
    for length in 0..4 {
        // SAFETY: nothing is read or written.
        let table = unsafe { lukhtari_read(SERVICE, nowhere(), length, nowhere(), LONG) };
        assert_eq!((table.number, table.place), (6, length as u64));
    }
}

// The refusals of all queries with no records.
fn queries_of_null(shape: Shape) -> [u32; 8] {
    let (p, i) = (Position { at: [0; 3] }, Index { at: [0; 3] });
    let (x, y, z) = (0.0, 0.0, 0.0);
    let f = FloatPosition { x, y, z };
    // SAFETY: a slice of length 0 may be NULL.
    unsafe {
        [
            lukhtari_dose(SERVICE, shape, null(), 0, p).number,
            lukhtari_dose_in_cell(SERVICE, shape, null(), 0, i, i).number,
            lukhtari_dose_float(SERVICE, shape, null(), 0, f).number,
            lukhtari_slope(SERVICE, shape, null(), 0, p, 0).number,
            lukhtari_slope_in_cell(SERVICE, shape, null(), 0, i, i, 0).number,
            lukhtari_slope_float(SERVICE, shape, null(), 0, f, 0).number,
            lukhtari_curvature(SERVICE, shape, null(), 0, p, 0).number,
            lukhtari_curvature_in_cell(SERVICE, shape, null(), 0, i, i, 0).number,
        ]
    }
}

#[test]
fn null_with_length_0_for_tables() {
    for (axes, degree) in KINDS {
        let shape = cube(axes, degree, 2);
        let (nodes, entries) = (shape.nodes(), shape.entries());
        let samples = vec![0; nodes];
        let mut records = vec![0; entries];
        // SAFETY: the slices are lent; one of length 0 may be NULL.
        let estimates = unsafe {
            [
                lukhtari_estimate(SERVICE, shape, null(), 0, null_mut(), 0).number,
                lukhtari_estimate(SERVICE, shape, null(), 0, records.as_mut_ptr(), entries).number,
                lukhtari_estimate(SERVICE, shape, samples.as_ptr(), nodes, null_mut(), 0).number,
            ]
        };
        assert_eq!(estimates, [4, 4, 9]);
        assert_eq!(queries_of_null(shape), [4; 8]);
    }
}

#[test]
fn null_with_length_0_for_cells() {
    for (axes, degree) in KINDS {
        let shape = cube(axes, degree, 2);
        let cell = Index { at: [0; 3] };
        let records = vec![0; shape.entries()];
        let mut out = vec![0; shape.coefficients()];
        let (r, entries, o, room) = (records.as_ptr(), records.len(), out.as_mut_ptr(), out.len());
        // SAFETY: the slices are lent; one of length 0 may be NULL.
        let conversions = unsafe {
            [
                lukhtari_coefficients(SERVICE, shape, null(), 0, cell, null_mut(), 0).number,
                lukhtari_coefficients(SERVICE, shape, null(), 0, cell, o, room).number,
                lukhtari_coefficients(SERVICE, shape, r, entries, cell, null_mut(), 0).number,
                lukhtari_corners(SERVICE, axes, degree, null(), 0, null_mut(), 0).number,
                lukhtari_corners(SERVICE, axes, degree, null(), 0, o, room).number,
                lukhtari_corners(SERVICE, axes, degree, r, room, null_mut(), 0).number,
            ]
        };
        assert_eq!(conversions, [4, 4, 9, 15, 15, 9]);
        // SAFETY: the same.
        let exports = unsafe {
            [
                lukhtari_powers(SERVICE, shape, null(), 0, cell, null_mut(), 0).number,
                lukhtari_powers(SERVICE, shape, null(), 0, cell, o, room).number,
                lukhtari_powers(SERVICE, shape, r, entries, cell, null_mut(), 0).number,
            ]
        };
        // SAFETY: the same.
        let totals = unsafe {
            [
                lukhtari_cell_total(SERVICE, shape, null(), 0, cell).number,
                lukhtari_box_total(SERVICE, shape, null(), 0, cell, cell).number,
            ]
        };
        assert_eq!(totals, [4; 2]);
        let two_axis_cubic = (axes, degree) == (2, 3);
        assert_eq!(exports, if two_axis_cubic { [4, 4, 9] } else { [24; 3] });
    }
}

#[test]
fn null_with_length_0_for_files() {
    let (counts, steps) = (Index { at: [2, 1, 1] }, Index { at: [32, 1, 1] });
    let (mut samples, mut bytes) = ([0, 100], [0; 20]);
    let (s, b) = (samples.as_mut_ptr(), bytes.as_mut_ptr());
    // SAFETY: the slices are lent; one of length 0 may be NULL.
    let files = unsafe {
        [
            lukhtari_write(SERVICE, 1, counts, steps, false, null(), 0, null_mut(), 0).number,
            lukhtari_write(SERVICE, 1, counts, steps, false, null(), 0, b, 20).number,
            lukhtari_write(SERVICE, 1, counts, steps, false, s, 2, null_mut(), 0).number,
            lukhtari_write(SERVICE, 1, counts, steps, false, s, 2, b, 20).number,
            lukhtari_read(SERVICE, null(), 0, null_mut(), 0).number,
            lukhtari_read(SERVICE, null(), 0, s, 2).number,
            lukhtari_read(SERVICE, b, 20, null_mut(), 0).number,
            lukhtari_read(SERVICE, b, 20, s, 2).number,
        ]
    };
    assert_eq!(files, [4, 4, 9, 0, 6, 6, 9, 0]);
}

#[test]
fn null_with_length_0_for_texts() {
    let shape = cube(1, 3, 2);
    let (text, mut samples) = (b"1 2", [0; 2]);
    let (t, s) = (text.as_ptr(), samples.as_mut_ptr());
    // SAFETY: the slices are lent; one of length 0 may be NULL.
    let texts = unsafe {
        [
            lukhtari_import(SERVICE, shape, null(), 0, null_mut(), 0).number,
            lukhtari_import(SERVICE, shape, null(), 0, s, 2).number,
            lukhtari_import(SERVICE, shape, t, 3, null_mut(), 0).number,
            lukhtari_import(SERVICE, shape, t, 3, s, 2).number,
        ]
    };
    assert_eq!(texts, [4, 4, 9, 0]);
}

#[test]
fn null_with_length_0_for_pooling() {
    let shape = cube(1, 3, 2);
    let (samples, mut out) = ([1, 2], [0; 2]);
    let (s, o) = (samples.as_ptr(), out.as_mut_ptr());
    // SAFETY: the slices are lent; one of length 0 may be NULL.
    let pooled = unsafe {
        [
            lukhtari_pool(
                SERVICE,
                shape,
                null(),
                0,
                1,
                shape,
                null(),
                0,
                1,
                null_mut(),
                0,
            )
            .number,
            lukhtari_pool(SERVICE, shape, null(), 0, 1, shape, s, 2, 1, o, 2).number,
            lukhtari_pool(SERVICE, shape, s, 2, 1, shape, null(), 0, 1, o, 2).number,
            lukhtari_pool(SERVICE, shape, s, 2, 1, shape, s, 2, 1, null_mut(), 0).number,
            lukhtari_pool(SERVICE, shape, s, 2, 1, shape, s, 2, 1, o, 2).number,
        ]
    };
    assert_eq!(pooled, [4, 4, 4, 9, 0]);
    assert_eq!(out, samples);
}

#[test]
fn null_with_length_0_for_ramps() {
    for (axes, degree) in KINDS {
        let shape = cube(axes, degree, 2);
        let (records, positions) = (vec![7; shape.entries()], [0; 3]);
        let mut answers = [0; 1];
        let (r, entries) = (records.as_ptr(), records.len());
        let (p, a) = (positions.as_ptr(), answers.as_mut_ptr());
        // SAFETY: the slices are lent; one of length 0 may be NULL.
        let ramps = unsafe {
            [
                lukhtari_ramp(SERVICE, shape, null(), 0, null(), 0, null_mut(), 0).number,
                lukhtari_ramp(SERVICE, shape, null(), 0, p, 3, a, 1).number,
                lukhtari_ramp(SERVICE, shape, r, entries, p, 3, null_mut(), 0).number,
                lukhtari_ramp(SERVICE, shape, r, entries, null(), 0, null_mut(), 0).number,
                lukhtari_ramp(SERVICE, shape, r, entries, null(), 0, a, 1).number,
                lukhtari_ramp(SERVICE, shape, r, entries, p, 3, a, 1).number,
            ]
        };
        assert_eq!(ramps, [4, 4, 9, 0, 0, 0]);
        assert_eq!(answers, [7]);
    }
}
