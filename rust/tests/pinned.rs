//! Readings of the documents that theorems leave open, fixed by printed numbers: the rows of
//! crates/claims/specs/Pinned.antt and more of their kind.

mod common;
mod files;
mod model;
mod printed;
mod queries;

use common::*;
use files::{words, EXAMPLE, SECTION};
use lukhtari::{box_total, cell_total, dose_float, read, Key, Measurement, Shape};
use model::query::Where::{Cell, Position};
use model::Rational;
use model::Want::{self, Curvature, Dose, Slope};
use printed::*;
use queries::run_dose;

#[test]
fn axes_then_degree_then_counts_then_lengths() {
    for (axes, degree, counts, want, number, place) in [
        (4, 7, [0, 0, 0], Dose, 1, 0),
        (2, 7, [2, 65, 1], Dose, 2, 0),
        (2, 3, [64, 65, 1], Dose, 3, 1),
        (2, 5, [64, 64, 1], Slope(2), 4, 0),
        (2, 3, [64, 64, 1], Curvature(2), 4, 0),
    ] {
        let shape = shape(axes, degree, counts);
        check(shape, &[], START, want, refused(number, place));
        let said = with_nothing_lent(shape);
        assert_eq!(said[..4], [refused(number, place); 4], "{shape:?}");
    }
}

#[test]
fn degrees_are_3_and_5() {
    for degree in [0, 1, 2, 4, 6, 7, 8, 9, 11, u32::MAX] {
        for axes in 1..=3 {
            let said = with_nothing_lent(cube(axes, degree, 2));
            assert_eq!(said[..4], [refused(2, 0); 4], "degree {degree}");
            assert_eq!(back(axes, degree, &[], 0), refused(2, 0));
        }
    }
}

#[test]
fn nodes_on_an_axis_are_64_at_most() {
    for (axes, degree) in KINDS {
        for axis in 0..axes as usize {
            let mut shape = cube(axes, degree, 2);
            shape.counts[axis] = 64;
            let samples = vec![7; shape.nodes()];
            let records = estimated(shape, &samples, shape.entries()).expect("64 nodes");
            let mut last = [0; 3];
            last[axis] = 16128;
            check(shape, &records, Position(last), Dose, Ok(7));
            shape.counts[axis] = 65;
            let place = axis as u64;
            assert_eq!(with_nothing_lent(shape), [refused(3, place); 5]);
        }
        let said = with_nothing_lent(cube(axes, degree, 64));
        assert_eq!(said, [refused(4, 0); 5]);
    }
    // Files that end after their node counts.
    assert_eq!(read_numbers(&[1, 64], 0), refused(6, 8));
    assert_eq!(read_numbers(&[1, 65], 0), refused(3, 0));
    assert_eq!(read_numbers(&[3, 64, 64, 64], 0), refused(6, 16));
    assert_eq!(read_numbers(&[3, 64, 65, 64], 0), refused(3, 1));
    assert_eq!(read_numbers(&[3, 64, 64, 65], 0), refused(3, 2));
}

#[test]
fn lengths_before_rooms() {
    let plane = cube(2, 3, 2);
    for (length, number) in [(0, 4), (1, 4), (4, 9)] {
        let samples = vec![0; length];
        assert_eq!(estimated(plane, &samples, 0), refused(number, 0));
        assert_eq!(written(plane, &samples, 0), refused(number, 0));
        let entries = vec![0; 4 * length];
        assert_eq!(forward(plane, &entries, ORIGIN, 0), refused(number, 0));
    }
    for (length, number) in [(0, 15), (1, 15), (4, 9)] {
        assert_eq!(back(1, 3, &vec![0; length], 0), refused(number, 0));
    }
}

#[test]
fn samples_of_a_file_are_within_32768() {
    let said = |samples: &[i32]| written(cube(1, 3, 3), samples, 24);
    assert_eq!(said(&[32768, -32768, 32768]), Ok(24));
    assert_eq!(said(&[32768, -32768, 32769]), refused(5, 2));
    let file = |third: i32| {
        let samples = [32768, -32768, third].map(|sample| sample as u32);
        let bytes = words(&[&[1, 3, 3], &samples[..]].concat());
        let mut samples = [0; 3];
        plain(read(Key::Service, &bytes, &mut samples)).map(|_| samples)
    };
    assert_eq!(file(32768), Ok([32768, -32768, 32768]));
    assert_eq!(file(32769), refused(5, 2));
}

#[test]
fn samples_for_estimation_are_within_16384_8192_4096() {
    let line = cube(1, 3, 3);
    let within = estimated(line, &[16384, -16384, 16384], 6);
    assert_eq!(within, Ok(vec![16384, -65536, -16384, 0, 16384, 65536]));
    for (axes, limit) in [(1, 16384), (2, 8192), (3, 4096)] {
        for degree in [3, 5] {
            let shape = cube(axes, degree, 3);
            let said = |third: i32| {
                let mut samples = vec![0; shape.nodes()];
                samples[..3].copy_from_slice(&[limit, -limit, third]);
                outcome(&estimated(shape, &samples, shape.entries()))
            };
            assert_eq!([limit, -limit].map(said), [Ok(()); 2]);
            for third in [limit + 1, -limit - 1, 32769, 40000, i32::MIN] {
                assert_eq!(said(third), refused(19, 2), "{third}");
            }
        }
    }
    // The first place; 4 and 9 come before.
    assert_eq!(estimated(line, &[0, -32769, 16385], 6), refused(19, 1));
    assert_eq!(estimated(line, &[32769, 0, 0], 5), refused(9, 0));
    assert_eq!(estimated(line, &[32769, 0], 6), refused(4, 0));
}

#[test]
fn borders_continue_the_line() {
    let line = estimated(cube(1, 5, 3), &[1, 3, 10], 9);
    assert_eq!(line, Ok(vec![1, 4, 0, 3, 9, 5, 10, 14, 0]));
    let plane = estimated(cube(2, 3, 2), &[0, 0, 0, 100], 16);
    let records = vec![
        0, 0, 0, 400, 0, 0, 200, 400, //
        0, 200, 0, 400, 100, 200, 200, 400,
    ];
    assert_eq!(plane, Ok(records));
}

#[test]
fn axis_then_degree_then_cell_then_step_then_entry() {
    let records = only(16, &[(0, 32769)]);
    for (cell, u, want, number, place) in [
        ([1, 0, 0], [0, 0, 0], Slope(2), 12, 0),
        ([1, 0, 0], [0, 0, 0], Curvature(2), 12, 0),
        ([1, 0, 0], [0, 0, 0], Curvature(1), 21, 0),
        ([0, 0, 0], [257, 0, 0], Curvature(1), 21, 0),
        ([0, 0, 0], [0, 0, 0], Curvature(1), 21, 0),
        ([0, 1, 0], [257, 0, 0], Dose, 14, 1),
        ([0, 0, 0], [256, 257, 0], Dose, 11, 1),
        ([0, 0, 0], [256, 256, 0], Dose, 5, 0),
    ] {
        let printed = refused(number, place);
        check(cube(2, 3, 2), &records, Cell(cell, u), want, printed);
    }
}

#[test]
fn unused_then_below_zero_then_beyond_on_each_axis() {
    // 5 comes after all of them.
    let (plane, records) = (cube(2, 3, 2), only(16, &[(0, 32769)]));
    for (at, number, place) in [
        (Position([-1, 257, 1]), 22, 0),
        (Position([257, -1, 1]), 11, 0),
        (Position([256, -1, 1]), 22, 1),
        (Position([256, 257, -1]), 11, 1),
        (Position([256, 0, -1]), 23, 2),
        (Position([0, 256, 1]), 23, 2),
        (Position([0, i32::MIN, 0]), 22, 1),
        (Position([0, i32::MAX, 0]), 11, 1),
        (Cell(ORIGIN, [1 << 31, 0, 1]), 11, 0),
        (Cell(ORIGIN, [0, u32::MAX, 1]), 11, 1),
        (Cell(ORIGIN, [256, 256, 257]), 23, 2),
        (Cell([0, 0, 1], [0, 0, 1]), 14, 2),
        (Position([256, 256, 0]), 5, 0),
    ] {
        check(plane, &records, at, Dose, refused(number, place));
        check(plane, &records, at, Slope(0), refused(number, place));
    }
    // A float by its step, -1/1024 being step 0 and -3/1024 step -1; 10 before all of its axis.
    let (taken, below) = (-1.0 / 1024.0, -3.0 / 1024.0);
    for (at, number, place) in [
        ([taken, below, f32::NAN], 22, 1),
        ([taken, taken, below], 23, 2),
        ([taken, taken, f32::NAN], 10, 2),
        ([1.0 - below, below, 0.0], 11, 0),
    ] {
        let answer = plain(dose_float(Key::Service, plane, &records, at));
        assert_eq!(answer, refused(number, place), "{at:?}");
    }
    let seven = only(16, &[(0, 7)]);
    assert_eq!(dose_float(Key::Service, plane, &seven, [taken; 3]), Ok(7.0));
}

#[test]
fn an_axis_not_used_is_12() {
    for (axes, degree) in KINDS {
        let shape = cube(axes, degree, 2);
        let records = vec![0; shape.entries()];
        for at in [START, Cell(ORIGIN, ORIGIN)] {
            for axis in [axes, 3, u32::MAX] {
                check(shape, &records, at, Slope(axis), refused(12, 0));
                check(shape, &records, at, Curvature(axis), refused(12, 0));
            }
        }
    }
}

#[test]
fn a_curvature_in_degree_3_is_21() {
    for axes in 1..=3 {
        let shape = cube(axes, 3, 2);
        let records = vec![0; shape.entries()];
        for axis in 0..axes {
            for at in [START, Cell(ORIGIN, ORIGIN), Position([-1, 0, 0])] {
                check(shape, &records, at, Curvature(axis), refused(21, 0));
            }
        }
    }
}

#[test]
fn curvatures_at_both_nodes_and_between() {
    // Their own S at the nodes; no two entries alike.
    let line = cube(1, 5, 2);
    for (p, curvature) in [(0, 16), (64, 540), (256, 10)] {
        let records = [3, 5, 16, 100, -8, 10];
        check(
            line,
            &records,
            Position([p, 0, 0]),
            Curvature(0),
            Ok(curvature),
        );
    }
}

#[test]
fn place_of_7_is_the_first_spare_byte() {
    let second = [&EXAMPLE[..], &SECTION].concat();
    for spare in [1, 2, 5] {
        assert_eq!(read_numbers(&second, spare), refused(7, 28));
    }
}

#[test]
fn a_third_section_is_whole_and_right() {
    // Fewer than 8 bytes behind the samples are 6, other numbers 25, more bytes 7.
    for (spare, number, place) in [(1, 6, 21), (7, 6, 27), (8, 25, 0), (9, 25, 0)] {
        assert_eq!(read_numbers(&EXAMPLE, spare), refused(number, place));
    }
    for section in [[1, 1], [2, 2], [2, 1], [0, 2], [1, 0]] {
        let file = [&EXAMPLE[..], &section].concat();
        for spare in [0, 1, 4] {
            assert_eq!(read_numbers(&file, spare), refused(25, 0));
        }
    }
    let second = [&EXAMPLE[..], &SECTION].concat();
    assert_eq!(read_numbers(&second, 0), refused(9, 0));
}

#[test]
fn halves_to_even_in_every_stage() {
    // Each pair is the answer of edition one and of edition two.
    let line = |samples: [i32; 2], p, answers: [i32; 2]| {
        for degree in [3, 5] {
            let shape = cube(1, degree, 2);
            let records = estimated(shape, &samples, shape.entries()).expect("samples");
            for (shape, answer) in editions(shape).into_iter().zip(answers) {
                let at = Position([p, 0, 0]);
                check(shape, &records, at, Dose, Ok(answer));
            }
        }
    };
    line([0, 1], 128, [1, 0]);
    line([2, 3], 128, [3, 2]);
    line([0, -1], 128, [0, 0]);
    line([-2, -3], 128, [-2, -2]);
    line([0, 100], 64, [25, 25]);
    // The first stage decides the one, the last the other.
    let plane = cube(2, 3, 2);
    for (samples, at, answers) in [
        ([0, -7, -3, 6], [16, 16, 0], [0, -1]),
        ([0, 7, -8, -8], [16, 0, 0], [1, 0]),
    ] {
        let records = estimated(plane, &samples, 16).expect("samples");
        for (shape, answer) in editions(plane).into_iter().zip(answers) {
            check(shape, &records, Position(at), Dose, Ok(answer));
        }
    }
}

#[test]
fn step_numbers_are_tested_after_counts_and_before_lengths() {
    let with = |counts: [u32; 3], steps| Shape {
        steps,
        ..shape(2, 3, counts)
    };
    let plane = [2, 2, 1];
    for (wrong, number, place) in [
        (with([2, 65, 1], [16, 8, 1]), 3, 1),
        (with(plane, [16, 8, 1]), 26, 1),
        (with(plane, [16, 512, 0]), 26, 1),
        (with(plane, [256, 128, 256]), 26, 2),
        (with(plane, [1, 1, 1]), 26, 0),
        (with(plane, [16, 128, 1]), 4, 0),
    ] {
        assert_eq!(with_nothing_lent(wrong), [refused(number, place); 5]);
    }
}

#[test]
fn points_are_counted_by_the_steps_of_their_axis() {
    // One axis of 16 steps: its middle, its last node, the step beyond, by position and by cell.
    for degree in [3, 5] {
        let line = in_steps(cube(1, degree, 2), [16; 3]);
        let records = estimated(line, &[0, 100], line.entries()).expect("samples");
        for (at, printed) in [
            (Position([8, 0, 0]), Ok(50)),
            (Position([16, 0, 0]), Ok(100)),
            (Position([17, 0, 0]), refused(11, 0)),
            (Cell(ORIGIN, [16, 0, 0]), Ok(100)),
            (Cell(ORIGIN, [17, 0, 0]), refused(11, 0)),
        ] {
            check(line, &records, at, Dose, printed);
        }
        // 1/64 is a quarter of a step; on an unused axis it is step 4 of 256.
        let float = |at| plain(dose_float(Key::Service, line, &records, at));
        assert_eq!(float([0.5, 0.0, 0.0]), Ok(50.0));
        assert_eq!(float([1.0 / 64.0, 0.0, 0.0]), Ok(0.0));
        assert_eq!(float([1.0 / 64.0, 0.0, 1.0 / 64.0]), refused(23, 2));
    }
    // Axes of 16 and 32 steps.
    let plane = in_steps(cube(2, 3, 2), [16, 32, 1]);
    let records = estimated(plane, &[0, 100, 0, 300], 16).expect("samples");
    check(plane, &records, Position([8, 16, 0]), Dose, Ok(100));
}

#[test]
fn no_stage_drops_anything_of_a_marked_dose() {
    // Samples, steps, dose and mark of two cells that share a point, of the position there, and of
    // lines whose only stage drops a half or nothing.
    let plane = shape(2, 3, [2, 4, 1]);
    let last = [0, 0, 0, 0, 0, 0, 0, 1];
    let line = |degree| cube(1, degree, 2);
    for (shape, samples, at, dose, mark) in [
        (plane, &last[..], Cell(ORIGIN, [16, 256, 0]), [0, 0], true),
        (plane, &last, Cell([0, 1, 0], [16, 0, 0]), [0, 0], false),
        (plane, &last, Position([16, 256, 0]), [0, 0], false),
        (line(3), &[0, 1], Position([128, 0, 0]), [1, 0], false),
        (line(5), &[0, 2], Position([128, 0, 0]), [1, 1], true),
        (line(3), &[0, 100], Position([64, 0, 0]), [25, 25], true),
        (line(5), &[0, 100], Position([65, 0, 0]), [25, 25], false),
    ] {
        let records = estimated(shape, samples, shape.entries()).expect("samples");
        for (shape, dose) in editions(shape).into_iter().zip(dose) {
            let got = run_dose(shape, &records, at);
            assert_eq!(got, Ok((dose, mark)), "{shape:?} {at:?}");
        }
    }
}

fn measured(shape: Shape, samples: &[i32], weight: u32) -> Measurement<'_> {
    Measurement {
        shape,
        samples,
        weight,
    }
}

#[test]
fn pooled_samples_go_halves_up() {
    let line = cube(1, 3, 3);
    for (v, w, printed) in [
        (3, 1, [0, 102, -1]),
        (10_000, 10_000, [1, 104, 0]),
        (0, 1, [1, 108, 0]),
    ] {
        let a = measured(line, &[0, 100, -1], v);
        let b = measured(line, &[1, 108, 0], w);
        assert_eq!(pooled(a, b, 3), Ok(printed.to_vec()));
    }
}

#[test]
fn shapes_are_pooled_in_turn_then_compared_then_weighed() {
    let [cubic, quintic, plane] = [cube(1, 3, 2), cube(1, 5, 2), cube(2, 3, 2)];
    for (a, v, b, number, place) in [
        (cube(1, 7, 2), 0, cube(4, 3, 2), 1, 0),
        (cube(1, 3, 65), 0, cube(1, 7, 2), 2, 0),
        (
            in_steps(plane, [8, 16, 1]),
            0,
            shape(2, 3, [2, 65, 1]),
            3,
            1,
        ),
        (plane, 0, in_steps(plane, [16, 8, 1]), 26, 1),
        (quintic, 0, cubic, 27, 0),
        (quintic, 0, in_steps(quintic, [128, 1, 1]), 27, 0),
        (quintic, 0, in_edition(quintic, true), 27, 0),
        (quintic, 0, quintic, 28, 0),
        (quintic, 10_001, quintic, 28, 0),
    ] {
        let said = pooled(measured(a, &[], v), measured(b, &[], 0), 0);
        assert_eq!(said, refused(number, place), "{a:?} {b:?}");
    }
}

#[test]
fn lattices_of_both_lengths_then_room_then_samples() {
    let line = cube(1, 3, 3);
    for (third, other, room, number, place) in [
        (32769, &[][..], 0, 4, 0),
        (32769, &[0, -32769, 0], 2, 9, 0),
        (32769, &[0, -32769, 0], 3, 5, 2),
        (32768, &[0, -32769, 0], 3, 5, 1),
    ] {
        let samples = [0, 0, third];
        let said = pooled(measured(line, &samples, 1), measured(line, other, 0), room);
        assert_eq!(said, refused(number, place));
    }
}

#[test]
fn totals_of_cells_and_of_a_box() {
    let (line, records) = (cube(1, 3, 3), [1, 2, 3, 4, 5, 6]);
    let cell = |x| cell_total(Key::Service, line, &records, [x, 0, 0]);
    assert_eq!([cell(0), cell(1)], [Ok(46), Ok(94)]);
    assert_eq!(
        box_total(Key::Service, line, &records, ORIGIN, [1, 0, 0]),
        Ok(140)
    );
    let straight = [0, 200, 100, 200];
    assert_eq!(
        box_total(Key::Service, cube(1, 3, 2), &straight, ORIGIN, ORIGIN),
        Ok(1200)
    );
    let curved = [3, 5, 16, 100, -8, 10];
    assert_eq!(
        cell_total(Key::Service, cube(1, 5, 2), &curved, ORIGIN),
        Ok(6284)
    );
}

#[test]
fn boxes_after_lengths_and_before_entries() {
    let plane = cube(2, 3, 2);
    let beyond = only(16, &[(0, 32769)]);
    for (records, first, last, number, place) in [
        (&[][..], [1, 0, 0], ORIGIN, 4, 0),
        (&beyond, [0, 1, 0], [0, 0, 1], 29, 1),
        (&beyond, ORIGIN, [0, 1, 1], 29, 1),
        (&beyond, ORIGIN, [0, 0, 1], 29, 2),
        (&beyond, ORIGIN, ORIGIN, 5, 0),
    ] {
        let said = plain(box_total(Key::Service, plane, records, first, last));
        assert_eq!(said, refused(number, place), "{first:?} {last:?}");
    }
    let said = plain(cell_total(Key::Service, plane, &beyond, [0, 1, 0]));
    assert_eq!(said, refused(14, 1));
}

#[test]
fn place_of_5_in_a_box_is_the_smallest_index() {
    let sheet = shape(2, 3, [3, 4, 1]);
    let said = |indices: [usize; 2], first, last| {
        let records = only(48, &indices.map(|index| (index, 32769)));
        plain(box_total(Key::Service, sheet, &records, first, last))
    };
    assert_eq!(said([12, 8], ORIGIN, [1, 0, 0]), refused(5, 8));
    assert_eq!(said([0, 32], [1, 1, 0], [1, 1, 0]), refused(5, 32));
    assert_eq!(said([0, 44], [1, 1, 0], [1, 1, 0]), Ok(0));
}

#[test]
fn place_of_13_is_0() {
    // The one coefficient of the last corner's last entry, and that entry's limit.
    for (axes, degree, count, index, limit) in [
        (1, 3, 4, 2, 65536),
        (2, 3, 16, 10, 131072),
        (3, 3, 64, 42, 262144),
        (1, 5, 6, 3, 131072),
        (2, 5, 36, 21, 524288),
        (3, 5, 216, 129, 2097152),
    ] {
        let with = |index, number| {
            let numbers = only(count, &[(index, number)]);
            outcome(&back(axes, degree, &numbers, 216))
        };
        assert_eq!(with(index, limit), Ok(()));
        assert_eq!(with(index, limit + 1), refused(13, 0));
        // The last corner's value is not whole.
        assert_eq!(with(count - 1, 1), refused(13, 0));
    }
}

#[test]
fn limits_of_entries_and_place_of_5() {
    let cubic = [32768, 65536, 65536, 131072, 65536, 131072, 131072, 262144];
    let quintic = [
        32768, 65536, 131072, 65536, 131072, 262144, 131072, 262144, 524288, //
        65536, 131072, 262144, 131072, 262144, 524288, 262144, 524288, 1048576, //
        131072, 262144, 524288, 262144, 524288, 1048576, 524288, 1048576, 2097152,
    ];
    // Where the last corner's record starts.
    for (axes, degree, start, limits) in [
        (1, 3, 2, &cubic[..2]),
        (2, 3, 12, &cubic[..4]),
        (3, 3, 56, &cubic),
        (1, 5, 3, &quintic[..3]),
        (2, 5, 27, &quintic[..9]),
        (3, 5, 189, &quintic),
    ] {
        let shape = cube(axes, degree, 2);
        for (number, &limit) in limits.iter().enumerate() {
            let index = start + number;
            let beyond = refused(5, index as u64);
            for (sign, more, printed) in [
                (1, 0, Ok(0)),
                (-1, 0, Ok(0)),
                (1, 1, beyond),
                (-1, 1, beyond),
            ] {
                let records = only(shape.entries(), &[(index, sign * (limit + more))]);
                check(shape, &records, START, Dose, printed);
                let numbers = forward(shape, &records, ORIGIN, 216);
                assert_eq!(outcome(&numbers), outcome(&printed));
            }
        }
    }
}

#[test]
fn place_of_5_in_corner_order() {
    // The nodes of cell (1, 2) and of cell (0, 1, 2).
    let plane = ([3, 4, 1], [1, 2, 0], &[7, 8, 10, 11][..]);
    let block = ([2, 3, 4], [0, 1, 2], &[14, 15, 16, 17, 20, 21, 22, 23][..]);
    for (axes, degree, size, (counts, cell, nodes)) in [
        (2, 3, 4, plane),
        (2, 5, 9, plane),
        (3, 3, 8, block),
        (3, 5, 27, block),
    ] {
        let shape = shape(axes, degree, counts);
        for (corner, node) in nodes.iter().enumerate() {
            let beyond = nodes[corner..].iter().map(|node| (size * node, 32769));
            let records = only(shape.entries(), &beyond.collect::<Vec<_>>());
            let place = (size * node) as u64;
            check(shape, &records, Cell(cell, ORIGIN), Dose, refused(5, place));
            assert_eq!(forward(shape, &records, cell, 216), refused(5, place));
        }
    }
}

#[test]
fn shared_nodes_are_read_in_the_upper_cell() {
    let line = cube(1, 3, 3);
    let records = [32769, 0, 7, 0, 9, 0];
    assert_eq!(
        dose_float(Key::Service, line, &records, [1.0, 0.0, 0.0]),
        Ok(7.0)
    );
    for (p, printed) in [(255, refused(5, 0)), (256, Ok(7)), (512, Ok(9))] {
        check(line, &records, Position([p, 0, 0]), Dose, printed);
    }
    for (axes, degree) in KINDS {
        for axis in 0..axes as usize {
            let mut shape = cube(axes, degree, 2);
            shape.counts[axis] = 3;
            let mut at = [0; 3];
            at[axis] = 256;
            // From a record to the next along the axis.
            let next = [1, 2, 4][axis] * shape.entries() / shape.nodes();
            let upper = refused(5, 2 * next as u64);
            for (beyond, printed) in [(0, Ok(7)), (2 * next, upper)] {
                let records = only(shape.entries(), &[(next, 7), (beyond, 32769)]);
                check(shape, &records, Position(at), Dose, printed);
            }
        }
    }
}

#[test]
fn nodes_and_entries_with_x_fastest() {
    // Node (0, 1, 2) of a block and (1, 2) of a plane: its value, twice its slope along each axis,
    // and its second derivative, which is the curvature there and of which the dose half a cell on
    // has a sixty-fourth.
    let (block, plane) = ((3, [2, 3, 4]), (2, [3, 4, 1]));
    for ((axes, counts), degree, index, entry, want, at, answer) in [
        (block, 3, 112, 5, Dose, [0, 256, 512], 5),
        (block, 3, 113, 20, Slope(0), [0, 256, 512], 10),
        (block, 3, 114, 20, Slope(1), [0, 256, 512], 10),
        (block, 3, 116, 20, Slope(2), [0, 256, 512], 10),
        (block, 5, 378, 5, Dose, [0, 256, 512], 5),
        (block, 5, 379, 20, Slope(0), [0, 256, 512], 10),
        (block, 5, 381, 20, Slope(1), [0, 256, 512], 10),
        (block, 5, 387, 20, Slope(2), [0, 256, 512], 10),
        (block, 5, 380, 640, Dose, [128, 256, 512], 10),
        (block, 5, 384, 640, Dose, [0, 384, 512], 10),
        (block, 5, 396, 640, Dose, [0, 256, 640], 10),
        (block, 5, 380, 10, Curvature(0), [0, 256, 512], 10),
        (block, 5, 384, 10, Curvature(1), [0, 256, 512], 10),
        (block, 5, 396, 10, Curvature(2), [0, 256, 512], 10),
        (plane, 3, 28, 5, Dose, [256, 512, 0], 5),
        (plane, 3, 29, 20, Slope(0), [256, 512, 0], 10),
        (plane, 3, 30, 20, Slope(1), [256, 512, 0], 10),
        (plane, 5, 63, 5, Dose, [256, 512, 0], 5),
        (plane, 5, 64, 20, Slope(0), [256, 512, 0], 10),
        (plane, 5, 66, 20, Slope(1), [256, 512, 0], 10),
        (plane, 5, 65, 10, Curvature(0), [256, 512, 0], 10),
        (plane, 5, 69, 10, Curvature(1), [256, 512, 0], 10),
        (plane, 5, 65, 640, Dose, [384, 512, 0], 10),
        (plane, 5, 69, 640, Dose, [256, 640, 0], 10),
    ] {
        let shape = shape(axes, degree, counts);
        let records = only(shape.entries(), &[(index, entry)]);
        check(shape, &records, Position(at), want, Ok(answer));
    }
}

#[test]
fn estimated_records_with_x_fastest() {
    // Products of 1, 2, 4 along x, 0, 1, 5, 0 along y and 0, 1, 7, 0, 0 along z.
    let block = [0, 1, 7, 0, 0].map(|z| [0, 1, 5, 0].map(|y| [1, 2, 4].map(|x| x * y * z)));
    let block = block.as_flattened().as_flattened();
    let plane = &block[12..24];
    let cubic = [2, 3, 10, 15, 14, 21, 70, 105];
    let quintic = [
        2, 3, 1, 10, 15, 5, 6, 9, 3, //
        14, 21, 7, 70, 105, 35, 42, 63, 21, //
        10, 15, 5, 50, 75, 25, 30, 45, 15,
    ];
    // The records of node (1, 1) and of node (1, 1, 1), and where they start.
    for (axes, degree, counts, samples, start, record) in [
        (2, 3, [3, 4, 1], plane, 16, &cubic[..4]),
        (3, 3, [3, 4, 5], block, 128, &cubic),
        (2, 5, [3, 4, 1], plane, 36, &quintic[..9]),
        (3, 5, [3, 4, 5], block, 432, &quintic),
    ] {
        let shape = shape(axes, degree, counts);
        let records = estimated(shape, samples, shape.entries()).expect("samples");
        assert_eq!(records[start..start + record.len()], *record);
    }
}

// The coefficients of a cell with one entry 1 and no other, and the corner records of these.
#[track_caller]
fn check_both_ways(axes: u32, degree: u32, entry: usize, numbers: &[(usize, i32)]) {
    let shape = cube(axes, degree, 2);
    let records = only(shape.entries(), &[(entry, 1)]);
    let got = forward(shape, &records, ORIGIN, 216);
    assert_eq!(got.map(sparse), Ok(numbers.to_vec()));
    let got = back(axes, degree, &only(shape.coefficients(), numbers), 216);
    assert_eq!(got.map(sparse), Ok(vec![(entry, 1)]));
}

#[test]
fn coefficients_with_x_fastest() {
    for (axes, degree, entry, numbers) in [
        (2, 3, 6, &[(6, 6), (7, 2)][..]),
        (3, 3, 10, &[(6, 12), (7, 4), (22, 36), (23, 12)]),
        (3, 3, 49, &[(41, 36), (45, 12), (57, 12), (61, 4)]),
        (2, 5, 14, &[(9, 1), (15, 4)]),
        (3, 5, 131, &[(116, 1), (122, 4)]),
        (3, 5, 187, &[(127, 1), (128, 4)]),
    ] {
        check_both_ways(axes, degree, entry, numbers);
    }
    // Of twice the slope along z of node (0, 1, 2) in a larger table.
    let block = shape(3, 3, [2, 3, 4]);
    let records = only(block.entries(), &[(116, 1)]);
    let numbers = forward(block, &records, [0, 1, 2], 64).map(sparse);
    assert_eq!(numbers, Ok(vec![(16, 4), (17, 12), (20, 12), (21, 36)]));
}

#[test]
fn corners_with_x_fastest() {
    // The last entry of each corner has one coefficient: its index, negative where it is -1.
    for (axes, degree, size, indices) in [
        (2, 3, 4, &[5, -6, -9, 10][..]),
        (3, 3, 8, &[21, -22, -25, 26, -37, 38, 41, -42]),
        (2, 5, 9, &[14, 15, 20, 21]),
        (3, 5, 27, &[86, 87, 92, 93, 122, 123, 128, 129]),
    ] {
        for (corner, index) in indices.iter().enumerate() {
            let number = (i32::abs(*index) as usize, index.signum());
            check_both_ways(axes, degree, size * corner + size - 1, &[number]);
        }
    }
}

// The answer in a cell of two or three axes whose corners have these values and no slopes.
#[track_caller]
fn check_stages(degree: u32, want: Want, at: [i32; 3], values: &[i32], answer: i32) {
    let shape = cube(values.len().ilog2(), degree, 2);
    let size = shape.entries() / shape.nodes();
    let values = values.iter().enumerate();
    let values: Vec<_> = values.map(|(node, &value)| (size * node, value)).collect();
    let records = only(shape.entries(), &values);
    check(shape, &records, Position(at), want, Ok(answer));
}

#[test]
fn stages_in_the_order_x_y_z_and_a_derivative_last() {
    // Every other order gives another answer.
    for (degree, at, values, answer) in [
        (3, [160, 96, 0], &[0, -2, 1, -3][..], -1),
        (5, [64, 160, 0], &[3, 1, -2, 1], -1),
        (3, [160, 96, 128], &[0, -2, -1, -1, 3, -1, 0, 0], -1),
        (5, [96, 192, 64], &[3, -3, -1, 1, 0, 1, -3, -3], 0),
    ] {
        check_stages(degree, Dose, at, values, answer);
    }
    for (degree, axis, at, values, answer) in [
        (3, 0, [32, 160, 0], &[0, -1, 1, -2][..], -1),
        (3, 1, [192, 128, 0], &[-3, -2, -3, 0], 2),
        (5, 0, [128, 32, 0], &[-2, 1, 0, -2], 6),
        (5, 1, [96, 128, 0], &[-1, 2, -2, -2], -4),
        (3, 0, [96, 192, 128], &[-1, -2, 0, -3, 2, -1, 2, 0], -4),
        (3, 1, [32, 96, 128], &[-1, 1, -1, -1, 0, 0, -2, -2], -2),
        (3, 2, [64, 96, 32], &[0, -2, -2, -2, -2, -2, -1, 1], -1),
        (5, 0, [64, 64, 64], &[-2, -1, 1, 1, 2, -3, -2, 2], 1),
        (5, 1, [64, 96, 192], &[-1, -1, -3, -1, -3, 0, 3, -2], 8),
        (5, 2, [192, 32, 128], &[-2, 2, -3, -3, 3, 1, 3, -3], 0),
    ] {
        check_stages(degree, Slope(axis), at, values, answer);
    }
    for (axis, at, values, answer) in [
        (0, [224, 96, 0], &[-3, 1, 2, 3][..], -15),
        (1, [64, 96, 0], &[-1, 1, 1, -1], 5),
        (0, [160, 96, 32], &[0, -2, -3, -3, 1, 3, 3, 1], 4),
        (1, [64, 96, 128], &[3, 0, -1, 3, 2, -2, -1, 0], -11),
        (2, [96, 224, 32], &[-1, -3, 3, 1, -2, -3, 2, 0], -4),
    ] {
        check_stages(5, Curvature(axis), at, values, answer);
    }
}

#[test]
fn distances_from_the_exact_value() {
    let ratio = Rational::ratio;
    for (axes, distances) in [
        (1, [ratio(1, 2), ratio(1, 2), ratio(1, 2)]),
        (2, [ratio(37, 64), ratio(13, 16), ratio(3, 2)]),
        (3, [ratio(173, 256), ratio(77, 64), ratio(11, 4)]),
    ] {
        assert_eq!(
            [0, 1, 2].map(|order| distance_bound(axes, order)),
            distances
        );
    }
    // One half is attained on one axis.
    let (line, at) = (cube(1, 3, 2), Position([128, 0, 0]));
    let records = estimated(line, &[0, 1], 4).expect("samples");
    check(line, &records, at, Dose, Ok(1));
    let line = plain_shape(line);
    let point = model::query::checked_point(&line, &records, at, Dose).expect("a position");
    assert_eq!(model::stages::exact(&line, &records, &point), ratio(1, 2));
}
