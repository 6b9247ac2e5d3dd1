//! Power coefficients of a two-axis cubic cell against the model.

mod common;
mod model;

use common::*;
use lukhtari::limits::{POWER_COEFFICIENTS, POWER_COEFFICIENT_LIMIT};
use lukhtari::{dose_in_cell, estimate, ffi, powers, Key, Shape};
use model::powers::{cell_powers, value_at};
use model::stages::{exact, Point};
use model::{Answer, Rational, Want};

// Table II of source document 001 as printed.
const TABLE: [[i32; 16]; 16] = [
    [1, 0, 0, 0, 0, 0, 0, 0, 0, 0, 0, 0, 0, 0, 0, 0],
    [0, 0, 0, 0, 1, 0, 0, 0, 0, 0, 0, 0, 0, 0, 0, 0],
    [-3, 3, 0, 0, -2, -1, 0, 0, 0, 0, 0, 0, 0, 0, 0, 0],
    [2, -2, 0, 0, 1, 1, 0, 0, 0, 0, 0, 0, 0, 0, 0, 0],
    [0, 0, 0, 0, 0, 0, 0, 0, 1, 0, 0, 0, 0, 0, 0, 0],
    [0, 0, 0, 0, 0, 0, 0, 0, 0, 0, 0, 0, 1, 0, 0, 0],
    [0, 0, 0, 0, 0, 0, 0, 0, -3, 3, 0, 0, -2, -1, 0, 0],
    [0, 0, 0, 0, 0, 0, 0, 0, 2, -2, 0, 0, 1, 1, 0, 0],
    [-3, 0, 3, 0, 0, 0, 0, 0, -2, 0, -1, 0, 0, 0, 0, 0],
    [0, 0, 0, 0, -3, 0, 3, 0, 0, 0, 0, 0, -2, 0, -1, 0],
    [9, -9, -9, 9, 6, 3, -6, -3, 6, -6, 3, -3, 4, 2, 2, 1],
    [-6, 6, 6, -6, -3, -3, 3, 3, -4, 4, -2, 2, -2, -2, -1, -1],
    [2, 0, -2, 0, 0, 0, 0, 0, 1, 0, 1, 0, 0, 0, 0, 0],
    [0, 0, 0, 0, 2, 0, -2, 0, 0, 0, 0, 0, 1, 0, 1, 0],
    [-6, 6, 6, -6, -4, -2, 4, 2, -3, 3, -3, 3, -2, -1, -2, -1],
    [4, -4, -4, 4, 2, 2, -2, -2, 2, -2, 2, -2, 1, 1, 1, 1],
];

// By entry of a record: 4 for f, 2 for D along x and along y, 1 for D along both.
const FACTORS: [i32; 4] = [4, 2, 2, 1];

#[derive(Clone, Debug)]
struct Call {
    shape: Shape,
    records: Vec<i32>,
    cell: [u32; 3],
    room: usize,
}

impl Call {
    // A call with all buffers right.
    fn new(shape: Shape, records: Vec<i32>, cell: [u32; 3]) -> Call {
        Call {
            shape,
            records,
            cell,
            room: POWER_COEFFICIENTS,
        }
    }
}

// Makes the call in both editions, which do not matter here, compares answer and buffer with the
// model's, and returns what was written.
#[track_caller]
fn run_out(call: &Call) -> Answer<Vec<i32>> {
    let Call { cell, room, .. } = *call;
    let expected = model::powers::powers(&plain_shape(call.shape), &call.records, cell, room);
    for shape in editions(call.shape) {
        let mut buffer = Lent::new(room);
        let got = plain(powers(
            Key::Service,
            shape,
            &call.records,
            cell,
            buffer.slice(),
        ));
        assert_eq!(got, outcome(&expected), "{shape:?} {cell:?}");
        buffer.check(expected.as_deref().unwrap_or_default());
    }
    expected
}

#[track_caller]
fn run(call: &Call) -> Answer<()> {
    outcome(&run_out(call))
}

fn plane(x: u32, y: u32) -> Shape {
    shape(2, 3, [x, y, 1])
}

// Estimated records of a table.
fn records(shape: Shape, samples: &[i32]) -> Vec<i32> {
    let mut records = vec![0; shape.entries()];
    estimate(Key::Service, shape, samples, &mut records).expect("accepted table");
    records
}

// The exact value at a step pair of the call's cell.
fn exact_at(call: &Call, u: u32, v: u32) -> Rational {
    let point = Point {
        cell: call.cell,
        u: [u, v, 0],
        want: Want::Dose,
    };
    exact(&plain_shape(call.shape), &call.records, &point)
}

// The exported polynomial over 4 at a step pair.
fn polynomial_at(numbers: &[i32], u: u32, v: u32) -> Rational {
    let [x, y] = [u, v].map(|step| Rational::ratio(step as i64, 256));
    value_at(numbers, x, y)
}

#[test]
fn worked_examples() {
    // 100xy, and 7 + 3x - 5y + 2xy in the cell (1, 0) of nodes with x from 0 to 2.
    let shape = plane(2, 2);
    let call = Call::new(shape, records(shape, &[0, 0, 0, 100]), [0; 3]);
    let mut numbers = vec![0; 16];
    numbers[5] = 400;
    assert_eq!(run_out(&call), Ok(numbers));
    let shape = plane(3, 2);
    let call = Call::new(shape, records(shape, &[7, 10, 13, 2, 7, 12]), [1, 0, 0]);
    let mut numbers = vec![0; 16];
    (numbers[0], numbers[1], numbers[4], numbers[5]) = (40, 12, -12, 8);
    assert_eq!(run_out(&call), Ok(numbers));
    // f 3 and D 10 at the low end, 20 and -4 at the high one, along x and along y: one cubic.
    let cubic = [12, 20, 172, -124];
    for along_y in [false, true] {
        let mut call = Call::new(plane(2, 2), vec![0; 16], [0; 3]);
        for corner in 0..4 {
            let (high, slope) = match along_y {
                false => (corner % 2, 1),
                true => (corner / 2, 2),
            };
            call.records[4 * corner] = [3, 20][high];
            call.records[4 * corner + slope] = [10, -4][high];
        }
        let mut numbers = vec![0; 16];
        for (power, number) in cubic.into_iter().enumerate() {
            numbers[power * if along_y { 4 } else { 1 }] = number;
        }
        assert_eq!(run_out(&call), Ok(numbers));
    }
}

#[test]
fn every_entry_alone_gives_its_column_of_the_printed_table() {
    for corner in 0..4 {
        for entry in 0..4 {
            for value in [1, -3, 1000] {
                let mut call = Call::new(plane(2, 2), vec![0; 16], [0; 3]);
                call.records[4 * corner + entry] = value;
                let column = TABLE.map(|row| row[4 * entry + corner]);
                let expected = column.map(|number| number * FACTORS[entry] * value);
                assert_eq!(run_out(&call), Ok(expected.to_vec()));
            }
        }
    }
}

#[test]
fn the_printed_table_has_the_products_of_equation_8() {
    // Over f and its slope at the low end, then at the high end.
    let one_axis = [[1, 0, 0, 0], [0, 1, 0, 0], [-3, -2, 3, -1], [2, 1, -2, 1]];
    for (number, row) in TABLE.iter().enumerate() {
        for (column, &entry) in row.iter().enumerate() {
            let (corner, orders) = (column % 4, column / 4);
            let x = one_axis[number % 4][2 * (corner % 2) + orders % 2];
            let y = one_axis[number / 4][2 * (corner / 2) + orders / 2];
            assert_eq!(entry, x * y, "row {number}, column {column}");
        }
    }
}

#[test]
fn the_polynomial_is_the_exact_value_at_every_step_pair() {
    let shape = plane(3, 3);
    let call = Call::new(shape, Random::new(1).records(shape), [1, 0, 0]);
    let numbers = run_out(&call).expect("permitted records");
    for u in 0..=256 {
        for v in 0..=256 {
            assert_eq!(polynomial_at(&numbers, u, v), exact_at(&call, u, v));
        }
    }
}

#[test]
fn the_polynomial_is_the_exact_value_in_every_cell() {
    let mut random = Random::new(2);
    for _ in 0..60 {
        let shape = random.shape(2, 3, 5);
        let records = random.records(shape);
        for cell in cells(shape) {
            let call = Call::new(shape, records.clone(), cell);
            let numbers = run_out(&call).expect("permitted records");
            let mut step = || random.below(257) as u32;
            for (u, v) in [(0, 0), (256, 0), (0, 256), (256, 256), (step(), step())] {
                assert_eq!(polynomial_at(&numbers, u, v), exact_at(&call, u, v));
            }
        }
    }
}

#[test]
fn doses_are_near_the_polynomial() {
    let mut random = Random::new(3);
    for _ in 0..300 {
        let shape = random.shape(2, 3, 4);
        let samples = random.estimable(shape);
        let cell = random.pick(&cells(shape));
        let call = Call::new(shape, records(shape, &samples), cell);
        let numbers = run_out(&call).expect("accepted cell");
        let [u, v] = [0; 2].map(|_: u32| random.below(257) as u32);
        let dose = dose_in_cell(Key::Service, shape, &call.records, cell, [u, v, 0])
            .expect("accepted query");
        let dose = Rational::whole(dose.value as i64);
        let distance = (dose - polynomial_at(&numbers, u, v)).abs();
        assert!(distance <= distance_bound(2, 0));
    }
}

#[test]
fn coefficients_are_quarters() {
    // Each number is 4 times the coefficient, and not all coefficients are whole or halves.
    let mut records = vec![0; 16];
    records[3] = 1;
    let call = Call::new(plane(2, 2), records, [0; 3]);
    let block = cell_powers(&plain_shape(call.shape), &call.records, call.cell);
    assert_eq!(block.at([1, 1, 0]), Rational::ratio(1, 4));
    let numbers = run_out(&call).expect("permitted records");
    for (index, &number) in numbers.iter().enumerate() {
        let coefficient = block.at([index % 4, index / 4, 0]);
        assert_eq!(Rational::ratio(number as i64, 4), coefficient);
    }
}

#[test]
fn random_records() {
    let mut random = Random::new(4);
    for _ in 0..2000 {
        let shape = random.shape(2, 3, 6);
        let mut call = Call::new(shape, random.records(shape), random.pick(&cells(shape)));
        call.room += random.below(30) as usize;
        assert_eq!(run(&call), Ok(()));
    }
}

#[test]
fn largest_number() {
    // Every entry at its limit with the sign of its place in the row of x^2 y^2.
    for sign in [1, -1] {
        let mut call = Call::new(plane(2, 2), vec![0; 16], [0; 3]);
        for (index, limit) in corner_entries(call.shape, [0; 3]) {
            let (corner, entry) = (index / 4, index % 4);
            call.records[index] = sign * TABLE[10][4 * entry + corner].signum() * limit;
        }
        let numbers = run_out(&call).expect("permitted records");
        assert_eq!(numbers[10], sign * POWER_COEFFICIENT_LIMIT);
    }
}

#[test]
fn extreme_records() {
    let mut random = Random::new(5);
    for _ in 0..500 {
        let mut call = Call::new(plane(2, 2), vec![0; 16], [0; 3]);
        for (index, limit) in corner_entries(call.shape, [0; 3]) {
            call.records[index] = random.pick(&[limit, -limit]);
        }
        let numbers = run_out(&call).expect("permitted records");
        let within = |number: &i32| number.abs() <= POWER_COEFFICIENT_LIMIT;
        assert!(numbers.iter().all(within));
    }
}

#[test]
fn other_nodes_are_not_tested() {
    let mut random = Random::new(6);
    let shape = plane(5, 4);
    for cell in cells(shape) {
        let mut call = Call::new(shape, vec![i32::MIN; shape.entries()], cell);
        for (index, limit) in corner_entries(shape, cell) {
            call.records[index] = random.within(limit as i64);
        }
        assert_eq!(run(&call), Ok(()));
    }
}

#[test]
fn other_tables_are_refused() {
    for (axes, degree) in KINDS {
        for count in [2, 3] {
            let shape = cube(axes, degree, count);
            let two_axis_cubic = (axes, degree) == (2, 3);
            let mut call = Call::new(shape, vec![7; shape.entries()], [0; 3]);
            let expected = if two_axis_cubic {
                Ok(())
            } else {
                refused(24, 0)
            };
            assert_eq!(run(&call), expected);
            // 24 comes before all that concerns records, room and cell.
            call.room = 0;
            call.cell = [9; 3];
            call.records.fill(i32::MIN);
            let expected = refused(if two_axis_cubic { 9 } else { 24 }, 0);
            assert_eq!(run(&call), expected);
            call.records.clear();
            let expected = refused(if two_axis_cubic { 4 } else { 24 }, 0);
            assert_eq!(run(&call), expected);
        }
    }
}

#[test]
fn wrong_shapes_are_refused() {
    // Those that are none come before 24.
    for (axes, degree) in KINDS {
        let call_of = |right: Shape| Call::new(right, vec![7; right.entries()], [0; 3]);
        check_wrong_shapes(axes, degree, call_of, |call| &mut call.shape, run);
    }
}

#[test]
fn wrong_lengths() {
    let shape = plane(3, 4);
    let entries = shape.entries();
    for length in [0, shape.nodes(), entries - 1, entries + 1, 2 * entries] {
        let mut call = Call::new(shape, vec![7; entries], [0; 3]);
        call.records.resize(length, 7);
        assert_eq!(run(&call), refused(4, 0));
    }
    let call = Call::new(shape, vec![7; entries], [0; 3]);
    check_rooms(&call, |call| &mut call.room, run);
}

#[test]
fn cells_outside_the_table() {
    let shape = plane(3, 4);
    for (axis, first) in [2, 3, 1].into_iter().enumerate() {
        for index in [first, first + 1, 63, 256, u32::MAX] {
            let mut call = Call::new(shape, vec![7; shape.entries()], [0; 3]);
            call.cell[axis] = index;
            assert_eq!(run(&call), refused(14, axis as u64));
        }
    }
}

#[test]
fn entries_beyond_their_limit() {
    let shape = plane(4, 3);
    let cell = [2, 1, 0];
    let entries = corner_entries(shape, cell);
    let last = entries.last().unwrap().0;
    for (index, limit) in entries {
        for beyond in [limit + 1, -limit - 1, i32::MAX, i32::MIN] {
            let mut call = Call::new(shape, vec![7; shape.entries()], cell);
            call.records[index] = beyond;
            assert_eq!(run(&call), refused(5, index as u64));
            // A later entry does not matter.
            call.records[last] = i32::MIN;
            assert_eq!(run(&call), refused(5, index as u64));
        }
    }
}

#[test]
fn faults_in_order() {
    let shape = plane(3, 3);
    for other in [cube(1, 3, 3), cube(3, 3, 3), cube(2, 5, 3)] {
        let mut faults = vec![
            fault(1, 0, |call: &mut Call| call.shape.axes = 0),
            fault(2, 0, |call: &mut Call| call.shape.degree = 4),
        ];
        for axis in 0..3 {
            let make = move |call: &mut Call| call.shape.counts[axis] = 65;
            faults.push(fault(3, axis as u64, make));
        }
        for axis in 0..3 {
            let make = move |call: &mut Call| call.shape.steps[axis] = 0;
            faults.push(fault(26, axis as u64, make));
        }
        // With the records that the other table has: 24 is its only fault.
        faults.push(fault(24, 0, move |call: &mut Call| {
            call.shape = other;
            call.records.resize(other.entries(), 7);
        }));
        faults.push(fault(4, 0, |call: &mut Call| call.records.push(0)));
        faults.push(fault(9, 0, |call: &mut Call| call.room = 15));
        for axis in 0..3 {
            let make = move |call: &mut Call| call.cell[axis] = 2;
            faults.push(fault(14, axis as u64, make));
        }
        faults.push(fault(5, 1, |call: &mut Call| call.records[1] = i32::MAX));
        let last = corner_entries(shape, [0; 3]).last().unwrap().0;
        let make = move |call: &mut Call| call.records[last] = i32::MIN;
        faults.push(fault(5, last as u64, make));
        let call = Call::new(shape, vec![7; shape.entries()], [0; 3]);
        check_faults(&call, &faults, run);
    }
}

#[test]
fn place_is_0_when_done() {
    let (records, mut out) = ([7; 16], [0; 16]);
    let cell = ffi::Index { at: [0; 3] };
    // SAFETY: pointers and lengths are those of the arrays.
    let done = unsafe {
        ffi::lukhtari_powers(
            SERVICE,
            plane(2, 2),
            records.as_ptr(),
            16,
            cell,
            out.as_mut_ptr(),
            16,
        )
    };
    assert_eq!((done.number, done.place), (0, 0));
}
