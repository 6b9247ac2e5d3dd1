//! Coefficients of a cell against the model.

mod common;
mod model;

use common::*;
use lukhtari::{coefficients, estimate, ffi, Key, Shape};
use model::Answer;

#[derive(Clone, Debug)]
struct Call {
    shape: Shape,
    records: Vec<i32>,
    cell: [u32; 3],
    room: usize,
}

impl Call {
    // A call with all buffers right.
    fn new(shape: Shape, records: Vec<i32>, cell: [u32; 3]) -> Call {
        let room = shape.coefficients();
        Call {
            shape,
            records,
            cell,
            room,
        }
    }
}

// Makes the call in both editions, which do not matter here, compares answer and buffer with the
// model's, and returns what was written.
fn run_out(call: &Call) -> Answer<Vec<i32>> {
    let Call { cell, room, .. } = *call;
    let shape = plain_shape(call.shape);
    let expected = model::coefficients::coefficients(&shape, &call.records, cell, room);
    for shape in editions(call.shape) {
        let mut buffer = Lent::new(room);
        let got = plain(coefficients(
            Key::Service,
            shape,
            &call.records,
            cell,
            buffer.slice(),
        ));
        assert_eq!(got, outcome(&expected), "{shape:?} {cell:?}");
        buffer.check(expected.as_deref().unwrap_or_default());
    }
    expected
}

fn run(call: &Call) -> Answer<()> {
    outcome(&run_out(call))
}

#[test]
fn worked_examples() {
    let cubic = Call::new(shape(1, 3, [2, 1, 1]), vec![0, 200, 100, 200], [0; 3]);
    assert_eq!(run_out(&cubic), Ok(vec![0, 200, 400, 200]));
    let records = vec![0, 200, 0, 100, 200, 0];
    let quintic = Call::new(shape(1, 5, [2, 1, 1]), records, [0; 3]);
    assert_eq!(run_out(&quintic), Ok(vec![0, 200, 800, 1200, 800, 200]));
}

#[test]
fn all_cells_of_estimated_tables() {
    let mut random = Random::new(1);
    for (axes, degree) in KINDS {
        let shape = random.shape(axes, degree, 4);
        let samples = random.estimable(shape);
        let mut records = vec![0; shape.entries()];
        estimate(Key::Service, shape, &samples, &mut records).unwrap();
        for cell in cells(shape) {
            assert_eq!(run(&Call::new(shape, records.clone(), cell)), Ok(()));
        }
    }
}

#[test]
fn random_records() {
    let mut random = Random::new(2);
    for _ in 0..200 {
        for (axes, degree) in KINDS {
            let shape = random.shape(axes, degree, 4);
            let cell = random.pick(&cells(shape));
            let call = Call::new(shape, random.records(shape), cell);
            assert_eq!(run(&call), Ok(()));
        }
    }
}

#[test]
fn extreme_records() {
    let mut random = Random::new(3);
    for (axes, degree) in KINDS {
        let shape = cube(axes, degree, 2);
        let entries = corner_entries(shape, [0; 3]);
        for _ in 0..100 {
            let mut call = Call::new(shape, vec![0; shape.entries()], [0; 3]);
            for &(index, limit) in &entries {
                call.records[index] = random.pick(&[limit, -limit]);
            }
            let out = run_out(&call).expect("permitted records");
            assert!(out.iter().all(|c| c.abs() <= 1 << 30));
        }
    }
}

#[test]
fn largest_coefficient() {
    // All entries of the low corner at their limits: 32 times the sample limit on each axis.
    let shape = cube(3, 5, 2);
    for sign in [1, -1] {
        let mut call = Call::new(shape, vec![0; shape.entries()], [0; 3]);
        for &(index, limit) in &corner_entries(shape, [0; 3])[..27] {
            call.records[index] = sign * limit;
        }
        let out = run_out(&call).expect("permitted records");
        assert_eq!(out[2 + 6 * (2 + 6 * 2)], sign * (1 << 30));
    }
}

#[test]
fn single_entries() {
    // One entry at a time, so that every multiplier is seen alone.
    for (axes, degree) in KINDS {
        let shape = cube(axes, degree, 2);
        for (index, limit) in corner_entries(shape, [0; 3]) {
            for value in [1, -limit] {
                let mut call = Call::new(shape, vec![0; shape.entries()], [0; 3]);
                call.records[index] = value;
                assert_eq!(run(&call), Ok(()));
            }
        }
    }
}

#[test]
fn entries_beyond_their_limit() {
    for (axes, degree) in KINDS {
        let shape = cube(axes, degree, 3);
        let cell = [0, 1, 2].map(|axis| u32::from(axis < axes));
        let entries = corner_entries(shape, cell);
        let last = entries.last().unwrap().0;
        for (index, limit) in entries {
            for beyond in [limit + 1, -limit - 1, i32::MAX, i32::MIN] {
                let mut call = Call::new(shape, vec![7; shape.entries()], cell);
                call.records[index] = beyond;
                assert_eq!(run(&call), refused(5, index as u64));
                // A later entry does not matter.
                call.records[last] = i32::MIN;
                assert_eq!(run(&call), refused(5, index as u64));
            }
        }
    }
}

#[test]
fn other_nodes_are_not_tested() {
    let mut random = Random::new(4);
    for (axes, degree) in KINDS {
        let shape = cube(axes, degree, 4);
        for cell in cells(shape) {
            let mut call = Call::new(shape, vec![i32::MIN; shape.entries()], cell);
            for (index, limit) in corner_entries(shape, cell) {
                call.records[index] = random.within(limit as i64);
            }
            assert_eq!(run(&call), Ok(()));
        }
    }
}

#[test]
fn cells_outside_the_table() {
    for (axes, degree) in KINDS {
        let shape = shape(axes, degree, cube(axes, degree, 3).counts);
        for axis in 0..3 {
            let first = if axis < axes as usize { 2 } else { 1 };
            for index in [first, first + 1, 63, 256, u32::MAX] {
                let mut call = Call::new(shape, vec![7; shape.entries()], [0; 3]);
                call.cell[axis] = index;
                assert_eq!(run(&call), refused(14, axis as u64));
            }
        }
    }
}

#[test]
fn wrong_lengths() {
    for (axes, degree) in KINDS {
        let shape = cube(axes, degree, 3);
        let entries = shape.entries();
        for length in [0, shape.nodes(), entries - 1, entries + 1, 2 * entries] {
            let mut call = Call::new(shape, vec![7; entries], [0; 3]);
            call.records.resize(length, 7);
            assert_eq!(run(&call), refused(4, 0));
        }
        let call = Call::new(shape, vec![7; entries], [0; 3]);
        check_rooms(&call, |call| &mut call.room, run);
    }
}

#[test]
fn wrong_shapes_are_refused() {
    for (axes, degree) in KINDS {
        let call_of = |right: Shape| Call::new(right, vec![7; right.entries()], [0; 3]);
        check_wrong_shapes(axes, degree, call_of, |call| &mut call.shape, run);
    }
}

#[test]
fn faults_in_order() {
    for (axes, degree) in KINDS {
        let shape = cube(axes, degree, 3);
        let mut faults = shape_faults(|call: &mut Call| &mut call.shape, axes);
        faults.push(fault(4, 0, |call: &mut Call| call.records.push(0)));
        faults.push(fault(9, 0, |call: &mut Call| call.room = 1));
        for axis in 0..3 {
            let make = move |call: &mut Call| call.cell[axis] = 2;
            faults.push(fault(14, axis as u64, make));
        }
        faults.push(fault(5, 1, |call: &mut Call| call.records[1] = i32::MAX));
        let last = corner_entries(shape, [0; 3]).last().unwrap().0;
        let make = move |call: &mut Call| call.records[last] = i32::MIN;
        faults.push(fault(5, last as u64, make));
        let call = Call::new(shape, vec![7; shape.entries()], [0; 3]);
        check_faults(&call, &faults, run);
    }
}

#[test]
fn place_is_0_when_done() {
    let records = [0, 100, 100, 100];
    let mut out = [0; 4];
    let line = shape(1, 3, [2, 1, 1]);
    let cell = ffi::Index { at: [0; 3] };
    // SAFETY: pointers and lengths are those of the arrays.
    let done = unsafe {
        ffi::lukhtari_coefficients(
            SERVICE,
            line,
            records.as_ptr(),
            4,
            cell,
            out.as_mut_ptr(),
            4,
        )
    };
    assert_eq!((done.number, done.place), (0, 0));
}
