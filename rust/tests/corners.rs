//! The way back from coefficients to corner records, against the model.

mod common;
mod model;

use common::*;
use lukhtari::{coefficients, corners, ffi, Key};
use model::block::{cell_block, Block};
use model::coefficients::axis_coefficients;
use model::Answer;

#[derive(Clone, Debug)]
struct Call {
    axes: u32,
    degree: u32,
    coefficients: Vec<i32>,
    room: usize,
}

impl Call {
    // A call with all buffers right.
    fn new(axes: u32, degree: u32, coefficients: Vec<i32>) -> Call {
        let room = cube(axes, degree, 2).entries();
        Call {
            axes,
            degree,
            coefficients,
            room,
        }
    }
}

// Makes the call, compares answer and buffer with the model's, and returns what was written.
fn run_out(call: &Call) -> Answer<Vec<i32>> {
    let mut buffer = Lent::new(call.room);
    let (axes, degree) = (call.axes, call.degree);
    let got = plain(corners(
        Key::Service,
        axes,
        degree,
        &call.coefficients,
        buffer.slice(),
    ));
    let expected = model::coefficients::corners_of(axes, degree, &call.coefficients, call.room);
    assert_eq!(got, outcome(&expected), "{call:?}");
    buffer.check(expected.as_deref().unwrap_or_default());
    expected
}

fn run(call: &Call) -> Answer<()> {
    outcome(&run_out(call))
}

// Coefficients of the one cell of a table with two nodes on each axis.
fn forward(axes: u32, degree: u32, records: &[i32]) -> Vec<i32> {
    let shape = cube(axes, degree, 2);
    let mut out = vec![0; shape.coefficients()];
    coefficients(Key::Service, shape, records, [0; 3], &mut out).expect("permitted records");
    out
}

// The same by the model's table and with no limit on the records, if all fit 32 bits.
fn forward_unlimited(axes: u32, degree: u32, records: &[i32]) -> Option<Vec<i32>> {
    let shape = plain_shape(cube(axes, degree, 2));
    let mut block: Block = cell_block(&shape, records, [0; 3]);
    for axis in 0..axes as usize {
        block = block.map_lines(axis, |ends| axis_coefficients(degree, ends));
    }
    let number = |c: &model::Rational| i32::try_from(c.to_i64()?).ok();
    block.numbers().iter().map(number).collect()
}

// Index and limit of each corner entry.
fn limits(axes: u32, degree: u32) -> Vec<(usize, i32)> {
    corner_entries(cube(axes, degree, 2), [0; 3])
}

#[test]
fn worked_examples() {
    let back = |numbers: [i32; 4]| run_out(&Call::new(1, 3, numbers.to_vec()));
    assert_eq!(back([0, 100, 500, 200]), Ok(vec![0, 100, 100, 100]));
    assert_eq!(back([1, 0, 0, 0]), refused(13, 0));
    // The plus of the paper's equation 12 would give this.
    assert_eq!(back([0, 100, 700, 200]), Ok(vec![0, 100, 100, -100]));
}

#[test]
fn back_of_forward() {
    let mut random = Random::new(1);
    for _ in 0..200 {
        for (axes, degree) in KINDS {
            let records = random.records(cube(axes, degree, 2));
            let call = Call::new(axes, degree, forward(axes, degree, &records));
            assert_eq!(run_out(&call), Ok(records));
        }
    }
}

#[test]
fn extreme_records() {
    let mut random = Random::new(2);
    for (axes, degree) in KINDS {
        for _ in 0..100 {
            let mut records = vec![0; cube(axes, degree, 2).entries()];
            for (index, limit) in limits(axes, degree) {
                records[index] = random.pick(&[limit, -limit]);
            }
            let call = Call::new(axes, degree, forward(axes, degree, &records));
            assert_eq!(run_out(&call), Ok(records));
        }
    }
}

#[test]
fn each_entry_at_and_beyond_its_limit() {
    for (axes, degree) in KINDS {
        for (index, limit) in limits(axes, degree) {
            let mut records = vec![0; cube(axes, degree, 2).entries()];
            for (entry, permitted) in [
                (limit, true),
                (-limit, true),
                (limit + 1, false),
                (-limit - 1, false),
                (2 * limit, false),
            ] {
                records[index] = entry;
                let numbers = forward_unlimited(axes, degree, &records).expect("32 bits");
                let expected = if permitted {
                    Ok(records.clone())
                } else {
                    refused(13, 0)
                };
                assert_eq!(run_out(&Call::new(axes, degree, numbers)), expected);
            }
        }
    }
}

#[test]
fn one_off_a_permitted_set() {
    let mut random = Random::new(3);
    for (axes, degree) in KINDS {
        let records = random.records(cube(axes, degree, 2));
        let right = forward(axes, degree, &records);
        let mut taken = 0;
        for index in 0..right.len() {
            for off in [1, -1, 2, -2, 1 << axes] {
                let mut call = Call::new(axes, degree, right.clone());
                call.coefficients[index] += off;
                taken += u32::from(run(&call).is_ok());
            }
        }
        let asked = 5 * right.len() as u32;
        assert!(taken < asked, "some set next to a permitted one is refused");
    }
}

#[test]
fn odd_values_at_doubled_places() {
    for (axes, degree) in KINDS {
        let side = degree as usize + 1;
        let count = side.pow(axes);
        for index in 0..count {
            let places = [index % side, index / side % side, index / side / side];
            let ends = places[..axes as usize].iter();
            let doubled = ends.filter(|&&i| i == 0 || i == side - 1).count();
            let mut call = Call::new(axes, degree, vec![0; count]);
            call.coefficients[index] = 1;
            let refused_here = run(&call) == refused(13, 0);
            assert_eq!(refused_here, doubled > 0, "{axes} {degree} {index}");
        }
    }
}

#[test]
fn random_coefficients() {
    let mut random = Random::new(4);
    for _ in 0..300 {
        for (axes, degree) in KINDS {
            let count = cube(axes, degree, 2).coefficients();
            let wide = (0..count).map(|_| random.next() as i32).collect();
            assert_eq!(run(&Call::new(axes, degree, wide)), refused(13, 0));
            // Small multiples of 2^n have whole records.
            let step = 1 << axes;
            let small = (0..count).map(|_| step * random.range(-9, 9) as i32);
            assert_eq!(run(&Call::new(axes, degree, small.collect())), Ok(()));
            let mixed = (0..count).map(|_| random.range(-2, 2) as i32).collect();
            let _ = run(&Call::new(axes, degree, mixed));
        }
    }
}

#[test]
fn extreme_coefficients() {
    let mut random = Random::new(5);
    for (axes, degree) in KINDS {
        let count = cube(axes, degree, 2).coefficients();
        for value in [i32::MIN, i32::MAX, 1 << 30, -(1 << 30)] {
            assert_eq!(
                run(&Call::new(axes, degree, vec![value; count])),
                refused(13, 0)
            );
        }
        for _ in 0..50 {
            let ends = [i32::MIN, i32::MAX, i32::MIN + 1, 0];
            let numbers = (0..count).map(|_| random.pick(&ends)).collect();
            assert_eq!(run(&Call::new(axes, degree, numbers)), refused(13, 0));
        }
    }
}

#[test]
fn wrong_lengths() {
    for (axes, degree) in KINDS {
        let right = Call::new(axes, degree, vec![0; cube(axes, degree, 2).coefficients()]);
        let count = right.coefficients.len();
        for length in [0, 1, count - 1, count + 1, 216, 217] {
            let mut call = right.clone();
            call.coefficients.resize(length, 0);
            let expected = if length == count {
                Ok(())
            } else {
                refused(15, 0)
            };
            assert_eq!(run(&call), expected);
        }
        check_rooms(&right, |call| &mut call.room, run);
    }
}

#[test]
fn wrong_axes_and_degrees() {
    let right = Call::new(3, 5, vec![0; 216]);
    for axes in [0, 4, 5, 257, u32::MAX] {
        let call = Call {
            axes,
            ..right.clone()
        };
        assert_eq!(run(&call), refused(1, 0));
    }
    for degree in [0, 1, 2, 4, 6, 7, 259, u32::MAX] {
        let call = Call {
            degree,
            ..right.clone()
        };
        assert_eq!(run(&call), refused(2, 0));
    }
}

#[test]
fn faults_in_order() {
    for (axes, degree) in KINDS {
        let faults = [
            fault(1, 0, |call: &mut Call| call.axes = 0),
            fault(2, 0, |call: &mut Call| call.degree = 6),
            fault(15, 0, |call: &mut Call| call.coefficients.push(0)),
            fault(9, 0, |call: &mut Call| call.room -= 1),
            fault(13, 0, |call: &mut Call| call.coefficients[0] = 1),
        ];
        let count = cube(axes, degree, 2).coefficients();
        check_faults(&Call::new(axes, degree, vec![0; count]), &faults, run);
    }
}

#[test]
fn place_is_0_when_done() {
    let numbers = [0, 100, 500, 200];
    let mut out = [0; 4];
    // SAFETY: pointers and lengths are those of the arrays.
    let done =
        unsafe { ffi::lukhtari_corners(SERVICE, 1, 3, numbers.as_ptr(), 4, out.as_mut_ptr(), 4) };
    assert_eq!((done.number, done.place), (0, 0));
}
