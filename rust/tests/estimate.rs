//! Estimation against the model.

mod common;
mod model;

use common::*;
use lukhtari::limits::{entry_limit, estimate_limit};
use lukhtari::{estimate, ffi, Key, Shape};
use model::shape::indices;
use model::Answer;

#[derive(Clone, Debug)]
struct Call {
    shape: Shape,
    samples: Vec<i32>,
    room: usize,
}

impl Call {
    // A call with all buffers right.
    fn new(shape: Shape, samples: Vec<i32>) -> Call {
        let room = shape.entries();
        Call {
            shape,
            samples,
            room,
        }
    }
}

// Makes the call in both editions, which do not matter here, compares answer and buffer with the
// model's, and returns the answer.
fn run(call: &Call) -> Answer<()> {
    let shape = plain_shape(call.shape);
    let expected = model::estimate::estimate(&shape, &call.samples, call.room);
    for shape in editions(call.shape) {
        let mut buffer = Lent::new(call.room);
        let got = plain(estimate(Key::Service, shape, &call.samples, buffer.slice()));
        assert_eq!(got, outcome(&expected), "{shape:?}");
        buffer.check(expected.as_deref().unwrap_or_default());
    }
    outcome(&expected)
}

#[test]
fn worked_examples() {
    let mut records = [0; 4];
    let line = shape(1, 3, [2, 1, 1]);
    assert_eq!(
        estimate(Key::Service, line, &[0, 100], &mut records),
        Ok(())
    );
    assert_eq!(records, [0, 200, 100, 200]);
    let mut records = [0; 6];
    let line = shape(1, 5, [2, 1, 1]);
    assert_eq!(
        estimate(Key::Service, line, &[0, 100], &mut records),
        Ok(())
    );
    assert_eq!(records, [0, 200, 0, 100, 200, 0]);
}

#[test]
fn borders() {
    // Twice the difference and no second derivative at both borders; neither between them.
    let mut records = [0; 9];
    let line = shape(1, 5, [3, 1, 1]);
    assert_eq!(
        estimate(Key::Service, line, &[1, 3, 10], &mut records),
        Ok(())
    );
    assert_eq!(records, [1, 4, 0, 3, 9, 5, 10, 14, 0]);
    // Along y and z as along x.
    for axis in 0..3 {
        let mut sides = [2; 3];
        sides[axis] = 3;
        let cube = shape(3, 5, sides);
        let samples = indices(sides.map(|count| count as usize)).into_iter();
        let samples: Vec<i32> = samples.map(|node| [1, 3, 10][node[axis]]).collect();
        let call = Call::new(cube, samples);
        assert_eq!(run(&call), Ok(()));
        let mut all = vec![0; cube.entries()];
        estimate(Key::Service, cube, &call.samples, &mut all).unwrap();
        let (node, order) = ([1, 2, 4][axis], [1, 3, 9][axis]);
        for i in 0..3 {
            for o in 0..3 {
                assert_eq!(all[27 * node * i + order * o], records[3 * i + o]);
            }
        }
    }
}

#[test]
fn mixed_entries() {
    // One node of 1 in the middle: each entry is a product of the one-axis entries of 0, 1, 0.
    let mut samples = [0; 27];
    samples[13] = 1;
    let cube = cube(3, 5, 3);
    let mut records = vec![0; cube.entries()];
    estimate(Key::Service, cube, &samples, &mut records).unwrap();
    let line = [[0, 2, 0], [1, 0, -2], [0, -2, 0]];
    for (index, &entry) in records.iter().enumerate() {
        let node = [index / 27 % 3, index / 81 % 3, index / 243];
        let order = [index % 3, index / 3 % 3, index / 9 % 3];
        let product = |axis: usize| line[node[axis]][order[axis]];
        assert_eq!(entry, product(0) * product(1) * product(2), "entry {index}");
    }
}

#[test]
fn border_shapes() {
    let mut random = Random::new(1);
    let shapes = [
        (1, [2, 1, 1]),
        (1, [3, 1, 1]),
        (1, [63, 1, 1]),
        (1, [64, 1, 1]),
        (2, [2, 2, 1]),
        (2, [64, 2, 1]),
        (2, [2, 64, 1]),
        (2, [64, 64, 1]),
        (3, [2, 2, 2]),
        (3, [64, 2, 2]),
        (3, [2, 64, 2]),
        (3, [2, 2, 64]),
        (3, [64, 64, 2]),
        (3, [2, 64, 64]),
        (3, [64, 64, 64]),
    ];
    for (axes, counts) in shapes {
        for degree in [3, 5] {
            let shape = shape(axes, degree, counts);
            let call = Call::new(shape, random.estimable(shape));
            assert_eq!(run(&call), Ok(()));
        }
    }
}

#[test]
fn random_tables() {
    let mut random = Random::new(2);
    for _ in 0..500 {
        for (axes, degree) in KINDS {
            let shape = random.shape(axes, degree, 6);
            let call = Call::new(shape, random.estimable(shape));
            assert_eq!(run(&call), Ok(()));
            let _ = run(&Call::new(shape, random.samples(shape.nodes())));
        }
    }
}

#[test]
fn extreme_samples() {
    // Signs that alternate along every axis.
    for (axes, degree) in KINDS {
        let shape = cube(axes, degree, 4);
        let limit = estimate_limit(axes);
        for low in [limit, -limit] {
            let sign = |node: usize| {
                if (node ^ node >> 2 ^ node >> 4) & 1 == 0 {
                    low
                } else {
                    -low
                }
            };
            let samples = (0..shape.nodes()).map(sign).collect();
            assert_eq!(run(&Call::new(shape, samples)), Ok(()));
            let samples = vec![low; shape.nodes()];
            assert_eq!(run(&Call::new(shape, samples)), Ok(()));
        }
    }
}

// What each of three nodes along an axis counts in an entry of an order at one of them.
fn factors(node: usize, order: usize) -> [i32; 3] {
    match (order, node) {
        (0, _) => [0, 1, 2].map(|other| (other == node) as i32),
        (1, 0) => [-2, 2, 0],
        (1, 1) => [-1, 0, 1],
        (1, _) => [0, -2, 2],
        (2, 1) => [1, -2, 1],
        _ => [0; 3],
    }
}

#[test]
fn largest_entries() {
    // Samples at their limit with the signs that make one entry largest: at corners, on edges, on
    // faces and inside.
    for (axes, degree) in KINDS {
        let shape = cube(axes, degree, 3);
        let plain = plain_shape(shape);
        let limit = estimate_limit(axes);
        let mut attained = 0;
        for node in indices(plain.sides()) {
            for orders in plain.record_orders() {
                let used = 0..axes as usize;
                let along: Vec<[i32; 3]> = used.map(|i| factors(node[i], orders[i])).collect();
                let factor = |other: [usize; 3]| -> i32 {
                    let factors = along.iter().zip(other);
                    factors.map(|(factors, index)| factors[index]).product()
                };
                let nodes = indices(plain.sides());
                let sum: i32 = nodes.iter().map(|&other| factor(other).abs()).sum();
                let signs = nodes.into_iter().map(|other| factor(other).signum());
                let samples: Vec<i32> = signs.map(|sign| sign * limit).collect();
                let mut records = vec![0; shape.entries()];
                estimate(Key::Service, shape, &samples, &mut records)
                    .expect("samples at their limit");
                let entry = records[plain.entry_index(node, orders)];
                assert_eq!(entry, sum * limit, "{node:?} {orders:?}");
                let most = entry_limit(orders.iter().sum::<usize>() as u32);
                assert!(entry <= most, "{node:?} {orders:?}");
                attained += (entry == most) as u32;
                assert_eq!(run(&Call::new(shape, samples)), Ok(()));
            }
        }
        // The entry of order 1 along every axis, at every corner.
        assert_eq!(attained, 1 << axes);
    }
}

#[test]
fn samples_beyond_the_limit() {
    for (axes, degree) in KINDS {
        let shape = cube(axes, degree, 3);
        let limit = [16384, 8192, 4096][axes as usize - 1];
        for index in 0..shape.nodes() {
            let mut call = Call::new(shape, vec![7; shape.nodes()]);
            for within in [limit, -limit] {
                call.samples[index] = within;
                assert_eq!(run(&call), Ok(()));
            }
            let next = [limit + 1, -limit - 1];
            let far = [32768, -32768, 32769, 40000, 65536, i32::MAX, i32::MIN];
            for beyond in next.into_iter().chain(far) {
                let mut call = Call::new(shape, vec![7; shape.nodes()]);
                call.samples[index] = beyond;
                assert_eq!(run(&call), refused(19, index as u64));
                // A second one later does not matter.
                *call.samples.last_mut().unwrap() = -beyond.max(-i32::MAX);
                assert_eq!(run(&call), refused(19, index as u64));
            }
        }
    }
}

#[test]
fn wrong_lengths() {
    for (axes, degree) in KINDS {
        let shape = cube(axes, degree, 3);
        let nodes = shape.nodes();
        for length in [0, 1, nodes - 1, nodes + 1, 2 * nodes, 1000] {
            let mut call = Call::new(shape, vec![7; nodes]);
            call.samples.resize(length, 7);
            assert_eq!(run(&call), refused(4, 0));
        }
    }
}

#[test]
fn short_and_long_buffers() {
    for (axes, degree) in KINDS {
        let shape = cube(axes, degree, 3);
        let call = Call::new(shape, Random::new(3).estimable(shape));
        check_rooms(&call, |call| &mut call.room, run);
    }
}

#[test]
fn wrong_shapes_are_refused() {
    for (axes, degree) in KINDS {
        let call_of = |right: Shape| Call::new(right, vec![7; right.nodes()]);
        check_wrong_shapes(axes, degree, call_of, |call| &mut call.shape, run);
    }
}

#[test]
fn faults_in_order() {
    for (axes, degree) in KINDS {
        let shape = cube(axes, degree, 3);
        let mut faults = shape_faults(|call: &mut Call| &mut call.shape, axes);
        faults.push(fault(4, 0, |call: &mut Call| call.samples.push(0)));
        faults.push(fault(9, 0, |call: &mut Call| call.room = 1));
        let beyond = estimate_limit(axes) + 1;
        let make = move |call: &mut Call| call.samples[1] = beyond;
        faults.push(fault(19, 1, make));
        faults.push(fault(19, 2, |call: &mut Call| call.samples[2] = -40000));
        check_faults(&Call::new(shape, vec![7; shape.nodes()]), &faults, run);
    }
}

#[test]
fn place_is_0_when_done() {
    let samples = [0, 100];
    let mut records = [0; 4];
    let line = shape(1, 3, [2, 1, 1]);
    // SAFETY: pointers and lengths are those of the arrays.
    let done = unsafe {
        ffi::lukhtari_estimate(SERVICE, line, samples.as_ptr(), 2, records.as_mut_ptr(), 4)
    };
    assert_eq!((done.number, done.place), (0, 0));
}
