//! Doses and slopes by float against the model.

mod common;
mod model;
mod positions;

use common::*;
use lukhtari::{dose_float, ffi, slope_float, Key, Shape};
use model::query::{last_step, query_float, Where};
use model::Answer;
use model::Want::{self, Dose, Slope};
use positions::{combinations, float_kinds};

// Bit patterns at the edges of the format.
const SPECIAL: [u32; 30] = [
    0x0000_0000, // zero
    0x8000_0000, // minus zero
    0x0000_0001, // smallest subnormal
    0x8000_0001,
    0x007F_FFFF, // largest subnormal
    0x807F_FFFF,
    0x0080_0000, // smallest normal
    0x8080_0000,
    0x3AFF_FFFF, // next below half a step
    0x3B00_0000, // half a step
    0x3B00_0001,
    0xBAFF_FFFF,
    0xBB00_0000, // minus half a step
    0xBB00_0001,
    0x3B80_0000, // one step
    0xBB80_0000,
    0x3F80_0000, // one cell
    0xBF80_0000,
    0x4B7F_FFFF, // largest float with a half
    0x4F00_0000, // 2^31
    0xCF00_0000,
    0x7A80_0000, // 2^118
    0x7B80_0000, // 2^120: the product overflows
    0x7F7F_FFFF, // largest
    0xFF7F_FFFF,
    0x7F80_0000, // infinities
    0xFF80_0000,
    0x7F80_0001, // signalling and quiet NaN
    0x7FC0_0000,
    0xFFFF_FFFF,
];

fn float_query(shape: Shape, records: Vec<i32>, at: [f32; 3], want: Want) -> Query {
    Query::new(shape, records, Where::Float(at), want)
}

fn position(query: &Query) -> [f32; 3] {
    match query.at {
        Where::Float(at) => at,
        _ => panic!("not a float query"),
    }
}

fn set(query: &mut Query, axis: usize, to: f32) {
    let mut at = position(query);
    at[axis] = to;
    query.at = Where::Float(at);
}

fn call(query: &Query) -> Result<f32, lukhtari::Refusal> {
    let (shape, records, at) = (query.shape, &query.records[..], position(query));
    match query.want {
        Dose => dose_float(Key::Service, shape, records, at),
        Slope(axis) => slope_float(Key::Service, shape, records, at, axis),
        _ => panic!("no call by float"),
    }
}

// The result as it crosses the C interface.
fn raw(query: &Query) -> ffi::Real {
    let (shape, records, len) = (query.shape, query.records.as_ptr(), query.records.len());
    let [x, y, z] = position(query);
    let at = ffi::FloatPosition { x, y, z };
    // SAFETY: pointer and length are those of the records.
    unsafe {
        match query.want {
            Dose => ffi::lukhtari_dose_float(SERVICE, shape, records, len, at),
            Slope(axis) => ffi::lukhtari_slope_float(SERVICE, shape, records, len, at, axis),
            _ => panic!("no call by float"),
        }
    }
}

// Makes the call in both editions, compares each with the model, and returns the outcome, which is
// that of both.
#[track_caller]
fn run(query: &Query) -> Answer<()> {
    let mut query = query.clone();
    let [first, second] = editions(query.shape).map(|shape| {
        query.shape = shape;
        run_edition(&query)
    });
    assert_eq!(first, second);
    first
}

// Makes the call, compares the answer's bits with the model's, and returns the outcome.
#[track_caller]
fn run_edition(query: &Query) -> Answer<()> {
    let got = plain(call(query)).map(f32::to_bits);
    let shape = plain_shape(query.shape);
    let expected = query_float(&shape, &query.records, position(query), query.want);
    assert_eq!(
        got,
        expected.map(f32::to_bits),
        "{:?} {:?}",
        query.shape,
        query.at
    );
    let result = raw(query);
    let value = result.value.to_bits();
    match got {
        Ok(bits) => assert_eq!((result.number, result.place, value), (0, 0, bits)),
        Err(refusal) => {
            assert_eq!(
                (result.number, result.place),
                (refusal.number, refusal.place)
            );
            assert_eq!(value, 0);
        }
    }
    outcome(&got)
}

fn line(degree: u32, count: u32) -> Query {
    let shape = shape(1, degree, [count, 1, 1]);
    let mut random = Random::new(count as u64);
    float_query(shape, random.records(shape), [0.0; 3], Dose)
}

// A float and its neighbours.
fn around(float: f32) -> [f32; 3] {
    [float.next_down(), float, float.next_up()]
}

#[test]
fn worked_examples() {
    let shape = shape(1, 3, [2, 1, 1]);
    let ask = |bits: u32| {
        let at = [f32::from_bits(bits), 0.0, 0.0];
        let query = float_query(shape, vec![0, 200, 100, 200], at, Dose);
        run(&query).map(|_| call(&query).unwrap())
    };
    assert_eq!(ask(0.25f32.to_bits()), Ok(25.0));
    assert_eq!(ask(0.5f32.to_bits()), Ok(50.0));
    assert_eq!(ask(1.0f32.to_bits()), Ok(100.0));
    // Steps 1 and 0 of a steep line.
    let steep = |bits: u32| {
        let at = [f32::from_bits(bits), 0.0, 0.0];
        call(&float_query(shape, vec![0, 32768, 32768, 32768], at, Dose))
    };
    assert_eq!(steep(0x3B00_0000), Ok(65.0));
    assert_eq!(steep(0x3AFF_FFFF), Ok(0.0));
}

#[test]
fn special_bits_on_each_axis() {
    for (axes, degree) in KINDS {
        let shape = cube(axes, degree, 3);
        let records = Random::new(1).records(shape);
        for axis in 0..3 {
            for bits in SPECIAL {
                for want in [Dose, Slope(axes - 1)] {
                    let mut query = float_query(shape, records.clone(), [0.0; 3], want);
                    set(&mut query, axis, f32::from_bits(bits));
                    let answer = run(&query);
                    if !f32::from_bits(bits).is_finite() {
                        assert_eq!(answer, refused(10, axis as u64));
                    }
                }
            }
        }
    }
}

#[test]
fn special_bits_on_two_axes() {
    for (axes, degree) in KINDS {
        let shape = cube(axes, degree, 2);
        let records = vec![7; shape.entries()];
        for (first, second) in [(0, 1), (0, 2), (1, 2)] {
            for one in SPECIAL {
                for two in SPECIAL {
                    let mut query = float_query(shape, records.clone(), [0.0; 3], Dose);
                    set(&mut query, first, f32::from_bits(one));
                    set(&mut query, second, f32::from_bits(two));
                    let _ = run(&query);
                }
            }
        }
    }
}

#[test]
fn floats_near_every_half_step() {
    for (degree, count) in [(3, 64), (5, 64), (3, 2), (5, 3)] {
        let mut query = line(degree, count);
        let last = last_step(&plain_shape(query.shape), 0);
        for step in -2..=last + 1 {
            let half = (step as f32 + 0.5) / 256.0;
            for float in around(half) {
                set(&mut query, 0, float);
                let _ = run(&query);
            }
        }
    }
}

#[test]
fn floats_near_every_step() {
    let mut query = line(3, 9);
    let last = last_step(&plain_shape(query.shape), 0);
    for step in -1..=last + 1 {
        for float in around(step as f32 / 256.0) {
            set(&mut query, 0, float);
            let answer = run(&query);
            if (0..=last).contains(&step) {
                assert_eq!(answer, Ok(()));
            }
        }
    }
}

#[test]
fn ends_of_the_table() {
    for (axes, degree) in KINDS {
        let shape = cube(axes, degree, 4);
        let mut query = float_query(shape, Random::new(2).records(shape), [0.0; 3], Dose);
        for axis in 0..3 {
            let used = axis < axes as usize;
            let last = if used { 3.0f32 } else { 0.0 };
            let half = 1.0 / 512.0;
            // Minus half a step rounds up to 0; half a step beyond the end rounds up beyond it.
            let beyond = last + half;
            let place = axis as u64;
            for (float, expected) in [
                (-half, Ok(())),
                (
                    (-half).next_down(),
                    refused(if used { 22 } else { 23 }, place),
                ),
                (beyond.next_down(), Ok(())),
                (beyond, refused(if used { 11 } else { 23 }, place)),
            ] {
                set(&mut query, axis, float);
                assert_eq!(run(&query), expected, "axis {axis}, {float}");
            }
            set(&mut query, axis, 0.0);
        }
    }
}

#[test]
fn every_combination_of_floats() {
    for (axes, degree) in KINDS {
        let shape = cube(axes, degree, 3);
        for want in [Dose, Slope(axes - 1)] {
            let mut query = float_query(shape, vec![7; shape.entries()], [0.0; 3], want);
            for (at, expected) in combinations(axes, &float_kinds(2.0)) {
                query.at = Where::Float(at);
                assert_eq!(run(&query), expected, "{at:?}");
            }
        }
    }
}

#[test]
fn zero_is_plus_zero() {
    for (axes, degree) in KINDS {
        let shape = cube(axes, degree, 2);
        let mut random = Random::new(3);
        for want in [Dose, Slope(0)] {
            for at in [[0.0; 3], [-0.0; 3]] {
                let query = float_query(shape, vec![0; shape.entries()], at, want);
                assert_eq!(call(&query).map(f32::to_bits), Ok(0));
            }
            // Small negative exact values that round to 0.
            let samples: Vec<i32> = (0..shape.entries())
                .map(|_| -(random.below(2) as i32))
                .collect();
            let x = random.below(257) as f32 / 256.0;
            let _ = run(&float_query(shape, samples, [x, 0.0, 0.0], want));
        }
    }
}

#[test]
fn random_floats() {
    let mut random = Random::new(4);
    for _ in 0..200 {
        for (axes, degree) in KINDS {
            let shape = random.shape(axes, degree, 5);
            let records = random.records(shape);
            let at = [0, 1, 2].map(|axis| random_float(&mut random, shape, axis));
            let want = random.pick(&[Dose, Slope(0), Slope(axes - 1)]);
            let _ = run(&float_query(shape, records, at, want));
        }
    }
}

// A float mostly in the table, sometimes of random bits.
fn random_float(random: &mut Random, shape: Shape, axis: usize) -> f32 {
    let last = last_step(&plain_shape(shape), axis) as f32 / 256.0;
    match random.below(16) {
        0 => f32::from_bits(random.next() as u32),
        1 => last,
        _ => last * (random.below(1 << 24) as f32 / (1 << 24) as f32),
    }
}

#[test]
fn large_answers() {
    let mut random = Random::new(5);
    for (axes, degree) in KINDS {
        let shape = cube(axes, degree, 2);
        for _ in 0..50 {
            let mut records = vec![0; shape.entries()];
            for (index, limit) in corner_entries(shape, [0; 3]) {
                records[index] = random.pick(&[limit, -limit]);
            }
            let at = [0, 1, 2].map(|axis| if axis < axes { 0.5 } else { 0.0 });
            for want in dose_and_slopes(axes) {
                let query = float_query(shape, records.clone(), at, want);
                assert_eq!(run(&query), Ok(()));
            }
        }
    }
}

#[test]
fn wrong_shapes_are_refused() {
    for (axes, degree) in KINDS {
        let right = cube(axes, degree, 2);
        for want in [Dose, Slope(0)] {
            for (shape, number, place) in wrong_shapes(axes, degree) {
                let records = vec![7; right.entries()];
                let query = float_query(shape, records, [0.0; 3], want);
                assert_eq!(run(&query), refused(number, place), "{shape:?}");
            }
        }
    }
}

#[test]
fn faults_in_order() {
    for (axes, degree) in KINDS {
        let shape = cube(axes, degree, 3);
        for want in [Dose, Slope(0)] {
            let mut faults = shape_faults(|query: &mut Query| &mut query.shape, axes);
            faults.push(fault(4, 0, |query: &mut Query| query.records.push(0)));
            if want.order() == 1 {
                faults.push(fault(12, 0, |query: &mut Query| query.want = Slope(3)));
            }
            for axis in 0..3 {
                let used = axis < axes as usize;
                for (number, float) in [(10, f32::NAN), (11, 2.5), (22, -1.0), (11, f32::MAX)] {
                    let make = move |query: &mut Query| set(query, axis, float);
                    let number = if used || number == 10 { number } else { 23 };
                    faults.push(fault(number, axis as u64, make));
                }
            }
            let last = corner_entries(shape, [0; 3]).last().unwrap().0;
            faults.push(fault(5, 1, |query: &mut Query| query.records[1] = i32::MAX));
            let make = move |query: &mut Query| query.records[last] = i32::MIN;
            faults.push(fault(5, last as u64, make));
            let query = float_query(shape, vec![7; shape.entries()], [0.0; 3], want);
            check_faults(&query, &faults, run);
        }
    }
}

#[test]
fn entries_beyond_their_limit() {
    for (axes, degree) in KINDS {
        let shape = cube(axes, degree, 2);
        for (index, limit) in corner_entries(shape, [0; 3]) {
            for beyond in [limit + 1, -limit - 1] {
                let mut query = float_query(shape, vec![7; shape.entries()], [0.0; 3], Dose);
                query.records[index] = beyond;
                assert_eq!(run(&query), refused(5, index as u64));
            }
        }
    }
}
