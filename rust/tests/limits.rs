//! The constants of `lukhtari::limits` are the numbers at which the calls begin to refuse.

mod common;
mod model;

use common::{cube, in_edition, in_steps, plain_shape, KINDS};
use lukhtari::limits::*;
use lukhtari::*;

// The number of a refusal, 0 for none.
fn number<T>(answer: Result<T, Refusal>) -> u32 {
    answer.err().map_or(0, |refusal| refusal.number)
}

#[test]
fn samples() {
    for sign in [1, -1] {
        let refused = |sample| {
            let samples = [0, sign * sample];
            number(write(
                Key::Service,
                1,
                [2, 1, 1],
                [16, 1, 1],
                false,
                &samples,
                &mut [0; 20],
            ))
        };
        assert_eq!(refused(SAMPLE_LIMIT), 0);
        assert_eq!(refused(SAMPLE_LIMIT + 1), Refusal::BEYOND_LIMIT);
    }
}

#[test]
fn samples_for_estimation() {
    for (axes, degree) in KINDS {
        let shape = cube(axes, degree, 2);
        let refused = |sample| {
            let samples = vec![sample; shape.nodes()];
            number(estimate(
                Key::Service,
                shape,
                &samples,
                &mut vec![0; shape.entries()],
            ))
        };
        let limit = estimate_limit(axes);
        assert_eq!([limit, -limit].map(refused), [0; 2]);
        let beyond = [limit + 1, -limit - 1].map(refused);
        assert_eq!(beyond, [Refusal::BEYOND_ESTIMATE_LIMIT; 2]);
    }
}

#[test]
fn node_counts() {
    for (axes, degree) in KINDS {
        let refused = |count| {
            let shape = cube(axes, degree, count);
            let samples = vec![estimate_limit(axes); shape.nodes()];
            number(estimate(
                Key::Service,
                shape,
                &samples,
                &mut vec![0; shape.entries()],
            ))
        };
        let counts = [COUNT_MIN - 1, COUNT_MIN, COUNT_MAX, COUNT_MAX + 1];
        assert_eq!(counts.map(refused), [3, 0, 0, 3]);
    }
}

#[test]
fn tokens() {
    let shape = cube(1, 3, 2);
    let refused = |length| {
        let text = format!("1 0.{}", "0".repeat(length - 2));
        number(import(Key::Service, shape, text.as_bytes(), &mut [0; 2]))
    };
    assert_eq!(refused(TOKEN_BYTES_MAX), 0);
    assert_eq!(refused(TOKEN_BYTES_MAX + 1), Refusal::TOKEN_TOO_LONG);
}

#[test]
fn ramps() {
    let shape = cube(1, 3, 2);
    let refused = |length| {
        let list = vec![[0; 3]; length];
        number(ramp(
            Key::Service,
            shape,
            &[0; 4],
            &list,
            &mut vec![0; length],
        ))
    };
    assert_eq!(refused(RAMP_MAX), 0);
    assert_eq!(refused(RAMP_MAX + 1), Refusal::RAMP_LENGTH);
}

#[test]
fn weights() {
    let refused = |weight| {
        let lattice = Measurement {
            shape: cube(1, 3, 2),
            samples: &[0, 1],
            weight,
        };
        number(pool(Key::Service, lattice, lattice, &mut [0; 2]))
    };
    assert_eq!(refused(WEIGHT_MAX), 0);
    assert_eq!(refused(WEIGHT_MAX + 1), Refusal::WEIGHTS);
}

#[test]
fn largest_table() {
    let shape = cube(3, 5, COUNT_MAX);
    assert_eq!(shape.nodes(), NODES_MAX);
    assert_eq!(shape.entries(), ENTRIES_MAX);
    assert_eq!(shape.coefficients(), COEFFICIENTS_MAX);
    assert_eq!(in_edition(shape, true).file_bytes(), FILE_BYTES_MAX);
    assert_eq!(shape.file_bytes(), FILE_BYTES_MAX - 8);
    assert_eq!(ENTRIES_MAX, NODES_MAX * RECORD_ENTRIES_MAX);
}

#[test]
fn steps() {
    let records = [0; 6];
    let of = |steps| in_steps(cube(1, 3, 3), [steps; 3]);
    for steps in [STEPS_MIN, STEPS_MAX] {
        let (shape, last) = (of(steps), 2 * steps as i32);
        assert_eq!(number(dose(Key::Service, shape, &records, [last, 0, 0])), 0);
        assert_eq!(
            number(dose(Key::Service, shape, &records, [last + 1, 0, 0])),
            11
        );
        let within = |u| {
            number(dose_in_cell(
                Key::Service,
                shape,
                &records,
                [0; 3],
                [u, 0, 0],
            ))
        };
        assert_eq!(
            [steps, steps + 1].map(within),
            [0, Refusal::POSITION_BEYOND]
        );
    }
    for steps in [STEPS_MIN / 2, 2 * STEPS_MAX] {
        let refused = number(dose(Key::Service, of(steps), &records, [0; 3]));
        assert_eq!(refused, Refusal::STEP_NUMBER);
    }
}

#[test]
fn entries() {
    for (axes, degree) in KINDS {
        let shape = cube(axes, degree, 2);
        for (entry, orders) in plain_shape(shape).record_orders().into_iter().enumerate() {
            let limit = entry_limit(orders.iter().sum::<usize>() as u32);
            let mut records = vec![0; shape.entries()];
            for (size, expected) in [(limit, 0), (limit + 1, Refusal::BEYOND_LIMIT)] {
                records[entry] = size;
                assert_eq!(
                    number(dose(Key::Service, shape, &records, [0; 3])),
                    expected
                );
            }
        }
    }
}

#[test]
fn coefficients_and_answers() {
    for (axes, degree) in KINDS {
        let shape = cube(axes, degree, 2);
        let orders = plain_shape(shape).record_orders();
        let limits = orders
            .iter()
            .map(|orders| entry_limit(orders.iter().sum::<usize>() as u32));
        let records: Vec<i32> = limits.cycle().take(shape.entries()).collect();
        let mut all = vec![0; shape.coefficients()];
        coefficients(Key::Service, shape, &records, [0; 3], &mut all).expect("permitted records");
        assert!(all.iter().all(|number| number.abs() <= COEFFICIENT_LIMIT));
        let exported = powers(
            Key::Service,
            shape,
            &records,
            [0; 3],
            &mut [0; POWER_COEFFICIENTS],
        );
        let other = (axes, degree) != (2, 3);
        assert_eq!(
            number(exported),
            if other { Refusal::POWERS_SHAPE } else { 0 }
        );
        let total = cell_total(Key::Service, shape, &records, [0; 3]).expect("permitted records");
        assert!(total.abs() <= TOTAL_LIMIT);
        let middle = [0, 1, 2].map(|axis| if axis < axes { 128 } else { 0 });
        let dose = dose(Key::Service, shape, &records, middle).expect("an answer");
        assert!(dose.value.abs() < ANSWER_LIMIT);
        let curvature = |axis| curvature(Key::Service, shape, &records, middle, axis);
        for axis in 0..axes {
            match degree {
                3 => assert_eq!(number(curvature(axis)), Refusal::CURVATURE_DEGREE),
                _ => {
                    assert!(curvature(axis).expect("an answer").abs() < ANSWER_LIMIT)
                }
            }
        }
    }
}
