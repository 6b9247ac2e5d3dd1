//! Doses, slopes and curvatures by position and by cell: answers against the model.

mod common;
mod model;
mod queries;

use common::*;
use lukhtari::Shape;
use model::query::{last_step, Where};
use model::shape::indices;
use model::Want::{self, Curvature, Dose, Slope};
use queries::*;

// Records estimated by the model.
fn estimated(random: &mut Random, shape: Shape) -> Vec<i32> {
    let samples = random.estimable(shape);
    estimated_from(shape, &samples)
}

fn estimated_from(shape: Shape, samples: &[i32]) -> Vec<i32> {
    let records = model::estimate::estimate(&plain_shape(shape), samples, shape.entries());
    records.expect("accepted table")
}

// All answers at a point.
fn run_all(query: &mut Query) {
    for want in wants(query.shape) {
        query.want = want;
        let answer = run(query).expect("accepted query");
        assert!(answer.abs() < 1 << 24);
    }
}

// Points whose steps on each used axis are taken from the lists.
fn grid(steps: [&[u32]; 3], axes: u32) -> Vec<[u32; 3]> {
    let sides = [0, 1, 2].map(|axis| {
        if axis < axes as usize {
            steps[axis].len()
        } else {
            1
        }
    });
    let step = |axis: usize, index: usize| {
        if axis < axes as usize {
            steps[axis][index]
        } else {
            0
        }
    };
    let point = |at: [usize; 3]| [0, 1, 2].map(|axis| step(axis, at[axis]));
    indices(sides).into_iter().map(point).collect()
}

#[test]
fn worked_examples() {
    let ask = |degree, samples: [i32; 2], p, want| {
        let shape = shape(1, degree, [2, 1, 1]);
        let records = estimated_from(shape, &samples);
        run(&Query::new(
            shape,
            records,
            Where::Position([p, 0, 0]),
            want,
        ))
    };
    for degree in [3, 5] {
        assert_eq!(ask(degree, [0, 100], 128, Dose), Ok(50));
        assert_eq!(ask(degree, [0, 100], 256, Dose), Ok(100));
        assert_eq!(ask(degree, [0, 100], 257, Dose), refused(11, 0));
        assert_eq!(ask(degree, [0, 100], -1, Dose), refused(22, 0));
        assert_eq!(ask(degree, [0, 100], 64, Dose), Ok(25));
        for p in [0, 64, 128, 256] {
            assert_eq!(ask(degree, [0, 100], p, Slope(0)), Ok(100));
        }
    }
    assert_eq!(ask(3, [0, 1], 128, Dose), Ok(1));
    assert_eq!(ask(3, [0, -1], 128, Dose), Ok(0));
    assert_eq!(ask(3, [0, -1], 192, Dose), Ok(-1));
    let square = shape(2, 3, [2, 2, 1]);
    let records = estimated_from(square, &[0, 100, 0, 100]);
    let query = Query::new(square, records, Where::Position([64, 0, 0]), Dose);
    assert_eq!(run(&query), Ok(25));
}

#[test]
fn all_steps_of_lines() {
    let mut random = Random::new(1);
    for degree in [3, 5] {
        for count in [2, 3, 5] {
            let shape = shape(1, degree, [count, 1, 1]);
            let records = estimated(&mut random, shape);
            let mut query = Query::new(shape, records, Where::Position([0; 3]), Dose);
            for p in 0..=last_step(&plain_shape(shape), 0) {
                query.at = Where::Position([p as i32, 0, 0]);
                run_all(&mut query);
            }
        }
    }
}

#[test]
fn all_steps_of_one_axis_of_more() {
    // Every step along each axis in turn, the other axes at chosen steps.
    let mut random = Random::new(2);
    let chosen: &[u32] = &[0, 37, 256];
    let every: Vec<u32> = (0..=256).collect();
    for (axes, degree) in [(2, 3), (3, 3), (2, 5), (3, 5)] {
        let shape = cube(axes, degree, 2);
        for axis in 0..axes as usize {
            let mut steps = [&chosen[axis..axis + 1]; 3];
            steps[axis] = &every;
            let mut query = Query::new(shape, random.records(shape), Where::Position([0; 3]), Dose);
            for point in grid(steps, axes) {
                query.at = Where::Position(point.map(|step| step as i32));
                run_all(&mut query);
            }
        }
    }
}

#[test]
fn all_points_of_a_square() {
    let mut random = Random::new(3);
    let some: Vec<u32> = (0..=256).step_by(4).collect();
    for degree in [3, 5] {
        let shape = cube(2, degree, 2);
        let records = estimated(&mut random, shape);
        let mut query = Query::new(shape, records, Where::Position([0; 3]), Dose);
        for point in grid([&some, &some, &[]], 2) {
            query.at = Where::Cell([0; 3], point);
            run_all(&mut query);
        }
    }
}

#[test]
fn corners_edges_and_faces() {
    // All cells of a table with each in-cell step at 0, 256, next to them or in the middle.
    let mut random = Random::new(4);
    let steps: &[u32] = &[0, 1, 128, 255, 256];
    for (axes, degree) in KINDS {
        let shape = cube(axes, degree, 3);
        let records = estimated(&mut random, shape);
        let mut query = Query::new(shape, records, Where::Position([0; 3]), Dose);
        for cell in cells(shape) {
            let coarse = axes == 3 && cell != [1, 0, 1];
            let steps = if coarse { &[0, 129, 256][..] } else { steps };
            for u in grid([steps; 3], axes) {
                query.at = Where::Cell(cell, u);
                run_all(&mut query);
            }
        }
    }
}

#[test]
fn a_node_gives_its_sample() {
    let mut random = Random::new(5);
    for (axes, degree) in KINDS {
        let shape = random.shape(axes, degree, 5);
        let samples = random.estimable(shape);
        let records = estimated_from(shape, &samples);
        let nodes = indices(shape.counts.map(|count| count as usize));
        for (node, &sample) in nodes.into_iter().zip(&samples) {
            let at = Where::Position(node.map(|index| 256 * index as i32));
            let query = Query::new(shape, records.clone(), at, Dose);
            assert_eq!(run(&query), Ok(sample));
        }
    }
}

#[test]
fn a_position_is_its_cell_and_step() {
    let mut random = Random::new(6);
    for (axes, degree) in KINDS {
        let shape = random.shape(axes, degree, 6);
        let records = random.records(shape);
        for _ in 0..100 {
            let cell = random.pick(&cells(shape));
            let used = |axis: u32| axis < axes;
            let u = [0, 1, 2].map(|axis| {
                if used(axis) {
                    random.below(256) as u32
                } else {
                    0
                }
            });
            let p = [0, 1, 2].map(|axis| (256 * cell[axis] + u[axis]) as i32);
            for want in wants(shape) {
                let ask = |at| run(&Query::new(shape, records.clone(), at, want));
                assert_eq!(ask(Where::Position(p)), ask(Where::Cell(cell, u)));
            }
        }
    }
}

#[test]
fn cells_that_share_a_point_agree() {
    let mut random = Random::new(7);
    for (axes, degree) in KINDS {
        let shape = cube(axes, degree, 3);
        let records = estimated(&mut random, shape);
        for _ in 0..100 {
            let shared = random.below(axes as u64) as usize;
            let mut low = ([0; 3], [0; 3]);
            for axis in 0..axes as usize {
                low.0[axis] = random.below(2) as u32;
                low.1[axis] = random.below(257) as u32;
            }
            let mut high = low;
            (low.0[shared], low.1[shared]) = (0, 256);
            (high.0[shared], high.1[shared]) = (1, 0);
            for want in wants(shape) {
                let ask = |(cell, u)| {
                    run(&Query::new(
                        shape,
                        records.clone(),
                        Where::Cell(cell, u),
                        want,
                    ))
                };
                assert_eq!(ask(low), ask(high), "{low:?} {want:?}");
            }
        }
    }
}

#[test]
fn extreme_records() {
    let mut random = Random::new(8);
    let steps = [0, 1, 64, 127, 128, 129, 200, 255, 256];
    for (axes, degree) in KINDS {
        let shape = cube(axes, degree, 2);
        let limits = corner_entries(shape, [0; 3]);
        for _ in 0..40 {
            let mut records = vec![0; shape.entries()];
            for &(index, limit) in &limits {
                records[index] = random.pick(&[limit, -limit]);
            }
            let used = |axis: u32| axis < axes;
            let u = [0, 1, 2].map(|axis| if used(axis) { random.pick(&steps) } else { 0 });
            run_all(&mut Query::new(
                shape,
                records,
                Where::Cell([0; 3], u),
                Dose,
            ));
        }
    }
}

#[test]
fn largest_answers() {
    // Each entry at its limit with the sign that its own answer has at the point.
    for (axes, degree) in KINDS {
        let shape = cube(axes, degree, 2);
        for want in wants(shape) {
            for step in [0, 64, 128, 200] {
                let u = [0, 1, 2].map(|axis| if axis < axes { step } else { 0 });
                let records = aligned_records(shape, u, want);
                let at = Where::Cell([0; 3], u);
                let answer = run(&Query::new(shape, records, at, want));
                assert!(answer.expect("accepted query") >= 32767);
            }
        }
    }
}

#[test]
fn largest_curvatures() {
    // Steps at which the bases of a dose and of a curvature are largest; negated, the same below 0.
    for (axes, largest) in [(1, 619_396), (2, 890_382), (3, 1_279_924)] {
        let shape = cube(axes, 5, 2);
        for axis in 0..axes {
            for step in [57, 199] {
                let mut u = [0, 1, 2].map(|axis| if axis < axes { 128 } else { 0 });
                u[axis as usize] = step;
                let mut records = aligned_records(shape, u, Curvature(axis));
                for sign in [1, -1] {
                    let at = Where::Cell([0; 3], u);
                    let query = Query::new(shape, records.clone(), at, Curvature(axis));
                    assert_eq!(run(&query), Ok(sign * largest));
                    records.iter_mut().for_each(|entry| *entry = -*entry);
                }
            }
        }
    }
}

// Corner records at their limits that all pull one answer up.
fn aligned_records(shape: Shape, u: [u32; 3], want: Want) -> Vec<i32> {
    let mut records = vec![0; shape.entries()];
    let point = model::stages::Point {
        cell: [0; 3],
        u,
        want,
    };
    for (index, limit) in corner_entries(shape, [0; 3]) {
        let mut alone = vec![0; shape.entries()];
        alone[index] = 1;
        let value = model::stages::exact(&plain_shape(shape), &alone, &point);
        let down = value < model::Rational::ZERO;
        records[index] = if down { -limit } else { limit };
    }
    records
}

#[test]
fn random_records() {
    let mut random = Random::new(9);
    for _ in 0..60 {
        for (axes, degree) in KINDS {
            let shape = random.shape(axes, degree, 5);
            let records = random.records(shape);
            let shape_here = plain_shape(shape);
            let step = |axis| random.range(0, last_step(&shape_here, axis)) as i32;
            let at = Where::Position([0, 1, 2].map(step));
            run_all(&mut Query::new(shape, records, at, Dose));
        }
    }
}

#[test]
fn only_the_corner_records_count() {
    let mut random = Random::new(10);
    for (axes, degree) in KINDS {
        let shape = cube(axes, degree, 4);
        let records = random.records(shape);
        for cell in cells(shape) {
            let u = [0, 1, 2].map(|axis| {
                if axis < axes {
                    random.below(257) as u32
                } else {
                    0
                }
            });
            let mut others = vec![i32::MIN; shape.entries()];
            for (index, _) in corner_entries(shape, cell) {
                others[index] = records[index];
            }
            for want in wants(shape) {
                let ask = |records: &[i32]| {
                    run(&Query::new(
                        shape,
                        records.to_vec(),
                        Where::Cell(cell, u),
                        want,
                    ))
                };
                assert_eq!(ask(&others), ask(&records));
            }
        }
    }
}

#[test]
fn largest_table() {
    let mut random = Random::new(11);
    let shape = cube(3, 5, 64);
    let records = random.records(shape);
    for p in [[0; 3], [16128; 3], [16127, 8000, 255], [256, 16128, 1]] {
        let mut query = Query::new(shape, records.clone(), Where::Position(p), Dose);
        run_all(&mut query);
        query.at = Where::Position([p[0], p[1], 16129]);
        assert_eq!(run(&query), refused(11, 2));
    }
}
