//! The third demand, about estimation and then a query: agreement, locality and no gap; and where
//! both editions agree. (Distances: see `random.rs` and `adversarial.rs`.)

mod common;
mod estimated;
mod model;
mod queries;

use common::*;
use estimated::*;
use lukhtari::*;
use model::query::Where;
use model::stages::{meets_half, Point};
use model::Want::{Curvature, Dose};

#[test]
fn all_cells_that_contain_a_point_agree() {
    let mut random = Random::new(1);
    for (axes, degree) in KINDS {
        for _ in 0..40 {
            let shape = random.stepped(axes, degree, 4);
            let samples = random.estimable(shape);
            let table = Estimated::new(shape, &samples);
            for _ in 0..20 {
                let point = shared_point(&mut random, shape);
                let steps = Where::Position(point.map(|step| step as i32));
                let cells = |axis: usize| point[axis] as f32 / shape.steps[axis] as f32;
                let floats = Where::Float([0, 1, 2].map(cells));
                for want in wants(shape) {
                    let answer = table.ask(steps, want).expect("accepted query");
                    if want.order() < 2 {
                        assert_eq!(table.ask(floats, want), Ok(answer));
                    }
                    for (cell, u) in cells_at(shape, point) {
                        let here = table.ask(Where::Cell(cell, u), want);
                        assert_eq!(here, Ok(answer), "{shape:?} {point:?} {cell:?}");
                    }
                }
            }
        }
    }
}

// The node is within the block of the cell: one below it to two above it on every used axis.
fn in_block(shape: Shape, cell: [u32; 3], node: usize) -> bool {
    let [cx, cy, _] = shape.counts.map(|count| count as usize);
    let at = [node % cx, node / cx % cy, node / cx / cy];
    (0..shape.axes as usize).all(|axis| {
        let low = cell[axis] as usize;
        at[axis] + 1 >= low && at[axis] <= low + 2
    })
}

// Both tables answer, and alike, at some random steps of a cell.
fn assert_alike(random: &mut Random, tables: &[Estimated; 2], cell: [u32; 3], times: usize) {
    let shape = tables[0].shape;
    for _ in 0..times {
        let mut u = [0; 3];
        for axis in 0..shape.axes as usize {
            u[axis] = random.below(shape.steps[axis] as u64 + 1) as u32;
        }
        for want in wants(shape) {
            let [one, two] = tables
                .each_ref()
                .map(|table| table.ask(Where::Cell(cell, u), want));
            assert!(one.is_ok());
            assert_eq!(one, two, "{shape:?} {cell:?} {u:?} {want:?}");
        }
    }
}

#[test]
fn samples_outside_the_block_do_not_count() {
    let mut random = Random::new(2);
    for (axes, degree) in KINDS {
        for _ in 0..40 {
            let shape = random.stepped(axes, degree, 7);
            let samples = random.estimable(shape);
            let cell = random.pick(&cells(shape));
            let mut other = random.estimable(shape);
            for node in 0..other.len() {
                if in_block(shape, cell, node) {
                    other[node] = samples[node];
                }
            }
            let tables = [samples, other].map(|samples| Estimated::new(shape, &samples));
            assert_alike(&mut random, &tables, cell, 20);
        }
    }
}

// The samples of a table that holds a smaller one at its low corner.
fn grown(random: &mut Random, small: Shape, samples: &[i32], large: Shape) -> Vec<i32> {
    let [cx, cy, _] = small.counts.map(|count| count as usize);
    let [wide, high, _] = large.counts.map(|count| count as usize);
    let mut out = random.estimable(large);
    for (node, &sample) in samples.iter().enumerate() {
        let [x, y, z] = [node % cx, node / cx % cy, node / cx / cy];
        out[x + wide * (y + high * z)] = sample;
    }
    out
}

#[test]
fn a_table_that_grows_keeps_its_answers() {
    let mut random = Random::new(5);
    for (axes, degree) in KINDS {
        for _ in 0..40 {
            let small = random.stepped(axes, degree, 6);
            let mut large = small;
            for count in &mut large.counts[..axes as usize] {
                *count += random.below(3) as u32;
            }
            let samples = random.estimable(small);
            let wider = grown(&mut random, small, &samples, large);
            let tables = [
                Estimated::new(small, &samples),
                Estimated::new(large, &wider),
            ];
            // Both tables have the same nodes of the block of such a cell.
            let same_block = |cell: &[u32; 3]| {
                (0..axes as usize).all(|axis| {
                    small.counts[axis] == large.counts[axis] || cell[axis] + 2 < small.counts[axis]
                })
            };
            for cell in cells(small).into_iter().filter(same_block) {
                assert_alike(&mut random, &tables, cell, 1);
            }
        }
    }
}

#[test]
fn a_node_after_the_last_cell_counts() {
    let small = Estimated::new(shape(1, 3, [2, 1, 1]), &[0, 100]);
    let large = Estimated::new(shape(1, 3, [3, 1, 1]), &[0, 100, 0]);
    let doses = [small, large].map(|t| t.ask(Where::Cell([0; 3], [192, 0, 0]), Dose));
    assert_eq!(doses, [Ok(75), Ok(89)]);
}

#[test]
fn every_sample_of_the_block_counts() {
    // A change anywhere in the block shows in some dose and some curvature of a quintic cell.
    let shape = cube(2, 5, 6);
    let samples = vec![0; shape.nodes()];
    let cell = [2, 2, 0];
    for node in (0..shape.nodes()).filter(|&node| in_block(shape, cell, node)) {
        let mut other = samples.clone();
        other[node] = 8192;
        let table = Estimated::new(shape, &other);
        for want in [Dose, Curvature(0), Curvature(1)] {
            let shows = (0..=256).step_by(16).any(|x| {
                let ask = |y| table.ask(Where::Cell(cell, [x, y, 0]), want);
                (0..=256).step_by(16).any(|y| ask(y) != Ok(0))
            });
            assert!(shows, "node {node}, {want:?}");
        }
    }
}

#[test]
fn editions_agree_where_no_stage_meets_a_half() {
    // Small samples at multiples of 16 steps meet many halves, and any samples at any step few.
    let mut random = Random::new(6);
    for (axes, degree) in KINDS {
        let mut counts = [0; 3];
        for trial in 0..400 {
            let shape = in_edition(random.shape(axes, degree, 3), false);
            let (size, grain) = [(20, 16), (4000, 1)][trial % 2];
            let samples = (0..shape.nodes()).map(|_| random.range(-size, size) as i32);
            let table = Estimated::new(shape, &samples.collect::<Vec<_>>());
            let cell = random.pick(&cells(shape));
            let mut u = [0; 3];
            u[..axes as usize].fill_with(|| (grain * random.range(0, 256 / grain)) as u32);
            let want = random.pick(&wants(shape));
            let answers = editions(shape).map(|shape| {
                let records = table.records.clone();
                Estimated { shape, records }.ask(Where::Cell(cell, u), want)
            });
            let point = Point { cell, u, want };
            let met = meets_half(&plain_shape(shape), &table.records, &point);
            let differ = answers[0] != answers[1];
            assert!(met || !differ, "{shape:?} {cell:?} {u:?} {want:?}");
            counts[usize::from(met) + usize::from(differ)] += 1;
        }
        // No half, halves that change nothing, and halves that change the answer.
        assert!(counts.iter().all(|&count| count > 0), "{counts:?}");
    }
}

#[test]
fn every_step_has_an_answer() {
    let mut random = Random::new(3);
    for degree in [3, 5] {
        let shape = shape(1, degree, [64, 1, 1]);
        let table = Estimated::new(shape, &random.estimable(shape));
        for p in 0..=16128 {
            for want in wants(shape) {
                assert!(table.ask(Where::Position([p, 0, 0]), want).is_ok());
            }
            for want in dose_and_slopes(1) {
                let float = [p as f32 / 256.0, 0.0, 0.0];
                assert!(table.ask(Where::Float(float), want).is_ok());
            }
        }
        let shape = cube(2, degree, 2);
        let table = Estimated::new(shape, &random.estimable(shape));
        for x in 0..=256 {
            for y in 0..=256 {
                for want in wants(shape) {
                    let at = Where::Cell([0; 3], [x, y, 0]);
                    assert!(table.ask(at, want).is_ok());
                }
            }
        }
    }
}

#[test]
fn every_coarse_step_of_a_cube_has_an_answer() {
    let mut random = Random::new(4);
    for degree in [3, 5] {
        let shape = cube(3, degree, 3);
        let samples = (0..27)
            .map(|_| random.pick(&[4096, -4096]))
            .collect::<Vec<i32>>();
        let table = Estimated::new(shape, &samples);
        let steps: Vec<i32> = (0..=512).filter(|p| p % 32 < 2 || p % 32 == 31).collect();
        for &x in &steps {
            for &y in &steps {
                for z in [0, 1, 100, 255, 256, 257, 511, 512] {
                    for want in wants(shape) {
                        assert!(table.ask(Where::Position([x, y, z]), want).is_ok());
                    }
                }
            }
        }
    }
}
