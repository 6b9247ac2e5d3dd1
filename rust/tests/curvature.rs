//! Curvatures of quintic tables: worked examples, nodes, shared points, and the derivative itself.
//! (Every answer against the model and all refusals: see `whole.rs` and `whole_refusals.rs`.)

mod common;
mod estimated;
mod model;
mod queries;

use common::*;
use estimated::*;
use lukhtari::*;
use model::query::Where;
use model::shape::indices;
use model::stages::{exact, Point};
use model::Rational;
use model::Want::{self, Curvature, Dose, Slope};
use queries::run;

// Records of a quintic shape, estimated or any that are permitted.
fn records(random: &mut Random, shape: Shape) -> Vec<i32> {
    match random.chance(2) {
        true => random.records(shape),
        false => Estimated::new(shape, &random.estimable(shape)).records,
    }
}

#[test]
fn worked_examples() {
    let line = |samples: &[i32], p, axis| {
        let shape = shape(1, 5, [samples.len() as u32, 1, 1]);
        let records = Estimated::new(shape, samples).records;
        let at = Where::Position([p, 0, 0]);
        run(&Query::new(shape, records, at, Curvature(axis)))
    };
    // A straight line has none.
    for p in 0..=256 {
        assert_eq!(line(&[0, 100], p, 0), Ok(0));
    }
    // 0, 100, 400 have the records (0, 200, 0), (100, 400, 200), (400, 600, 0). The exact curvature
    // at 64 is -137.5, at 192 it is 337.5.
    for (p, curvature, negated) in [
        (0, 0, 0),
        (64, -137, 138),
        (128, 100, -100),
        (192, 338, -337),
        (256, 200, -200),
    ] {
        assert_eq!(line(&[0, 100, 400], p, 0), Ok(curvature));
        assert_eq!(line(&[400, 100, 0], 512 - p, 0), Ok(curvature));
        assert_eq!(line(&[0, -100, -400], p, 0), Ok(negated));
    }
    assert_eq!(line(&[0, 100, 400], 513, 0), refused(11, 0));
    assert_eq!(line(&[0, 100, 400], -1, 0), refused(22, 0));
    assert_eq!(line(&[0, 100, 400], 0, 1), refused(12, 0));
}

#[test]
fn halves_go_up() {
    // Half way, the curvature of the one entry S is a quarter of -S.
    for (s, curvature) in [(1, 0), (2, 0), (3, -1), (6, -1), (-1, 0), (-2, 1), (-6, 2)] {
        let (line, at) = (cube(1, 5, 2), Where::Position([128, 0, 0]));
        let query = Query::new(line, vec![0, 0, s, 0, 0, 0], at, Curvature(0));
        assert_eq!(run(&query), Ok(curvature), "{s}");
    }
}

#[test]
fn a_node_gives_its_own_second_derivative() {
    let mut random = Random::new(1);
    for axes in 1..=3 {
        for _ in 0..8 {
            let shape = random.shape(axes, 5, 4);
            let records = records(&mut random, shape);
            let plain = plain_shape(shape);
            for node in indices(plain.sides()) {
                let at = Where::Position(node.map(|index| 256 * index as i32));
                for axis in 0..axes {
                    let mut orders = [0; 3];
                    orders[axis as usize] = 2;
                    let own = records[plain.entry_index(node, orders)];
                    let query = Query::new(shape, records.clone(), at, Curvature(axis));
                    assert_eq!(run(&query), Ok(own), "{shape:?} {node:?}");
                }
            }
        }
    }
}

#[test]
fn cells_agree_on_all_corners_edges_and_faces() {
    // In a table of three nodes an axis every cell has each kind of them in common with others.
    let mut random = Random::new(2);
    let steps = [0, 1, 100, 255, 256, 257, 400, 511, 512];
    for axes in 1..=3 {
        let shape = cube(axes, 5, 3);
        let records = records(&mut random, shape);
        let sides = shape
            .counts
            .map(|count| if count == 1 { 1 } else { steps.len() });
        for at in indices(sides)
            .into_iter()
            .map(|at| at.map(|index| steps[index]))
        {
            for axis in 0..axes {
                let ask = |at| queries::answer(shape, &records, at, Curvature(axis));
                let here = ask(Where::Position(at.map(|step| step as i32)));
                assert!(here.is_ok());
                for (cell, u) in cells_at(shape, at) {
                    assert_eq!(ask(Where::Cell(cell, u)), here, "{at:?} {cell:?} {axis}");
                }
            }
        }
    }
}

// The exact value at a step of a line through the first cell.
fn on_line(
    shape: Shape,
    records: &[i32],
    u: [u32; 3],
    axis: usize,
    by: i64,
    want: Want,
) -> Rational {
    let mut u = u;
    u[axis] = (u[axis] as i64 + by) as u32;
    let cell = [0; 3];
    exact(&plain_shape(shape), records, &Point { cell, u, want })
}

#[test]
fn the_exact_curvature_is_the_second_derivative() {
    // Of a polynomial of degree 5 the differences of five values are exact: -1, 16, -30, 16, -1
    // over 12 of the dose, and 1, -8, 0, 8, -1 over 12 of the slope.
    let mut random = Random::new(3);
    for axes in 1..=3 {
        for _ in 0..60 {
            let shape = cube(axes, 5, 2);
            let records = records(&mut random, shape);
            let h = random.range(1, 64);
            let u = [0, 1, 2].map(|axis| match axis < axes {
                true => random.range(2 * h, 256 - 2 * h) as u32,
                false => 0,
            });
            for axis in 0..axes {
                let sum = |want, factors: [i64; 5]| {
                    let term = |(place, factor): (i64, i64)| {
                        let by = h * (place - 2);
                        let value = on_line(shape, &records, u, axis as usize, by, want);
                        Rational::whole(factor) * value
                    };
                    let terms = (0..).zip(factors).map(term);
                    terms.fold(Rational::ZERO, |sum, term| sum + term)
                };
                let curvature = on_line(shape, &records, u, axis as usize, 0, Curvature(axis));
                let step = Rational::ratio(h, 256);
                let twelve = Rational::whole(12);
                let doses = sum(Dose, [-1, 16, -30, 16, -1]) / (twelve * step * step);
                assert_eq!(doses, curvature, "{shape:?} {u:?} {h}");
                let slopes = sum(Slope(axis), [1, -8, 0, 8, -1]) / (twelve * step);
                assert_eq!(slopes, curvature, "{shape:?} {u:?} {h}");
            }
        }
    }
}

#[test]
fn any_permitted_records_are_within_the_distances() {
    // Not only estimated ones: the eighths of the stages before do not depend on the records.
    let mut random = Random::new(4);
    for axes in 1..=3 {
        let bound = distance_bound(axes, 2);
        let mut largest = Rational::ZERO;
        for _ in 0..2000 {
            let shape = cube(axes, 5, 2);
            let records = records(&mut random, shape);
            let mut u = [0; 3];
            u[..axes as usize].fill_with(|| random.below(257) as u32);
            let want = Curvature(random.below(axes as u64) as u32);
            let query = Query::new(shape, records, Where::Cell([0; 3], u), want);
            let answer = run(&query).expect("accepted query");
            let cell = [0; 3];
            let value = exact(
                &plain_shape(shape),
                &query.records,
                &Point { cell, u, want },
            );
            let distance = (Rational::whole(answer as i64) - value).abs();
            assert!(distance <= bound, "{u:?} {want:?}: {distance:?}");
            if distance > largest {
                largest = distance;
            }
        }
        println!("axes {axes}: {:.4}, bound {bound:?}", largest.to_f64());
    }
}
