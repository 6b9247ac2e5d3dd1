//! Straight data: sums of a constant and multiples of x, y, z, xy, xz, yz and xyz.

mod common;
mod estimated;
mod model;
mod queries;

use common::*;
use estimated::*;
use lukhtari::*;
use model::query::Where;
use model::shape::indices;
use model::stages::{exact, Point};
use model::Rational;
use model::Want::{self, Curvature, Dose, Slope};

// The numbers k0 to k7 of k0 + k1 x + k2 y + k3 xy + k4 z + k5 xz + k6 yz + k7 xyz.
type Numbers = [i64; 8];

// A straight table, its samples within what estimation takes.
struct Straight {
    numbers: Numbers,
    samples: Vec<i32>,
    table: Estimated,
}

// The sum at a point given in parts of a cell, times parts^3; or its derivative along an axis.
fn sum(numbers: &Numbers, at: [i64; 3], parts: i64, want: Want) -> i64 {
    let order = |axis: usize| match want.axis() == Some(axis as u32) {
        true => want.order(),
        false => 0,
    };
    let term = |number: usize| {
        let factor = |axis: usize| match (number >> axis & 1, order(axis)) {
            (1, 0) => at[axis],
            (1, 1) | (0, 0) => parts,
            _ => 0,
        };
        numbers[number] * factor(0) * factor(1) * factor(2)
    };
    (0..8).map(term).sum()
}

// The sum at a point given in cells, or its derivative along an axis, written out.
fn expression(numbers: &Numbers, [x, y, z]: [Rational; 3], want: Want) -> Rational {
    let [k0, k1, k2, k3, k4, k5, k6, k7] = numbers.map(Rational::whole);
    match want {
        Dose => {
            let plane = k0 + k1 * x + k2 * y + k3 * x * y;
            plane + k4 * z + k5 * x * z + k6 * y * z + k7 * x * y * z
        }
        Slope(0) => k1 + k3 * y + k5 * z + k7 * y * z,
        Slope(1) => k2 + k3 * x + k6 * z + k7 * x * z,
        Slope(_) => k4 + k5 * x + k6 * y + k7 * x * y,
        Curvature(_) => Rational::ZERO,
    }
}

// A point in cells, of so many steps each.
fn in_cells(steps: [u32; 3], point: [u32; 3]) -> [Rational; 3] {
    [0, 1, 2].map(|axis| Rational::ratio(point[axis] as i64, steps[axis] as i64))
}

// Random numbers, multiples of a step, whose sum estimation takes at every node.
fn random_numbers(random: &mut Random, shape: Shape, step: i64) -> Numbers {
    let limit = limits::estimate_limit(shape.axes) as i64;
    let all = 1 << shape.axes;
    let terms = random.pick(&[1, 2, all, all]);
    let mut numbers = [0; 8];
    for term in 0..terms {
        // All numbers, or any one or two of them.
        let number = match terms == all {
            true => term as usize,
            false => random.below(all as u64) as usize,
        };
        let used = (0..3).filter(|axis| number >> axis & 1 == 1);
        let largest: i64 = used.map(|axis| shape.counts[axis] as i64 - 1).product();
        let most = limit / (terms * largest * step);
        let any = random.range(-most, most);
        numbers[number] = step * random.pick(&[most, -most, any, any, any]);
    }
    numbers
}

impl Straight {
    fn new(shape: Shape, numbers: Numbers) -> Straight {
        let sample = |node: [usize; 3]| sum(&numbers, node.map(|i| i as i64), 1, Dose) as i32;
        let nodes = indices(plain_shape(shape).sides());
        let samples: Vec<i32> = nodes.into_iter().map(sample).collect();
        let table = Estimated::new(shape, &samples);
        Straight {
            numbers,
            samples,
            table,
        }
    }

    // A random small table whose numbers are multiples of a step.
    fn small(random: &mut Random, axes: u32, degree: u32, step: i64) -> Straight {
        let shape = random.shape(axes, degree, if axes == 3 { 3 } else { 4 });
        let numbers = random_numbers(random, shape, step);
        Straight::new(shape, numbers)
    }

    // A random table with node counts of any size, the axes different from each other.
    fn random(random: &mut Random, axes: u32, degree: u32) -> Straight {
        let most = match axes {
            1 => random.pick(&[2, 9, 64]),
            2 => random.pick(&[3, 9, 20]),
            _ => random.pick(&[3, 4, 7]),
        };
        let shape = random.shape(axes, degree, most);
        let numbers = random_numbers(random, shape, 1);
        Straight::new(shape, numbers)
    }

    // The library's answer and the sum times 256^3.
    fn ask(&self, cell: [u32; 3], u: [u32; 3], want: Want) -> (i32, i64) {
        let answer = self.table.ask(Where::Cell(cell, u), want);
        let at = [0, 1, 2].map(|axis| 256 * cell[axis] as i64 + u[axis] as i64);
        let sum = sum(&self.numbers, at, 256, want);
        (answer.expect("accepted query"), sum)
    }

    // A sum times 256^3 as the nearest whole number: halves up, in edition two to the even one.
    fn rounded(&self, sum: i64) -> i64 {
        let up = (2 * sum + CUBE).div_euclid(2 * CUBE);
        let half = (2 * sum + CUBE).rem_euclid(2 * CUBE) == 0;
        let down = self.table.shape.second_edition && half && up % 2 != 0;
        up - i64::from(down)
    }
}

const CUBE: i64 = 256 * 256 * 256;

#[test]
fn records_are_straight() {
    // Each is the value, twice the slope and 0 along every axis, at borders as elsewhere.
    let mut random = Random::new(1);
    for (axes, degree) in KINDS {
        for _ in 0..50 {
            let Straight { numbers, table, .. } = Straight::random(&mut random, axes, degree);
            let plain = plain_shape(table.shape);
            for node in indices(plain.sides()) {
                for orders in plain.record_orders() {
                    let entry = table.records[plain.entry_index(node, orders)] as i64;
                    assert_eq!(entry, straight_entry(&numbers, node, orders));
                }
            }
        }
    }
}

// The entry of these orders at a node.
fn straight_entry(numbers: &Numbers, node: [usize; 3], orders: [usize; 3]) -> i64 {
    let term = |number: usize| {
        let factor = |axis: usize| match (number >> axis & 1, orders[axis]) {
            (1, 0) => node[axis] as i64,
            (1, 1) => 2,
            (0, 0) => 1,
            _ => 0,
        };
        numbers[number] * factor(0) * factor(1) * factor(2)
    };
    (0..8).map(term).sum()
}

#[test]
fn the_exact_interpolant_is_the_expression() {
    // At nodes, on faces, between them, in each cell that contains the point.
    let mut random = Random::new(2);
    for (axes, degree) in KINDS {
        for _ in 0..30 {
            let straight = Straight::random(&mut random, axes, degree);
            let shape = random.any_steps(straight.table.shape);
            let plain = plain_shape(shape);
            let records = model::estimate::estimate(&plain, &straight.samples, plain.entries());
            let records = records.expect("accepted table");
            for _ in 0..6 {
                let at = shared_point(&mut random, shape);
                for want in wants(shape) {
                    let expected = expression(&straight.numbers, in_cells(shape.steps, at), want);
                    for (cell, u) in cells_at(shape, at) {
                        let value = exact(&plain, &records, &Point { cell, u, want });
                        assert_eq!(value, expected, "{shape:?} {at:?} {want:?}");
                    }
                }
            }
        }
    }
}

#[test]
fn a_saddle() {
    // 100 + 40x - 30y + 8xy + 20z - 16xz + 16yz + 32xyz, the example of the proofs.
    for degree in [3, 5] {
        let shape = shape(3, degree, [3, 2, 2]);
        let saddle = Straight::new(shape, [100, 40, -30, 8, 20, -16, 16, 32]);
        let samples = [100, 140, 180, 70, 118, 166, 120, 144, 168, 106, 170, 234];
        assert_eq!(saddle.samples, samples);
        // At x = 5/4, y = 1/2, z = 3/4 it is 161, and its derivative along y is 22.
        let at = Where::Position([320, 128, 192]);
        assert_eq!(saddle.table.ask(at, Dose), Ok(161));
        assert_eq!(saddle.table.ask(at, Slope(1)), Ok(22));
    }
}

#[test]
fn a_slope_is_the_difference_over_a_cell() {
    // Derivative and sum as these tests write them.
    let mut random = Random::new(3);
    for _ in 0..500 {
        let numbers: Numbers = [0; 8].map(|_: i64| random.range(-4096, 4096));
        let at = [0; 3].map(|_: u32| random.below(1024) as u32);
        let steps = [256; 3];
        let here = expression(&numbers, in_cells(steps, at), Dose);
        let parts = at.map(|step| step as i64);
        assert_eq!(here, Rational::ratio(sum(&numbers, parts, 256, Dose), CUBE));
        for axis in 0..3 {
            let mut next = at;
            next[axis] += 256;
            let want = Slope(axis as u32);
            let slope = expression(&numbers, in_cells(steps, next), Dose) - here;
            assert_eq!(expression(&numbers, in_cells(steps, at), want), slope);
            let along = sum(&numbers, parts, 256, want);
            assert_eq!(slope, Rational::ratio(along, CUBE));
            assert_eq!(sum(&numbers, parts, 256, Curvature(axis as u32)), 0);
        }
    }
}

#[test]
fn every_answer_is_near_the_expression() {
    let mut random = Random::new(4);
    for (axes, degree) in KINDS {
        for _ in 0..60 {
            let mut straight = Straight::random(&mut random, axes, degree);
            // Records do not depend on step numbers.
            let shape = random.any_steps(straight.table.shape);
            straight.table.shape = shape;
            for _ in 0..10 {
                let at = shared_point(&mut random, shape);
                for want in wants(shape) {
                    let expected = expression(&straight.numbers, in_cells(shape.steps, at), want);
                    for place in places(shape, at, want) {
                        let answer = straight.table.ask(place, want).expect("accepted query");
                        let distance = (Rational::whole(answer as i64) - expected).abs();
                        let bound = distance_bound(axes, want.order());
                        assert!(
                            distance <= bound,
                            "{shape:?} {place:?} {want:?}: {distance:?}"
                        );
                    }
                }
            }
        }
    }
}

// The ways to name a point: by position, by each cell that contains it, and by float where a call
// takes it.
fn places(shape: Shape, at: [u32; 3], want: Want) -> Vec<Where> {
    let mut all = vec![Where::Position(at.map(|step| step as i32))];
    let cells = cells_at(shape, at);
    all.extend(cells.into_iter().map(|(cell, u)| Where::Cell(cell, u)));
    if want.order() < 2 {
        let cells = |axis: usize| at[axis] as f32 / shape.steps[axis] as f32;
        all.push(Where::Float([0, 1, 2].map(cells)));
    }
    all
}

// The fraction of answers at random steps that are the sum, or its derivative of this order,
// rounded once by the table's edition.
fn nearest(random: &mut Random, axes: u32, degree: u32, order: u32) -> f64 {
    let (mut asked, mut equal) = (0, 0);
    for _ in 0..200 {
        let straight = Straight::random(random, axes, degree);
        for _ in 0..100 {
            let cell = random.pick(&cells(straight.table.shape));
            let mut u = [0; 3];
            u[..axes as usize].fill_with(|| random.below(257) as u32);
            let axis = random.below(axes as u64) as u32;
            let want = [Dose, Slope(axis), Curvature(axis)][order as usize];
            let (answer, sum) = straight.ask(cell, u, want);
            asked += 1;
            equal += u32::from(answer as i64 == straight.rounded(sum));
        }
    }
    f64::from(equal) / f64::from(asked)
}

#[test]
fn most_answers_are_the_nearest_whole_number() {
    // All on one axis. On more axes the eighths of the stages before move a few to the next one.
    let mut random = Random::new(5);
    for (axes, degree) in KINDS {
        let orders = if degree == 3 { 0..2 } else { 0..3 };
        for order in orders {
            let part = nearest(&mut random, axes, degree, order);
            let kind = ["doses", "slopes", "curvatures"][order as usize];
            println!("nearest whole number, {kind}, degree {degree}, axes {axes}: {part:.4}");
            let least = match (axes, order) {
                (1, _) => 1.0,
                (_, 0) => 0.95,
                (_, 1) => 0.92,
                (_, _) => 0.9,
            };
            assert!(
                part >= least,
                "{kind}, degree {degree}, axes {axes}: {part}"
            );
        }
    }
}

// Every answer at these steps of every cell is the sum, rounded once.
fn check_all(straight: &Straight, steps: &[u32]) {
    let shape = straight.table.shape;
    let sides = [0, 1, 2].map(|axis| match axis < shape.axes {
        true => steps.len(),
        false => 1,
    });
    for cell in cells(shape) {
        for at in indices(sides) {
            let u = at.map(|index| steps[index]);
            for want in wants(shape) {
                let (answer, sum) = straight.ask(cell, u, want);
                let numbers = straight.numbers;
                let nearest = straight.rounded(sum);
                assert_eq!(answer as i64, nearest, "{numbers:?} {cell:?} {u:?}");
            }
        }
    }
}

#[test]
fn lines_at_every_step() {
    let mut random = Random::new(6);
    let steps: Vec<u32> = (0..=256).collect();
    for degree in [3, 5] {
        for _ in 0..100 {
            check_all(&Straight::random(&mut random, 1, degree), &steps);
        }
    }
}

#[test]
fn planes_at_every_step() {
    // With multiples of 32 the stage of the first axis rounds nothing off.
    let mut random = Random::new(7);
    let steps: Vec<u32> = (0..=256).collect();
    for degree in [3, 5] {
        for _ in 0..4 {
            check_all(&Straight::small(&mut random, 2, degree, 32), &steps);
        }
    }
}

#[test]
fn blocks_at_every_sixteenth_step() {
    // With multiples of 32 the stages of the first two axes round nothing off.
    let mut random = Random::new(8);
    let steps: Vec<u32> = (0..=256).step_by(16).collect();
    for degree in [3, 5] {
        for _ in 0..8 {
            check_all(&Straight::small(&mut random, 3, degree, 32), &steps);
        }
    }
}

#[test]
fn blocks_at_every_step_of_an_axis() {
    // Sums without products, whose numbers are multiples of 32, are rounded once at every step.
    let mut random = Random::new(9);
    for degree in [3, 5] {
        let shape = in_edition(cube(3, degree, 3), random.chance(2));
        let straight = Straight::new(shape, [-96, 416, -352, 0, 640, 0, 0, 0]);
        for axis in 0..3 {
            for step in 0..=256 {
                let mut u = [0; 3].map(|_: u32| random.below(257) as u32);
                u[axis] = step;
                for cell in cells(shape) {
                    for want in wants(shape) {
                        let (answer, sum) = straight.ask(cell, u, want);
                        let nearest = straight.rounded(sum);
                        assert_eq!(answer as i64, nearest, "{cell:?} {u:?} {want:?}");
                    }
                }
            }
        }
    }
}
