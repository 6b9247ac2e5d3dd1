//! The mark of doses by position and by cell.

mod c;
mod common;
mod estimated;
mod model;
mod queries;

use common::*;
use estimated::{cells_at, Estimated};
use lukhtari::{ffi, Shape};
use model::coefficients::axis_coefficients;
use model::query::{checked_point, Where};
use model::stages::{axis_weights, exact, stage_order, worked_off, Point, Stage};
use model::Want::Dose;
use model::{Answer, Rational};
use queries::*;
use std::io::{stdout, Write};

// The table of the shape of 2 by 4 nodes whose samples are 0 but for the last, which is 1.
fn last_is_1(degree: u32) -> Estimated {
    let shape = shape(2, degree, [2, 4, 1]);
    Estimated::new(shape, &[0, 0, 0, 0, 0, 0, 0, 1])
}

// Value and mark, which are the model's, in both editions.
#[track_caller]
fn ask(table: &Estimated, at: Where) -> [Answer<(i32, bool)>; 2] {
    editions(table.shape).map(|shape| run_dose(shape, &table.records, at))
}

#[test]
fn cells_that_share_a_point_may_differ() {
    let table = last_is_1(3);
    let lower = Where::Cell([0, 0, 0], [16, 256, 0]);
    let upper = Where::Cell([0, 1, 0], [16, 0, 0]);
    assert_eq!(ask(&table, lower), [Ok((0, true)); 2]);
    assert_eq!(ask(&table, upper), [Ok((0, false)); 2]);
    // A position is read in the upper cell.
    let position = Where::Position([16, 256, 0]);
    assert_eq!(ask(&table, position), [Ok((0, false)); 2]);
}

#[test]
fn c_reads_the_mark() {
    let source = "#include \"lukhtari.h\"
#include <stdio.h>
static void print(lukhtari_marked dose) {
    printf(\"%u %llu %d %d\\n\", (unsigned)dose.number, (unsigned long long)dose.place,
           (int)dose.value, dose.exact);
}
int main(void) {
    lukhtari_shape shape = {2, 3, {2, 4, 1}, {256, 256, 1}, false};
    int32_t samples[8] = {0, 0, 0, 0, 0, 0, 0, 1};
    int32_t records[LUKHTARI_ENTRIES(2, 3, 8)];
    lukhtari_index lower = {{0, 0, 0}}, top = {{16, 256, 0}};
    lukhtari_index upper = {{0, 1, 0}}, bottom = {{16, 0, 0}};
    lukhtari_position last = {{256, 768, 0}}, unused = {{0, 0, 1}};
    lukhtari_estimate(LUKHTARI_SERVICE, shape, samples, 8, records, 32);
    print(lukhtari_dose_in_cell(LUKHTARI_SERVICE, shape, records, 32, lower, top));
    print(lukhtari_dose_in_cell(LUKHTARI_SERVICE, shape, records, 32, upper, bottom));
    print(lukhtari_dose(LUKHTARI_SERVICE, shape, records, 32, last));
    print(lukhtari_dose(LUKHTARI_SERVICE, shape, records, 32, unused));
    return 0;
}
";
    let printed = c::run("c99", &c::source("marks.c", source));
    assert_eq!(printed, "0 0 0 1\n0 0 0 0\n0 0 1 1\n23 2 0 0\n");
}

#[test]
fn a_refused_dose_has_value_0_and_no_mark() {
    // All doses of the table are 7 and marked.
    let seven = |degree| Estimated::new(cube(2, degree, 3), &[7; 9]);
    for table in [seven(3), seven(5)] {
        let query = |at| Query::new(table.shape, table.records.clone(), at, Dose);
        let mut beyond = query(Where::Position([300, 300, 0]));
        assert_eq!(ask(&table, beyond.at), [Ok((7, true)); 2]);
        let node = beyond.records.len() / 9;
        beyond.records[4 * node] = 32769;
        let mut length = query(Where::Cell([0; 3], [16; 3]));
        length.records.pop();
        let mut degree = query(Where::Position([0; 3]));
        degree.shape.degree = 4;
        for (query, number, place) in [
            (beyond, 5, 4 * node),
            (length, 4, 0),
            (degree, 2, 0),
            (query(Where::Position([513, 0, 0])), 11, 0),
            (query(Where::Position([0, -1, 0])), 22, 1),
            (query(Where::Position([0, 0, 1])), 23, 2),
            (query(Where::Cell([0, 2, 0], [0; 3])), 14, 1),
            (query(Where::Cell([0; 3], [0, 257, 0])), 11, 1),
            (query(Where::Cell([0; 3], [0, 0, 1])), 23, 2),
        ] {
            let refused = ffi::Marked {
                number,
                place: place as u64,
                value: 0,
                exact: false,
            };
            assert_eq!(raw(&query), refused);
        }
    }
}

#[test]
fn nodes_are_marked_in_every_cell() {
    let mut random = Random::new(1);
    for (axes, degree) in KINDS {
        let shape = random.shape(axes, degree, 4);
        let samples = random.estimable(shape);
        let table = Estimated::new(shape, &samples);
        let nodes = model::shape::indices(shape.counts.map(|count| count as usize));
        for (node, &sample) in nodes.into_iter().zip(&samples) {
            let point = node.map(|index| 256 * index as u32);
            for (cell, u) in cells_at(shape, point) {
                let answers = ask(&table, Where::Cell(cell, u));
                assert_eq!(answers, [Ok((sample, true)); 2]);
            }
        }
    }
}

#[test]
fn every_step_of_lines() {
    // On one axis a dose is marked if and only if it is exact.
    let mut random = Random::new(2);
    for degree in [3, 5] {
        for unit in [1, 16, 128, 1024] {
            let shape = cube(1, degree, 3);
            let samples = [0; 3].map(|_| unit * random.range(-8, 8) as i32);
            let table = Estimated::new(shape, &samples);
            for p in 0..=512 {
                let at = Where::Position([p, 0, 0]);
                let value = exact_value(&table, at);
                for answer in ask(&table, at) {
                    let (dose, mark) = answer.expect("accepted query");
                    let is_exact = value == Rational::whole(dose as i64);
                    assert_eq!(mark, is_exact, "{samples:?} at {p}");
                }
            }
        }
    }
}

#[test]
fn sums_along_the_axes_are_marked_by_their_steps() {
    // Of a + b x + c y + d z each stage adds one product of b, c, d and a step, over 256: all but the
    // last give eighths.
    let mut random = Random::new(3);
    for (axes, degree) in KINDS {
        let (mut marked, mut asked) = (0, 0);
        for _ in 0..40 {
            let shape = random.shape(axes, degree, 3);
            let slopes = [0; 3].map(|_| random.range(-8, 8) << random.below(7));
            let sample = |node: [usize; 3]| {
                let term = |axis: usize| slopes[axis] * node[axis] as i64;
                (3 + term(0) + term(1) + term(2)) as i32
            };
            let nodes = model::shape::indices(shape.counts.map(|count| count as usize));
            let samples: Vec<i32> = nodes.into_iter().map(sample).collect();
            let table = Estimated::new(shape, &samples);
            for _ in 0..20 {
                let (cell, u) = coarse_point(&mut random, shape);
                let terms = [0, 1, 2].map(|axis| slopes[axis] * u[axis] as i64);
                let last = axes as usize - 1;
                let eighths = terms[..last].iter().all(|term| term % 32 == 0);
                let mark = eighths && terms.iter().sum::<i64>() % 256 == 0;
                for answer in ask(&table, Where::Cell(cell, u)) {
                    assert_eq!(answer.map(|(_, mark)| mark), Ok(mark), "{slopes:?} {u:?}");
                }
                marked += u32::from(mark);
                asked += 1;
            }
        }
        assert!(0 < marked && marked < asked, "{marked} of {asked}");
    }
}

// A cell and steps in it that are multiples of a power of two.
fn coarse_point(random: &mut Random, shape: Shape) -> ([u32; 3], [u32; 3]) {
    let cell = random.pick(&cells(shape));
    let mut u = [0; 3];
    for step in u.iter_mut().take(shape.axes as usize) {
        let coarse = 1 << random.range(3, 8);
        *step = coarse * random.below(256 / coarse as u64 + 1) as u32;
    }
    (cell, u)
}

// A table whose samples are small multiples of a power of two.
fn small_multiples(random: &mut Random, axes: u32, degree: u32) -> Estimated {
    let shape = random.shape(axes, degree, 4);
    let unit = 1 << random.below(10);
    let samples: Vec<i32> = (0..shape.nodes())
        .map(|_| unit * random.range(-4, 4) as i32)
        .collect();
    Estimated::new(shape, &samples)
}

fn exact_value(table: &Estimated, at: Where) -> Rational {
    let shape = plain_shape(table.shape);
    let point = checked_point(&shape, &table.records, at, Dose).expect("accepted query");
    exact(&shape, &table.records, &point)
}

// How many doses were asked for, are marked, and are exact without a mark.
#[derive(Default)]
struct Count {
    asked: u32,
    marked: u32,
    lucky: u32,
}

// Asks by cell and by position in both editions; a marked dose is the exact interpolant.
fn check_point(table: &Estimated, (cell, u): ([u32; 3], [u32; 3]), count: &mut Count) {
    let value = exact_value(table, Where::Cell(cell, u));
    let [first, second] =
        ask(table, Where::Cell(cell, u)).map(|answer| answer.expect("accepted query"));
    assert_eq!(first.1, second.1, "the mark depends on the edition");
    let used = 0..table.shape.axes as usize;
    // The upper cell holds the position, and the last cell the last node.
    let own = |axis: usize| u[axis] < 256 || cell[axis] + 2 == table.shape.counts[axis];
    let p = [0, 1, 2].map(|axis| (256 * cell[axis] + u[axis]) as i32);
    let by_position = ask(table, Where::Position(p));
    if used.into_iter().all(own) {
        assert_eq!(by_position, [Ok(first), Ok(second)]);
    }
    for (dose, mark) in [first, second] {
        let is_exact = value == Rational::whole(dose as i64);
        assert!(is_exact || !mark, "a marked dose is not exact");
        count.asked += 1;
        count.marked += u32::from(mark);
        count.lucky += u32::from(is_exact && !mark);
    }
}

#[test]
fn marked_doses_are_exact() {
    let mut random = Random::new(4);
    for (axes, degree) in KINDS {
        let mut count = Count::default();
        for _ in 0..300 {
            let table = small_multiples(&mut random, axes, degree);
            for _ in 0..12 {
                let point = coarse_point(&mut random, table.shape);
                check_point(&table, point, &mut count);
            }
        }
        let Count {
            asked,
            marked,
            lucky,
        } = count;
        // Written past the test harness, so that the figures always show.
        let share = 100.0 * lucky as f64 / (asked - marked) as f64;
        let line = format!(
            "marks, degree {degree}, axes {axes}: {marked} of {asked} doses are marked; \
             {lucky} others are exact by luck, {share:.1} per cent\n"
        );
        stdout().write_all(line.as_bytes()).expect("output");
        assert!(asked < 5 * marked && 10 * marked < 9 * asked, "{line}");
        // With one stage there is no luck.
        assert_eq!(lucky > 0, axes > 1, "{line}");
    }
}

// The basis of a stage: what it makes of each of its ends' numbers alone.
fn basis(shape: &model::Shape, point: &Point, axis: usize) -> Vec<Rational> {
    let (weights, _) = axis_weights(shape, point, axis);
    let count = weights.len();
    let of = |number: usize| {
        let mut ends = vec![Rational::ZERO; count];
        ends[number] = Rational::whole(1);
        let coefficients = axis_coefficients(shape.degree, &ends);
        let products = coefficients
            .into_iter()
            .zip(&weights)
            .map(|(coefficient, &weight)| coefficient * Rational::from(weight));
        products.fold(Rational::ZERO, |sum, product| sum + product)
    };
    (0..count).map(of).collect()
}

// A wrong mark: numbers of weight 0 are not asked.
fn clean_by_weight(stages: &[Stage], bases: &[Vec<Rational>], at: [usize; 3]) -> bool {
    let Some((stage, before)) = stages.split_last() else {
        return true;
    };
    let (basis, bases) = bases.split_last().expect("a basis");
    let asked = stage.made_of(at).zip(basis);
    let mut asked = asked.filter(|(_, &weight)| weight != Rational::ZERO);
    stage.in_parts(at).is_whole() && asked.all(|(place, _)| clean_by_weight(before, bases, place))
}

// Wrong marks: of the last stage alone, without numbers of weight 0, by the exact value.
fn wrong_marks(table: &Estimated, at: Where, dose: i32) -> [bool; 3] {
    let shape = plain_shape(table.shape);
    let point = checked_point(&shape, &table.records, at, Dose).expect("accepted query");
    let order = stage_order(shape.used(), Dose);
    let stages = worked_off(&shape, &table.records, &point, &order);
    let bases: Vec<Vec<Rational>> = order
        .iter()
        .map(|&axis| basis(&shape, &point, axis))
        .collect();
    let last = stages.last().expect("a stage").in_parts([0; 3]);
    [
        last.is_whole(),
        clean_by_weight(&stages, &bases, [0; 3]),
        exact(&shape, &table.records, &point) == Rational::whole(dose as i64),
    ]
}

#[test]
fn wrong_marks_are_told_apart() {
    // Each says yes wherever the mark does, and elsewhere on two and three axes.
    let mut random = Random::new(5);
    for (axes, degree) in KINDS {
        let mut differ = [0; 3];
        for _ in 0..300 {
            let table = small_multiples(&mut random, axes, degree);
            for _ in 0..12 {
                let (cell, u) = coarse_point(&mut random, table.shape);
                let at = Where::Cell(cell, u);
                let (dose, mark) = run_dose(table.shape, &table.records, at).expect("a dose");
                for (differ, wrong) in differ.iter_mut().zip(wrong_marks(&table, at, dose)) {
                    assert!(wrong || !mark);
                    *differ += u32::from(wrong && !mark);
                }
            }
        }
        let expected = [axes > 1; 3];
        assert_eq!(differ.map(|count| count > 0), expected, "{differ:?}");
    }
}

// A table of four nodes an axis with few samples other than 0, and a point between two of its cells.
fn sparse(random: &mut Random, axes: u32, degree: u32) -> (Estimated, [u32; 3]) {
    let shape = cube(axes, degree, 4);
    let sample = |random: &mut Random| match random.chance(6) {
        true => random.range(-8, 8) as i32,
        false => 0,
    };
    let samples: Vec<i32> = (0..shape.nodes()).map(|_| sample(random)).collect();
    let (cell, u) = coarse_point(random, shape);
    let mut point = [0, 1, 2].map(|axis| 256 * cell[axis] + u[axis]);
    point[random.below(axes as u64) as usize] = random.pick(&[256, 512]);
    (Estimated::new(shape, &samples), point)
}

#[test]
fn cells_agree_on_the_dose_and_not_always_on_the_mark() {
    let mut random = Random::new(6);
    for (axes, degree) in KINDS {
        let mut differ = 0;
        for _ in 0..300 {
            let (table, point) = sparse(&mut random, axes, degree);
            let answer = |(cell, u)| {
                let dose = run_dose(table.shape, &table.records, Where::Cell(cell, u));
                dose.expect("accepted query")
            };
            let answers = cells_at(table.shape, point).into_iter().map(answer);
            let answers: Vec<(i32, bool)> = answers.collect();
            assert!(answers.len() > 1);
            let same = |&(dose, _): &(i32, bool)| dose == answers[0].0;
            assert!(answers.iter().all(same));
            differ += u32::from(answers.iter().any(|answer| answer.1 != answers[0].1));
        }
        // On one axis the mark is that the dose is exact, on which cells agree.
        assert_eq!(differ > 0, axes > 1, "{differ}");
    }
}

#[test]
fn random_records_are_marked_as_the_model_says() {
    // Records that no samples have, near 0, at their limits and multiples of a power of two.
    let mut random = Random::new(7);
    for (axes, degree) in KINDS {
        let mut marked = 0;
        for _ in 0..60 {
            let shape = random.shape(axes, degree, 3);
            let mut records = random.records(shape);
            let unit = 1 << random.below(12);
            records
                .iter_mut()
                .for_each(|entry| *entry = *entry / unit * unit);
            let table = Estimated { shape, records };
            for _ in 0..8 {
                let (cell, u) = coarse_point(&mut random, shape);
                let [first, second] = ask(&table, Where::Cell(cell, u));
                let mark = first.expect("accepted query").1;
                assert_eq!(second.expect("accepted query").1, mark);
                marked += u32::from(mark);
            }
        }
        assert!(marked > 20, "{marked}");
    }
}
