//! Step numbers: every choice of them against the model, which divides by the axis's own number,
//! and against the table of 256 steps on each axis.

mod c;
mod common;
mod estimated;
mod files;
mod model;
mod positions;
mod queries;
mod ramps;

use common::*;
use estimated::{cells_at, Estimated};
use files::{run_write_bytes, table, words, EXAMPLE};
use lukhtari::*;
use model::query::{checked_point, query_float, Where};
use model::shape::{finest_steps, STEP_NUMBERS};
use model::stages::exact;
use model::Want::{self, Curvature, Dose, Slope};
use model::{Answer, Rational};
use positions::{combinations, position_kinds, step_kinds};
use queries::{answer, marked, run, run_dose};
use ramps::{run_ramp, Ramp};

// Every choice on so many axes: 5, 25 or 125.
fn choices(axes: u32) -> Vec<[u32; 3]> {
    let number = |axis: u32, index: usize| match axis < axes {
        true => STEP_NUMBERS[index],
        false => 1,
    };
    let sides = [0, 1, 2].map(|axis| if axis < axes { 5 } else { 1 });
    let all = model::shape::indices(sides).into_iter();
    all.map(|[x, y, z]| [number(0, x), number(1, y), number(2, z)])
        .collect()
}

// The table with 256 steps on each used axis.
fn finest(shape: Shape) -> Shape {
    in_steps(shape, [256; 3])
}

// Steps of 256 for one step of an axis, 1 on an unused one.
fn factors(shape: Shape) -> [u32; 3] {
    let used = |axis: usize| axis < shape.axes as usize;
    [0, 1, 2].map(|axis| match used(axis) {
        true => 256 / shape.steps[axis],
        false => 1,
    })
}

// The same point in steps of 256.
fn scaled(shape: Shape, at: Where) -> Where {
    let by = factors(shape);
    match at {
        Where::Position(p) => Where::Position([0, 1, 2].map(|axis| p[axis] * by[axis] as i32)),
        Where::Cell(cell, u) => Where::Cell(cell, [0, 1, 2].map(|axis| u[axis] * by[axis])),
        Where::Float(_) => at,
    }
}

// A point as a position and in each cell that contains it.
fn ways(shape: Shape, point: [u32; 3]) -> Vec<Where> {
    let mut all = vec![Where::Position(point.map(|step| step as i32))];
    let cells = cells_at(shape, point).into_iter();
    all.extend(cells.map(|(cell, u)| Where::Cell(cell, u)));
    all
}

// The answer and, of a dose, its mark.
fn told(shape: Shape, records: &[i32], at: Where, want: Want) -> (Answer<i32>, Option<bool>) {
    let mark = match want {
        Dose => marked(shape, records, at).map(|dose| dose.exact).ok(),
        _ => None,
    };
    (plain(answer(shape, records, at, want)), mark)
}

// In both editions the model's answer and mark, and those at the same point of 256 steps.
#[track_caller]
fn check(table: &Estimated, at: Where, want: Want) -> Answer<i32> {
    let Estimated { shape, records } = table;
    for shape in editions(*shape) {
        let here = told(shape, records, at, want);
        assert_eq!(here, told(finest(shape), records, scaled(shape, at), want));
        if want == Dose {
            let dose = run_dose(shape, records, at);
            assert_eq!(here.1, dose.ok().map(|(_, mark)| mark));
        }
    }
    run(&Query::new(*shape, records.clone(), at, want))
}

// The outcome of a query, which is the model's.
#[track_caller]
fn asked(shape: Shape, records: &[i32], at: Where, want: Want) -> Answer<()> {
    outcome(&run(&Query::new(shape, records.to_vec(), at, want)))
}

// The outcome of a dose or slope by float, which is the model's.
#[track_caller]
fn by_float(shape: Shape, records: &[i32], at: [f32; 3], want: Want) -> Answer<f32> {
    let got = plain(match want {
        Slope(axis) => slope_float(Key::Service, shape, records, at, axis),
        _ => dose_float(Key::Service, shape, records, at),
    });
    let model = query_float(&plain_shape(shape), records, at, want);
    assert_eq!(got, model, "{shape:?} {at:?} {want:?}");
    got
}

// A point with its steps at nodes, beside them or anywhere.
fn any_point(random: &mut Random, shape: Shape) -> [u32; 3] {
    random.position(shape).map(|step| step as u32)
}

#[test]
fn every_choice_on_three_axes() {
    let mut random = Random::new(1);
    for steps in choices(3) {
        for degree in [3, 5] {
            let shape = in_steps(random.shape(3, degree, 3), steps);
            let table = Estimated::new(shape, &random.estimable(shape));
            for _ in 0..3 {
                let point = any_point(&mut random, shape);
                let at = random.pick(&ways(shape, point));
                for want in wants(shape) {
                    assert!(check(&table, at, want).is_ok());
                }
            }
        }
    }
}

#[test]
fn every_choice_on_two_axes() {
    let mut random = Random::new(2);
    for steps in choices(2) {
        for degree in [3, 5] {
            let shape = in_steps(random.shape(2, degree, 4), steps);
            let table = Estimated::new(shape, &random.estimable(shape));
            for _ in 0..12 {
                let point = any_point(&mut random, shape);
                for at in ways(shape, point) {
                    for want in wants(shape) {
                        assert!(check(&table, at, want).is_ok());
                    }
                }
            }
        }
    }
}

#[test]
fn every_step_on_one_axis() {
    let mut random = Random::new(3);
    for [steps, ..] in choices(1) {
        for degree in [3, 5] {
            let shape = in_steps(cube(1, degree, 4), [steps; 3]);
            let table = Estimated::new(shape, &random.estimable(shape));
            for point in 0..=3 * steps {
                for at in ways(shape, [point, 0, 0]) {
                    for want in wants(shape) {
                        assert!(check(&table, at, want).is_ok());
                    }
                }
            }
        }
    }
}

#[test]
fn every_step_of_a_cell_of_16_steps() {
    // Of records at their limits, and of small ones, where much is exact.
    let mut random = Random::new(4);
    for degree in [3, 5] {
        let shape = in_steps(cube(2, degree, 2), [16; 3]);
        let small = (0..shape.entries()).map(|_| random.range(-9, 9) as i32);
        for records in [small.collect(), random.records(shape)] {
            let table = Estimated { shape, records };
            for u in 0..=16 {
                for v in 0..=16 {
                    for want in wants(shape) {
                        let at = Where::Cell([0; 3], [u, v, 0]);
                        assert!(check(&table, at, want).is_ok());
                    }
                }
            }
        }
    }
}

#[test]
fn coarser_axes_ask_fewer_points_of_the_same_table() {
    // Without the model: many points of every choice, in both editions.
    let mut random = Random::new(5);
    for axes in 1..=3 {
        for steps in choices(axes) {
            for degree in [3, 5] {
                let shape = in_steps(random.shape(axes, degree, 5), steps);
                let records = random.records(shape);
                for _ in 0..40 {
                    let point = any_point(&mut random, shape);
                    let (at, want) = (random.pick(&ways(shape, point)), random.pick(&wants(shape)));
                    let here = told(shape, &records, at, want);
                    assert!(here.0.is_ok(), "{shape:?} {at:?} {want:?}");
                    let there = told(finest(shape), &records, scaled(shape, at), want);
                    assert_eq!(here, there, "{shape:?} {at:?} {want:?}");
                }
            }
        }
    }
}

#[test]
fn distances_hold_for_every_choice() {
    let mut random = Random::new(6);
    for axes in 1..=3 {
        for steps in choices(axes) {
            let degree = random.pick(&[3, 5]);
            let shape = in_steps(random.shape(axes, degree, 3), steps);
            let table = Estimated::new(shape, &random.estimable(shape));
            let point = any_point(&mut random, shape);
            let at = random.pick(&ways(shape, point));
            for want in wants(shape) {
                let plain = plain_shape(shape);
                let asked = checked_point(&plain, &table.records, at, want).expect("a point");
                let exact = exact(&plain, &table.records, &asked);
                let got = table.ask(at, want).expect("an answer");
                let distance = (Rational::whole(got as i64) - exact).abs();
                assert!(distance <= distance_bound(axes, want.order()), "{shape:?}");
            }
        }
    }
}

// The straight table on one axis whose dose at each step is the number of the step, and marked.
fn ruler(degree: u32, count: u32, steps: u32) -> Estimated {
    let shape = in_steps(cube(1, degree, count), [steps; 3]);
    let samples: Vec<i32> = (0..count).map(|node| (steps * node) as i32).collect();
    Estimated::new(shape, &samples)
}

#[test]
fn a_ruler_reads_its_steps() {
    for steps in STEP_NUMBERS {
        for degree in [3, 5] {
            let Estimated { shape, records } = ruler(degree, 64, steps);
            for shape in editions(shape) {
                for p in 0..=63 * steps {
                    let dose = dose(Key::Service, shape, &records, [p as i32, 0, 0]);
                    let (value, exact) = (p as i32, true);
                    assert_eq!(dose, Ok(lukhtari::Dose { value, exact }));
                    let slope = slope(Key::Service, shape, &records, [p as i32, 0, 0], 0);
                    assert_eq!(slope, Ok(steps as i32));
                }
            }
        }
    }
}

// The step that a float is taken to on the ruler's axis.
fn step_of(ruler: &Estimated, float: f32) -> Answer<i32> {
    let at = [float, 0.0, 0.0];
    by_float(ruler.shape, &ruler.records, at, Dose).map(|step| step as i32)
}

#[test]
fn floats_at_the_borders_of_rounding() {
    for steps in STEP_NUMBERS {
        for (degree, count) in [(3, 3), (5, 2)] {
            let table = ruler(degree, count, steps);
            let last = (steps * (count - 1)) as i32;
            let to = |step: i32| match step {
                _ if step < 0 => refused(22, 0),
                _ if step > last => refused(11, 0),
                _ => Ok(step),
            };
            for step in -2..=last + 1 {
                // A half goes up; the float next to it on either side to its own step.
                let half = (step as f32 + 0.5) / steps as f32;
                assert_eq!(step_of(&table, half.next_down()), to(step), "{half}");
                assert_eq!(step_of(&table, half), to(step + 1), "{half}");
                assert_eq!(step_of(&table, half.next_up()), to(step + 1), "{half}");
                let whole = step as f32 / steps as f32;
                for float in [whole.next_down(), whole, whole.next_up()] {
                    assert_eq!(step_of(&table, float), to(step), "{float}");
                }
            }
        }
    }
}

#[test]
fn a_float_is_rounded_once() {
    // Its nearest step of 256 is a half of a coarser one, which would go up.
    for (steps, float) in [(16, 7.75 / 256.0), (32, 3.6 / 256.0), (64, 1.75 / 256.0)] {
        assert_eq!(step_of(&ruler(3, 2, 256), float), Ok(128 / steps as i32));
        assert_eq!(step_of(&ruler(3, 2, steps), float), Ok(0), "{steps}");
    }
    assert_eq!(step_of(&ruler(3, 2, 128), 0.75 / 256.0), Ok(0));
}

#[test]
fn random_floats_on_every_choice() {
    let mut random = Random::new(7);
    for axes in 1..=3 {
        for steps in choices(axes) {
            let degree = random.pick(&[3, 5]);
            let shape = in_steps(random.shape(axes, degree, 3), steps);
            let table = Estimated::new(shape, &random.estimable(shape));
            for _ in 0..8 {
                let mut float = |axis: usize| match axis < axes as usize {
                    true => {
                        let last = (shape.counts[axis] - 1) as f32;
                        last * (random.below(1 << 20) as f32 / (1 << 20) as f32)
                    }
                    false => random.pick(&[0.0, -0.0, 0.0019, -0.0019]),
                };
                let at = [0, 1, 2].map(&mut float);
                for want in dose_and_slopes(axes) {
                    assert!(by_float(shape, &table.records, at, want).is_ok());
                }
            }
        }
    }
}

#[test]
fn a_float_on_an_unused_axis_keeps_256_steps() {
    let half = 1.0f32 / 512.0;
    for axes in 1..=2 {
        for steps in choices(axes) {
            let shape = in_steps(cube(axes, 3, 2), steps);
            let records = vec![7; shape.entries()];
            for axis in axes as usize..3 {
                for (float, taken) in [
                    (-half, true),
                    ((-half).next_down(), false),
                    (half.next_down(), true),
                    (half, false),
                    (0.4, false),
                    (1.0, false),
                ] {
                    let mut at = [0.0; 3];
                    at[axis] = float;
                    let expected = match taken {
                        true => Ok(7.0),
                        false => refused(23, axis as u64),
                    };
                    let got = by_float(shape, &records, at, Dose);
                    assert_eq!(got, expected, "{float} on axis {axis}, {steps:?}");
                }
            }
        }
    }
}

#[test]
fn points_outside_the_table() {
    for steps in choices(3) {
        for (axes, degree) in [(1, 3), (2, 5), (3, 3)] {
            let shape = in_steps(cube(axes, degree, 3), steps);
            let records = vec![7; shape.entries()];
            let ask = |at| asked(shape, &records, at, Dose);
            for axis in 0..axes as usize {
                let number = shape.steps[axis];
                let last = 2 * number as i32;
                let position = |p: i32| {
                    let mut at = [0; 3];
                    at[axis] = p;
                    ask(Where::Position(at))
                };
                let within = |u: u32| {
                    let mut at = [0; 3];
                    at[axis] = u;
                    ask(Where::Cell([0; 3], at))
                };
                let place = axis as u64;
                assert_eq!([last, 0].map(position), [Ok(()); 2]);
                assert_eq!([number, 0].map(within), [Ok(()); 2]);
                for p in [-1, -16, -256, i32::MIN, i32::MIN + 16] {
                    assert_eq!(position(p), refused(22, place), "{p} of {steps:?}");
                }
                // Some of these are 0 or a step of the table where the product wraps.
                let wrapping = [24, 26, 27, 28, 29, 30].map(|bit| 1 << bit);
                let by_16 = wrapping.map(|p: i32| p + 16);
                let far = [last + 1, last + 16, 16128, 16129, 65_536, i32::MAX];
                for p in far.into_iter().chain(wrapping).chain(by_16) {
                    if p > last {
                        assert_eq!(position(p), refused(11, place), "{p} of {steps:?}");
                    }
                    assert_eq!(within(p as u32), refused(11, place), "{p} of {steps:?}");
                }
                for u in [number + 1, 257, 1 << 31, (1 << 31) + number, u32::MAX] {
                    assert_eq!(within(u), refused(11, place), "{u} of {steps:?}");
                }
            }
        }
    }
}

#[test]
fn every_combination_of_points() {
    for (axes, degree) in KINDS {
        for steps in [16, 128] {
            let shape = in_steps(cube(axes, degree, 3), [steps; 3]);
            let records = vec![7; shape.entries()];
            let ask = |at| asked(shape, &records, at, Slope(0));
            for (p, expected) in combinations(axes, &position_kinds(2 * steps as i32)) {
                assert_eq!(ask(Where::Position(p)), expected, "{shape:?} {p:?}");
            }
            for (u, expected) in combinations(axes, &step_kinds(steps)) {
                assert_eq!(ask(Where::Cell([0; 3], u)), expected, "{u:?}");
            }
        }
    }
}

#[test]
fn ramps_on_every_choice() {
    let mut random = Random::new(8);
    for axes in 1..=3 {
        for steps in choices(axes) {
            let degree = random.pick(&[3, 5]);
            let shape = in_steps(random.shape(axes, degree, 4), steps);
            let records = random.records(shape);
            let list = random.path(shape, 12);
            let ramped = run_ramp(&Ramp::new(shape, &records, &list)).expect("a ramp");
            let doses = list.iter().map(|&p| dose(Key::Service, shape, &records, p));
            let doses: Vec<i32> = doses.map(|dose| dose.expect("a dose").value).collect();
            assert_eq!(ramped.answers, doses);
        }
    }
}

#[test]
fn a_ramp_fetches_by_cells_of_its_own_steps() {
    for steps in STEP_NUMBERS {
        let Estimated { shape, records } = ruler(3, 4, steps);
        let fetches = |list: &[i32]| {
            let list: Vec<[i32; 3]> = list.iter().map(|&p| [p, 0, 0]).collect();
            let ramped = run_ramp(&Ramp::new(shape, &records, &list)).expect("a ramp");
            ramped.fetches
        };
        let n = steps as i32;
        assert_eq!(fetches(&[0, 1, n - 1]), 1);
        assert_eq!(fetches(&[n - 1, n]), 2);
        assert_eq!(fetches(&[n, n + 1, 2 * n - 1]), 1);
        assert_eq!(fetches(&[2 * n - 1, 2 * n, 3 * n]), 2);
        let list = [[0, 0, 0], [3 * n + 1, 0, 0]];
        assert_eq!(run_ramp(&Ramp::new(shape, &records, &list)), refused(11, 1));
        // Some of these are steps of the table where the product wraps.
        for p in [1 << 24, (1 << 28) + 1, (1 << 30) + 16, i32::MAX] {
            let list = [[0, 0, 0], [n, 0, 0], [p, 0, 0]];
            assert_eq!(run_ramp(&Ramp::new(shape, &records, &list)), refused(11, 2));
        }
        let list = [[0, 0, 0], [1, 0, 0], [1, 1, 0]];
        assert_eq!(run_ramp(&Ramp::new(shape, &records, &list)), refused(23, 2));
    }
}

#[test]
fn records_and_coefficients_do_not_depend_on_them() {
    let mut random = Random::new(9);
    for (axes, degree) in KINDS {
        let fine = random.shape(axes, degree, 3);
        let samples = random.estimable(fine);
        let cell = random.pick(&cells(fine));
        let whole = |shape: Shape| {
            let Estimated { shape, records } = Estimated::new(shape, &samples);
            let mut numbers = vec![0; shape.coefficients()];
            coefficients(Key::Service, shape, &records, cell, &mut numbers).expect("coefficients");
            let mut exported = vec![0; 16];
            let powers = powers(Key::Service, shape, &records, cell, &mut exported);
            assert_eq!(powers.is_ok(), (axes, degree) == (2, 3));
            let text = samples.iter().map(|&units| format!("{units}e-2 "));
            let mut typed = vec![0; samples.len()];
            import(
                Key::Service,
                shape,
                text.collect::<String>().as_bytes(),
                &mut typed,
            )
            .expect("samples");
            assert_eq!(typed, samples);
            let total = cell_total(Key::Service, shape, &records, cell).expect("a total");
            (records, numbers, exported, total)
        };
        let expected = whole(fine);
        for steps in choices(axes) {
            assert_eq!(whole(in_steps(fine, steps)), expected);
        }
    }
}

#[test]
fn the_exported_polynomial_at_steps_of_their_own() {
    let mut random = Random::new(10);
    for steps in choices(2) {
        let shape = in_steps(random.shape(2, 3, 3), steps);
        let table = Estimated::new(shape, &random.estimable(shape));
        let point = any_point(&mut random, shape);
        let (cell, u) = random.pick(&cells_at(shape, point));
        let mut exported = [0; 16];
        powers(Key::Service, shape, &table.records, cell, &mut exported).expect("coefficients");
        let [x, y] = [0, 1].map(|axis| Rational::ratio(u[axis] as i64, steps[axis] as i64));
        let plain = plain_shape(shape);
        let at = Where::Cell(cell, u);
        let point = checked_point(&plain, &table.records, at, Dose).expect("a point");
        let value = model::powers::value_at(&exported, x, y);
        assert_eq!(value, exact(&plain, &table.records, &point));
    }
}

// ---- files

#[test]
fn files_hold_no_step_numbers() {
    let mut random = Random::new(11);
    for axes in 1..=3 {
        for edition in [false, true] {
            let mut call = table(&mut random, axes, 3, edition);
            call.steps = finest_steps(axes);
            let bytes = run_write_bytes(&call).expect("a file");
            for steps in choices(axes) {
                call.steps = steps;
                assert_eq!(run_write_bytes(&call).as_ref(), Ok(&bytes), "{steps:?}");
                let mut samples = vec![0; call.samples.len()];
                let again = read(Key::Service, &bytes, &mut samples).expect("a table");
                assert_eq!(again.steps, finest_steps(axes));
                assert_eq!(samples, call.samples);
            }
        }
    }
}

#[test]
fn a_table_that_is_read_has_256_steps() {
    let mut samples = [0; 2];
    let table = read(Key::Service, &words(&EXAMPLE), &mut samples).expect("a file");
    assert_eq!(table.steps, [256, 1, 1]);
    for degree in [3, 5] {
        let shape = table.shape(degree);
        assert_eq!(shape, cube(1, degree, 2));
        let mut records = vec![0; shape.entries()];
        estimate(Key::Service, shape, &samples, &mut records).expect("records");
        let dose = dose(Key::Service, shape, &records, [64, 0, 0]).expect("a dose");
        assert_eq!(dose.value, 25);
    }
}

// ---- 26

const CALLS: usize = 16;

// The outcome of every call that takes a shape or its numbers, with buffers of the right lengths
// for this shape; a refused call leaves them as they were.
fn every_call(shape: Shape, lent: &Shape) -> [Answer<()>; CALLS] {
    let (samples, records) = (vec![7; lent.nodes()], vec![7; lent.entries()]);
    let text = "7e-2 ".repeat(lent.nodes());
    let filled = |room: usize, call: &dyn Fn(&mut [i32]) -> Result<(), Refusal>| {
        let mut buffer = Lent::new(room);
        let got = plain(call(buffer.slice()));
        if got.is_err() {
            buffer.check(&[]);
        }
        got
    };
    let ask = |at, want| asked(shape, &records, at, want);
    let (position, cell) = (Where::Position([0; 3]), Where::Cell([0; 3], [0; 3]));
    let float = [0.0; 3];
    let written = |out: &mut [u8]| {
        let Shape {
            axes,
            counts,
            steps,
            ..
        } = shape;
        write(
            Key::Service,
            axes,
            counts,
            steps,
            shape.second_edition,
            &samples,
            out,
        )
    };
    let mut file = Lent::new(lent.file_bytes());
    let written = outcome(&plain(written(file.slice())));
    if written.is_err() {
        file.check(&[]);
    }
    [
        filled(lent.entries(), &|out| {
            estimate(Key::Service, shape, &samples, out)
        }),
        filled(216, &|out| {
            coefficients(Key::Service, shape, &records, [0; 3], out)
        }),
        filled(16, &|out| {
            powers(Key::Service, shape, &records, [0; 3], out)
        }),
        filled(lent.nodes(), &|out| {
            import(Key::Service, shape, text.as_bytes(), out)
        }),
        filled(2, &|out| {
            ramp(Key::Service, shape, &records, &[[0; 3]; 2], out).map(|_| ())
        }),
        ask(position, Dose),
        ask(cell, Dose),
        ask(position, Slope(0)),
        ask(cell, Slope(0)),
        ask(position, Curvature(0)),
        ask(cell, Curvature(0)),
        outcome(&by_float(shape, &records, float, Dose)),
        outcome(&by_float(shape, &records, float, Slope(0))),
        written,
        outcome(&plain(cell_total(Key::Service, shape, &records, [0; 3]))),
        outcome(&plain(box_total(
            Key::Service,
            shape,
            &records,
            [0; 3],
            [0; 3],
        ))),
    ]
}

// What every call says of an accepted shape.
fn accepted(axes: u32, degree: u32) -> [Answer<()>; CALLS] {
    let mut all = [Ok(()); CALLS];
    if (axes, degree) != (2, 3) {
        all[2] = refused(24, 0);
    }
    if degree == 3 {
        all[9..11].fill(refused(21, 0));
    }
    all
}

#[test]
fn every_call_takes_every_choice() {
    for (axes, degree) in KINDS {
        for steps in choices(axes) {
            for shape in editions(in_steps(cube(axes, degree, 2), steps)) {
                assert_eq!(
                    every_call(shape, &shape),
                    accepted(axes, degree),
                    "{steps:?}"
                );
            }
        }
    }
}

#[test]
fn every_call_refuses_other_numbers() {
    let mut random = Random::new(12);
    for (axes, degree) in KINDS {
        for axis in 0..3 {
            let used = axis < axes as usize;
            let mut wrong = wrong_steps(used);
            wrong.extend((0..40).map(|_| random.next() as u32));
            wrong.extend((0..40).map(|_| random.below(300) as u32));
            let right: &[u32] = if used { &STEP_NUMBERS } else { &[1] };
            for number in wrong.into_iter().filter(|number| !right.contains(number)) {
                let right = random.any_steps(cube(axes, degree, 2));
                for mut shape in editions(right) {
                    shape.steps[axis] = number;
                    let expected = [refused(26, axis as u64); CALLS];
                    assert_eq!(every_call(shape, &right), expected, "{shape:?}");
                }
            }
        }
    }
}

#[test]
fn the_first_axis_is_the_place() {
    for (axes, degree) in KINDS {
        let right = cube(axes, degree, 2);
        for wrong in 1..8u32 {
            let mut shape = right;
            for axis in (0..3).filter(|axis| wrong >> axis & 1 == 1) {
                shape.steps[axis] = 3;
            }
            let place = wrong.trailing_zeros() as u64;
            assert_eq!(every_call(shape, &right), [refused(26, place); CALLS]);
        }
    }
}

// The calls with nothing lent, a list that is no list, and an axis that is not used: all but 1, 2,
// 3 and 26 comes later.
fn all_wrong(shape: Shape) -> Vec<Answer<()>> {
    let mut all = Vec::new();
    let beyond = [Where::Position([-1; 3]), Where::Cell([9; 3], [999; 3])];
    for at in beyond {
        for want in [Dose, Slope(3), Curvature(3)] {
            all.push(asked(shape, &[], at, want));
        }
    }
    let nan = [f32::NAN; 3];
    all.push(outcome(&by_float(shape, &[], nan, Dose)));
    all.push(outcome(&by_float(shape, &[], nan, Slope(3))));
    all.push(plain(estimate(Key::Service, shape, &[], &mut [])));
    all.push(plain(coefficients(
        Key::Service,
        shape,
        &[],
        [9; 3],
        &mut [],
    )));
    all.push(plain(powers(Key::Service, shape, &[], [9; 3], &mut [])));
    all.push(plain(import(Key::Service, shape, b"x", &mut [])));
    let list = Ramp {
        shape,
        records: vec![],
        positions: vec![-1; 1000],
        room: 0,
    };
    all.push(ramps::run(&list));
    all.push(outcome(&plain(cell_total(
        Key::Service,
        shape,
        &[],
        [9; 3],
    ))));
    all.push(outcome(&plain(box_total(
        Key::Service,
        shape,
        &[],
        [9; 3],
        [0; 3],
    ))));
    all
}

#[test]
fn directly_after_3_and_before_20_24_and_4() {
    for (axes, degree) in KINDS {
        let right = cube(axes, degree, 3);
        let mut later = vec![refused(4, 0); 15];
        if (axes, degree) != (2, 3) {
            later[10] = refused(24, 0);
        }
        later[12] = refused(20, 0);
        assert_eq!(all_wrong(right), later);
        for axis in 0..3 {
            let mut steps = right;
            steps.steps[axis] = 0;
            assert_eq!(all_wrong(steps), [refused(26, axis as u64); 15]);
            // The count of a later axis comes before the step number of an earlier one.
            for other in 0..3 {
                let mut count = steps;
                count.counts[other] = 65;
                assert_eq!(all_wrong(count), [refused(3, other as u64); 15]);
            }
            let degree = Shape { degree: 4, ..steps };
            assert_eq!(all_wrong(degree), [refused(2, 0); 15]);
            let axes = Shape { axes: 4, ..steps };
            assert_eq!(all_wrong(axes), [refused(1, 0); 15]);
        }
    }
}

#[test]
fn writing_tests_them_after_3_and_before_4() {
    for (axes, edition) in files::FILES {
        let counts = cube(axes, 3, 2).counts;
        let written = |counts, steps| {
            plain(write(
                Key::Service,
                axes,
                counts,
                steps,
                edition,
                &[],
                &mut [],
            ))
        };
        let right = finest_steps(axes);
        assert_eq!(written(counts, right), refused(4, 0));
        for axis in 0..3 {
            let mut steps = right;
            steps[axis] = 255;
            assert_eq!(written(counts, steps), refused(26, axis as u64));
            for other in 0..3 {
                let mut counts = counts;
                counts[other] = 0;
                assert_eq!(written(counts, steps), refused(3, other as u64));
            }
        }
    }
}

// ---- C

#[test]
fn c_has_step_numbers() {
    let source = "#include \"lukhtari.h\"
#include <stdio.h>
int main(void) {
    lukhtari_shape shape = {2, 3, {2, 2, 1}, {16, 64, 1}, false};
    int32_t samples[4] = {0, 100, 0, 100};
    int32_t records[LUKHTARI_ENTRIES(2, 3, 4)];
    uint8_t file[LUKHTARI_FILE_BYTES(2, 4, false)];
    lukhtari_index counts = {{2, 2, 1}}, steps = {{16, 64, 1}};
    lukhtari_position quarter = {{4, 64, 0}}, beyond = {{4, 65, 0}};
    lukhtari_estimate(LUKHTARI_SERVICE, shape, samples, 4, records, 16);
    lukhtari_marked dose = lukhtari_dose(LUKHTARI_SERVICE, shape, records, 16, quarter);
    printf(\"%u %d %d\\n\", (unsigned)dose.number, (int)dose.value, dose.exact);
    dose = lukhtari_dose(LUKHTARI_SERVICE, shape, records, 16, beyond);
    printf(\"%u %u\\n\", (unsigned)dose.number, (unsigned)dose.place);
    uint32_t key = LUKHTARI_SERVICE;
    lukhtari_written written = lukhtari_write(key, 2, counts, steps, false, samples, 4, file, sizeof file);
    printf(\"%u %u\\n\", (unsigned)written.number, (unsigned)written.length);
    lukhtari_table table = lukhtari_read(LUKHTARI_SERVICE, file, sizeof file, samples, 4);
    printf(\"%u %u %u\\n\", (unsigned)table.steps[0], (unsigned)table.steps[1],
           (unsigned)table.steps[2]);
    steps.at[2] = 0;
    written = lukhtari_write(key, 2, counts, steps, false, samples, 4, file, sizeof file);
    printf(\"%u %u\\n\", (unsigned)written.number, (unsigned)written.place);
    return 0;
}
";
    let printed = c::run("c99", &c::source("steps.c", source));
    assert_eq!(printed, "0 25 1\n11 1\n0 32\n256 256 1\n26 2\n");
}
