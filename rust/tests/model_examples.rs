//! The reference model on all worked examples and traps of document 01, as request U2 of document
//! 02 works them out anew, on the texts of request U1, on ramps of request U5, on curvatures of
//! request U6, on the editions of request U9, on the marks of request U10 and on the step numbers of
//! request U11.

mod model;

use model::coefficients::{coefficients, corners_of};
use model::estimate::{estimate, records_by_axes};
use model::file::{read, write};
use model::float::float_step;
use model::int::Int;
use model::program::output;
use model::query::{locate, marked_dose, query, query_float, Where};
use model::ramp::ramp;
use model::stages::{axis_weights, curvature_weights, exact, slope_weights, Step};
use model::stages::{stages, stages_in_order, Point};
use model::text::import;
use model::Want::{self, Curvature, Dose, Slope};
use model::{Answer, Rational, Refusal, Shape};

fn line(degree: u32) -> Shape {
    Shape::new(1, degree, [2, 1, 1])
}

fn records(shape: &Shape, samples: &[i32]) -> Vec<i32> {
    estimate(shape, samples, shape.entries()).expect("accepted table")
}

fn refused<T>(number: u32, place: u64) -> Answer<T> {
    Err(Refusal { number, place })
}

// Dose on one axis of two nodes at a position.
fn dose(degree: u32, samples: [i32; 2], p: i32) -> Answer<i32> {
    let shape = line(degree);
    query(
        &shape,
        &records(&shape, &samples),
        Where::Position([p, 0, 0]),
        Dose,
    )
}

// Slope of the samples 0, 100 at a position.
fn slope(degree: u32, p: i32) -> Answer<i32> {
    let shape = line(degree);
    let records = records(&shape, &[0, 100]);
    query(&shape, &records, Where::Position([p, 0, 0]), Slope(0))
}

fn point(u: u32) -> Point {
    Point {
        cell: [0; 3],
        u: [u, 0, 0],
        want: Dose,
    }
}

#[test]
fn records_of_0_100() {
    assert_eq!(records(&line(3), &[0, 100]), [0, 200, 100, 200]);
    assert_eq!(records(&line(5), &[0, 100]), [0, 200, 0, 100, 200, 0]);
}

#[test]
fn coefficients_of_0_100() {
    let cubic = coefficients(&line(3), &[0, 200, 100, 200], [0; 3], 4);
    assert_eq!(cubic, Ok(vec![0, 200, 400, 200]));
    let shape = line(5);
    let quintic = coefficients(&shape, &records(&shape, &[0, 100]), [0; 3], 6);
    assert_eq!(quintic, Ok(vec![0, 200, 800, 1200, 800, 200]));
}

#[test]
fn doses_of_0_100() {
    for degree in [3, 5] {
        assert_eq!(dose(degree, [0, 100], 64), Ok(25));
        assert_eq!(dose(degree, [0, 100], 128), Ok(50));
        assert_eq!(dose(degree, [0, 100], 256), Ok(100));
        assert_eq!(dose(degree, [0, 100], 257), refused(11, 0));
        assert_eq!(dose(degree, [0, 100], -1), refused(22, 0));
        let records = records(&line(degree), &[0, 100]);
        let value = exact(&line(degree), &records, &point(64));
        assert_eq!(value, Rational::whole(25));
    }
}

#[test]
fn slopes_of_0_100() {
    for degree in [3, 5] {
        for p in 0..=256 {
            assert_eq!(slope(degree, p), Ok(100));
        }
    }
}

#[test]
fn halves_go_up() {
    assert_eq!(dose(3, [0, 1], 128), Ok(1));
    assert_eq!(dose(3, [0, -1], 128), Ok(0));
}

#[test]
fn back() {
    assert_eq!(
        corners_of(1, 3, &[0, 100, 500, 200], 4),
        Ok(vec![0, 100, 100, 100])
    );
    assert_eq!(corners_of(1, 3, &[1, 0, 0, 0], 4), refused(13, 0));
}

#[test]
fn two_axes() {
    let shape = Shape::new(2, 3, [2, 2, 1]);
    let records = records(&shape, &[0, 100, 0, 100]);
    let after = stages(&shape, &records, &point(64));
    assert_eq!(after[0].at([0, 0, 0]), Rational::ratio(200, 8));
    let dose = query(&shape, &records, Where::Position([64, 0, 0]), Dose);
    assert_eq!(dose, Ok(25));
}

#[test]
fn sample_limits() {
    let shape = line(3);
    assert!(estimate(&shape, &[16384, -16384], 4).is_ok());
    assert_eq!(estimate(&shape, &[0, 16385], 4), refused(19, 1));
    assert_eq!(estimate(&shape, &[-16385, 32769], 4), refused(19, 0));
    assert_eq!(estimate(&shape, &[0, 40000], 4), refused(19, 1));
    // Files keep theirs.
    let file = |samples| write(1, [2, 1, 1], [256, 1, 1], false, samples, 20);
    let bytes = file(&[32768, -32768]).expect("a file");
    assert_eq!(
        read(&bytes, 2).map(|table| table.samples),
        Ok(vec![32768, -32768])
    );
    assert_eq!(output(&bytes), "refused 19\n");
    assert_eq!(file(&[0, 32769]), refused(5, 1));
    assert_eq!(file(&[-32769, 32769]), refused(5, 0));
}

#[test]
fn float_steps() {
    let step = |float| float_step(float, 256).expect("finite");
    assert_eq!(step(0.25), Int::from(64));
    assert_eq!(step(f32::from_bits(0x3B00_0000)), Int::from(1));
    assert_eq!(step(f32::from_bits(0x3AFF_FFFF)), Int::ZERO);
    assert_eq!(step(-0.0), Int::ZERO);
    assert_eq!(step(-1.0 / 512.0), Int::ZERO);
    assert_eq!(step(-1.5 / 512.0), Int::from(-1));
    assert_eq!(float_step(f32::NAN, 256), None);
    assert_eq!(float_step(f32::NEG_INFINITY, 256), None);
}

#[test]
fn float_query() {
    let shape = line(3);
    let records = records(&shape, &[0, 100]);
    let ask = |x, y| query_float(&shape, &records, [x, y, 0.0], Dose);
    assert_eq!(ask(0.25, 0.0), Ok(25.0));
    assert_eq!(ask(1.0, 0.0), Ok(100.0));
    assert_eq!(ask(1.01, f32::NAN), refused(11, 0));
    assert_eq!(ask(1.0, f32::NAN), refused(10, 1));
    assert_eq!(ask(1.0, 0.002), refused(23, 1));
    assert_eq!(ask(-0.001, 0.0).map(f32::to_bits), Ok(0));
}

#[test]
fn three_kinds_of_bad_position() {
    let shape = line(3);
    let records = records(&shape, &[0, 100]);
    let ask = |at| query(&shape, &records, at, Dose).map(|_| ());
    for (at, printed) in [
        (Where::Position([257, 0, 0]), refused(11, 0)),
        (Where::Position([-1, 0, 0]), refused(22, 0)),
        (Where::Position([0, 1, 0]), refused(23, 1)),
        (Where::Position([0, 0, -1]), refused(23, 2)),
        // The first axis decides.
        (Where::Position([257, -1, 0]), refused(11, 0)),
        (Where::Position([-1, 1, 0]), refused(22, 0)),
        (Where::Cell([0; 3], [257, 0, 0]), refused(11, 0)),
        (Where::Cell([0; 3], [1 << 31, 0, 0]), refused(11, 0)),
        (Where::Cell([0; 3], [0, 1, 0]), refused(23, 1)),
        (Where::Cell([0, 1, 0], [0, 1, 0]), refused(14, 1)),
        (Where::Float([-0.001, -0.001, 0.0]), Ok(())),
        (Where::Float([-0.003, 0.0, 0.0]), refused(22, 0)),
        (Where::Float([0.0, -0.003, 0.0]), refused(23, 1)),
        (Where::Float([0.0, -1.0, 0.0]), refused(23, 1)),
        (Where::Float([0.0, f32::NAN, 0.0]), refused(10, 1)),
    ] {
        assert_eq!(ask(at), printed, "{at:?}");
    }
}

const FILE: [u8; 20] = [1, 0, 0, 0, 2, 0, 0, 0, 2, 0, 0, 0, 0, 0, 0, 0, 100, 0, 0, 0];

#[test]
fn file_of_0_100() {
    let table = read(&FILE, 2).expect("accepted file");
    assert_eq!((table.axes, table.counts), (1, [2, 1, 1]));
    assert_eq!(table.samples, [0, 100]);
    let bytes = write(1, [2, 1, 1], [256, 1, 1], false, &[0, 100], 20);
    assert_eq!(bytes, Ok(FILE.to_vec()));
    assert_eq!(output(&FILE), "0 0 0 50 50\n");
}

#[test]
fn damaged_files() {
    let mut longer = FILE.to_vec();
    longer.push(0);
    let mut other_count = FILE;
    other_count[8] = 3;
    let cases = [(&FILE[..19], 6, 19), (&longer, 6, 21), (&other_count, 8, 0)];
    for (bytes, number, place) in cases {
        assert_eq!(read(bytes, 2), refused(number, place));
        assert_eq!(output(bytes), format!("refused {number}\n"));
    }
}

#[test]
fn files_of_edition_two() {
    // The samples 0, 1 with a third section: half way is 1/2.
    let first = write(1, [2, 1, 1], [256, 1, 1], false, &[0, 1], 20).expect("a file");
    let second = write(1, [2, 1, 1], [256, 1, 1], true, &[0, 1], 28).expect("a file");
    assert_eq!(second, [&first[..], &[1, 0, 0, 0, 2, 0, 0, 0]].concat());
    assert_eq!(
        write(1, [2, 1, 1], [256, 1, 1], true, &[0, 1], 27),
        refused(9, 0)
    );
    let edition = |bytes: &[u8]| read(bytes, 2).map(|table| table.second_edition);
    assert_eq!([edition(&first), edition(&second)], [Ok(false), Ok(true)]);
    assert_eq!(output(&first), "0 0 0 1 1\n");
    assert_eq!(output(&second), "0 0 0 0 0\n");
    for length in 21..28 {
        assert_eq!(edition(&second[..length]), refused(6, length as u64));
    }
    let longer = [&second[..], &[0]].concat();
    assert_eq!(edition(&longer), refused(7, 28));
    for index in [20, 24] {
        let mut other = longer.clone();
        other[index] += 1;
        assert_eq!(edition(&other), refused(25, 0));
        assert_eq!(output(&other), "refused 25\n");
    }
}

#[test]
fn halves_to_even() {
    for (half, even) in [(-5, -2), (-3, -2), (-1, 0), (1, 0), (3, 2), (5, 2)] {
        assert_eq!(Rational::ratio(half, 2).round_even(), Int::from(even));
    }
    for (dividend, nearest) in [(-7, -2), (-5, -1), (-1, 0), (3, 1), (5, 1), (7, 2)] {
        assert_eq!(
            Rational::ratio(dividend, 4).round_even(),
            Int::from(nearest)
        );
    }
    // Cubic samples on 2 by 2 nodes, where the first stage and the last one decide.
    let plane = Shape::new(2, 3, [2, 2, 1]);
    for (samples, at, first, second) in [
        ([0, -7, -3, 6], [16, 16, 0], 0, -1),
        ([0, 7, -8, -8], [16, 0, 0], 1, 0),
    ] {
        let records = records(&plane, &samples);
        let dose = |shape: Shape| query(&shape, &records, Where::Position(at), Dose);
        assert_eq!(dose(plane), Ok(first));
        assert_eq!(dose(plane.in_edition(true)), Ok(second));
    }
}

#[test]
fn marks() {
    let line = |samples: [i32; 2], p| {
        let records = records(&line(3), &samples);
        marked_dose(&line(3), &records, Where::Position([p, 0, 0]))
    };
    assert_eq!(line([0, 100], 64), Ok((25, true)));
    assert_eq!(line([0, 100], 65), Ok((25, false)));
    assert_eq!(line([0, 1], 128), Ok((1, false)));
    assert_eq!(line([0, 1], 257), refused(11, 0));
    // A number of weight 0 drops something in the upper of two cells that share the point.
    let plane = Shape::new(2, 3, [2, 4, 1]);
    let records = records(&plane, &[0, 0, 0, 0, 0, 0, 0, 1]);
    for (cell, v, mark) in [(0, 256, true), (1, 0, false)] {
        let (cell, u) = ([0, cell, 0], [16, v, 0]);
        let dose = marked_dose(&plane, &records, Where::Cell(cell, u));
        assert_eq!(dose, Ok((0, mark)));
        let want = Dose;
        let value = exact(&plane, &records, &Point { cell, u, want });
        assert_eq!(value, Rational::ZERO);
    }
}

#[test]
fn trap_adding_half_to_the_float() {
    let float = f32::from_bits(0x3AFF_FFFF);
    assert_eq!((float * 256.0 + 0.5).floor(), 1.0);
    assert_eq!(float_step(float, 256), Some(Int::ZERO));
}

#[test]
fn step_numbers() {
    // The same points of one table: a quarter of the cell, 5/16 of it, and the last node.
    let records = records(&line(3), &[0, 100]);
    for n in [16, 32, 64, 128, 256] {
        let shape = line(3).in_steps([n, 1, 1]);
        let at = |p: u32| marked_dose(&shape, &records, Where::Position([p as i32, 0, 0]));
        assert_eq!(at(n / 4), Ok((25, true)));
        assert_eq!(at(5 * n / 16), Ok((31, false)));
        assert_eq!(at(n), Ok((100, true)));
        assert_eq!(at(n + 1), refused(11, 0));
        let within = |u| marked_dose(&shape, &records, Where::Cell([0; 3], [u, 0, 0]));
        assert_eq!(within(n), Ok((100, true)));
        assert_eq!(within(n + 1), refused(11, 0));
        // A half goes up, in steps of the axis; on an unused axis they are of 256.
        let half = 0.5 / n as f32;
        let step = |float| float_step(float, n as i64).expect("finite");
        assert_eq!([step(half.next_down()), step(half)], [0, 1].map(Int::from));
        let at = |y| locate(&shape, Where::Float([half, y, 0.0]));
        assert_eq!(at(1.0 / 513.0), Ok(([0; 3], [1, 0, 0])));
        assert_eq!(at(1.0 / 512.0), refused(23, 1));
    }
    for (steps, place) in [([17, 1, 1], 0), ([256, 0, 1], 1), ([256, 1, 256], 2)] {
        let shape = line(3).in_steps(steps);
        assert_eq!(estimate(&shape, &[], 0), refused(26, place));
        let file = write(1, [2, 1, 1], steps, false, &[], 0);
        assert_eq!(file, refused(26, place));
    }
}

#[test]
fn trap_plus_at_the_high_end() {
    let plus = corners_of(1, 3, &[0, 100, 700, 200], 4);
    assert_eq!(plus, Ok(vec![0, 100, 100, -100]));
}

#[test]
fn trap_division_towards_zero() {
    assert_eq!(Rational::ratio(-3, 4).round(), Int::from(-1));
    assert_eq!(Rational::ratio(-1, 2).round(), Int::ZERO);
    assert_eq!(Rational::ratio(1, 2).round(), Int::from(1));
    assert_eq!(Rational::ratio(-3, 2).round(), Int::from(-1));
    // Exact value -0.75.
    assert_eq!(dose(3, [0, -1], 192), Ok(-1));
}

#[test]
fn trap_cell_beyond_the_last_node() {
    for count in [2, 3, 64] {
        let shape = Shape::new(1, 3, [count, 1, 1]);
        let at = |p| locate(&shape, Where::Position([p, 0, 0]));
        let last = 256 * (count as i32 - 1);
        assert_eq!(at(last), Ok(([count - 2, 0, 0], [256, 0, 0])));
        assert_eq!(at(last - 1), Ok(([count - 2, 0, 0], [255, 0, 0])));
        assert_eq!(at(last + 1), refused(11, 0));
    }
}

// Records of a cell at their limits, with the signs that make the numbers largest at u = 128.
fn extreme_records(shape: &Shape, point: &Point) -> Vec<i32> {
    let mut records = vec![0; shape.entries()];
    for node in model::block::corner_nodes(shape, [0; 3]) {
        for orders in shape.record_orders() {
            let index = shape.entry_index(node, orders);
            let limit = model::shape::entry_limit(orders) as i32;
            records[index] = limit;
            let value = exact(shape, &one_entry(&records, index), point);
            records[index] = if value < Rational::ZERO {
                -limit
            } else {
                limit
            };
        }
    }
    records
}

fn one_entry(records: &[i32], index: usize) -> Vec<i32> {
    let mut alone = vec![0; records.len()];
    alone[index] = records[index];
    alone
}

// Largest sum in a stage: its results times its divisor; after the first stage in eighths.
fn largest_sum(
    shape: &Shape,
    records: &[i32],
    point: &Point,
    order: &[usize],
    stage: usize,
) -> Int {
    let after = &stages_in_order(shape, records, point, order)[stage];
    let (_, divisor) = axis_weights(shape, point, order[stage]);
    let results = after.numbers().iter().map(|number| number.abs());
    let parts = if stage == 0 { 1 } else { 8 };
    let scale = Rational::whole(parts) * Rational::from(divisor);
    (results.max().expect("numbers") * scale).floor()
}

// The axis of a slope or curvature, x here, worked off first leaves 64 bits in the second stage.
fn check_axis_first(u: [u32; 3], want: Want) {
    let shape = Shape::new(3, 5, [2; 3]);
    let cell = [0; 3];
    let point = Point { cell, u, want };
    // Entries of order 2 along z are four times as large, so they lead the second stage.
    let mut records = extreme_records(&shape, &point);
    for node in model::block::corner_nodes(&shape, cell) {
        for orders in shape.record_orders() {
            let value = records[shape.entry_index(node, [orders[0], orders[1], 0])];
            let limit = model::shape::entry_limit(orders) as i32;
            records[shape.entry_index(node, orders)] = value.signum() * limit;
        }
    }
    let range = Int::from(2).power(63);
    assert!(largest_sum(&shape, &records, &point, &[0, 1, 2], 1) > range);
    for stage in 0..3 {
        assert!(largest_sum(&shape, &records, &point, &[1, 2, 0], stage) < range);
    }
}

#[test]
fn trap_slope_axis_first() {
    check_axis_first([128; 3], Slope(0));
}

#[test]
fn trap_curvature_axis_first() {
    check_axis_first([57, 128, 128], Curvature(0));
}

#[test]
fn axes_in_any_order_give_the_same_estimates() {
    let shape = Shape::new(3, 5, [3, 2, 4]);
    let samples: Vec<i32> = (0..24).map(|i| (i * i * 37 + 11 * i) % 101 - 50).collect();
    let first = records_by_axes(&shape, &samples, &[0, 1, 2]);
    for order in [[0, 2, 1], [1, 0, 2], [1, 2, 0], [2, 0, 1], [2, 1, 0]] {
        assert_eq!(records_by_axes(&shape, &samples, &order), first);
    }
}

#[test]
fn texts() {
    let samples = |text: &str| import(&line(3), text.as_bytes(), 2);
    let zeros = "0".repeat(58);
    let large = format!("0 1{zeros}e-58");
    for (text, first, second) in [
        ("5e-1 0.5", 50, 50),
        ("-0 0e99", 0, 0),
        ("\t-12.50E+1\r\n0e-400 ", -12500, 0),
        (&large[..], 0, 100),
    ] {
        assert_eq!(samples(text), Ok(vec![first, second]), "{text}");
    }
    let long = format!("0 0{zeros}000000");
    for (text, number, place) in [
        ("", 4, 0),
        ("1", 4, 0),
        ("1 2 01", 4, 0),
        (&long[..], 16, 2),
        ("01 1", 17, 0),
        ("1 \u{b}", 17, 2),
        ("1 1e-400", 18, 2),
        ("1e400 01", 5, 0),
        ("0 -327.69", 5, 1),
    ] {
        assert_eq!(samples(text), refused(number, place), "{text}");
    }
    assert_eq!(import(&line(3), b"01 1", 1), refused(9, 0));
}

#[test]
fn ramps() {
    let shape = Shape::new(1, 3, [3, 1, 1]);
    let records = records(&shape, &[0, 100, 200]);
    let asked = |steps: &[i32]| {
        let positions: Vec<i32> = steps.iter().flat_map(|&step| [step, 0, 0]).collect();
        ramp(&shape, &records, &positions, steps.len())
    };
    for (steps, answers, fetches) in [
        (&[][..], &[][..], 0),
        (&[64], &[25], 1),
        (&[0, 64, 255], &[0, 25, 100], 1),
        // A node is read in the upper cell, the last one in the last cell.
        (&[255, 256, 512], &[100, 100, 200], 2),
        (&[0, 256, 0], &[0, 100, 0], 3),
    ] {
        let ramped = asked(steps).expect("accepted ramp");
        assert_eq!((&ramped.answers[..], ramped.fetches), (answers, fetches));
    }
    assert_eq!(asked(&[0; 256]).map(|ramped| ramped.fetches), Ok(1));
    assert_eq!(asked(&[0; 257]), refused(20, 0));
    assert_eq!(asked(&[0, 513, -1]), refused(11, 1));
    assert_eq!(asked(&[0, -1, 513]), refused(22, 1));
    assert_eq!(ramp(&shape, &records, &[0; 4], 9), refused(20, 0));
    assert_eq!(ramp(&shape, &[], &[0; 4], 0), refused(20, 0));
    assert_eq!(ramp(&shape, &[], &[], 0), refused(4, 0));
    assert_eq!(ramp(&shape, &records, &[-1, 0, 0], 0), refused(9, 0));
    assert_eq!(ramp(&shape, &records, &[0, 0, -1], 1), refused(23, 0));
}

#[test]
fn curvatures() {
    let shape = Shape::new(1, 5, [3, 1, 1]);
    let records = records(&shape, &[0, 100, 400]);
    let asked = |p, axis| {
        query(
            &shape,
            &records,
            Where::Position([p, 0, 0]),
            Curvature(axis),
        )
    };
    // The borders continue the line; the node between has l - 2 f + r.
    assert_eq!(asked(0, 0), Ok(0));
    assert_eq!(asked(256, 0), Ok(200));
    assert_eq!(asked(512, 0), Ok(0));
    assert_eq!(asked(513, 0), refused(11, 0));
    assert_eq!(asked(513, 1), refused(12, 0));
    let cubic = Shape::new(1, 3, [3, 1, 1]);
    let asked = |records: &[i32], p, axis| {
        query(&cubic, records, Where::Position([p, 0, 0]), Curvature(axis))
    };
    assert_eq!(asked(&[0; 6], 0, 0), refused(21, 0));
    assert_eq!(asked(&[0; 6], -1, 0), refused(21, 0));
    assert_eq!(asked(&[0; 6], -1, 1), refused(12, 0));
    assert_eq!(asked(&[0; 5], -1, 1), refused(4, 0));
}

// The same sum of products with the weights of each order.
fn derived(weights: Vec<Int>, numbers: &[i64; 6]) -> Int {
    let products = weights.into_iter().zip(numbers);
    let product = |(weight, &number): (Int, &i64)| weight * Int::from(number);
    products.map(product).fold(Int::ZERO, |sum, x| sum + x)
}

#[test]
fn weights_are_derivatives_of_each_other() {
    // Central differences of five values are exact: 1, -8, 0, 8, -1 over 12 for degree 4 and below.
    for numbers in [
        [1, 0, 0, 0, 0, 0],
        [0, 1, 0, 0, 0, 0],
        [0, 0, 1, 0, 0, 0],
        [3, -5, 8, 13, -21, 34],
    ] {
        for (n, u) in [16, 256]
            .iter()
            .flat_map(|&n| (2..=n as u32 - 2).map(move |u| (n, u)))
        {
            let slope = |u| derived(slope_weights(5, Step::of(n, u)), &numbers);
            let eight = Int::from(8);
            let steps = slope(u - 2) - eight * slope(u - 1) + eight * slope(u + 1) - slope(u + 2);
            let curvature = derived(curvature_weights(5, Step::of(n, u)), &numbers);
            assert_eq!(steps, Int::from(12) * curvature, "{numbers:?} {u} of {n}");
        }
    }
}
