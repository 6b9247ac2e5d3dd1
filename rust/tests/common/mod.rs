//! What the tests share: random numbers, shapes, guarded buffers, pairs of faults, the program.

#![allow(dead_code)]

use crate::model;
use lukhtari::Shape;
use model::query::Where;
use model::shape::STEP_NUMBERS;
use model::Want;
use std::env;
use std::fmt::Debug;
use std::path::{Path, PathBuf};

// The key that holds every right.
pub const SERVICE: u32 = 3;

// Splitmix64: seeded and reproducible.
#[derive(Clone)]
pub struct Random(u64);

impl Random {
    pub fn new(seed: u64) -> Random {
        Random(seed)
    }

    pub fn next(&mut self) -> u64 {
        self.0 = self.0.wrapping_add(0x9E37_79B9_7F4A_7C15);
        let mut x = self.0;
        x = (x ^ x >> 30).wrapping_mul(0xBF58_476D_1CE4_E5B9);
        x = (x ^ x >> 27).wrapping_mul(0x94D0_49BB_1331_11EB);
        x ^ x >> 31
    }

    // A number from 0 to n - 1.
    pub fn below(&mut self, n: u64) -> u64 {
        self.next() % n
    }

    // A number from low to high, both included.
    pub fn range(&mut self, low: i64, high: i64) -> i64 {
        low + self.below((high - low) as u64 + 1) as i64
    }

    pub fn chance(&mut self, one_in: u64) -> bool {
        self.below(one_in) == 0
    }

    pub fn pick<T: Copy>(&mut self, from: &[T]) -> T {
        from[self.below(from.len() as u64) as usize]
    }

    // A number within the limit, often at it or near 0.
    pub fn within(&mut self, limit: i64) -> i32 {
        let value = match self.below(8) {
            0 => limit,
            1 => -limit,
            2 => self.range(-3, 3),
            _ => self.range(-limit, limit),
        };
        value as i32
    }

    // Samples of a file or text.
    pub fn samples(&mut self, nodes: usize) -> Vec<i32> {
        (0..nodes)
            .map(|_| self.within(model::shape::LIMIT))
            .collect()
    }

    // Samples that estimation takes.
    pub fn estimable(&mut self, shape: Shape) -> Vec<i32> {
        let limit = model::estimate::estimate_limit(shape.axes);
        (0..shape.nodes()).map(|_| self.within(limit)).collect()
    }

    // Records of a shape with every entry within its limit.
    pub fn records(&mut self, shape: Shape) -> Vec<i32> {
        let orders = plain_shape(shape).record_orders();
        let limits = orders.into_iter().map(model::shape::entry_limit);
        let limits: Vec<i64> = limits.collect();
        let entry = |index: usize| self.within(limits[index % limits.len()]);
        (0..shape.entries()).map(entry).collect()
    }

    // A shape of any edition with at most so many nodes on an axis, of 256 steps each.
    pub fn shape(&mut self, axes: u32, degree: u32, most: i64) -> Shape {
        let counts = [0, 1, 2].map(|axis| match axis < axes {
            true => self.range(2, most) as u32,
            false => 1,
        });
        in_edition(shape(axes, degree, counts), self.chance(2))
    }

    // Such a shape with any step number on each used axis.
    pub fn stepped(&mut self, axes: u32, degree: u32, most: i64) -> Shape {
        let shape = self.shape(axes, degree, most);
        self.any_steps(shape)
    }

    // The shape with any step number on each used axis.
    pub fn any_steps(&mut self, shape: Shape) -> Shape {
        in_steps(shape, [0; 3].map(|_| self.pick(&STEP_NUMBERS)))
    }
}

// A shape of edition one with 256 steps on each used axis.
pub fn shape(axes: u32, degree: u32, counts: [u32; 3]) -> Shape {
    Shape::new(axes, degree, counts)
}

// The shape with these step numbers on its used axes, 1 on the others.
pub fn in_steps(shape: Shape, numbers: [u32; 3]) -> Shape {
    let used = |axis: usize| axis < shape.axes as usize;
    let steps = [0, 1, 2].map(|axis| if used(axis) { numbers[axis] } else { 1 });
    Shape { steps, ..shape }
}

pub fn in_edition(shape: Shape, second_edition: bool) -> Shape {
    Shape {
        second_edition,
        ..shape
    }
}

// The shape in both editions.
pub fn editions(shape: Shape) -> [Shape; 2] {
    [false, true].map(|second| in_edition(shape, second))
}

// A shape with the same number of nodes on each used axis.
pub fn cube(axes: u32, degree: u32, count: u32) -> Shape {
    let counts = [0, 1, 2].map(|axis| if axis < axes { count } else { 1 });
    shape(axes, degree, counts)
}

// All six combinations of degree and number of axes.
pub const KINDS: [(u32, u32); 6] = [(1, 3), (2, 3), (3, 3), (1, 5), (2, 5), (3, 5)];

// All cells of a table, x fastest.
pub fn cells(shape: Shape) -> Vec<[u32; 3]> {
    let side = |count: u32| (count as usize - 1).max(1);
    let all = model::shape::indices(shape.counts.map(side));
    all.into_iter().map(|at| at.map(|i| i as u32)).collect()
}

// Index and limit of each entry of a cell's corners, in order.
pub fn corner_entries(shape: Shape, cell: [u32; 3]) -> Vec<(usize, i32)> {
    let shape = plain_shape(shape);
    let mut entries = Vec::new();
    for node in model::block::corner_nodes(&shape, cell) {
        for orders in shape.record_orders() {
            let limit = model::shape::entry_limit(orders) as i32;
            entries.push((shape.entry_index(node, orders), limit));
        }
    }
    entries
}

// A query for a dose, or for a slope or curvature along an axis.
#[derive(Clone, Debug)]
pub struct Query {
    pub shape: Shape,
    pub records: Vec<i32>,
    pub at: Where,
    pub want: Want,
}

impl Query {
    pub fn new(shape: Shape, records: Vec<i32>, at: Where, want: Want) -> Query {
        Query {
            shape,
            records,
            at,
            want,
        }
    }
}

// A dose and all slopes.
pub fn dose_and_slopes(axes: u32) -> Vec<Want> {
    (0..axes).map(Want::Slope).chain([Want::Dose]).collect()
}

// All that a shape has: a dose, all slopes and, if it is quintic, all curvatures.
pub fn wants(shape: Shape) -> Vec<Want> {
    let mut all = dose_and_slopes(shape.axes);
    if shape.degree == 5 {
        all.extend((0..shape.axes).map(Want::Curvature));
    }
    all
}

// The model's shape.
pub fn plain_shape(shape: Shape) -> model::Shape {
    model::Shape::new(shape.axes, shape.degree, shape.counts)
        .in_steps(shape.steps)
        .in_edition(shape.second_edition)
}

// The library's answer with the model's refusal.
pub fn plain<T>(answer: Result<T, lukhtari::Refusal>) -> model::Answer<T> {
    answer.map_err(|refusal| model::Refusal {
        number: refusal.number,
        place: refusal.place,
    })
}

pub fn refused<T>(number: u32, place: u64) -> model::Answer<T> {
    Err(model::Refusal { number, place })
}

pub fn outcome<T>(answer: &model::Answer<T>) -> model::Answer<()> {
    answer.as_ref().map(|_| ()).map_err(|refusal| *refusal)
}

// Largest distance of an answer from the exact interpolant or its derivative, by its order.
pub fn distance_bound(axes: u32, order: u32) -> model::Rational {
    let (dividend, divisor) = match (order, axes) {
        (0, 3) => (173, 256),
        (0, 2) => (37, 64),
        (1, 3) => (77, 64),
        (1, 2) => (13, 16),
        (2, 3) => (11, 4),
        (2, 2) => (3, 2),
        _ => (1, 2),
    };
    model::Rational::ratio(dividend, divisor)
}

pub trait Guard: Copy + PartialEq + Debug {
    fn guard(index: usize) -> Self;
}

impl Guard for i32 {
    fn guard(index: usize) -> i32 {
        0x5A5A_0000 ^ (index as i32).wrapping_mul(0x9E37)
    }
}

impl Guard for u8 {
    fn guard(index: usize) -> u8 {
        (index as u8).wrapping_mul(37) ^ 0xA5
    }
}

const MARGIN: usize = 16;

// A buffer of guard values to lend, with more of them before and after.
pub struct Lent<T>(Vec<T>);

impl<T: Guard> Lent<T> {
    pub fn new(room: usize) -> Lent<T> {
        Lent((0..room + 2 * MARGIN).map(T::guard).collect())
    }

    pub fn slice(&mut self) -> &mut [T] {
        let end = self.0.len() - MARGIN;
        &mut self.0[MARGIN..end]
    }

    // The buffer starts with what was to be written; all else is as it was.
    #[track_caller]
    pub fn check(&self, written: &[T]) {
        let end = MARGIN + written.len();
        assert!(self.0[MARGIN..end] == *written, "wrong contents");
        let outside = (0..MARGIN).chain(end..self.0.len());
        for index in outside {
            assert_eq!(self.0[index], T::guard(index), "overwritten at {index}");
        }
    }
}

// A fault in a call, and the refusal it alone leads to.
pub struct Fault<C> {
    pub number: u32,
    pub place: u64,
    pub make: Box<dyn Fn(&mut C)>,
}

pub fn fault<C>(number: u32, place: u64, make: impl Fn(&mut C) + 'static) -> Fault<C> {
    let make = Box::new(make);
    Fault {
        number,
        place,
        make,
    }
}

// A call without fault, with each fault alone, and with any two: the earlier in the list decides.
#[track_caller]
pub fn check_faults<C: Clone>(
    call: &C,
    faults: &[Fault<C>],
    run: impl Fn(&C) -> model::Answer<()>,
) {
    assert_eq!(run(call), Ok(()), "without fault");
    for (first, earlier) in faults.iter().enumerate() {
        for (second, later) in faults.iter().enumerate().skip(first) {
            let mut faulty = call.clone();
            (later.make)(&mut faulty);
            (earlier.make)(&mut faulty);
            let expected = refused(earlier.number, earlier.place);
            assert_eq!(run(&faulty), expected, "faults {first} and {second}");
        }
    }
}

// Refusal 9 in rooms below the call's own, none in larger ones.
#[track_caller]
pub fn check_rooms<C: Clone>(
    call: &C,
    room_of: fn(&mut C) -> &mut usize,
    run: impl Fn(&C) -> model::Answer<()>,
) {
    let needed = *room_of(&mut call.clone());
    let rooms = [0, 1, needed / 2, needed - 1, needed, needed + 1];
    for room in rooms.into_iter().chain([needed + 217, needed + 1000]) {
        let mut other = call.clone();
        *room_of(&mut other) = room;
        let expected = if room < needed { refused(9, 0) } else { Ok(()) };
        assert_eq!(run(&other), expected, "room {room}");
    }
}

// The refusal of each wrong shape in a call that is right for the cube of two nodes an axis.
#[track_caller]
pub fn check_wrong_shapes<C: Clone>(
    axes: u32,
    degree: u32,
    call_of: impl Fn(Shape) -> C,
    shape_of: fn(&mut C) -> &mut Shape,
    run: impl Fn(&C) -> model::Answer<()>,
) {
    for (shape, number, place) in wrong_shapes(axes, degree) {
        let mut call = call_of(cube(axes, degree, 2));
        *shape_of(&mut call) = shape;
        assert_eq!(run(&call), refused(number, place), "{shape:?}");
    }
}

// The faults of a shape in order: 1, 2, 3 on each axis, 26 on each axis.
pub fn shape_faults<C: 'static>(shape_of: fn(&mut C) -> &mut Shape, axes: u32) -> Vec<Fault<C>> {
    let mut faults = vec![
        fault(1, 0, move |call| shape_of(call).axes = 4),
        fault(2, 0, move |call| shape_of(call).degree = 4),
    ];
    for axis in 0..3 {
        let wrong = if axis < axes as usize { 65 } else { 2 };
        let make = move |call: &mut C| shape_of(call).counts[axis] = wrong;
        faults.push(fault(3, axis as u64, make));
    }
    for axis in 0..3 {
        let wrong = if axis < axes as usize { 1 } else { 256 };
        let make = move |call: &mut C| shape_of(call).steps[axis] = wrong;
        faults.push(fault(26, axis as u64, make));
    }
    faults
}

// Shapes with one wrong number, and the refusal of each.
pub fn wrong_shapes(axes: u32, degree: u32) -> Vec<(Shape, u32, u64)> {
    let right = cube(axes, degree, 2);
    let mut wrong = Vec::new();
    for axes in [0, 4, 5, 256 + 1, u32::MAX] {
        wrong.push((Shape { axes, ..right }, 1, 0));
    }
    for degree in [0, 1, 2, 4, 6, 7, 256 + 3, u32::MAX] {
        wrong.push((Shape { degree, ..right }, 2, 0));
    }
    for axis in 0..3 {
        let used = axis < axes as usize;
        let counts = if used {
            [0, 1, 65, 258]
        } else {
            [0, 2, 64, 257]
        };
        for count in counts.into_iter().chain([u32::MAX]) {
            let mut shape = right;
            shape.counts[axis] = count;
            wrong.push((shape, 3, axis as u64));
        }
        for steps in wrong_steps(used) {
            let mut shape = right;
            shape.steps[axis] = steps;
            wrong.push((shape, 26, axis as u64));
        }
    }
    wrong
}

// Numbers that are no step numbers of a used axis, or of an unused one.
pub fn wrong_steps(used: bool) -> Vec<u32> {
    let far = [0, 2, 15, 17, 48, 255, 257, 512, 1 << 24, (1 << 24) + 1];
    let mut wrong = far.to_vec();
    wrong.extend([(1 << 31) + 16, u32::MAX - 255, u32::MAX]);
    match used {
        true => wrong.extend([1, 4, 8, 31, 33, 63, 65, 127, 129, 65_536 + 256]),
        false => wrong.extend(STEP_NUMBERS),
    }
    wrong
}

pub fn repository() -> PathBuf {
    let root = Path::new(env!("CARGO_MANIFEST_DIR")).join("..");
    root.canonicalize().expect("the repository")
}

// The program: LUKHTARI_PROGRAM, or crates/cell_doses/out/cell_doses of the repository.
pub fn program() -> PathBuf {
    let path = match env::var_os("LUKHTARI_PROGRAM") {
        Some(path) => PathBuf::from(path),
        None => repository().join("crates/cell_doses/out/cell_doses"),
    };
    let shown = path.display();
    assert!(path.exists(), "{shown} is missing: run `rt ci`");
    path
}
