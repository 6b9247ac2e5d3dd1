//! Tables and points.

use lukhtari::Shape;

pub struct Random(u64);

impl Random {
    pub fn new(seed: u64) -> Random {
        Random(seed)
    }

    // Splitmix64.
    pub fn below(&mut self, n: u64) -> u64 {
        self.0 = self.0.wrapping_add(0x9E37_79B9_7F4A_7C15);
        let mut x = self.0;
        x = (x ^ x >> 30).wrapping_mul(0xBF58_476D_1CE4_E5B9);
        x = (x ^ x >> 27).wrapping_mul(0x94D0_49BB_1331_11EB);
        (x ^ x >> 31) % n
    }
}

// What is asked for: a dose, or a slope or curvature along an axis.
#[derive(Clone, Copy, PartialEq)]
pub enum Want {
    Dose,
    Slope(u32),
    Curvature(u32),
}

impl Want {
    // The order of the derivative.
    #[inline(always)]
    pub fn order(self) -> u32 {
        match self {
            Want::Dose => 0,
            Want::Slope(_) => 1,
            Want::Curvature(_) => 2,
        }
    }

    // Its axis.
    #[inline(always)]
    pub fn axis(self) -> Option<u32> {
        match self {
            Want::Dose => None,
            Want::Slope(axis) | Want::Curvature(axis) => Some(axis),
        }
    }
}

pub const KINDS: [(u32, u32); 6] = [(3, 1), (3, 2), (3, 3), (5, 1), (5, 2), (5, 3)];

// A shape of edition one with the same number of nodes on each used axis, of 256 steps each.
pub fn cube(degree: u32, axes: u32, count: u32) -> Shape {
    let counts = [0, 1, 2].map(|axis| if axis < axes { count } else { 1 });
    Shape::new(axes, degree, counts)
}

// A smooth table with some noise.
pub fn samples(shape: Shape) -> Vec<i32> {
    let mut random = Random::new(7);
    let [cx, cy, _] = shape.counts.map(|count| count as usize);
    let sample = |node: usize| {
        let [x, y, z] = [node % cx, node / cx % cy, node / cx / cy].map(|i| i as i32);
        200 * x - 150 * y + 90 * z + 7 * x * y - 5 * y * z + random.below(500) as i32
    };
    (0..shape.nodes()).map(sample).collect()
}

// The same, made smaller so that estimation takes it.
pub fn estimable(shape: Shape) -> Vec<i32> {
    let smaller = |sample: i32| sample >> shape.axes;
    samples(shape).into_iter().map(smaller).collect()
}

// Random points within a table, as positions in steps.
pub fn positions(shape: Shape, number: usize) -> Vec<[i32; 3]> {
    let mut random = Random::new(11);
    let mut step = |axis: usize| {
        let last = shape.steps[axis] as u64 * (shape.counts[axis] as u64 - 1);
        random.below(last + 1) as i32
    };
    (0..number).map(|_| [0, 1, 2].map(&mut step)).collect()
}

// The cell and in-cell steps of a position.
#[inline]
pub fn cell_and_u(shape: Shape, position: [i32; 3]) -> ([u32; 3], [u32; 3]) {
    let mut cell = [0; 3];
    let mut u = [0; 3];
    for axis in 0..shape.axes as usize {
        let p = position[axis] as u32;
        let steps = shape.steps[axis];
        cell[axis] = (p / steps).min(shape.counts[axis] - 2);
        u[axis] = p - steps * cell[axis];
    }
    (cell, u)
}
