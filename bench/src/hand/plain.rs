//! Doses, slopes and curvatures in plain Rust: one copy of the code for both degrees and all
//! numbers of axes.
//!
//! A cell has 2m numbers along an axis, four or six: the low end's orders, then the high end's.

use super::checks::{first_beyond, Answer};
use super::method::{Folded, Printed};
use super::point::Point;
use super::query::Form;
use super::stages::{round, Limits};
use lukhtari::Shape;
use std::marker::PhantomData;

// One copy of the code for all shapes.
pub struct Plain<X>(PhantomData<X>);

impl<X: Way> Form for Plain<X> {
    fn at(shape: Shape, records: &[i32], point: Point) -> Answer<i32> {
        by_point::<X>(shape, records, point)
    }
}

fn by_point<X: Way>(shape: Shape, records: &[i32], point: Point) -> Answer<i32> {
    let cell = Cell::new(shape, point.cell);
    cell.check(records)?;
    // The axis of a slope or curvature comes last.
    let order = match (cell.axes, point.want.axis()) {
        (2, Some(0)) => [1, 0, 2],
        (3, Some(0)) => [1, 2, 0],
        (3, Some(1)) => [0, 2, 1],
        _ => [0, 1, 2],
    };
    let even = shape.second_edition;
    let stage = |place: usize| cell.stage::<X>(place, order[place], point, even);
    let first = stage(0);
    let second = stage(1);
    let third = stage(2);
    let mut planes = [0; 6];
    for (plane, z) in planes.iter_mut().zip(third.offsets()) {
        let mut lines = [0; 6];
        for (line, y) in lines.iter_mut().zip(second.offsets()) {
            let numbers = first.numbers(&records[cell.start + y + z..]);
            *line = first.work_off::<X>(&numbers);
        }
        *plane = second.work_off::<X>(&lines);
    }
    Ok(third.work_off::<X>(&planes) as i32)
}

// Where the corner records of a cell stand: the first, and how far the next is along each axis.
struct Cell {
    axes: usize,
    m: usize,
    start: usize,
    far: [usize; 3],
}

impl Cell {
    fn new(shape: Shape, index: [u32; 3]) -> Cell {
        let axes = shape.axes as usize;
        let m = shape.degree as usize / 2 + 1;
        let record = [m, m * m, m * m * m][axes - 1];
        let [cx, cy, _] = shape.counts.map(|count| count as usize);
        let far = [record, record * cx, record * cx * cy];
        let [x, y, z] = index.map(|index| index as usize);
        let start = x * far[0] + y * far[1] + z * far[2];
        Cell {
            axes,
            m,
            start,
            far,
        }
    }

    // 5, for the two records of each row along x
    fn check(&self, records: &[i32]) -> Answer<()> {
        let [x, y, z] = self.far;
        let limits = match self.m {
            2 => &Limits::<4, 8>::EACH[..x],
            _ => &Limits::<6, 27>::EACH[..x],
        };
        for row in 0..1 << (self.axes - 1) {
            let start = self.start + (row & 1) * y + (row >> 1) * z;
            let (low, high) = records[start..][..2 * x].split_at(x);
            let (mut low_beyond, mut high_beyond) = (false, false);
            for ((low, high), limit) in low.iter().zip(high).zip(limits) {
                low_beyond |= is_beyond(*low, *limit);
                high_beyond |= is_beyond(*high, *limit);
            }
            if low_beyond {
                return Err(first_beyond(low, limits, start));
            }
            if high_beyond {
                return Err(first_beyond(high, limits, start + x));
            }
        }
        Ok(())
    }

    // The stage of an axis at its place in the order.
    fn stage<X: Way>(&self, place: usize, axis: usize, point: Point, even: bool) -> Stage {
        if place >= self.axes {
            return UNUSED;
        }
        let last = place + 1 == self.axes;
        let order = if last { point.want.order() } else { 0 };
        let count = 2 * self.m;
        // The divisor is 2 256^d, 2 256^(d-1) of a slope, 2 256^(d-2) of a curvature.
        let divisor_bits = 1 + 8 * (count as u32 - 1 - order);
        let from_eighths = 3 * u32::from(place > 0);
        let to_eighths = 3 * u32::from(!last);
        Stage {
            count,
            offsets: self.offsets(axis),
            weights: X::weights(count, point.u[axis], order),
            bits: divisor_bits + from_eighths - to_eighths,
            even,
        }
    }

    // From the first number along an axis to each of them.
    fn offsets(&self, axis: usize) -> [usize; 6] {
        let far = self.far[axis];
        let near = [1, self.m, self.m * self.m][axis];
        match self.m {
            2 => [0, near, far, far + near, 0, 0],
            _ => [0, near, 2 * near, far, far + near, far + 2 * near],
        }
    }
}

fn is_beyond(entry: i32, limit: i32) -> bool {
    entry.wrapping_add(limit) as u32 > 2 * limit as u32
}

// One axis: where its numbers stand, their weights, the bits that are rounded off, and whether
// halves go to the even number.
struct Stage {
    count: usize,
    offsets: [usize; 6],
    weights: [i64; 6],
    bits: u32,
    even: bool,
}

// An unused axis has one number, which stays as it is.
const UNUSED: Stage = Stage {
    count: 1,
    offsets: [0; 6],
    weights: [0; 6],
    bits: 0,
    even: false,
};

impl Stage {
    fn offsets(&self) -> &[usize] {
        &self.offsets[..self.count]
    }

    // The numbers along a used axis, from the records from the first number on.
    fn numbers(&self, records: &[i32]) -> [i64; 6] {
        let number = |place: usize| records[self.offsets[place]] as i64;
        let (fifth, sixth) = match self.count {
            4 => (0, 0),
            _ => (number(4), number(5)),
        };
        [number(0), number(1), number(2), number(3), fifth, sixth]
    }

    // The rounded sum.
    fn work_off<X: Way>(&self, numbers: &[i64; 6]) -> i64 {
        if self.count == 1 {
            return numbers[0];
        }
        let sum = X::sum(self.count, numbers, &self.weights);
        round(sum, self.bits, self.even)
    }
}

// The two ways to work off an axis; arrays are filled up to a count of four or six.
pub trait Way {
    fn weights(count: usize, u: u32, order: u32) -> [i64; 6];
    fn sum(count: usize, numbers: &[i64; 6], weights: &[i64; 6]) -> i64;
}

impl Way for Printed {
    fn weights(count: usize, u: u32, order: u32) -> [i64; 6] {
        match order {
            0 => dose_weights(count, u),
            1 => slope_weights(count, u),
            _ => curvature_weights(u),
        }
    }

    // Each weight times its coefficient by the table of one axis.
    fn sum(count: usize, numbers: &[i64; 6], w: &[i64; 6]) -> i64 {
        match (count, *numbers) {
            (4, [f, d, g, e, ..]) => {
                w[0] * (2 * f) + w[1] * (6 * f + d) + w[2] * (6 * g - e) + w[3] * (2 * g)
            }
            (_, [f, d, s, g, e, t]) => {
                let low = w[0] * (2 * f) + w[1] * (10 * f + d) + w[2] * (20 * f + 4 * d + s);
                let high = w[3] * (20 * g - 4 * e + t) + w[4] * (10 * g - e) + w[5] * (2 * g);
                low + high
            }
        }
    }
}

impl Way for Folded {
    fn weights(count: usize, u: u32, order: u32) -> [i64; 6] {
        fold(count, Printed::weights(count, u, order))
    }

    // Each weight times its number.
    fn sum(count: usize, n: &[i64; 6], w: &[i64; 6]) -> i64 {
        let four = w[0] * n[0] + w[1] * n[1] + w[2] * n[2] + w[3] * n[3];
        match count {
            4 => four,
            _ => four + w[4] * n[4] + w[5] * n[5],
        }
    }
}

fn dose_weights(count: usize, u: u32) -> [i64; 6] {
    let (a, b) = (256 - u as i64, u as i64);
    let (a2, ab, b2) = (a * a, a * b, b * b);
    let (a3, b3) = (a2 * a, b2 * b);
    match count {
        4 => [a3, a2 * b, a * b2, b3, 0, 0],
        _ => [a3 * a2, a3 * ab, a3 * b2, a2 * b3, ab * b3, b2 * b3],
    }
}

fn slope_weights(count: usize, u: u32) -> [i64; 6] {
    let (a, b) = (256 - u as i64, u as i64);
    let (a2, ab, b2) = (a * a, a * b, b * b);
    match count {
        4 => [-3 * a2, a2 - 2 * ab, 2 * ab - b2, 3 * b2, 0, 0],
        _ => [
            -5 * a2 * a2,
            a2 * (a2 - 4 * ab),
            ab * (2 * a2 - 3 * ab),
            ab * (3 * ab - 2 * b2),
            b2 * (4 * ab - b2),
            5 * b2 * b2,
        ],
    }
}

// In degree 5, which alone has them.
fn curvature_weights(u: u32) -> [i64; 6] {
    let (a, b) = (256 - u as i64, u as i64);
    let (a2, ab, b2) = (a * a, a * b, b * b);
    [
        20 * a2 * a,
        a2 * (12 * b - 8 * a),
        a * (2 * a2 - 12 * ab + 6 * b2),
        b * (2 * b2 - 12 * ab + 6 * a2),
        b2 * (12 * a - 8 * b),
        20 * b2 * b,
    ]
}

// The table of one axis folded into the weights.
fn fold(count: usize, w: [i64; 6]) -> [i64; 6] {
    match count {
        4 => [2 * w[0] + 6 * w[1], w[1], 6 * w[2] + 2 * w[3], -w[2], 0, 0],
        _ => [
            2 * w[0] + 10 * w[1] + 20 * w[2],
            w[1] + 4 * w[2],
            w[2],
            20 * w[3] + 10 * w[4] + 2 * w[5],
            -4 * w[3] - w[4],
            w[3],
        ],
    }
}
