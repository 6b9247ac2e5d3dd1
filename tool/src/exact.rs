//! The exact interpolant, from a cell's coefficients and the weights of `docs/FORMAT.md`.

use lukhtari::Shape;
use std::fmt;

// Derivatives along each axis.
pub type Orders = [u32; 3];

// Bits of the lower part of a sum.
const LOW: u32 = 60;

// A number whose divisor is a power of two: whole + part/2^bits, the part from 0 to below 1.
#[derive(Clone, Copy, Debug, PartialEq, Eq)]
pub struct Exact {
    whole: i128,
    part: u128,
    bits: u32,
}

impl Exact {
    // The exact value of a cell with these coefficients at steps within it.
    pub fn new(shape: Shape, coefficients: &[i32], u: [u32; 3], orders: Orders) -> Exact {
        let axes = 0..shape.axes as usize;
        let weights: Vec<Vec<i128>> = axes
            .clone()
            .map(|axis| axis_weights(shape, axis, u[axis], orders[axis]))
            .collect();
        let side = shape.degree as usize + 1;
        let (mut high, mut low) = (0_i128, 0_i128);
        for (index, &coefficient) in coefficients.iter().enumerate() {
            let digit = |axis: usize| index / side.pow(axis as u32) % side;
            let weight: i128 = weights
                .iter()
                .enumerate()
                .map(|(axis, weights)| weights[digit(axis)])
                .product();
            high += i128::from(coefficient) * (weight >> LOW);
            low += i128::from(coefficient) * (weight & mask(LOW) as i128);
        }
        let bits = axes
            .map(|axis| 1 + shape.steps[axis].ilog2() * (shape.degree - orders[axis]))
            .sum();
        Exact::from_parts(high + (low >> LOW), low as u128 & mask(LOW), bits)
    }

    // (high·2^60 + low)/2^bits, where low is below 2^60.
    fn from_parts(high: i128, low: u128, bits: u32) -> Exact {
        if bits < LOW {
            let whole = (high << (LOW - bits)) + (low >> bits) as i128;
            return Exact {
                whole,
                part: low & mask(bits),
                bits,
            };
        }
        let above = bits - LOW;
        let part = (high as u128 & mask(above)) << LOW | low;
        Exact {
            whole: high >> above,
            part,
            bits,
        }
    }

    // A decimal number near it.
    pub fn near(self) -> f64 {
        self.whole as f64 + self.part as f64 / 2_f64.powi(self.bits as i32)
    }

    // How far a whole number is from it.
    pub fn distance(self, answer: i32) -> Exact {
        let Exact { whole, part, bits } = self;
        let whole = whole - i128::from(answer);
        if whole >= 0 {
            return Exact { whole, part, bits };
        }
        match part {
            0 => Exact {
                whole: -whole,
                part,
                bits,
            },
            _ => Exact {
                whole: -whole - 1,
                part: (1 << bits) - part,
                bits,
            },
        }
    }
}

fn mask(bits: u32) -> u128 {
    (1 << bits) - 1
}

// The weights of an axis at step u, differentiated so many times.
fn axis_weights(shape: Shape, axis: usize, u: u32, order: u32) -> Vec<i128> {
    let (high, low) = (i128::from(u), i128::from(shape.steps[axis]) - i128::from(u));
    let degree = shape.degree;
    let weight = |index: u32| {
        let term = |up: u32| {
            let down = order - up;
            let factor = choose(order, up) * falling(index, up) * falling(degree - index, down);
            if factor == 0 {
                return 0;
            }
            let sign = if down % 2 == 0 { 1 } else { -1 };
            sign * factor * low.pow(degree - index - down) * high.pow(index - up)
        };
        (0..=order).map(term).sum()
    };
    (0..=degree).map(weight).collect()
}

// n·(n − 1)·.. with so many factors.
fn falling(n: u32, factors: u32) -> i128 {
    (0..factors)
        .map(|k| i128::from(n) - i128::from(k))
        .product()
}

fn choose(n: u32, k: u32) -> i128 {
    falling(n, k) / falling(k, k)
}

impl fmt::Display for Exact {
    fn fmt(&self, f: &mut fmt::Formatter) -> fmt::Result {
        let negative = self.whole < 0;
        let Exact { whole, part, bits } = if negative { self.distance(0) } else { *self };
        let sign = if negative { "-" } else { "" };
        let shift = if part == 0 {
            bits
        } else {
            part.trailing_zeros()
        };
        let (part, divisor) = (part >> shift, 1_u128 << (bits - shift));
        match (whole, part) {
            (_, 0) => write!(f, "{sign}{whole}"),
            (0, _) => write!(f, "{sign}{part}/{divisor}"),
            _ => write!(f, "{sign}{whole} {part}/{divisor}"),
        }
    }
}
