//! The two ways to work off an axis: the stage as printed, and the table folded into the weights.

// Numbers of a line: the low end's orders, then the high end's; S is degree + 1. Weights are those
// of a derivative of an order.
pub trait Method {
    fn weights<const S: usize>(u: u32, order: u32) -> [i64; S];
    fn sum<const S: usize>(line: &[i64; S], weights: &[i64; S]) -> i64;
}

// Coefficients by the table, then their weighted sum.
pub struct Printed;

// One weight for each number.
pub struct Folded;

impl Method for Printed {
    #[inline(always)]
    fn weights<const S: usize>(u: u32, order: u32) -> [i64; S] {
        match order {
            0 => weights(u),
            1 => slope_weights(u),
            _ => curvature_weights(u),
        }
    }

    #[inline(always)]
    fn sum<const S: usize>(line: &[i64; S], weights: &[i64; S]) -> i64 {
        dot(&coefficients(line), weights)
    }
}

impl Method for Folded {
    #[inline(always)]
    fn weights<const S: usize>(u: u32, order: u32) -> [i64; S] {
        fold(Printed::weights(u, order))
    }

    #[inline(always)]
    fn sum<const S: usize>(line: &[i64; S], weights: &[i64; S]) -> i64 {
        dot(line, weights)
    }
}

#[inline(always)]
fn dot<const S: usize>(a: &[i64; S], b: &[i64; S]) -> i64 {
    let mut sum = 0;
    for i in 0..S {
        sum += a[i] * b[i];
    }
    sum
}

// Powers from 0 to S - 1.
#[inline(always)]
fn powers<const S: usize>(base: i64) -> [i64; S] {
    let mut powers = [1; S];
    for i in 1..S {
        powers[i] = powers[i - 1] * base;
    }
    powers
}

#[inline(always)]
fn weights<const S: usize>(u: u32) -> [i64; S] {
    let (rest, step) = (powers::<S>(256 - u as i64), powers::<S>(u as i64));
    let mut weights = [0; S];
    for i in 0..S {
        weights[i] = rest[S - 1 - i] * step[i];
    }
    weights
}

#[inline(always)]
fn slope_weights<const S: usize>(u: u32) -> [i64; S] {
    let (rest, step) = (powers::<S>(256 - u as i64), powers::<S>(u as i64));
    let mut weights = [0; S];
    for i in 0..S {
        let left = S - 1 - i;
        if i > 0 {
            weights[i] += i as i64 * rest[left] * step[i - 1];
        }
        if left > 0 {
            weights[i] -= left as i64 * rest[left - 1] * step[i];
        }
    }
    weights
}

#[inline(always)]
fn curvature_weights<const S: usize>(u: u32) -> [i64; S] {
    let (rest, step) = (powers::<S>(256 - u as i64), powers::<S>(u as i64));
    let mut weights = [0; S];
    for i in 0..S {
        let left = S - 1 - i;
        if i > 1 {
            weights[i] += (i * (i - 1)) as i64 * rest[left] * step[i - 2];
        }
        if i > 0 && left > 0 {
            weights[i] -= (2 * i * left) as i64 * rest[left - 1] * step[i - 1];
        }
        if left > 1 {
            weights[i] += (left * (left - 1)) as i64 * rest[left - 2] * step[i];
        }
    }
    weights
}

// The table of one axis.
#[inline(always)]
fn coefficients<const S: usize>(n: &[i64; S]) -> [i64; S] {
    let mut c = [0; S];
    if S == 4 {
        c[0] = 2 * n[0];
        c[1] = 6 * n[0] + n[1];
        c[2] = 6 * n[2] - n[3];
        c[3] = 2 * n[2];
    } else {
        c[0] = 2 * n[0];
        c[1] = 10 * n[0] + n[1];
        c[2] = 20 * n[0] + 4 * n[1] + n[2];
        c[3] = 20 * n[3] - 4 * n[4] + n[5];
        c[4] = 10 * n[3] - n[4];
        c[5] = 2 * n[3];
    }
    c
}

// The weight of each number of the two ends.
#[inline(always)]
fn fold<const S: usize>(w: [i64; S]) -> [i64; S] {
    let mut f = [0; S];
    if S == 4 {
        f[0] = 2 * w[0] + 6 * w[1];
        f[1] = w[1];
        f[2] = 6 * w[2] + 2 * w[3];
        f[3] = -w[2];
    } else {
        f[0] = 2 * w[0] + 10 * w[1] + 20 * w[2];
        f[1] = w[1] + 4 * w[2];
        f[2] = w[2];
        f[3] = 20 * w[3] + 10 * w[4] + 2 * w[5];
        f[4] = -4 * w[3] - w[4];
        f[5] = w[3];
    }
    f
}
