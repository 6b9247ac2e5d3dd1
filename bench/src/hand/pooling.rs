//! Pooling of two lattices in three ways: one signed division a sample in 64 bits, one unsigned
//! division in 32 bits, and a multiplication by a reciprocal.

use super::checks::*;
use lukhtari::{Measurement, Shape};

// 1, 2, 3 and 26: the earlier number decides, then the first lattice.
fn check_shapes(a: Shape, b: Shape) -> Answer<()> {
    match [a, b].map(check_shape) {
        [Err(first), Err(second)] if second.number < first.number => Err(second),
        [first, second] => first.and(second),
    }
}

// All refusals.
fn check(a: Measurement, b: Measurement, out: &[i32]) -> Answer<()> {
    check_shapes(a.shape, b.shape)?;
    if a.shape != b.shape {
        return refuse(27, 0);
    }
    if a.weight > 10_000 || b.weight > 10_000 || a.weight + b.weight == 0 {
        return refuse(28, 0);
    }
    let nodes = nodes(a.shape);
    if a.samples.len() != nodes || b.samples.len() != nodes {
        return refuse(4, 0);
    }
    if out.len() < nodes {
        return refuse(9, 0);
    }
    check_samples(a.samples)?;
    check_samples(b.samples)
}

// 5
fn check_samples(samples: &[i32]) -> Answer<()> {
    let beyond = |sample: &i32| sample.unsigned_abs() > 32768;
    match samples.iter().position(beyond) {
        Some(index) => refuse(5, index),
        None => Ok(()),
    }
}

// Writes one number for each pair of samples.
#[inline(always)]
fn fill(a: Measurement, b: Measurement, out: &mut [i32], pooled: impl Fn(i32, i32) -> i32) {
    let pairs = a.samples.iter().zip(b.samples);
    for (to, (&x, &y)) in out.iter_mut().zip(pairs) {
        *to = pooled(x, y);
    }
}

pub fn signed(a: Measurement, b: Measurement, out: &mut [i32]) -> Answer<()> {
    check(a, b, out)?;
    let [v, w] = [a.weight, b.weight].map(i64::from);
    let sum = v + w;
    fill(a, b, out, |x, y| {
        let twice = 2 * (i64::from(x) * v + i64::from(y) * w);
        (twice + sum).div_euclid(2 * sum) as i32
    });
    Ok(())
}

// A sample, lifted so that it has no sign.
#[inline(always)]
fn lifted(sample: i32) -> u32 {
    (sample + 32768) as u32
}

pub fn unsigned(a: Measurement, b: Measurement, out: &mut [i32]) -> Answer<()> {
    check(a, b, out)?;
    let (v, w) = (a.weight, b.weight);
    let sum = v + w;
    fill(a, b, out, |x, y| {
        let twice = 2 * (lifted(x) * v + lifted(y) * w);
        ((twice + sum) / (2 * sum)) as i32 - 32768
    });
    Ok(())
}

// The quotient by 2^47/d + 1 is exact: the dividend times the divisor is below 2^47.
pub fn reciprocal(a: Measurement, b: Measurement, out: &mut [i32]) -> Answer<()> {
    check(a, b, out)?;
    let (v, w) = (a.weight, b.weight);
    let sum = v + w;
    let factor = (1 << 47) / u64::from(2 * sum) + 1;
    fill(a, b, out, |x, y| {
        let twice = 2 * (lifted(x) * v + lifted(y) * w);
        ((u64::from(twice + sum) * factor) >> 47) as i32 - 32768
    });
    Ok(())
}
