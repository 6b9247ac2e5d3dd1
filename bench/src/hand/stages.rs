//! Doses, slopes and curvatures specialised by degree, number of axes and edition: the stages,
//! straight from the corner records.
//!
//! S is degree + 1, the numbers of a line; R is the entries of a record; E is edition two.

use super::checks::{first_beyond, Answer};
use super::method::Method;
use super::point::Point;
use super::query::Form;
use lukhtari::Shape;
use std::marker::PhantomData;

// One copy of the code for each degree, number of axes and edition.
pub struct Specialised<X>(PhantomData<X>);

impl<X: Method> Form for Specialised<X> {
    #[inline(always)]
    fn at(shape: Shape, records: &[i32], point: Point) -> Answer<i32> {
        match (shape.degree, shape.axes) {
            (3, 1) => line::<X, 4, 2>(shape, records, point),
            (3, 2) => square::<X, 4, 4>(shape, records, point),
            (3, _) => cube::<X, 4, 8>(shape, records, point),
            (_, 1) => line::<X, 6, 3>(shape, records, point),
            (_, 2) => square::<X, 6, 9>(shape, records, point),
            (_, _) => cube::<X, 6, 27>(shape, records, point),
        }
    }
}

// The limit of each entry of a record.
pub struct Limits<const S: usize, const R: usize>;

impl<const S: usize, const R: usize> Limits<S, R> {
    pub const EACH: [i32; R] = {
        let m = S / 2;
        let mut limits = [0; R];
        let mut entry = 0;
        while entry < R {
            limits[entry] = 32768 << (entry % m + entry / m % m + entry / m / m);
            entry += 1;
        }
        limits
    };
}

// A node's record, tested.
#[inline(always)]
pub fn record<const S: usize, const R: usize>(records: &[i32], node: usize) -> Answer<&[i32; R]> {
    let start = R * node;
    let record: &[i32; R] = records[start..start + R].try_into().unwrap();
    let limits = &Limits::<S, R>::EACH;
    let mut beyond = false;
    for entry in 0..R {
        let limit = limits[entry];
        beyond |= record[entry].wrapping_add(limit) as u32 > 2 * limit as u32;
    }
    if beyond {
        return Err(first_beyond(record, limits, start));
    }
    Ok(record)
}

// To the nearest: halves up, or to the even number.
#[inline(always)]
pub fn round(sum: i64, bits: u32, even: bool) -> i64 {
    let half = 1 << (bits - 1);
    match even {
        false => (sum + half) >> bits,
        true => (sum + half - 1 + (sum >> bits & 1)) >> bits,
    }
}

// Bits of the divisor of a stage: 2 256^d, 2 256^(d-1) of a slope's, 2 256^(d-2) of a curvature's.
#[inline(always)]
fn divisor_bits<const S: usize>(order: u32) -> u32 {
    1 + 8 * (S as u32 - 1 - order)
}

// The numbers of the two ends from an entry on, with the axis's orders a stride apart.
#[inline(always)]
fn ends<const S: usize, const R: usize>(
    [low, high]: [&[i32; R]; 2],
    entry: usize,
    stride: usize,
) -> [i64; S] {
    let m = S / 2;
    let mut line = [0; S];
    for order in 0..m {
        line[order] = low[entry + order * stride] as i64;
        line[m + order] = high[entry + order * stride] as i64;
    }
    line
}

fn line<X: Method, const S: usize, const R: usize>(
    shape: Shape,
    records: &[i32],
    point: Point,
) -> Answer<i32> {
    let x = point.cell[0] as usize;
    let corners = [record::<S, R>(records, x)?, record::<S, R>(records, x + 1)?];
    Ok(match shape.second_edition {
        false => line_stage::<X, S, R, false>(corners, point),
        true => line_stage::<X, S, R, true>(corners, point),
    })
}

#[inline(always)]
pub fn line_stage<X: Method, const S: usize, const R: usize, const E: bool>(
    corners: [&[i32; R]; 2],
    point: Point,
) -> i32 {
    let order = point.want.order();
    let weights = X::weights::<S>(point.u[0], order);
    let sum = X::sum(&ends(corners, 0, 1), &weights);
    round(sum, divisor_bits::<S>(order), E) as i32
}

fn square<X: Method, const S: usize, const R: usize>(
    shape: Shape,
    records: &[i32],
    point: Point,
) -> Answer<i32> {
    let cx = shape.counts[0] as usize;
    let node = point.cell[0] as usize + cx * point.cell[1] as usize;
    let mut corners = [record::<S, R>(records, node)?; 4];
    for corner in 1..4 {
        let offset = (corner & 1) + cx * (corner >> 1);
        corners[corner] = record::<S, R>(records, node + offset)?;
    }
    Ok(match (point.want.axis(), shape.second_edition) {
        (Some(0), false) => square_stages::<X, S, R, 1, 0, false>(corners, point),
        (Some(0), true) => square_stages::<X, S, R, 1, 0, true>(corners, point),
        (_, false) => square_stages::<X, S, R, 0, 1, false>(corners, point),
        (_, true) => square_stages::<X, S, R, 0, 1, true>(corners, point),
    })
}

// Axis P first, then Q.
#[inline(always)]
pub fn square_stages<
    X: Method,
    const S: usize,
    const R: usize,
    const P: usize,
    const Q: usize,
    const E: bool,
>(
    corners: [&[i32; R]; 4],
    point: Point,
) -> i32 {
    let m = S / 2;
    let stride = [1, m];
    let weights = X::weights::<S>(point.u[P], 0);
    let bits = divisor_bits::<S>(0);
    let mut line = [0; S];
    for j in 0..S {
        let corner = (j / m) << Q;
        let pair = [corners[corner], corners[corner + (1 << P)]];
        let numbers = ends(pair, j % m * stride[Q], stride[P]);
        line[j] = round(X::sum(&numbers, &weights), bits - 3, E);
    }
    let order = point.want.order();
    let weights = X::weights::<S>(point.u[Q], order);
    round(X::sum(&line, &weights), divisor_bits::<S>(order) + 3, E) as i32
}

fn cube<X: Method, const S: usize, const R: usize>(
    shape: Shape,
    records: &[i32],
    point: Point,
) -> Answer<i32> {
    let [cx, cy, _] = shape.counts.map(|count| count as usize);
    let [x, y, z] = point.cell.map(|index| index as usize);
    let node = x + cx * (y + cy * z);
    let mut corners = [record::<S, R>(records, node)?; 8];
    for corner in 1..8 {
        let offset = (corner & 1) + cx * ((corner >> 1 & 1) + cy * (corner >> 2));
        corners[corner] = record::<S, R>(records, node + offset)?;
    }
    Ok(match (point.want.axis(), shape.second_edition) {
        (Some(0), false) => cube_stages::<X, S, R, 1, 2, 0, false>(corners, point),
        (Some(0), true) => cube_stages::<X, S, R, 1, 2, 0, true>(corners, point),
        (Some(1), false) => cube_stages::<X, S, R, 0, 2, 1, false>(corners, point),
        (Some(1), true) => cube_stages::<X, S, R, 0, 2, 1, true>(corners, point),
        (_, false) => cube_stages::<X, S, R, 0, 1, 2, false>(corners, point),
        (_, true) => cube_stages::<X, S, R, 0, 1, 2, true>(corners, point),
    })
}

// Axis P first, then Q, then T.
#[inline(always)]
pub fn cube_stages<
    X: Method,
    const S: usize,
    const R: usize,
    const P: usize,
    const Q: usize,
    const T: usize,
    const E: bool,
>(
    corners: [&[i32; R]; 8],
    point: Point,
) -> i32 {
    let m = S / 2;
    let stride = [1, m, m * m];
    let weights = [P, Q].map(|axis| X::weights::<S>(point.u[axis], 0));
    let bits = divisor_bits::<S>(0);
    let mut last = [0; S];
    for k in 0..S {
        let mut line = [0; S];
        for j in 0..S {
            let corner = ((j / m) << Q) + ((k / m) << T);
            let pair = [corners[corner], corners[corner + (1 << P)]];
            let entry = j % m * stride[Q] + k % m * stride[T];
            let numbers = ends(pair, entry, stride[P]);
            line[j] = round(X::sum(&numbers, &weights[0]), bits - 3, E);
        }
        last[k] = round(X::sum(&line, &weights[1]), bits, E);
    }
    let order = point.want.order();
    let weights = X::weights::<S>(point.u[T], order);
    round(X::sum(&last, &weights), divisor_bits::<S>(order) + 3, E) as i32
}
