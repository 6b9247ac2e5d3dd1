//! Coefficients of a cell, and back.
//!
//! S is degree + 1, N the number of axes, R the entries of a record, K the coefficients.

use super::checks::*;
use super::stages::{record, Limits};
use crate::inputs::Want;
use lukhtari::Shape;

// 1, 2, 3, 26, 4, 9, 14, 5, else the coefficients
pub fn coefficients(shape: Shape, records: &[i32], cell: [u32; 3], out: &mut [i32]) -> Answer<()> {
    check_query(shape, records, Want::Dose)?;
    if out.len() < (shape.degree as usize + 1).pow(shape.axes) {
        return refuse(9, 0);
    }
    check_cell(shape, cell)?;
    match (shape.degree, shape.axes) {
        (3, 1) => forward::<4, 1, 2, 4>(shape, records, cell, out),
        (3, 2) => forward::<4, 2, 4, 16>(shape, records, cell, out),
        (3, _) => forward::<4, 3, 8, 64>(shape, records, cell, out),
        (_, 1) => forward::<6, 1, 3, 6>(shape, records, cell, out),
        (_, 2) => forward::<6, 2, 9, 36>(shape, records, cell, out),
        (_, _) => forward::<6, 3, 27, 216>(shape, records, cell, out),
    }
}

// 1, 2, 15, 9, 13, else the corner records
pub fn corners(axes: u32, degree: u32, coefficients: &[i32], out: &mut [i32]) -> Answer<()> {
    if !(1..=3).contains(&axes) {
        return refuse(1, 0);
    }
    if degree != 3 && degree != 5 {
        return refuse(2, 0);
    }
    let count = (degree as usize + 1).pow(axes);
    if coefficients.len() != count {
        return refuse(15, 0);
    }
    if out.len() < count {
        return refuse(9, 0);
    }
    match (degree, axes) {
        (3, 1) => back::<4, 1, 2, 4>(coefficients, out),
        (3, 2) => back::<4, 2, 4, 16>(coefficients, out),
        (3, _) => back::<4, 3, 8, 64>(coefficients, out),
        (_, 1) => back::<6, 1, 3, 6>(coefficients, out),
        (_, 2) => back::<6, 2, 9, 36>(coefficients, out),
        (_, _) => back::<6, 3, 27, 216>(coefficients, out),
    }
}

// Index in a block of the first number of a record's row, which has one order along y and z.
#[inline(always)]
fn row_start<const S: usize>(corner: usize, row: usize) -> usize {
    let m = S / 2;
    let (y, z) = (m * (corner >> 1 & 1) + row % m, m * (corner >> 2) + row / m);
    m * (corner & 1) + S * (y + S * z)
}

fn forward<const S: usize, const N: usize, const R: usize, const K: usize>(
    shape: Shape,
    records: &[i32],
    cell: [u32; 3],
    out: &mut [i32],
) -> Answer<()> {
    let m = S / 2;
    let [cx, cy, _] = shape.counts.map(|count| count as usize);
    let [x, y, z] = cell.map(|index| index as usize);
    let mut block = [0; K];
    for corner in 0..1 << N {
        let offset = (corner & 1) + cx * ((corner >> 1 & 1) + cy * (corner >> 2));
        let entries = record::<S, R>(records, x + cx * (y + cy * z) + offset)?;
        for row in 0..R / m {
            let start = row_start::<S>(corner, row);
            block[start..start + m].copy_from_slice(&entries[m * row..m * row + m]);
        }
    }
    for axis in 0..N {
        map_lines::<i32, S>(&mut block, S.pow(axis as u32), coefficient_line);
    }
    out[..K].copy_from_slice(&block);
    Ok(())
}

fn back<const S: usize, const N: usize, const R: usize, const K: usize>(
    coefficients: &[i32],
    out: &mut [i32],
) -> Answer<()> {
    let m = S / 2;
    let mut block = [0i64; K];
    for (to, &from) in block.iter_mut().zip(coefficients) {
        *to = from as i64;
    }
    let mut odd = 0;
    for axis in 0..N {
        map_lines::<i64, S>(&mut block, S.pow(axis as u32), |line| {
            odd |= line[0] | line[S - 1];
            solve_line(line)
        });
    }
    let limits = &Limits::<S, R>::EACH;
    let mut entries = [0; K];
    let mut beyond = odd & 1 == 1;
    for (corner, to) in entries.chunks_exact_mut(R).enumerate() {
        for entry in 0..R {
            let value = block[row_start::<S>(corner, entry / m) + entry % m];
            beyond |= value.abs() > limits[entry] as i64;
            to[entry] = value as i32;
        }
    }
    if beyond {
        return refuse(13, 0);
    }
    out[..K].copy_from_slice(&entries);
    Ok(())
}

// Applies a rule to every line of a block whose numbers stand a stride apart.
#[inline(always)]
fn map_lines<T: Copy + Default, const S: usize>(
    block: &mut [T],
    stride: usize,
    mut rule: impl FnMut([T; S]) -> [T; S],
) {
    for plane in block.chunks_exact_mut(S * stride) {
        for start in 0..stride {
            let mut line = [T::default(); S];
            for i in 0..S {
                line[i] = plane[start + i * stride];
            }
            let line = rule(line);
            for i in 0..S {
                plane[start + i * stride] = line[i];
            }
        }
    }
}

// The table of one axis.
#[inline(always)]
fn coefficient_line<const S: usize>(n: [i32; S]) -> [i32; S] {
    let mut c = [0; S];
    if S == 4 {
        (c[0], c[1]) = (2 * n[0], 6 * n[0] + n[1]);
        (c[2], c[3]) = (6 * n[2] - n[3], 2 * n[2]);
    } else {
        (c[0], c[1], c[2]) = (2 * n[0], 10 * n[0] + n[1], 20 * n[0] + 4 * n[1] + n[2]);
        (c[3], c[4], c[5]) = (20 * n[3] - 4 * n[4] + n[5], 10 * n[3] - n[4], 2 * n[3]);
    }
    c
}

// The numbers of the two ends.
#[inline(always)]
fn solve_line<const S: usize>(c: [i64; S]) -> [i64; S] {
    let mut n = [0; S];
    let (f, g) = (c[0] >> 1, c[S - 1] >> 1);
    if S == 4 {
        (n[0], n[1]) = (f, c[1] - 6 * f);
        (n[2], n[3]) = (g, 6 * g - c[2]);
    } else {
        let (d, e) = (c[1] - 10 * f, 10 * g - c[4]);
        (n[0], n[1], n[2]) = (f, d, c[2] - 20 * f - 4 * d);
        (n[3], n[4], n[5]) = (g, e, c[3] - 20 * g + 4 * e);
    }
    n
}
