//! Totals: the integral of the exact interpolant over cells.

use super::block::Block;
use super::coefficients::{cell_coefficients, check_cell, check_corners};
use super::rational::Rational;
use super::shape::*;

// 24 or 120 for each axis.
pub fn divisor(shape: &Shape) -> i64 {
    let one: i64 = if shape.degree == 3 { 24 } else { 120 };
    one.pow(shape.axes)
}

// The call for a cell: 1, 2, 3, 26, 4, 14, 5, else the numerator.
pub fn cell_total(shape: &Shape, records: &[i32], cell: [u32; 3]) -> Answer<i64> {
    check_shape(shape)?;
    check_length(records.len(), shape.entries())?;
    check_cell(shape, cell)?;
    check_corners(shape, records, cell)?;
    Ok(numerator(shape, integral(shape, records, cell)))
}

// The call for a box: 1, 2, 3, 26, 4, 29, 5, else the sum of its cells.
pub fn box_total(shape: &Shape, records: &[i32], first: [u32; 3], last: [u32; 3]) -> Answer<i64> {
    check_shape(shape)?;
    check_length(records.len(), shape.entries())?;
    check_box(shape, first, last)?;
    check_nodes(shape, records, first, last)?;
    let mut sum = Rational::ZERO;
    for cell in cells_of(first, last) {
        sum = sum + integral(shape, records, cell);
    }
    Ok(numerator(shape, sum))
}

pub fn cells_of(first: [u32; 3], last: [u32; 3]) -> Vec<[u32; 3]> {
    let sides = [0, 1, 2].map(|axis| (last[axis] - first[axis]) as usize + 1);
    let cell = |at: [usize; 3]| [0, 1, 2].map(|axis| first[axis] + at[axis] as u32);
    indices(sides).into_iter().map(cell).collect()
}

// 29
fn check_box(shape: &Shape, first: [u32; 3], last: [u32; 3]) -> Answer<()> {
    (0..3).try_for_each(|axis| {
        let used = axis < shape.used();
        let most = if used { shape.counts[axis] - 2 } else { 0 };
        let right = first[axis] <= last[axis] && last[axis] <= most;
        refuse_unless(right, 29, axis)
    })
}

// 5 at the smallest index of an entry of the nodes of the box
fn check_nodes(shape: &Shape, records: &[i32], first: [u32; 3], last: [u32; 3]) -> Answer<()> {
    let counts = shape.counts.map(|count| count as usize);
    for node in indices(counts) {
        let inside = |axis: usize| {
            let index = node[axis] as u32;
            first[axis] <= index && index <= last[axis] + 1
        };
        if !(0..3).all(inside) {
            continue;
        }
        for orders in shape.record_orders() {
            let index = shape.entry_index(node, orders);
            let within = (records[index] as i64).abs() <= entry_limit(orders);
            refuse_unless(within, 5, index)?;
        }
    }
    Ok(())
}

fn numerator(shape: &Shape, integral: Rational) -> i64 {
    let numerator = integral * Rational::whole(divisor(shape));
    numerator.to_i64().expect("whole")
}

// The exact value is the sum of coefficients times t^i (1 - t)^(d - i) on each axis, over 2^n; the
// integral of such a weight from 0 to 1 is i! (d - i)! / (d + 1)!.
pub fn integral(shape: &Shape, records: &[i32], cell: [u32; 3]) -> Rational {
    let mut block: Block = cell_coefficients(shape, records, cell);
    let degree = shape.degree as i64;
    for axis in 0..shape.used() {
        block = block.map_lines(axis, |line| {
            let mut sum = Rational::ZERO;
            for (i, &coefficient) in line.iter().enumerate() {
                let i = i as i64;
                let below = factorial(i) * factorial(degree - i);
                sum = sum + coefficient * Rational::ratio(below, 2 * factorial(degree + 1));
            }
            vec![sum]
        });
    }
    block.at([0; 3])
}

fn factorial(n: i64) -> i64 {
    (1..=n).product()
}
