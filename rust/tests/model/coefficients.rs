//! Coefficients of a cell, and back.

use super::block::*;
use super::rational::Rational;
use super::shape::*;

// The coefficients call: 1, 2, 3, 26, 4, 9, 14, 5, else the cell's coefficients, x fastest.
pub fn coefficients(
    shape: &Shape,
    records: &[i32],
    cell: [u32; 3],
    room: usize,
) -> Answer<Vec<i32>> {
    check_shape(shape)?;
    check_length(records.len(), shape.entries())?;
    check_room(room, coefficient_count(shape.axes, shape.degree))?;
    check_cell(shape, cell)?;
    check_corners(shape, records, cell)?;
    let block = cell_coefficients(shape, records, cell);
    let number = |c: &Rational| c.to_i64().expect("whole") as i32;
    Ok(block.numbers().iter().map(number).collect())
}

// The way back: 1, 2, 15, 9, 13, else the corner records.
pub fn corners_of(axes: u32, degree: u32, coefficients: &[i32], room: usize) -> Answer<Vec<i32>> {
    check_axes(axes)?;
    check_degree(degree)?;
    let count = coefficient_count(axes, degree);
    refuse_unless(coefficients.len() == count, 15, 0)?;
    check_room(room, 2usize.pow(axes) * orders(degree).pow(axes))?;
    let side = degree as usize + 1;
    let mut block = Block::from_numbers(axes, side, coefficients);
    for axis in 0..axes as usize {
        block = block.map_lines(axis, |line| solve_line(degree, line));
    }
    let records = block_records(axes, degree, &block);
    let permitted: Option<Vec<i32>> = records.into_iter().map(permitted_entry).collect();
    permitted.ok_or(Refusal {
        number: 13,
        place: 0,
    })
}

pub fn coefficient_count(axes: u32, degree: u32) -> usize {
    (degree as usize + 1).pow(axes)
}

// 14
pub fn check_cell(shape: &Shape, cell: [u32; 3]) -> Answer<()> {
    (0..3).try_for_each(|axis| {
        let used = axis < shape.used();
        let last = if used { shape.counts[axis] - 2 } else { 0 };
        refuse_unless(cell[axis] <= last, 14, axis)
    })
}

// 5 for the corner records of a cell
pub fn check_corners(shape: &Shape, records: &[i32], cell: [u32; 3]) -> Answer<()> {
    for node in corner_nodes(shape, cell) {
        for orders in shape.record_orders() {
            let index = shape.entry_index(node, orders);
            let within = (records[index] as i64).abs() <= entry_limit(orders);
            refuse_unless(within, 5, index)?;
        }
    }
    Ok(())
}

// Coefficients of an accepted cell: the one-axis table applied axis by axis.
pub fn cell_coefficients(shape: &Shape, records: &[i32], cell: [u32; 3]) -> Block {
    let mut block = cell_block(shape, records, cell);
    for axis in 0..shape.used() {
        block = block.map_lines(axis, |ends| axis_coefficients(shape.degree, ends));
    }
    block
}

fn times(factor: i64, number: Rational) -> Rational {
    Rational::whole(factor) * number
}

// The table of one axis: the low end's numbers and the high end's to doubled coefficients.
pub fn axis_coefficients(degree: u32, ends: &[Rational]) -> Vec<Rational> {
    match (degree, ends) {
        (3, &[f, d, g, e]) => vec![times(2, f), times(6, f) + d, times(6, g) - e, times(2, g)],
        (5, &[f, d, s, g, e, t]) => vec![
            times(2, f),
            times(10, f) + d,
            times(20, f) + times(4, d) + s,
            times(20, g) - times(4, e) + t,
            times(10, g) - e,
            times(2, g),
        ],
        _ => panic!("degree {degree} with {} numbers", ends.len()),
    }
}

// The numbers of the two ends whose doubled coefficients are given.
pub fn solve_line(degree: u32, line: &[Rational]) -> Vec<Rational> {
    let half = Rational::ratio(1, 2);
    match (degree, line) {
        (3, &[c0, c1, c2, c3]) => {
            let (f, g) = (c0 * half, c3 * half);
            vec![f, c1 - times(6, f), g, times(6, g) - c2]
        }
        (5, &[c0, c1, c2, c3, c4, c5]) => {
            let (f, g) = (c0 * half, c5 * half);
            let (d, e) = (c1 - times(10, f), times(10, g) - c4);
            let s = c2 - times(20, f) - times(4, d);
            let t = c3 - times(20, g) + times(4, e);
            vec![f, d, s, g, e, t]
        }
        _ => panic!("degree {degree} with {} numbers", line.len()),
    }
}

// The entry as a number, if it is whole and within its limit.
fn permitted_entry((orders, entry): ([usize; 3], Rational)) -> Option<i32> {
    let value = entry.to_i64()?;
    (value.abs() <= entry_limit(orders)).then_some(value as i32)
}
