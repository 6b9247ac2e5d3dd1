//! Coefficients of powers of x and y of a two-axis cubic cell.

use super::block::{cell_block, Block};
use super::coefficients::{check_cell, check_corners};
use super::rational::Rational;
use super::shape::*;

// Numbers of an export.
pub const COUNT: usize = 16;

// The call: 1, 2, 3, 26, 24, 4, 9, 14, 5, else each coefficient times 4, power i of x and j of y at
// number i + 4j.
pub fn powers(shape: &Shape, records: &[i32], cell: [u32; 3], room: usize) -> Answer<Vec<i32>> {
    check_shape(shape)?;
    refuse_unless(shape.axes == 2 && shape.degree == 3, 24, 0)?;
    check_length(records.len(), shape.entries())?;
    check_room(room, COUNT)?;
    check_cell(shape, cell)?;
    check_corners(shape, records, cell)?;
    let number = |c: &Rational| times(4, *c).to_i64().expect("whole") as i32;
    let block = cell_powers(shape, records, cell);
    Ok(block.numbers().iter().map(number).collect())
}

// The coefficients themselves: equation 8 along x, then along y.
pub fn cell_powers(shape: &Shape, records: &[i32], cell: [u32; 3]) -> Block {
    let block = cell_block(shape, records, cell);
    block.map_lines(0, axis_powers).map_lines(1, axis_powers)
}

fn times(factor: i64, number: Rational) -> Rational {
    Rational::whole(factor) * number
}

// Equation 8 of source document 001: the coefficients of powers 0 to 3 from the value and the slope,
// which is half of D, at each of two ends.
fn axis_powers(ends: &[Rational]) -> Vec<Rational> {
    let &[f, d, g, e] = ends else {
        panic!("{} numbers", ends.len());
    };
    let half = Rational::ratio(1, 2);
    let (low, high) = (d * half, e * half);
    vec![
        f,
        low,
        times(3, g) - times(3, f) - times(2, low) - high,
        high + low - times(2, g) + times(2, f),
    ]
}

// The polynomial of coefficients times 4 at x and y from 0 to 1, power by power.
pub fn value_at(numbers: &[i32], x: Rational, y: Rational) -> Rational {
    let mut sum = Rational::ZERO;
    let mut of_y = Rational::whole(1);
    for row in numbers.chunks_exact(4) {
        let mut of_both = of_y;
        for &number in row {
            sum = sum + times(number as i64, of_both);
            of_both = of_both * x;
        }
        of_y = of_y * y;
    }
    sum / Rational::whole(4)
}
