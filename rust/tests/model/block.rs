//! A cell's numbers as a block of one to three axes.
//!
//! Along an axis the two ends' numbers stand as the low end's orders, then the high end's orders:
//! as many as there are coefficients along that axis.

use super::rational::Rational;
use super::shape::{entry_number, indices, orders, record_orders, used_sides, Shape};

#[derive(Clone, Debug, PartialEq)]
pub struct Block {
    sides: [usize; 3],
    numbers: Vec<Rational>,
}

impl Block {
    pub fn new(sides: [usize; 3], number: impl Fn([usize; 3]) -> Rational) -> Block {
        let numbers = indices(sides).into_iter().map(number).collect();
        Block { sides, numbers }
    }

    // A block with the given side on each used axis, x fastest.
    pub fn from_numbers(axes: u32, side: usize, numbers: &[i32]) -> Block {
        let sides = used_sides(axes, side);
        assert_eq!(numbers.len(), sides.iter().product::<usize>());
        let numbers = numbers.iter().map(|&c| Rational::whole(c as i64)).collect();
        Block { sides, numbers }
    }

    pub fn at(&self, [x, y, z]: [usize; 3]) -> Rational {
        self.numbers[x + self.sides[0] * (y + self.sides[1] * z)]
    }

    pub fn sides(&self) -> [usize; 3] {
        self.sides
    }

    pub fn numbers(&self) -> &[Rational] {
        &self.numbers
    }

    // Replaces every line along an axis by what the rule makes of it.
    pub fn map_lines(&self, axis: usize, rule: impl Fn(&[Rational]) -> Vec<Rational>) -> Block {
        let mut ends = self.sides;
        ends[axis] = 1;
        let mut lines = Vec::new();
        for start in indices(ends) {
            lines.push(rule(&self.line(start, axis)));
        }
        let mut sides = self.sides;
        sides[axis] = lines[0].len();
        Block::new(sides, |[x, y, z]| {
            let mut start = [x, y, z];
            start[axis] = 0;
            let number = start[0] + ends[0] * (start[1] + ends[1] * start[2]);
            lines[number][[x, y, z][axis]]
        })
    }

    fn line(&self, start: [usize; 3], axis: usize) -> Vec<Rational> {
        let along = |index| {
            let mut at = start;
            at[axis] = index;
            self.at(at)
        };
        (0..self.sides[axis]).map(along).collect()
    }
}

// The corners of a cell in corner order, x fastest: 0 for the low end, 1 for the high end.
pub fn corners(axes: u32) -> Vec<[usize; 3]> {
    indices(used_sides(axes, 2))
}

// Nodes at the corners of a cell, in corner order.
pub fn corner_nodes(shape: &Shape, cell: [u32; 3]) -> Vec<[usize; 3]> {
    let node = |corner: [usize; 3]| [0, 1, 2].map(|axis| cell[axis] as usize + corner[axis]);
    corners(shape.axes).into_iter().map(node).collect()
}

// The corner records of a cell as a block.
pub fn cell_block(shape: &Shape, records: &[i32], cell: [u32; 3]) -> Block {
    let m = shape.orders();
    Block::new(used_sides(shape.axes, 2 * m), |at| {
        let node = [0, 1, 2].map(|axis| cell[axis] as usize + at[axis] / m);
        let index = shape.entry_index(node, at.map(|number| number % m));
        Rational::whole(records[index] as i64)
    })
}

// The corner records in a block: corners in corner order, entries by number.
pub fn block_records(axes: u32, degree: u32, block: &Block) -> Vec<([usize; 3], Rational)> {
    let m = orders(degree);
    let mut all = Vec::new();
    for corner in corners(axes) {
        for (number, orders) in record_orders(axes, degree).into_iter().enumerate() {
            assert_eq!(number, entry_number(degree, orders));
            let at = [0, 1, 2].map(|axis| corner[axis] * m + orders[axis]);
            all.push((orders, block.at(at)));
        }
    }
    all
}
