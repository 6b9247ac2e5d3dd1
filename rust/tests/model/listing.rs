//! Coefficients by the steps of Listings 1 to 4 of source document 003: corner by corner with the
//! last axis innermost, signs set at each corner, a block solved by the rows of a low end, each
//! result put in its place.

use super::shape::{indices, orders, used_sides};

// Numbers in the array that is filled.
pub const NUMBERS: usize = 216;

// BlockSolve along one axis: the multipliers of f, D, S in the doubled coefficient of each order.
fn rows(degree: u32) -> &'static [&'static [i64]] {
    match degree {
        3 => &[&[2], &[6, 1]],
        5 => &[&[2], &[10, 1], &[20, 4, 1]],
        _ => panic!("degree {degree}"),
    }
}

// The corners b0 b1 b2 in the listing's order, 0 on unused axes: b0 is the outermost loop.
pub fn corners(axes: u32) -> Vec<[usize; 3]> {
    let [x, y, z] = used_sides(axes, 2);
    let mut all = Vec::new();
    for b0 in 0..x {
        for b1 in 0..y {
            for b2 in 0..z {
                all.push([b0, b1, b2]);
            }
        }
    }
    all
}

// z, p and q of an end: where its coefficients of orders 0, 1 and 2 stand.
fn places(degree: u32, b: usize) -> [usize; 3] {
    let d = degree as usize;
    let q = if d == 5 { (d - 4) * b + 2 } else { 0 };
    [d * b, (d - 2) * b + 1, q]
}

// The orders that an axis has, 1 on unused axes.
fn sides(axes: u32, degree: u32) -> [usize; 3] {
    used_sides(axes, orders(degree))
}

// The coefficient of these orders in a block whose entries have their signs.
fn solved(axes: u32, degree: u32, signed: &impl Fn([usize; 3]) -> i64, orders: [usize; 3]) -> i64 {
    let multiplier = |lower: [usize; 3], axis: usize| match axis < axes as usize {
        true => rows(degree)[orders[axis]][lower[axis]],
        false => 1,
    };
    let term = |lower: [usize; 3]| {
        let factors = (0..3).map(|axis| multiplier(lower, axis));
        factors.product::<i64>() * signed(lower)
    };
    let below = indices(orders.map(|order| order + 1)).into_iter();
    below.map(term).sum()
}

// The array after the first k corners; `entry` gives the entry of a corner's record by its orders.
pub fn filled_after(
    axes: u32,
    degree: u32,
    entry: impl Fn([usize; 3], [usize; 3]) -> i64,
    k: usize,
) -> Vec<i64> {
    let side = degree as usize + 1;
    let mut c = vec![0; NUMBERS];
    for b in corners(axes).into_iter().take(k) {
        let s = b.map(|bit| 1 - 2 * bit as i64);
        let signed = |orders: [usize; 3]| {
            let signs = (0..3).map(|axis| s[axis].pow(orders[axis] as u32));
            signs.product::<i64>() * entry(b, orders)
        };
        for orders in indices(sides(axes, degree)) {
            let [x, y, z] = [0, 1, 2].map(|axis| places(degree, b[axis])[orders[axis]]);
            c[x + side * (y + side * z)] = solved(axes, degree, &signed, orders);
        }
    }
    c
}
