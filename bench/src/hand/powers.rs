//! Power coefficients of a two-axis cubic cell.

use super::checks::*;
use super::stages::record;
use crate::inputs::Want;
use lukhtari::Shape;

// 1, 2, 3, 26, 24, 4, 9, 14, 5, else each coefficient times 4: equation 8 along x, then along y.
pub fn powers(shape: Shape, records: &[i32], cell: [u32; 3], out: &mut [i32]) -> Answer<()> {
    check_shape(shape)?;
    if shape.axes != 2 || shape.degree != 3 {
        return refuse(24, 0);
    }
    check_query(shape, records, Want::Dose)?;
    let Some(out) = out.first_chunk_mut::<16>() else {
        return refuse(9, 0);
    };
    check_cell(shape, cell)?;
    let [cx, _, _] = shape.counts.map(|count| count as usize);
    let node = cell[0] as usize + cx * cell[1] as usize;
    let low = [
        record::<4, 4>(records, node)?,
        record::<4, 4>(records, node + 1)?,
    ];
    let high = [
        record::<4, 4>(records, node + cx)?,
        record::<4, 4>(records, node + cx + 1)?,
    ];
    // The powers of x of the values and of D along y, at each of two ends along y.
    let along_x = |[a, b]: [&[i32; 4]; 2], row: usize| {
        axis_powers([2 * a[row], a[row + 1], 2 * b[row], b[row + 1]])
    };
    let (f, d) = (along_x(low, 0), along_x(low, 2));
    let (g, e) = (along_x(high, 0), along_x(high, 2));
    for i in 0..4 {
        let numbers = axis_powers([2 * f[i], d[i], 2 * g[i], e[i]]);
        for (j, number) in numbers.into_iter().enumerate() {
            out[i + 4 * j] = number;
        }
    }
    Ok(())
}

// Equation 8: twice the coefficients from twice the values and slopes of two ends.
#[inline(always)]
fn axis_powers([f, d, g, e]: [i32; 4]) -> [i32; 4] {
    [f, d, 3 * (g - f) - 2 * d - e, e + d - 2 * (g - f)]
}
