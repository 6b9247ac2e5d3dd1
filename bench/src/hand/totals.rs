//! The total of a box of cells, node by node.

use super::checks::*;
use crate::inputs::Want;
use lukhtari::Shape;

// 1, 2, 3, 26, 4, 29, 5, else the numerator.
pub fn box_total(shape: Shape, records: &[i32], first: [u32; 3], last: [u32; 3]) -> Answer<i64> {
    check_query(shape, records, Want::Dose)?;
    for axis in 0..3 {
        let used = axis < shape.axes as usize;
        let most = if used { shape.counts[axis] - 2 } else { 0 };
        if first[axis] > last[axis] || last[axis] > most {
            return refuse(29, axis);
        }
    }
    match (shape.degree, shape.axes) {
        (3, 1) => sum::<2, 2>(shape, records, first, last),
        (3, 2) => sum::<2, 4>(shape, records, first, last),
        (3, _) => sum::<2, 8>(shape, records, first, last),
        (_, 1) => sum::<3, 3>(shape, records, first, last),
        (_, 2) => sum::<3, 9>(shape, records, first, last),
        _ => sum::<3, 27>(shape, records, first, last),
    }
}

// Records of E entries, M orders along each used axis.
fn sum<const M: usize, const E: usize>(
    shape: Shape,
    records: &[i32],
    first: [u32; 3],
    last: [u32; 3],
) -> Answer<i64> {
    let [cx, cy, _] = shape.counts.map(|count| count as usize);
    let used = |axis: usize| axis < shape.axes as usize;
    let nodes = [0, 1, 2].map(|axis| {
        let start = first[axis] as usize;
        start..=last[axis] as usize + usize::from(used(axis))
    });
    let limits: [u32; E] = std::array::from_fn(|e| 32768 << (e % M + e / M % M + e / M / M));
    let mut total = 0;
    for z in nodes[2].clone() {
        for y in nodes[1].clone() {
            let along = |axis: usize, node: usize| match used(axis) {
                true => taken::<M>(first[axis] as usize, last[axis] as usize, node),
                false => [1, 0, 0],
            };
            let (wy, wz) = (along(1, y), along(2, z));
            // The weights of the first, a middle and the last node of the row.
            let [low, high] = [*nodes[0].start(), *nodes[0].end()];
            let weights = |node: usize| -> [i64; E] {
                let wx = along(0, node);
                std::array::from_fn(|e| wx[e % M] * wy[e / M % M] * wz[e / M / M])
            };
            let kinds = [weights(low), weights(low + 1), weights(high)];
            for x in nodes[0].clone() {
                let kind = if x == low {
                    0
                } else {
                    1 + usize::from(x == high)
                };
                let start = E * (x + cx * (y + cy * z));
                let record = &records[start..start + E];
                for (e, entry) in record.iter().enumerate() {
                    if entry.unsigned_abs() > limits[e] {
                        return refuse(5, start + e);
                    }
                    total += kinds[kind][e] * *entry as i64;
                }
            }
        }
    }
    Ok(total)
}

// What is taken of the orders at a node: of the cell above it and of the cell below it.
fn taken<const M: usize>(first: usize, last: usize, node: usize) -> [i64; 3] {
    let (low, high) = match M {
        2 => ([12, 1, 0], [12, -1, 0]),
        _ => ([60, 6, 1], [60, -6, 1]),
    };
    let above = i64::from(node <= last);
    let below = i64::from(node > first);
    [0, 1, 2].map(|order| above * low[order] + below * high[order])
}
