//! Records estimated from samples.

use super::shape::*;

// The estimation call: 1, 2, 3, 26, 4, 9, 19, else all records.
pub fn estimate(shape: &Shape, samples: &[i32], room: usize) -> Answer<Vec<i32>> {
    check_shape(shape)?;
    check_length(samples.len(), shape.nodes())?;
    check_room(room, shape.entries())?;
    check_estimable(shape.axes, samples)?;
    let order: Vec<usize> = (0..shape.used()).collect();
    let records = records_by_axes(shape, samples, &order);
    Ok(records.iter().map(|&entry| entry as i32).collect())
}

// Limit of the samples given for estimation, 32768/2^n.
pub fn estimate_limit(axes: u32) -> i64 {
    LIMIT / 2i64.pow(axes)
}

// 19
fn check_estimable(axes: u32, samples: &[i32]) -> Answer<()> {
    let beyond = |&sample: &i32| (sample as i64).abs() > estimate_limit(axes);
    match samples.iter().position(beyond) {
        Some(index) => refuse_unless(false, 19, index),
        None => Ok(()),
    }
}

// All records, the axes worked off in the order given.
pub fn records_by_axes(shape: &Shape, samples: &[i32], order: &[usize]) -> Vec<i64> {
    let mut records = vec![0i64; shape.entries()];
    for (node, &sample) in samples.iter().enumerate() {
        records[node * shape.record()] = sample as i64;
    }
    for (worked, &axis) in order.iter().enumerate() {
        let open = &order[worked..];
        for node in indices(shape.sides()) {
            for orders in shape.record_orders() {
                if open.iter().all(|&later| orders[later] == 0) {
                    estimate_at(shape, &mut records, node, orders, axis);
                }
            }
        }
    }
    records
}

// Writes D, and S for degree 5, along an axis at one node, from the entries of the given orders.
fn estimate_at(
    shape: &Shape,
    records: &mut [i64],
    node: [usize; 3],
    orders: [usize; 3],
    axis: usize,
) {
    let f = records[shape.entry_index(node, orders)];
    let entry = |there: [usize; 3]| records[shape.entry_index(there, orders)];
    let low = low_neighbour(node, axis).map(entry);
    let high = high_neighbour(shape, node, axis).map(entry);
    // A neighbour missing at a border continues the line.
    let (l, r) = match (low, high) {
        (Some(l), Some(r)) => (l, r),
        (None, Some(r)) => (2 * f - r, r),
        (Some(l), None) => (l, 2 * f - l),
        (None, None) => panic!("one node on a used axis"),
    };
    for (order, value) in [(1, r - l), (2, l - 2 * f + r)] {
        if order < shape.orders() {
            let mut to = orders;
            to[axis] = order;
            records[shape.entry_index(node, to)] = value;
        }
    }
}

fn low_neighbour(node: [usize; 3], axis: usize) -> Option<[usize; 3]> {
    let mut there = node;
    there[axis] = node[axis].checked_sub(1)?;
    Some(there)
}

fn high_neighbour(shape: &Shape, node: [usize; 3], axis: usize) -> Option<[usize; 3]> {
    let mut there = node;
    there[axis] = node[axis] + 1;
    (there[axis] < shape.sides()[axis]).then_some(there)
}
