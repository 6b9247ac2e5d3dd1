//! Totals of cells and of boxes of cells against the model.

mod common;
mod model;

use common::*;
use lukhtari::limits::{total_divisor, TOTAL_LIMIT};
use lukhtari::{box_total, cell_total, estimate, ffi, Key, Shape};
use model::totals::cells_of;
use model::{Answer, Rational};

#[derive(Clone, Debug)]
struct Call {
    shape: Shape,
    records: Vec<i32>,
    first: [u32; 3],
    last: [u32; 3],
}

impl Call {
    // The whole table.
    fn new(shape: Shape, records: Vec<i32>) -> Call {
        let last = *cells(shape).last().unwrap();
        let first = [0; 3];
        Call {
            shape,
            records,
            first,
            last,
        }
    }
}

// Makes the call for a box in both editions, which do not matter here, and compares its answer with
// the model's.
#[track_caller]
fn run_box(call: &Call) -> Answer<i64> {
    let Call { first, last, .. } = *call;
    let records = &call.records;
    let expected = model::totals::box_total(&plain_shape(call.shape), records, first, last);
    for shape in editions(call.shape) {
        let got = plain(box_total(Key::Service, shape, records, first, last));
        assert_eq!(got, expected, "{shape:?} {first:?} {last:?}");
    }
    expected
}

// The same for the first cell of the box.
#[track_caller]
fn run_cell(call: &Call) -> Answer<i64> {
    let cell = call.first;
    let expected = model::totals::cell_total(&plain_shape(call.shape), &call.records, cell);
    for shape in editions(call.shape) {
        let got = plain(cell_total(Key::Service, shape, &call.records, cell));
        assert_eq!(got, expected, "{shape:?} {cell:?}");
    }
    expected
}

// A box of a table.
fn random_box(random: &mut Random, shape: Shape) -> ([u32; 3], [u32; 3]) {
    let ends = [0; 2].map(|_: u32| random.pick(&cells(shape)));
    let low = [0, 1, 2].map(|axis| ends[0][axis].min(ends[1][axis]));
    let high = [0, 1, 2].map(|axis| ends[0][axis].max(ends[1][axis]));
    (low, high)
}

#[test]
fn worked_examples() {
    // One axis, samples 0, 100: 50 over 1, in both degrees.
    for (degree, records) in [
        (3, vec![0, 200, 100, 200]),
        (5, vec![0, 200, 0, 100, 200, 0]),
    ] {
        let call = Call::new(shape(1, degree, [2, 1, 1]), records);
        assert_eq!(run_cell(&call), Ok(50 * total_divisor(1, degree)));
        assert_eq!(run_box(&call), Ok(50 * total_divisor(1, degree)));
    }
    // f 1 and D 2 at the low end, alone: 12 and 2 over 24; 60, 12 and S 1 over 120.
    let alone = |degree, records| run_cell(&Call::new(shape(1, degree, [2, 1, 1]), records));
    assert_eq!(alone(3, vec![1, 2, 0, 0]), Ok(12 + 2));
    assert_eq!(alone(3, vec![0, 0, 1, 2]), Ok(12 - 2));
    assert_eq!(alone(5, vec![1, 2, 1, 0, 0, 0]), Ok(60 + 12 + 1));
    assert_eq!(alone(5, vec![0, 0, 0, 1, 2, 1]), Ok(60 - 12 + 1));
}

#[test]
fn straight_data() {
    // k0 + k1 x + .. + k7 xyz over a box from its first node to one above its last: the mean of each
    // variable is the middle, and those of products are the products.
    let mut random = Random::new(1);
    for (axes, degree) in KINDS {
        for _ in 0..20 {
            let shape = random.shape(axes, degree, 6);
            let k: Vec<i64> = (0..8).map(|_| random.range(-9, 9)).collect();
            let counts = shape.counts.map(|count| count as usize);
            let sample = |node: [usize; 3]| {
                let part = |bits: usize| {
                    let factor = |a: usize| {
                        if bits >> a & 1 == 1 {
                            node[a] as i64
                        } else {
                            1
                        }
                    };
                    k[bits] * (0..3).map(factor).product::<i64>()
                };
                (0..8).map(part).sum::<i64>() as i32
            };
            let nodes = model::shape::indices(counts);
            let samples: Vec<i32> = nodes.into_iter().map(sample).collect();
            let mut records = vec![0; shape.entries()];
            estimate(Key::Service, shape, &samples, &mut records).expect("accepted table");
            let mut call = Call::new(shape, records);
            (call.first, call.last) = random_box(&mut random, shape);
            let length = |a: usize| (call.last[a] - call.first[a] + 1) as i64;
            let middle = |a: usize| match a < axes as usize {
                true => Rational::ratio((2 * call.first[a] as i64) + length(a), 2),
                false => Rational::ZERO,
            };
            let mut mean = Rational::ZERO;
            for (bits, &factor) in k.iter().enumerate() {
                let mut product = Rational::whole(factor);
                for a in (0..3).filter(|a| bits >> a & 1 == 1) {
                    product = product * middle(a);
                }
                mean = mean + product;
            }
            let volume: i64 = (0..3).map(length).product();
            let expected = mean * Rational::whole(volume * total_divisor(axes, degree));
            assert_eq!(run_box(&call), Ok(expected.to_i64().expect("whole")));
        }
    }
}

#[test]
fn random_boxes_and_cells() {
    let mut random = Random::new(2);
    for (axes, degree) in KINDS {
        for _ in 0..60 {
            let shape = random.stepped(axes, degree, 5);
            let mut call = Call::new(shape, random.records(shape));
            (call.first, call.last) = random_box(&mut random, shape);
            let total = run_box(&call).expect("permitted records");
            let mut sum = 0;
            for cell in cells_of(call.first, call.last) {
                sum += cell_total(Key::Service, shape, &call.records, cell)
                    .expect("permitted records");
            }
            assert_eq!(total, sum);
            assert!(run_cell(&call).is_ok());
        }
    }
}

#[test]
fn cuts() {
    let mut random = Random::new(3);
    for (axes, degree) in KINDS {
        for _ in 0..40 {
            let shape = random.shape(axes, degree, 8);
            let mut call = Call::new(shape, random.records(shape));
            (call.first, call.last) = random_box(&mut random, shape);
            let total = |first, last| box_total(Key::Service, shape, &call.records, first, last);
            let whole = total(call.first, call.last).expect("permitted records");
            for axis in 0..axes as usize {
                for cut in call.first[axis]..call.last[axis] {
                    let (mut end, mut start) = (call.last, call.first);
                    end[axis] = cut;
                    start[axis] = cut + 1;
                    let parts = [total(call.first, end), total(start, call.last)];
                    let parts = parts.map(|part| part.expect("permitted records"));
                    assert_eq!(parts[0] + parts[1], whole, "axis {axis} after {cut}");
                }
            }
        }
    }
}

#[test]
fn the_whole_table_is_the_sum_of_all_cells() {
    let mut random = Random::new(4);
    for (axes, degree) in KINDS {
        let shape = random.shape(axes, degree, 7);
        let call = Call::new(shape, random.records(shape));
        let one = |cell: [u32; 3]| {
            cell_total(Key::Service, shape, &call.records, cell).expect("permitted")
        };
        let sum: i64 = cells(shape).into_iter().map(one).sum();
        assert_eq!(run_box(&call), Ok(sum));
    }
}

#[test]
fn largest_totals() {
    // Every entry at its limit with the sign of what a cell takes of it.
    for (axes, degree) in KINDS {
        let shape = cube(axes, degree, 2);
        let mut call = Call::new(shape, vec![0; shape.entries()]);
        let mut largest = call.records.clone();
        for (index, limit) in corner_entries(shape, [0; 3]) {
            call.records[index] = 1;
            let taken = run_cell(&call).expect("permitted records");
            call.records[index] = 0;
            largest[index] = taken.signum() as i32 * limit;
        }
        let ends: i64 = if degree == 3 { 28 } else { 152 };
        for sign in [1, -1] {
            call.records = largest.iter().map(|&entry| sign * entry).collect();
            let expected = sign as i64 * 32768 * ends.pow(axes);
            assert_eq!(run_cell(&call), Ok(expected));
        }
    }
    let shape = cube(3, 5, 64);
    let entry = |index: usize| {
        let number = index % 27;
        let orders = number % 3 + number / 3 % 3 + number / 9;
        if orders == 0 {
            32768
        } else {
            0
        }
    };
    let records: Vec<i32> = (0..shape.entries()).map(entry).collect();
    let total = box_total(Key::Service, shape, &records, [0; 3], [62; 3]).expect("permitted");
    assert_eq!(total, 32768 * 63 * 63 * 63 * total_divisor(3, 5));
    assert!(total < TOTAL_LIMIT);
}

#[test]
fn other_nodes_are_not_tested() {
    let mut random = Random::new(5);
    for (axes, degree) in KINDS {
        let shape = cube(axes, degree, 5);
        for _ in 0..20 {
            let mut call = Call::new(shape, vec![i32::MIN; shape.entries()]);
            (call.first, call.last) = random_box(&mut random, shape);
            for cell in cells_of(call.first, call.last) {
                for (index, limit) in corner_entries(shape, cell) {
                    call.records[index] = random.within(limit as i64);
                }
            }
            assert!(run_box(&call).is_ok());
        }
    }
}

#[test]
fn every_node_is_tested_and_the_smallest_index_is_the_place() {
    let mut random = Random::new(6);
    for (axes, degree) in KINDS {
        let shape = cube(axes, degree, 4);
        for _ in 0..6 {
            let mut call = Call::new(shape, random.records(shape));
            (call.first, call.last) = random_box(&mut random, shape);
            let mut indices = Vec::new();
            for cell in cells_of(call.first, call.last) {
                indices.extend(corner_entries(shape, cell));
            }
            let most = indices.iter().map(|&(index, _)| index).max().unwrap();
            for (index, limit) in indices {
                for beyond in [limit + 1, -limit - 1, i32::MAX, i32::MIN] {
                    let mut faulty = call.clone();
                    faulty.records[most] = i32::MIN;
                    faulty.records[index] = beyond;
                    assert_eq!(run_box(&faulty), refused(5, index as u64));
                }
            }
        }
    }
}

#[test]
fn corners_of_a_cell_are_tested_in_order() {
    for (axes, degree) in KINDS {
        let shape = cube(axes, degree, 4);
        let cell = [0, 1, 2].map(|axis| u32::from(axis < axes));
        let entries = corner_entries(shape, cell);
        let last = entries.last().unwrap().0;
        for (index, limit) in entries {
            let mut call = Call::new(shape, vec![7; shape.entries()]);
            call.first = cell;
            call.records[last] = i32::MIN;
            call.records[index] = limit + 1;
            assert_eq!(run_cell(&call), refused(5, index as u64));
        }
    }
}

#[test]
fn boxes_that_are_none() {
    for (axes, degree) in KINDS {
        let shape = cube(axes, degree, 5);
        let call = Call::new(shape, vec![7; shape.entries()]);
        for axis in 0..3 {
            let most = if axis < axes as usize { 3 } else { 0 };
            for last in [most + 1, most + 2, 64, u32::MAX - 1, u32::MAX] {
                let mut outside = call.clone();
                outside.last[axis] = last;
                assert_eq!(run_box(&outside), refused(29, axis as u64));
                outside.first[axis] = last;
                assert_eq!(run_box(&outside), refused(29, axis as u64));
            }
            for first in [most + 1, u32::MAX] {
                let mut turned = call.clone();
                turned.first[axis] = first;
                assert_eq!(run_box(&turned), refused(29, axis as u64));
            }
            if most > 0 {
                let mut turned = call.clone();
                (turned.first[axis], turned.last[axis]) = (2, 1);
                assert_eq!(run_box(&turned), refused(29, axis as u64));
            }
        }
    }
}

#[test]
fn cells_outside_the_table() {
    let shape = shape(2, 3, [3, 4, 1]);
    for (axis, first) in [2, 3, 1].into_iter().enumerate() {
        for index in [first, first + 1, 63, 256, u32::MAX] {
            let mut call = Call::new(shape, vec![7; shape.entries()]);
            call.first[axis] = index;
            assert_eq!(run_cell(&call), refused(14, axis as u64));
        }
    }
}

#[test]
fn wrong_shapes_are_refused() {
    for (axes, degree) in KINDS {
        let call_of = |right: Shape| Call::new(right, vec![7; right.entries()]);
        for run in [run_box, run_cell] {
            let run = |call: &Call| run(call).map(|_| ());
            check_wrong_shapes(axes, degree, call_of, |call| &mut call.shape, run);
        }
    }
}

#[test]
fn wrong_lengths() {
    for (axes, degree) in KINDS {
        let shape = cube(axes, degree, 3);
        let entries = shape.entries();
        for length in [0, entries - 1, entries + 1, 2 * entries] {
            let mut call = Call::new(shape, vec![7; entries]);
            call.records.resize(length, 7);
            assert_eq!(run_box(&call), refused(4, 0));
            assert_eq!(run_cell(&call), refused(4, 0));
        }
    }
}

#[test]
fn faults_in_order() {
    for (axes, degree) in KINDS {
        let shape = cube(axes, degree, 4);
        let call = Call::new(shape, vec![7; shape.entries()]);
        let mut faults = shape_faults(|call: &mut Call| &mut call.shape, axes);
        faults.push(fault(4, 0, |call: &mut Call| call.records.push(0)));
        let mut of_box = Vec::new();
        let mut of_cell = Vec::new();
        for axis in 0..3 {
            let place = axis as u64;
            of_box.push(fault(29, place, move |call: &mut Call| call.last[axis] = 9));
            of_cell.push(fault(14, place, move |call: &mut Call| {
                call.first[axis] = 9
            }));
        }
        let most = shape.entries() - 1;
        for list in [&mut of_box, &mut of_cell] {
            list.push(fault(5, 1, |call: &mut Call| call.records[1] = i32::MAX));
        }
        let make = move |call: &mut Call| call.records[most] = i32::MIN;
        of_box.push(fault(5, most as u64, make));
        let before = faults.len();
        faults.extend(of_box);
        check_faults(&call, &faults, |call| run_box(call).map(|_| ()));
        faults.truncate(before);
        faults.extend(of_cell);
        check_faults(&call, &faults, |call| run_cell(call).map(|_| ()));
    }
}

#[test]
fn refused_members_are_0() {
    let (records, cell) = ([7; 4], ffi::Index { at: [1, 0, 0] });
    // SAFETY: pointer and length are those of the array.
    let total = unsafe {
        ffi::lukhtari_cell_total(SERVICE, shape(1, 3, [2, 1, 1]), records.as_ptr(), 4, cell)
    };
    assert_eq!((total.number, total.place, total.numerator), (14, 0, 0));
    let inside = ffi::Index { at: [0; 3] };
    // SAFETY: the same.
    let total = unsafe {
        ffi::lukhtari_box_total(
            SERVICE,
            shape(1, 3, [2, 1, 1]),
            records.as_ptr(),
            4,
            inside,
            inside,
        )
    };
    // 12 · (7 + 7) of the values, 7 − 7 of the slopes.
    assert_eq!((total.number, total.place, total.numerator), (0, 0, 168));
}
