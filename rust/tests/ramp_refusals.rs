//! Ramps of doses: refusals in order.

mod common;
mod model;
mod positions;
mod ramps;

use common::*;
use lukhtari::Shape;
use model::query::last_step;
use positions::{combinations, position_kinds};
use ramps::*;

// Records that are all within their limits.
fn sevens(shape: Shape) -> Vec<i32> {
    vec![7; shape.entries()]
}

// One position in each cell of the table on a way along all axes, far from each other's corners.
fn diagonal(shape: Shape, length: usize) -> Vec<[i32; 3]> {
    let at = |index: usize| {
        [0, 1, 2].map(|axis| match axis < shape.axes {
            true => 512 * index as i32,
            false => 0,
        })
    };
    (0..length).map(at).collect()
}

// An empty list, one position and a few.
fn calls_of(shape: Shape) -> Vec<Ramp> {
    let calls = [0, 1, 3].map(|length| Ramp::new(shape, &sevens(shape), &vec![[0; 3]; length]));
    calls.to_vec()
}

#[test]
fn wrong_shapes_are_refused() {
    for (axes, degree) in KINDS {
        for number in 0..3 {
            let call_of = |shape| calls_of(shape).swap_remove(number);
            check_wrong_shapes(axes, degree, call_of, |call| &mut call.shape, run);
        }
    }
}

#[test]
fn wrong_lengths_of_records() {
    for (axes, degree) in KINDS {
        let shape = cube(axes, degree, 3);
        let entries = shape.entries();
        for call in calls_of(shape) {
            for length in [0, shape.nodes(), entries - 1, entries + 1, 2 * entries] {
                let mut call = call.clone();
                call.records.resize(length, 7);
                assert_eq!(run(&call), refused(4, 0));
            }
        }
    }
}

#[test]
fn rooms_below_the_number_of_positions() {
    for (axes, degree) in KINDS {
        let shape = cube(axes, degree, 2);
        for length in [1, 2, 3, 255, 256] {
            let call = Ramp::new(shape, &sevens(shape), &vec![[0; 3]; length]);
            check_rooms(&call, |call| &mut call.room, run);
        }
    }
}

#[test]
fn more_than_256_positions() {
    for (axes, degree) in KINDS {
        let shape = cube(axes, degree, 2);
        for length in [255, 256, 257, 258, 512, 513, 1000, 65_536 + 1] {
            let mut call = Ramp::new(shape, &sevens(shape), &vec![[0; 3]; length]);
            let expected = match length > 256 {
                true => refused(20, 0),
                false => Ok(()),
            };
            assert_eq!(run(&call), expected, "{length} positions");
            // Before any of them is looked at.
            call.positions.fill(-1);
            let expected = match length > 256 {
                true => refused(20, 0),
                false => refused(22, 0),
            };
            assert_eq!(run(&call), expected, "{length} positions");
        }
    }
}

#[test]
fn slices_that_are_no_triples() {
    for (axes, degree) in KINDS {
        let shape = cube(axes, degree, 2);
        for length in (0..20).chain(760..780) {
            let mut call = Ramp::new(shape, &sevens(shape), &[]);
            call.positions = vec![0; length];
            for room in [length / 3, length, 1000] {
                call.room = room;
                let whole = length % 3 == 0 && length <= 768;
                let expected = if whole { Ok(()) } else { refused(20, 0) };
                assert_eq!(run(&call), expected, "{length} numbers");
            }
        }
    }
}

// Each refusal of a position by itself: below 0 and beyond the last node of each axis, or not 0 on
// an unused one, then 5.
fn faults_at(shape: Shape, index: usize) -> Vec<Fault<Ramp>> {
    let place = index as u64;
    let mut faults = Vec::new();
    for axis in 0..3 {
        let last = last_step(&plain_shape(shape), axis) as i32;
        for (number, step) in [(22, -1), (11, last + 1)] {
            let make = move |call: &mut Ramp| call.positions[3 * index + axis] = step;
            let number = if axis < shape.axes as usize {
                number
            } else {
                23
            };
            faults.push(fault(number, place, make));
        }
    }
    // The first and the last corner entry of the cell.
    let cell = [0, 1, 2].map(|axis| {
        if axis < shape.axes {
            2 * index as u32
        } else {
            0
        }
    });
    let entries = corner_entries(shape, cell);
    for (entry, limit) in [entries[0], entries[entries.len() - 1]] {
        let make = move |call: &mut Ramp| call.records[entry] = -limit - 1;
        faults.push(fault(5, place, make));
    }
    faults
}

#[test]
fn every_refusal_at_every_position() {
    for (axes, degree) in KINDS {
        for length in [1, 2, 4] {
            let shape = cube(axes, degree, 2 * length as u32);
            let call = Ramp::new(shape, &sevens(shape), &diagonal(shape, length));
            assert_eq!(run(&call), Ok(()));
            for index in 0..length {
                for fault in faults_at(shape, index) {
                    let mut faulty = call.clone();
                    (fault.make)(&mut faulty);
                    assert_eq!(run(&faulty), refused(fault.number, fault.place));
                }
            }
        }
    }
}

#[test]
fn every_index_of_a_long_list() {
    // All positions in one cell but one, which is outside the table or in a cell with a wrong entry.
    let shape = cube(1, 3, 6);
    let mut records = sevens(shape);
    records[8] = i32::MAX;
    for length in [1, 255, 256] {
        for index in 0..length {
            for (step, number) in [(-1, 22), (1281, 11), (1100, 5)] {
                let mut list = vec![[100, 0, 0]; length];
                list[index][0] = step;
                let call = Ramp::new(shape, &records, &list);
                assert_eq!(run(&call), refused(number, index as u64));
            }
        }
    }
}

#[test]
fn every_combination_of_positions() {
    for (axes, degree) in KINDS {
        let shape = cube(axes, degree, 3);
        let records = sevens(shape);
        for (index, (position, expected)) in combinations(axes, &position_kinds(512))
            .into_iter()
            .enumerate()
        {
            // Between positions in the table, at one of three places of the list.
            let place = index % 3;
            let mut list = [[0; 3]; 3];
            list[place] = position;
            let expected = expected.map_err(|refusal| model::Refusal {
                place: place as u64,
                ..refusal
            });
            assert_eq!(run(&Ramp::new(shape, &records, &list)), expected);
        }
    }
}

#[test]
fn the_first_refused_position_decides() {
    let mut random = Random::new(1);
    for (axes, degree) in KINDS {
        let shape = cube(axes, degree, 8);
        let call = Ramp::new(shape, &sevens(shape), &diagonal(shape, 4));
        for _ in 0..60 {
            let mut faulty = call.clone();
            let mut first = 4;
            for _ in 0..2 {
                let index = random.below(4) as usize;
                let faults = faults_at(shape, index);
                (faults[random.below(faults.len() as u64) as usize].make)(&mut faulty);
                first = first.min(index as u64);
            }
            let refusal = run(&faulty).unwrap_err();
            assert_eq!(refusal.place, first);
        }
    }
}

#[test]
fn a_wrong_entry_of_a_cell_visited_later() {
    // The cell is entered for the first time after others, and then again.
    for (axes, degree) in KINDS {
        let shape = cube(axes, degree, 6);
        let [a, b, c] = [0, 1, 2].map(|index| diagonal(shape, 3)[index]);
        let last = corner_entries(shape, [0, 1, 2].map(|axis| if axis < axes { 4 } else { 0 }));
        for &(entry, limit) in &last {
            let mut records = sevens(shape);
            records[entry] = limit + 1;
            for (list, place) in [
                (vec![a, b, c], Some(2)),
                (vec![a, a, b, c, c, b], Some(3)),
                (vec![c, a], Some(0)),
                (vec![a, b, b, a], None),
            ] {
                let expected = place.map_or(Ok(()), |place| refused(5, place));
                assert_eq!(run(&Ramp::new(shape, &records, &list)), expected);
            }
        }
    }
}

#[test]
fn faults_in_order() {
    for (axes, degree) in KINDS {
        let shape = cube(axes, degree, 6);
        let call = Ramp::new(shape, &sevens(shape), &diagonal(shape, 3));
        for long in [false, true] {
            let mut faults = shape_faults(|call: &mut Ramp| &mut call.shape, axes);
            faults.push(fault(20, 0, move |call: &mut Ramp| match long {
                // 257 positions, and one number too many.
                true => call.positions.resize(771, 0),
                false => call.positions.push(0),
            }));
            faults.push(fault(4, 0, |call: &mut Ramp| {
                call.records.pop();
            }));
            faults.push(fault(9, 0, |call: &mut Ramp| call.room = 2));
            (0..3).for_each(|index| faults.extend(faults_at(shape, index)));
            check_faults(&call, &faults, run);
        }
    }
}

#[test]
fn faults_in_order_of_an_empty_list() {
    for (axes, degree) in KINDS {
        let shape = cube(axes, degree, 2);
        let call = Ramp::new(shape, &sevens(shape), &[]);
        let mut faults = shape_faults(|call: &mut Ramp| &mut call.shape, axes);
        faults.push(fault(20, 0, |call: &mut Ramp| call.positions.push(0)));
        faults.push(fault(4, 0, |call: &mut Ramp| call.records.push(7)));
        check_faults(&call, &faults, run);
    }
}

#[test]
fn places_are_of_the_list_and_not_of_the_query() {
    // By its own call the second position is refused with axis 2 or with an entry's index.
    let shape = cube(3, 3, 4);
    let mut call = Ramp::new(shape, &sevens(shape), &[[0; 3], [0, 0, 769]]);
    assert_eq!(run(&call), refused(11, 1));
    call.positions[5] = 768;
    let entry = corner_entries(shape, [0, 0, 2])[0].0;
    assert!(entry > 1);
    call.records[entry] = i32::MIN;
    assert_eq!(run(&call), refused(5, 1));
}
