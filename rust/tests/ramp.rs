//! Ramps of doses: answers and fetches.

mod common;
mod model;
mod ramps;

use common::*;
use lukhtari::{dose, ramp, Key, Shape};
use model::query::{last_step, locate, Where};
use model::ramp::Ramped;
use ramps::*;

// Makes the call, compares it with the model and each answer with that of its own call.
#[track_caller]
fn run_accepted(call: &Ramp) -> Ramped {
    let ramped = run_ramp(call).expect("accepted ramp");
    let own = |at| dose(Key::Service, call.shape, &call.records, at).expect("accepted position");
    let own: Vec<i32> = call.list().into_iter().map(|at| own(at).value).collect();
    assert_eq!(ramped.answers, own, "{:?}", call.shape);
    ramped
}

#[test]
fn lists_of_every_length() {
    let mut random = Random::new(1);
    for (axes, degree) in KINDS {
        let shape = cube(axes, degree, 4);
        let records = random.records(shape);
        for length in [0, 1, 2, 3, 100, 255, 256] {
            let list = random.path(shape, length);
            let mut call = Ramp::new(shape, &records, &list);
            for more in [0, 1, 300] {
                call.room = length + more;
                assert_eq!(run_accepted(&call).answers.len(), length);
            }
        }
        let list = random.path(shape, 257);
        assert_eq!(run(&Ramp::new(shape, &records, &list)), refused(20, 0));
    }
}

#[test]
fn an_empty_list_has_no_fetch() {
    for (axes, degree) in KINDS {
        let shape = cube(axes, degree, 2);
        let mut call = Ramp::new(shape, &vec![7; shape.entries()], &[]);
        for room in [0, 1, 1000] {
            call.room = room;
            assert_eq!(run_accepted(&call).fetches, 0);
        }
        // The records are not looked at.
        call.records.fill(i32::MIN);
        assert_eq!(run_accepted(&call).fetches, 0);
    }
}

#[test]
fn random_paths() {
    let mut random = Random::new(2);
    for (axes, degree) in KINDS {
        for _ in 0..20 {
            let shape = random.shape(axes, degree, if axes == 1 { 64 } else { 5 });
            let records = random.records(shape);
            let length = random.below(60) as usize;
            let list = random.path(shape, length);
            run_accepted(&Ramp::new(shape, &records, &list));
        }
    }
}

// The low corner of a cell, as a position.
fn low(cell: [u32; 3]) -> [i32; 3] {
    cell.map(|index| 256 * index as i32)
}

// The fetches of a walk through cells, each entered at its low corner.
#[track_caller]
fn fetches(shape: Shape, walk: &[[u32; 3]]) -> u64 {
    let list: Vec<[i32; 3]> = walk.iter().map(|&cell| low(cell)).collect();
    let records = vec![7; shape.entries()];
    run_accepted(&Ramp::new(shape, &records, &list)).fetches
}

#[test]
fn changes_of_the_cell_are_counted() {
    for (axes, degree) in KINDS {
        let shape = cube(axes, degree, 4);
        for axis in 0..axes as usize {
            // Three cells that differ on one axis alone.
            let [a, b, c] = [0, 1, 2].map(|index| {
                let mut cell = [0; 3];
                cell[axis] = index;
                cell
            });
            assert_eq!(fetches(shape, &[a]), 1);
            assert_eq!(fetches(shape, &[a, a, a]), 1);
            assert_eq!(fetches(shape, &[a, b]), 2);
            assert_eq!(fetches(shape, &[a, b, a]), 3);
            assert_eq!(fetches(shape, &[a, b, b, a, a]), 3);
            assert_eq!(fetches(shape, &[c, c, a, b, c]), 4);
            let to_and_fro: Vec<[u32; 3]> = [a, c].into_iter().cycle().take(256).collect();
            assert_eq!(fetches(shape, &to_and_fro), 256);
        }
    }
}

#[test]
fn cells_that_share_an_index_are_different_cells() {
    for degree in [3, 5] {
        let shape = cube(3, degree, 3);
        // All eight cells, and each pair of them.
        let all = cells(shape);
        assert_eq!(fetches(shape, &all), 8);
        for &one in &all {
            for &other in &all {
                let different = u64::from(one != other);
                assert_eq!(fetches(shape, &[one, other]), 1 + different);
            }
        }
    }
}

#[test]
fn a_cell_left_and_entered_again_has_its_own_records() {
    // Each answer is that of its own call, whatever cell was read before.
    let mut random = Random::new(3);
    for (axes, degree) in KINDS {
        let shape = cube(axes, degree, 4);
        let records = random.records(shape);
        let points = [0, 1, 2, 3].map(|_| random.position(shape));
        let list: Vec<[i32; 3]> = (0..64).map(|_| random.pick(&points)).collect();
        run_accepted(&Ramp::new(shape, &records, &list));
    }
}

// The other axes' positions: a node, the last node, and a step between nodes.
fn beside(shape: Shape, axis: usize) -> Vec<[i32; 3]> {
    let plain = plain_shape(shape);
    let ways = [256, i32::MAX, 100];
    let at = |way: i32| {
        [0, 1, 2].map(|other| match other == axis {
            true => 0,
            false => way.min(last_step(&plain, other) as i32),
        })
    };
    ways.map(at).to_vec()
}

#[test]
fn walks_across_the_nodes_of_an_axis() {
    // The step before each node, the node, the step after it, to the last node and back again,
    // along edges and faces of cells and between them.
    let mut random = Random::new(4);
    for (axes, degree) in KINDS {
        let shape = cube(axes, degree, 4);
        let records = random.records(shape);
        for axis in 0..axes as usize {
            for start in beside(shape, axis) {
                let steps = (0..4).flat_map(|node| [-1, 0, 1].map(|by| 256 * node + by));
                let there: Vec<i32> = steps.filter(|step| (0..=768).contains(step)).collect();
                let back = there.iter().rev().copied();
                let at = |step: i32| {
                    let mut position = start;
                    position[axis] = step;
                    position
                };
                let list: Vec<[i32; 3]> = there.iter().copied().chain(back).map(at).collect();
                let ramped = run_accepted(&Ramp::new(shape, &records, &list));
                // Three cells there, and two changes back.
                assert_eq!(ramped.fetches, 5, "{shape:?} {start:?}");
            }
        }
    }
}

#[test]
fn a_node_is_read_in_the_upper_cell_and_the_last_one_in_the_last_cell() {
    for (axes, degree) in KINDS {
        let shape = cube(axes, degree, 3);
        let records = vec![7; shape.entries()];
        for axis in 0..axes as usize {
            let fetches = |steps: &[i32]| {
                let at = |&step: &i32| {
                    let mut position = [0; 3];
                    position[axis] = step;
                    position
                };
                let list: Vec<[i32; 3]> = steps.iter().map(at).collect();
                run_accepted(&Ramp::new(shape, &records, &list)).fetches
            };
            assert_eq!(fetches(&[255, 256]), 2);
            assert_eq!(fetches(&[256, 257, 511, 512]), 1);
            assert_eq!(fetches(&[512, 256, 255]), 2);
            assert_eq!(fetches(&[0, 512, 0]), 3);
        }
    }
}

#[test]
fn diagonals_from_corner_to_corner() {
    // Through every node on the diagonal, where the cell changes on all axes at once.
    let mut random = Random::new(5);
    for (axes, degree) in KINDS {
        let shape = cube(axes, degree, 4);
        let records = random.records(shape);
        let steps: Vec<i32> = (0..=768).step_by(4).collect();
        let at = |&step: &i32| [0, 1, 2].map(|axis| if axis < axes { step } else { 0 });
        let list: Vec<[i32; 3]> = steps.iter().map(at).collect();
        assert_eq!(list.len(), 193);
        let ramped = run_accepted(&Ramp::new(shape, &records, &list));
        assert_eq!(ramped.fetches, 3);
    }
}

#[test]
fn fetches_are_those_of_the_cells_alone() {
    // Whatever the records hold.
    let mut random = Random::new(6);
    for (axes, degree) in KINDS {
        let shape = random.shape(axes, degree, 4);
        let list = random.path(shape, 40);
        let plain = plain_shape(shape);
        let cell = |&at: &[i32; 3]| locate(&plain, Where::Position(at)).expect("in the table").0;
        let cells: Vec<[u32; 3]> = list.iter().map(cell).collect();
        for _ in 0..3 {
            let records = random.records(shape);
            let ramped = run_accepted(&Ramp::new(shape, &records, &list));
            assert_eq!(ramped.fetches, model::ramp::fetches(&cells));
        }
    }
}

#[test]
fn only_the_records_of_the_cells_count() {
    // All other records are beyond their limits.
    let mut random = Random::new(7);
    for (axes, degree) in KINDS {
        let shape = cube(axes, degree, 5);
        let records = random.records(shape);
        let all = cells(shape);
        let visited = [random.pick(&all), random.pick(&all)];
        let mut alone = vec![i32::MIN; shape.entries()];
        for cell in visited {
            for (index, _) in corner_entries(shape, cell) {
                alone[index] = records[index];
            }
        }
        let inside = |cell: [u32; 3], random: &mut Random| {
            let mut at = low(cell);
            at[..axes as usize]
                .iter_mut()
                .for_each(|step| *step += random.below(256) as i32);
            at
        };
        let list: Vec<[i32; 3]> = (0..30)
            .map(|_| {
                let cell = random.pick(&visited);
                inside(cell, &mut random)
            })
            .collect();
        let whole = run_accepted(&Ramp::new(shape, &records, &list));
        assert_eq!(run_accepted(&Ramp::new(shape, &alone, &list)), whole);
    }
}

#[test]
fn a_vignette_in_the_largest_table() {
    let shape = cube(3, 5, 64);
    let mut random = Random::new(8);
    let records = random.records(shape);
    let list: Vec<[i32; 3]> = (0..256)
        .map(|step| [16128 - step, 8000 + 2 * step, 3 * step])
        .collect();
    let mut answers = [0; 256];
    let fetches = ramp(Key::Service, shape, &records, &list, &mut answers).expect("accepted ramp");
    let own = |&at: &[i32; 3]| dose(Key::Service, shape, &records, at).expect("accepted position");
    let own: Vec<i32> = list.iter().map(|at| own(at).value).collect();
    assert_eq!(answers.to_vec(), own);
    let cell = |&at: &[i32; 3]| locate(&plain_shape(shape), Where::Position(at)).unwrap().0;
    let cells: Vec<[u32; 3]> = list.iter().map(cell).collect();
    assert_eq!(fetches, model::ramp::fetches(&cells));
}
