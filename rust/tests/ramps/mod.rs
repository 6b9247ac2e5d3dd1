//! Ramps of doses: the call and what its tests share.

#![allow(dead_code)]

use crate::common::{editions, outcome, plain, plain_shape, Lent, Random, SERVICE};
use crate::model;
use lukhtari::{ffi, ramp, Key, Shape};
use model::query::last_step;
use model::ramp::Ramped;
use model::Answer;

#[derive(Clone, Debug)]
pub struct Ramp {
    pub shape: Shape,
    pub records: Vec<i32>,
    // Three numbers for each position.
    pub positions: Vec<i32>,
    pub room: usize,
}

impl Ramp {
    // A call with a slice of the right length for the answers.
    pub fn new(shape: Shape, records: &[i32], list: &[[i32; 3]]) -> Ramp {
        Ramp {
            shape,
            records: records.to_vec(),
            positions: list.as_flattened().to_vec(),
            room: list.len(),
        }
    }

    // The positions, without numbers left over.
    pub fn list(&self) -> Vec<[i32; 3]> {
        let list = self.positions.chunks_exact(3);
        list.map(|at| [at[0], at[1], at[2]]).collect()
    }
}

// Makes the call in both editions, compares each with the model's, and returns what the model gives
// for the call.
#[track_caller]
pub fn run_ramp(call: &Ramp) -> Answer<Ramped> {
    let [first, second] = editions(call.shape).map(|shape| {
        let call = Ramp {
            shape,
            ..call.clone()
        };
        run_edition(&call)
    });
    if call.shape.second_edition {
        second
    } else {
        first
    }
}

#[track_caller]
fn run_edition(call: &Ramp) -> Answer<Ramped> {
    let mut buffer = Lent::new(call.room);
    let result = raw(call, buffer.slice());
    let shape = plain_shape(call.shape);
    let expected = model::ramp::ramp(&shape, &call.records, &call.positions, call.room);
    let (number, place, fetches) = match &expected {
        Ok(ramped) => (0, 0, ramped.fetches),
        Err(refusal) => (refusal.number, refusal.place, 0),
    };
    let told = (result.number, result.place, result.fetches);
    assert_eq!(told, (number, place, fetches), "{:?}", call.shape);
    let answers = expected.as_ref().map(|ramped| &ramped.answers[..]);
    buffer.check(answers.unwrap_or_default());
    check_safe(call, &expected);
    expected
}

// The call of Rust, which takes whole positions only, gives the same.
#[track_caller]
fn check_safe(call: &Ramp, expected: &Answer<Ramped>) {
    let list = call.list();
    if call.positions.len() % 3 == 0 {
        let mut buffer = Lent::new(call.room);
        let got = ramp(
            Key::Service,
            call.shape,
            &call.records,
            &list,
            buffer.slice(),
        );
        let fetches = expected.as_ref().map(|ramped| ramped.fetches);
        assert_eq!(plain(got), fetches.map_err(|refusal| *refusal));
        let answers = expected.as_ref().map(|ramped| &ramped.answers[..]);
        buffer.check(answers.unwrap_or_default());
    }
}

#[track_caller]
pub fn run(call: &Ramp) -> Answer<()> {
    outcome(&run_ramp(call))
}

// The result as it crosses the C interface.
pub fn raw(call: &Ramp, answers: &mut [i32]) -> ffi::Ramped {
    let (records, positions) = (&call.records, &call.positions);
    // SAFETY: pointers and lengths are those of the slices.
    unsafe {
        ffi::lukhtari_ramp(
            SERVICE,
            call.shape,
            records.as_ptr(),
            records.len(),
            positions.as_ptr(),
            positions.len(),
            answers.as_mut_ptr(),
            answers.len(),
        )
    }
}

impl Random {
    // A position in the table: a node, the last node, a step beside a node, or any step.
    pub fn position(&mut self, shape: Shape) -> [i32; 3] {
        let plain = plain_shape(shape);
        let mut step = |axis: usize| {
            let last = last_step(&plain, axis);
            let steps = plain.steps_on(axis);
            let node = steps * self.range(0, last / steps);
            let beside = (node + self.pick(&[-1, 1])).clamp(0, last);
            let any = self.range(0, last);
            self.pick(&[node, last, beside, any, any]) as i32
        };
        [0, 1, 2].map(&mut step)
    }

    // A path of so many positions: mostly small steps, some of 0, some leaps.
    pub fn path(&mut self, shape: Shape, length: usize) -> Vec<[i32; 3]> {
        let plain = plain_shape(shape);
        let mut at = self.position(shape);
        let mut path = Vec::new();
        for _ in 0..length {
            path.push(at);
            match self.below(12) {
                0 => at = self.position(shape),
                1 => {}
                _ => {
                    for (axis, step) in at.iter_mut().enumerate() {
                        let last = last_step(&plain, axis) as i32;
                        let size = self.pick(&[1, 8, 60]);
                        *step = (*step + self.range(-size, size) as i32).clamp(0, last);
                    }
                }
            }
        }
        path
    }
}
