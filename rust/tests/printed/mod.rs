//! Calls whose answers are compared with printed numbers.

use crate::common::*;
use crate::files::words;
use crate::model::query::Where::{self, Cell, Position};
use crate::model::{Answer, Want};
use crate::queries::{call, run};
use lukhtari::{
    coefficients, corners, estimate, pool, read, write, Key, Measurement, Refusal, Shape,
};

pub const ORIGIN: [u32; 3] = [0; 3];
pub const START: Where = Position([0; 3]);

// The printed answer, which is also the model's.
#[track_caller]
pub fn check(shape: Shape, records: &[i32], at: Where, want: Want, printed: Answer<i32>) {
    let query = Query::new(shape, records.to_vec(), at, want);
    assert_eq!(plain(call(&query)), printed, "{shape:?} {at:?} {want:?}");
    assert_eq!(run(&query), printed);
}

// The first numbers of a guarded buffer after a call; no others are written, and none if refused.
#[track_caller]
fn filled(
    room: usize,
    count: usize,
    call: impl Fn(&mut [i32]) -> Result<(), Refusal>,
) -> Answer<Vec<i32>> {
    let mut buffer = Lent::new(room);
    let answer = plain(call(buffer.slice()));
    let count = if answer.is_ok() { count } else { 0 };
    let front = buffer.slice()[..count].to_vec();
    buffer.check(&front);
    answer.map(|()| front)
}

pub fn estimated(shape: Shape, samples: &[i32], room: usize) -> Answer<Vec<i32>> {
    let call = |out: &mut [i32]| estimate(Key::Service, shape, samples, out);
    filled(room, shape.entries(), call)
}

pub fn forward(shape: Shape, records: &[i32], cell: [u32; 3], room: usize) -> Answer<Vec<i32>> {
    let call = |out: &mut [i32]| coefficients(Key::Service, shape, records, cell, out);
    filled(room, shape.coefficients(), call)
}

pub fn back(axes: u32, degree: u32, numbers: &[i32], room: usize) -> Answer<Vec<i32>> {
    let call = |out: &mut [i32]| corners(Key::Service, axes, degree, numbers, out);
    filled(room, cube(axes, degree, 2).entries(), call)
}

pub fn pooled(a: Measurement, b: Measurement, room: usize) -> Answer<Vec<i32>> {
    filled(room, a.samples.len(), |out: &mut [i32]| {
        pool(Key::Service, a, b, out)
    })
}

pub fn written(shape: Shape, samples: &[i32], room: usize) -> Answer<usize> {
    let Shape {
        axes,
        counts,
        steps,
        second_edition,
        ..
    } = shape;
    let mut bytes = vec![0; room];
    plain(write(
        Key::Service,
        axes,
        counts,
        steps,
        second_edition,
        samples,
        &mut bytes,
    ))
}

pub fn read_numbers(numbers: &[u32], spare: usize) -> Answer<()> {
    let bytes = [words(numbers), vec![0; spare]].concat();
    outcome(&plain(read(Key::Service, &bytes, &mut [])))
}

// All numbers 0 but those given with their index.
pub fn only(length: usize, numbers: &[(usize, i32)]) -> Vec<i32> {
    let mut all = vec![0; length];
    for &(index, number) in numbers {
        all[index] = number;
    }
    all
}

// The numbers that are not 0, each with its index.
pub fn sparse(all: Vec<i32>) -> Vec<(usize, i32)> {
    let numbers = all.into_iter().enumerate();
    numbers.filter(|&(_, number)| number != 0).collect()
}

// What the calls that take a shape say of one with nothing lent: first those with a degree.
pub fn with_nothing_lent(shape: Shape) -> [Answer<()>; 5] {
    let ask = |at| outcome(&plain(call(&Query::new(shape, vec![], at, Want::Dose))));
    [
        outcome(&estimated(shape, &[], 0)),
        outcome(&forward(shape, &[], ORIGIN, 0)),
        ask(START),
        ask(Cell(ORIGIN, ORIGIN)),
        outcome(&written(shape, &[], 0)),
    ]
}
