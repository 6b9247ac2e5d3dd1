//! Doses by position beside hand-written C, called through the same interface and without a mark.

use super::clock::{side_by_side, Run};
use super::inputs::{cube, estimable, positions, KINDS};
use super::report::{heading, kind, line};
use lukhtari::ffi::{lukhtari_dose, Position, Whole};
use lukhtari::{estimate, Key, Shape};

const POINTS: usize = 1024;

extern "C" {
    fn dose_by_hand(shape: Shape, records: *const i32, length: usize, position: Position) -> Whole;
}

pub fn run() {
    heading("Doses by position beside C", &["library", "C, folded"]);
    for (degree, axes) in KINDS {
        let shape = cube(degree, axes, if axes == 3 { 17 } else { 33 });
        let mut records = vec![0; shape.entries()];
        estimate(Key::Service, shape, &estimable(shape), &mut records).expect("accepted table");
        let positions = positions(shape, POINTS);
        let (from, length) = (records.as_ptr(), records.len());
        // SAFETY: here and below the pointer and the length are those of the records.
        let library = |at| unsafe {
            lukhtari_dose(Key::Service as u32, shape, from, length, Position { at })
        };
        let by_hand = |at| unsafe { dose_by_hand(shape, from, length, Position { at }) };
        for &at in &positions {
            let (dose, hand) = (library(at), by_hand(at));
            assert_eq!(
                (dose.number, dose.place, dose.value),
                (hand.number, hand.place, hand.value)
            );
        }
        let mut runs = [
            over(&positions, |at| library(at).value),
            over(&positions, |at| by_hand(at).value),
        ];
        let times = side_by_side(POINTS, &mut runs);
        line(&kind(degree, axes), &times);
    }
}

// A run of one call over all positions.
fn over<'a>(positions: &'a [[i32; 3]], call: impl Fn([i32; 3]) -> i32 + 'a) -> Run<'a> {
    Box::new(move || positions.iter().map(|&at| call(at) as i64).sum())
}
