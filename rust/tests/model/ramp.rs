//! A ramp of doses: a list of positions, each asked by itself.

use super::query::{checked_point, Where};
use super::shape::*;
use super::stages::{staged, Want};

// The most positions of a list.
pub const MOST: usize = 256;

// What a ramp gives.
#[derive(Clone, Debug, PartialEq, Eq)]
pub struct Ramped {
    pub answers: Vec<i32>,
    pub fetches: u64,
}

// The ramp: 1, 2, 3, 26, 20, 4, 9, then the number of the first refused position, with its index.
pub fn ramp(shape: &Shape, records: &[i32], positions: &[i32], room: usize) -> Answer<Ramped> {
    check_shape(shape)?;
    let list = positions.chunks_exact(3);
    let whole = list.remainder().is_empty();
    refuse_unless(whole && list.len() <= MOST, 20, 0)?;
    check_length(records.len(), shape.entries())?;
    check_room(room, list.len())?;
    let (mut answers, mut cells) = (Vec::new(), Vec::new());
    for (index, position) in list.enumerate() {
        let at = Where::Position([position[0], position[1], position[2]]);
        let point = checked_point(shape, records, at, Want::Dose).map_err(|refusal| Refusal {
            place: index as u64,
            ..refusal
        })?;
        answers.push(staged(shape, records, &point) as i32);
        cells.push(point.cell);
    }
    let fetches = fetches(&cells);
    Ok(Ramped { answers, fetches })
}

// 0 for an empty list, else one more than the number of neighbouring pairs with different cells.
pub fn fetches(cells: &[[u32; 3]]) -> u64 {
    let changes = cells.windows(2).filter(|pair| pair[0] != pair[1]).count();
    match cells {
        [] => 0,
        _ => 1 + changes as u64,
    }
}
