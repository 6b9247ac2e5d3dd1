//! Doses and slopes all over a table, at every position or at every so many steps.

use crate::calls::Calls;
use crate::progress::Progress;
use crate::table::{indices, Records};
use lukhtari::limits::{RAMP_MAX, STEPS_MAX};
use lukhtari::Refusal;

// Most positions that are looked at without being asked to.
const MOST: usize = 1 << 22;

// Positions at every so many steps along each used axis.
#[derive(Clone, Copy)]
pub struct Grid {
    pub every: u32,
    sides: [u32; 3],
}

impl Grid {
    pub fn new(counts: [u32; 3], every: u32) -> Grid {
        let sides = counts.map(|count| STEPS_MAX / every * (count - 1) + 1);
        Grid { every, sides }
    }

    // The finest grid of at most so many positions, or that of the nodes.
    pub fn at_most(counts: [u32; 3], positions: usize) -> Grid {
        let mut every = 1;
        while every < STEPS_MAX && Grid::new(counts, every).positions() > positions {
            every *= 2;
        }
        Grid::new(counts, every)
    }

    // The grid of a survey.
    pub fn fitting(counts: [u32; 3], every: Option<u32>) -> Grid {
        match every {
            Some(every) => Grid::new(counts, every),
            None => Grid::at_most(counts, MOST),
        }
    }

    pub fn positions(&self) -> usize {
        self.stride(3)
    }

    // How far apart the numbers of neighbours along an axis are.
    fn stride(&self, axis: usize) -> usize {
        let sides = self.sides[..axis].iter();
        sides.map(|&side| side as usize).product()
    }

    pub fn position(&self, number: usize) -> [i32; 3] {
        indices(self.sides, number).map(|index| (index * self.every) as i32)
    }

    // All positions with the numbers of the first ones, so many at a time as a ramp takes.
    fn ramps(&self) -> impl Iterator<Item = (usize, Vec<[i32; 3]>)> + '_ {
        let whole = self.positions();
        (0..whole).step_by(RAMP_MAX).map(move |start| {
            let numbers = start..whole.min(start + RAMP_MAX);
            (start, numbers.map(|number| self.position(number)).collect())
        })
    }
}

// A number with its place; of several that are as large the first place is kept.
#[derive(Clone, Copy, Default)]
pub struct Largest {
    pub value: i32,
    pub number: usize,
    pub axis: usize,
}

impl Largest {
    fn take(&mut self, value: i32, number: usize, axis: usize) {
        let (size, old) = (value.unsigned_abs(), self.value.unsigned_abs());
        let before = (number, axis) < (self.number, self.axis);
        if size > old || size == old && size > 0 && before {
            *self = Largest {
                value,
                number,
                axis,
            };
        }
    }
}

// The largest difference of neighbouring doses along an axis.
pub fn jump(
    calls: &Calls,
    records: &Records,
    grid: Grid,
    progress: &mut Progress,
) -> Result<Largest, Refusal> {
    let axes = records.shape.axes as usize;
    let mut largest = Largest::default();
    // The doses since the neighbour along the last axis.
    let mut recent = vec![0; grid.stride(axes - 1)];
    let mut doses = [0; RAMP_MAX];
    for (start, at) in grid.ramps() {
        calls.ramp(records, &at, &mut doses)?;
        for (index, (at, dose)) in at.iter().zip(doses).enumerate() {
            let number = start + index;
            for axis in (0..axes).filter(|&axis| at[axis] > 0) {
                let before = number - grid.stride(axis);
                largest.take(dose - recent[before % recent.len()], before, axis);
            }
            let place = number % recent.len();
            recent[place] = dose;
        }
        progress.advance(at.len());
    }
    Ok(largest)
}

// The steepest slope along an axis.
pub fn steepest(
    calls: &Calls,
    records: &Records,
    grid: Grid,
    progress: &mut Progress,
) -> Result<Largest, Refusal> {
    let mut largest = Largest::default();
    for number in 0..grid.positions() {
        let at = grid.position(number);
        for axis in 0..records.shape.axes {
            let slope = calls.slope(records, at, axis)?;
            largest.take(slope, number, axis as usize);
        }
        progress.advance(1);
    }
    Ok(largest)
}

// The largest difference of the doses of two tables.
pub fn dose_difference(
    calls: &Calls,
    [a, b]: [&Records; 2],
    grid: Grid,
    progress: &mut Progress,
) -> Result<Largest, Refusal> {
    let mut largest = Largest::default();
    let mut doses = [[0; RAMP_MAX]; 2];
    for (start, at) in grid.ramps() {
        calls.ramp(a, &at, &mut doses[0])?;
        calls.ramp(b, &at, &mut doses[1])?;
        let pairs = doses[0].iter().zip(&doses[1]).take(at.len());
        for (index, (a, b)) in pairs.enumerate() {
            largest.take(b - a, start + index, 0);
        }
        progress.advance(at.len());
    }
    Ok(largest)
}

// The largest difference of two lists.
pub fn difference(a: &[i32], b: &[i32]) -> Largest {
    let mut largest = Largest::default();
    for (number, (a, b)) in a.iter().zip(b).enumerate() {
        largest.take(b - a, number, 0);
    }
    largest
}
