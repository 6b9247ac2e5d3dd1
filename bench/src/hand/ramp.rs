//! Ramps of doses specialised by degree, number of axes and edition: where the cell changes, its corner
//! records are found and tested, and the stages work on them until it changes again.

use super::checks::*;
use super::method::Folded;
use super::point::Point;
use super::stages::{cube_stages, line_stage, record, square_stages};
use crate::inputs::Want;
use lukhtari::Shape;

const MOST: usize = 256;

// 1, 2, 3, 26, 20, 4, 9, then position by position 23, 22, 11, 5; else the number of fetches.
pub fn ramp(
    shape: Shape,
    records: &[i32],
    positions: &[[i32; 3]],
    answers: &mut [i32],
) -> Answer<u64> {
    check_shape(shape)?;
    if positions.len() > MOST {
        return refuse(20, 0);
    }
    check_query(shape, records, Want::Dose)?;
    if answers.len() < positions.len() {
        return refuse(9, 0);
    }
    let list = List {
        shape,
        records,
        positions,
    };
    match shape.second_edition {
        false => list.by_shape::<false>(answers),
        true => list.by_shape::<true>(answers),
    }
}

// Positions in a table.
struct List<'a> {
    shape: Shape,
    records: &'a [i32],
    positions: &'a [[i32; 3]],
}

impl List<'_> {
    // E is edition two.
    fn by_shape<const E: bool>(&self, answers: &mut [i32]) -> Answer<u64> {
        match (self.shape.degree, self.shape.axes) {
            (3, 1) => self.fill::<4, 2, 2>(answers, line_stage::<Folded, 4, 2, E>),
            (3, 2) => self.fill::<4, 4, 4>(answers, square_stages::<Folded, 4, 4, 0, 1, E>),
            (3, _) => self.fill::<4, 8, 8>(answers, cube_stages::<Folded, 4, 8, 0, 1, 2, E>),
            (_, 1) => self.fill::<6, 3, 2>(answers, line_stage::<Folded, 6, 3, E>),
            (_, 2) => self.fill::<6, 9, 4>(answers, square_stages::<Folded, 6, 9, 0, 1, E>),
            (_, _) => self.fill::<6, 27, 8>(answers, cube_stages::<Folded, 6, 27, 0, 1, 2, E>),
        }
    }

    // S numbers on a line, records of R entries, C corners.
    #[inline(always)]
    fn fill<const S: usize, const R: usize, const C: usize>(
        &self,
        answers: &mut [i32],
        stages: impl Fn([&[i32; R]; C], Point) -> i32,
    ) -> Answer<u64> {
        let mut made = [0; MOST];
        let mut corners = [&[0; R]; C];
        let mut fetched = None;
        let mut fetches = 0;
        for (index, &position) in self.positions.iter().enumerate() {
            let point = self
                .locate(position)
                .or_else(|number| refuse(number, index))?;
            if fetched != Some(point.cell) {
                let fetch = self.fetch::<S, R, C>(point.cell);
                corners = fetch.or_else(|refusal| refuse(refusal.number, index))?;
                fetched = Some(point.cell);
                fetches += 1;
            }
            made[index] = stages(corners, point);
        }
        let length = self.positions.len();
        answers[..length].copy_from_slice(&made[..length]);
        Ok(fetches)
    }

    // The point of a position, or the number of its refusal.
    #[inline(always)]
    fn locate(&self, position: [i32; 3]) -> Result<Point, u32> {
        let (mut cell, mut u) = ([0; 3], [0; 3]);
        for axis in 0..3 {
            let located = locate(self.shape, axis, position[axis] as i64);
            (cell[axis], u[axis]) = located.map_err(|refusal| refusal.number)?;
        }
        let want = Want::Dose;
        Ok(Point { cell, u, want })
    }

    // The corner records of a cell, tested.
    #[inline(always)]
    fn fetch<const S: usize, const R: usize, const C: usize>(
        &self,
        cell: [u32; 3],
    ) -> Answer<[&[i32; R]; C]> {
        let [cx, cy, _] = self.shape.counts.map(|count| count as usize);
        let [x, y, z] = cell.map(|index| index as usize);
        let node = x + cx * (y + cy * z);
        let mut corners = [&[0; R]; C];
        for (corner, fetched) in corners.iter_mut().enumerate() {
            let offset = (corner & 1) + cx * ((corner >> 1 & 1) + cy * (corner >> 2));
            *fetched = record::<S, R>(self.records, node + offset)?;
        }
        Ok(corners)
    }
}
