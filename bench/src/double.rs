//! The published method in f64: all coefficients of the cell, then the sum over them all.
//!
//! The coefficients come from the paper's sums, corner by corner; or from the one-axis table axis
//! by axis, which needs less work; or they are stored for each cell of the table.

use super::inputs::{cell_and_u, Want};
use lukhtari::Shape;

// How the coefficients are had.
#[derive(Clone, Copy)]
pub enum Source {
    Sums,
    Axes,
    Stored,
}

// A table's values and derivatives, and the coefficients of all its cells.
pub struct Double {
    shape: Shape,
    records: Vec<f64>,
    stored: Vec<f64>,
}

impl Double {
    pub fn new(shape: Shape, records: &[i32]) -> Double {
        let m = shape.degree as usize / 2 + 1;
        let record = m.pow(shape.axes);
        // Order 1 is twice the slope.
        let scale = |entry: usize| {
            let orders = [entry % m, entry / m % m, entry / m / m];
            0.5f64.powi(orders.iter().filter(|&&order| order == 1).count() as i32)
        };
        let value = |(index, &entry): (usize, &i32)| entry as f64 * scale(index % record);
        let records = records.iter().enumerate().map(value).collect();
        let mut table = Double {
            shape,
            records,
            stored: Vec::new(),
        };
        table.store();
        table
    }

    // Works out the coefficients of all cells.
    fn store(&mut self) {
        let [cx, cy, cz] = self.shape.counts.map(|count| (count - 1).max(1));
        for number in 0..cx * cy * cz {
            let cell = [number % cx, number / cx % cy, number / cx / cy];
            match (self.shape.degree, self.shape.axes) {
                (3, 1) => self.store_cell::<4, 1, 2, 4>(cell),
                (3, 2) => self.store_cell::<4, 2, 4, 16>(cell),
                (3, _) => self.store_cell::<4, 3, 8, 64>(cell),
                (_, 1) => self.store_cell::<6, 1, 3, 6>(cell),
                (_, 2) => self.store_cell::<6, 2, 9, 36>(cell),
                (_, _) => self.store_cell::<6, 3, 27, 216>(cell),
            }
        }
    }

    fn store_cell<const S: usize, const N: usize, const R: usize, const K: usize>(
        &mut self,
        cell: [u32; 3],
    ) {
        let block: [f64; K] = self.by_sums::<S, N, R, K>(cell);
        self.stored.extend(&block);
    }

    // Dose, slope or curvature at a position.
    pub fn at(&self, position: [i32; 3], want: Want, source: Source) -> f64 {
        match (self.shape.degree, self.shape.axes) {
            (3, 1) => self.value::<4, 1, 2, 4>(position, want, source),
            (3, 2) => self.value::<4, 2, 4, 16>(position, want, source),
            (3, _) => self.value::<4, 3, 8, 64>(position, want, source),
            (_, 1) => self.value::<6, 1, 3, 6>(position, want, source),
            (_, 2) => self.value::<6, 2, 9, 36>(position, want, source),
            (_, _) => self.value::<6, 3, 27, 216>(position, want, source),
        }
    }

    // S is degree + 1, N the number of axes, R the entries of a record, K the coefficients.
    #[inline(always)]
    fn value<const S: usize, const N: usize, const R: usize, const K: usize>(
        &self,
        position: [i32; 3],
        want: Want,
        source: Source,
    ) -> f64 {
        let (cell, u) = cell_and_u(self.shape, position);
        match source {
            Source::Sums => tensor::<S, N>(&self.by_sums::<S, N, R, K>(cell), u, want),
            Source::Axes => tensor::<S, N>(&self.by_axes::<S, N, R, K>(cell), u, want),
            Source::Stored => {
                let [x, y, z] = cell.map(|index| index as usize);
                let [cx, cy, _] = self.shape.counts.map(|count| (count as usize - 1).max(1));
                let start = K * (x + cx * (y + cy * z));
                tensor::<S, N>(&self.stored[start..start + K], u, want)
            }
        }
    }

    // The values and derivatives at a corner of a cell.
    #[inline(always)]
    fn corner<const R: usize>(&self, cell: [u32; 3], ends: [usize; 3]) -> &[f64; R] {
        let [cx, cy, _] = self.shape.counts.map(|count| count as usize);
        let [x, y, z] = [0, 1, 2].map(|axis| cell[axis] as usize + ends[axis]);
        let start = R * (x + cx * (y + cy * z));
        self.records[start..start + R].try_into().unwrap()
    }

    // Corner by corner, each coefficient by its sum.
    #[inline(always)]
    fn by_sums<const S: usize, const N: usize, const R: usize, const K: usize>(
        &self,
        cell: [u32; 3],
    ) -> [f64; K] {
        let mut all = [0.0; K];
        self.fill_corner::<S, R, K, 0>(cell, &mut all);
        self.fill_corner::<S, R, K, 1>(cell, &mut all);
        if N > 1 {
            self.fill_corner::<S, R, K, 2>(cell, &mut all);
            self.fill_corner::<S, R, K, 3>(cell, &mut all);
        }
        if N > 2 {
            self.fill_corner::<S, R, K, 4>(cell, &mut all);
            self.fill_corner::<S, R, K, 5>(cell, &mut all);
            self.fill_corner::<S, R, K, 6>(cell, &mut all);
            self.fill_corner::<S, R, K, 7>(cell, &mut all);
        }
        all
    }

    // The block of corner C, with the signs set.
    #[inline(always)]
    fn fill_corner<const S: usize, const R: usize, const K: usize, const C: usize>(
        &self,
        cell: [u32; 3],
        all: &mut [f64; K],
    ) {
        let m = S / 2;
        let ends = [C & 1, C >> 1 & 1, C >> 2];
        let rows = || (0..R / m).map(|row| (m * row, row % m, row / m));
        let mut numbers = *self.corner::<R>(cell, ends);
        for (start, b, c) in rows() {
            for a in 0..m {
                if (a * ends[0] + b * ends[1] + c * ends[2]) % 2 == 1 {
                    numbers[start + a] = -numbers[start + a];
                }
            }
        }
        let block = block_sums::<S, R>(&numbers);
        // The high end's coefficients stand in falling order.
        let place = |end: usize, order: usize| if end == 0 { order } else { S - 1 - order };
        for (start, b, c) in rows() {
            let row = S * (place(ends[1], b) + S * place(ends[2], c));
            for a in 0..m {
                all[row + place(ends[0], a)] = block[start + a];
            }
        }
    }

    // All corners side by side, the one-axis table along each axis.
    #[inline(always)]
    fn by_axes<const S: usize, const N: usize, const R: usize, const K: usize>(
        &self,
        cell: [u32; 3],
    ) -> [f64; K] {
        let m = S / 2;
        let mut all = [0.0; K];
        for corner in 0..1usize << N {
            let ends = [corner & 1, corner >> 1 & 1, corner >> 2];
            let numbers = self.corner::<R>(cell, ends);
            for (row, entries) in numbers.chunks_exact(m).enumerate() {
                let (y, z) = (m * ends[1] + row % m, m * ends[2] + row / m);
                let start = m * ends[0] + S * (y + S * z);
                all[start..start + m].copy_from_slice(entries);
            }
        }
        for axis in 0..N {
            axis_table::<S>(&mut all, S.pow(axis as u32));
        }
        all
    }
}

// The multiplier of a number in a coefficient of one axis.
const fn multiplier<const S: usize>(coefficient: usize, number: usize) -> f64 {
    match (S, coefficient, number) {
        (4, 1, 0) => 3.0,
        (6, 1, 0) => 5.0,
        (6, 2, 0) => 10.0,
        (6, 2, 1) => 4.0,
        (6, 2, 2) => 0.5,
        _ if coefficient == number => 1.0,
        _ => 0.0,
    }
}

// Coefficient E of a corner: its sum, with constant multipliers, is written out by the compiler.
#[inline(always)]
fn sum<const S: usize, const R: usize, const E: usize>(numbers: &[f64; R]) -> f64 {
    if E >= R {
        return 0.0;
    }
    let m = S / 2;
    let (a, b, c) = (E % m, E / m % m, E / m / m);
    let mut sum = 0.0;
    for k in 0..c + 1 {
        for j in 0..b + 1 {
            for i in 0..a + 1 {
                let by = multiplier::<S>(a, i) * multiplier::<S>(b, j) * multiplier::<S>(c, k);
                sum += by * numbers[i + m * (j + m * k)];
            }
        }
    }
    sum
}

macro_rules! sums {
    ($numbers:expr, $($entry:literal)+) => {
        [$(sum::<S, R, $entry>($numbers)),+]
    };
}

// The sums of the paper's listings for one corner.
#[inline]
fn block_sums<const S: usize, const R: usize>(numbers: &[f64; R]) -> [f64; 27] {
    sums!(numbers, 0 1 2 3 4 5 6 7 8 9 10 11 12 13 14 15 16 17 18 19 20 21 22 23 24 25 26)
}

// The table of one axis, undoubled, on every line of a block.
#[inline(always)]
fn axis_table<const S: usize>(block: &mut [f64], stride: usize) {
    for plane in block.chunks_exact_mut(S * stride) {
        for start in 0..stride {
            let mut n = [0.0; S];
            for i in 0..S {
                n[i] = plane[start + i * stride];
            }
            let mut c = [0.0; S];
            if S == 4 {
                (c[0], c[1]) = (n[0], 3.0 * n[0] + n[1]);
                (c[2], c[3]) = (3.0 * n[2] - n[3], n[2]);
            } else {
                (c[0], c[1]) = (n[0], 5.0 * n[0] + n[1]);
                c[2] = 10.0 * n[0] + 4.0 * n[1] + 0.5 * n[2];
                c[3] = 10.0 * n[3] - 4.0 * n[4] + 0.5 * n[5];
                (c[4], c[5]) = (5.0 * n[3] - n[4], n[3]);
            }
            for i in 0..S {
                plane[start + i * stride] = c[i];
            }
        }
    }
}

// Sum over all coefficients, the innermost along x.
#[inline(always)]
fn tensor<const S: usize, const N: usize>(block: &[f64], u: [u32; 3], want: Want) -> f64 {
    let along = |axis: usize| {
        let last = want.axis() == Some(axis as u32);
        weights::<S>(u[axis], if last { want.order() } else { 0 })
    };
    let mut numbers = [0.0; 36];
    let mut lines = S.pow(N as u32 - 1);
    let first = along(0);
    for line in 0..lines {
        numbers[line] = dot(&block[S * line..][..S], &first);
    }
    for axis in 1..N {
        let weights = along(axis);
        lines /= S;
        for line in 0..lines {
            numbers[line] = dot(&numbers[S * line..][..S], &weights);
        }
    }
    numbers[0]
}

#[inline(always)]
fn dot<const S: usize>(numbers: &[f64], weights: &[f64; S]) -> f64 {
    let mut sum = 0.0;
    for i in 0..S {
        sum += numbers[i] * weights[i];
    }
    sum
}

// Weights (1-t)^(d-i) t^i, or their derivatives of an order.
#[inline(always)]
fn weights<const S: usize>(u: u32, order: u32) -> [f64; S] {
    let t = u as f64 / 256.0;
    let (mut step, mut rest) = ([1.0; S], [1.0; S]);
    for i in 1..S {
        step[i] = step[i - 1] * t;
        rest[i] = rest[i - 1] * (1.0 - t);
    }
    let mut weights = [0.0; S];
    for i in 0..S {
        let left = S - 1 - i;
        if order == 0 {
            weights[i] = rest[left] * step[i];
            continue;
        }
        if order == 2 {
            weights[i] = second_derivative(&rest, &step, left, i);
            continue;
        }
        if i > 0 {
            weights[i] += i as f64 * rest[left] * step[i - 1];
        }
        if left > 0 {
            weights[i] -= left as f64 * rest[left - 1] * step[i];
        }
    }
    weights
}

// Of (1-t)^left t^i, from the powers of both.
#[inline(always)]
fn second_derivative<const S: usize>(
    rest: &[f64; S],
    step: &[f64; S],
    left: usize,
    i: usize,
) -> f64 {
    let mut sum = 0.0;
    if i > 1 {
        sum += (i * (i - 1)) as f64 * rest[left] * step[i - 2];
    }
    if i > 0 && left > 0 {
        sum -= (2 * i * left) as f64 * rest[left - 1] * step[i - 1];
    }
    if left > 1 {
        sum += (left * (left - 1)) as f64 * rest[left - 2] * step[i];
    }
    sum
}
