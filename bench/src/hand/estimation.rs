//! Estimation in two ways: each node's neighbourhood at once, and a window that slides along x.

use super::checks::*;
use lukhtari::Shape;

// 1, 2, 3, 26, 4, 9, 19
fn check(shape: Shape, samples: &[i32], records: &[i32]) -> Answer<()> {
    check_shape(shape)?;
    if samples.len() != nodes(shape) {
        return refuse(4, 0);
    }
    if records.len() < nodes(shape) * record(shape) {
        return refuse(9, 0);
    }
    let limit = 32768 >> shape.axes;
    let beyond = |&sample: &i32| !(-limit..=limit).contains(&sample);
    match samples.iter().position(beyond) {
        Some(index) => refuse(19, index),
        None => Ok(()),
    }
}

// Order 0, 1 and 2 from a number and its neighbours; at a border the line goes on beyond it.
#[inline(always)]
fn orders(border: bool, [l, f, r]: [i32; 3]) -> [i32; 3] {
    if border {
        [f, 2 * (r - l), 0]
    } else {
        [f, r - l, l - 2 * f + r]
    }
}

// The first or the last number along an axis.
#[inline(always)]
fn at_border(index: usize, count: usize) -> bool {
    index == 0 || index + 1 == count
}

// Gathers the neighbourhood of each node and works off its axes one after another.
pub fn by_neighbourhood(shape: Shape, samples: &[i32], records: &mut [i32]) -> Answer<()> {
    check(shape, samples, records)?;
    match (shape.degree, shape.axes) {
        (3, 1) => neighbourhoods::<2, 1, 2>(shape, samples, records),
        (3, 2) => neighbourhoods::<2, 2, 4>(shape, samples, records),
        (3, _) => neighbourhoods::<2, 3, 8>(shape, samples, records),
        (_, 1) => neighbourhoods::<3, 1, 3>(shape, samples, records),
        (_, 2) => neighbourhoods::<3, 2, 9>(shape, samples, records),
        (_, _) => neighbourhoods::<3, 3, 27>(shape, samples, records),
    }
    Ok(())
}

// Indices of a number's neighbours and itself; a missing one is the number itself.
#[inline(always)]
fn around(index: usize, count: usize) -> [usize; 3] {
    [index.saturating_sub(1), index, (index + 1).min(count - 1)]
}

// M is the orders along an axis, N the number of axes, R the entries of a record.
fn neighbourhoods<const M: usize, const N: usize, const R: usize>(
    shape: Shape,
    samples: &[i32],
    records: &mut [i32],
) {
    let [cx, cy, cz] = shape.counts.map(|count| count as usize);
    let mut out = records.chunks_exact_mut(R);
    for k in 0..cz {
        for j in 0..cy {
            let (ys, zs) = (around(j, cy), around(k, cz));
            let rows = zs.map(|z| ys.map(|y| &samples[cx * (y + cy * z)..][..cx]));
            let (by, bz) = (at_border(j, cy), at_border(k, cz));
            for i in 0..cx {
                let (xs, bx) = (around(i, cx), at_border(i, cx));
                let to: &mut [i32; R] = out.next().unwrap().try_into().unwrap();
                let line = |row: &[i32]| xs.map(|x| row[x]);
                match N {
                    1 => to.copy_from_slice(&orders(bx, line(rows[1][1]))[..M]),
                    2 => write_plane::<M>(to, [bx, by], rows[1].map(line)),
                    _ => write_cube::<M>(to, [bx, by, bz], rows.map(|rows| rows.map(line))),
                }
            }
        }
    }
}

// Numbers by order along x, then y, from a plane of samples with x innermost.
#[inline(always)]
fn plane<const M: usize>([bx, by]: [bool; 2], samples: [[i32; 3]; 3]) -> [[i32; M]; M] {
    let rows = samples.map(|line| orders(bx, line));
    let mut out = [[0; M]; M];
    for a in 0..M {
        let column = orders(by, [rows[0][a], rows[1][a], rows[2][a]]);
        for b in 0..M {
            out[b][a] = column[b];
        }
    }
    out
}

#[inline(always)]
fn write_plane<const M: usize>(to: &mut [i32], borders: [bool; 2], samples: [[i32; 3]; 3]) {
    let plane = plane::<M>(borders, samples);
    for (to, from) in to.chunks_exact_mut(M).zip(plane) {
        to.copy_from_slice(&from);
    }
}

#[inline(always)]
fn write_cube<const M: usize>(
    to: &mut [i32],
    [bx, by, bz]: [bool; 3],
    samples: [[[i32; 3]; 3]; 3],
) {
    let planes = samples.map(|samples| plane::<M>([bx, by], samples));
    let to: &mut [i32] = &mut to[..M * M * M];
    for b in 0..M {
        for a in 0..M {
            let column = orders(bz, [planes[0][b][a], planes[1][b][a], planes[2][b][a]]);
            for c in 0..M {
                to[a + M * (b + M * c)] = column[c];
            }
        }
    }
}

// Works off y and z once for each node, and x from three such results side by side.
pub fn by_window(shape: Shape, samples: &[i32], records: &mut [i32]) -> Answer<()> {
    check(shape, samples, records)?;
    match (shape.degree, shape.axes) {
        (3, 1) => windows::<2, 1>(shape, samples, records),
        (3, 2) => windows::<2, 2>(shape, samples, records),
        (3, _) => windows::<2, 4>(shape, samples, records),
        (_, 1) => windows::<3, 1>(shape, samples, records),
        (_, 2) => windows::<3, 3>(shape, samples, records),
        (_, _) => windows::<3, 9>(shape, samples, records),
    }
    Ok(())
}

// C is the number of pairs of orders along y and z.
fn windows<const M: usize, const C: usize>(shape: Shape, samples: &[i32], records: &mut [i32]) {
    let [cx, cy, cz] = shape.counts.map(|count| count as usize);
    let mut out = records.chunks_exact_mut(cx * M * C);
    for k in 0..cz {
        for j in 0..cy {
            let (ys, zs) = (around(j, cy), around(k, cz));
            let rows = zs.map(|z| ys.map(|y| &samples[cx * (y + cy * z)..][..cx]));
            let to = out.next().unwrap();
            match (at_border(j, cy), at_border(k, cz)) {
                (false, false) => window::<M, C, false, false>(&rows, to),
                (true, false) => window::<M, C, true, false>(&rows, to),
                (false, true) => window::<M, C, false, true>(&rows, to),
                (true, true) => window::<M, C, true, true>(&rows, to),
            }
        }
    }
}

// One row, at a border along y if BY and along z if BZ.
fn window<const M: usize, const C: usize, const BY: bool, const BZ: bool>(
    rows: &[[&[i32]; 3]; 3],
    to: &mut [i32],
) {
    let mut out = to.chunks_exact_mut(M * C);
    let mut low = across::<M, C, BY, BZ>(rows, 0);
    let mut here = across::<M, C, BY, BZ>(rows, 1);
    put::<M, C>(out.next().unwrap(), true, [low, low, here]);
    for x in 2..rows[1][1].len() {
        let high = across::<M, C, BY, BZ>(rows, x);
        put::<M, C>(out.next().unwrap(), false, [low, here, high]);
        (low, here) = (here, high);
    }
    put::<M, C>(out.next().unwrap(), true, [low, here, here]);
}

// The record of a node, from the numbers at its neighbours along x and its own.
#[inline(always)]
fn put<const M: usize, const C: usize>(to: &mut [i32], border: bool, [l, f, r]: [[i32; C]; 3]) {
    for pair in 0..C {
        let line = orders(border, [l[pair], f[pair], r[pair]]);
        to[M * pair..M * pair + M].copy_from_slice(&line[..M]);
    }
}

// Numbers by order along y, then z, at one x.
#[inline(always)]
fn across<const M: usize, const C: usize, const BY: bool, const BZ: bool>(
    rows: &[[&[i32]; 3]; 3],
    x: usize,
) -> [i32; C] {
    let mut out = [0; C];
    if C == 1 {
        out[0] = rows[1][1][x];
    } else if C == M {
        out.copy_from_slice(&orders(BY, rows[1].map(|row| row[x]))[..M]);
    } else {
        let lines = rows.map(|rows| orders(BY, rows.map(|row| row[x])));
        for b in 0..M {
            let column = orders(BZ, [lines[0][b], lines[1][b], lines[2][b]]);
            for c in 0..M {
                out[b + M * c] = column[c];
            }
        }
    }
    out
}
