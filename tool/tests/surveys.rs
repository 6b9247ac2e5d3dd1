//! What `show` and `diff` find, against a look at every position.

mod common;
mod library;

use common::{folder, list, run, table_file, Random};
use library::Library;
use std::fs;

// All positions at every so many steps, x fastest.
fn positions(counts: [u32; 3], every: i32) -> Vec<[i32; 3]> {
    let [x, y, z] = counts.map(|count| 256 * (count as i32 - 1));
    let mut all = Vec::new();
    for z in (0..=z).step_by(every as usize) {
        for y in (0..=y).step_by(every as usize) {
            all.extend((0..=x).step_by(every as usize).map(|x| [x, y, z]));
        }
    }
    all
}

fn place(at: [i32; 3], axes: usize) -> String {
    let cells = at[..axes]
        .iter()
        .map(|&step| (f64::from(step) / 256.0).to_string());
    format!("({})", cells.collect::<Vec<_>>().join(", "))
}

fn units(number: i32) -> String {
    match number.abs() {
        1 => format!("{number} unit"),
        _ => format!("{number} units"),
    }
}

// The first of the values of largest size.
fn first_largest<T: Copy>(all: impl Iterator<Item = (i32, T)>) -> Option<(i32, T)> {
    let mut largest: Option<(i32, T)> = None;
    for (value, at) in all {
        let size = largest.map_or(0, |(value, _)| value.abs());
        if value.abs() > size {
            largest = Some((value, at));
        }
    }
    largest
}

// The lines of a degree.
fn expected(library: &Library, axes: usize, every: i32) -> [String; 2] {
    let dose = |at: [i32; 3]| library.dose(at).expect("a dose").value;
    let counts = library.shape.counts;
    let everywhere = || {
        let all = positions(counts, every).into_iter();
        all.flat_map(move |at| (0..axes).map(move |axis| (at, axis)))
    };
    let next = |(mut at, axis): ([i32; 3], usize)| {
        at[axis] += every;
        (at[axis] <= 256 * (counts[axis] as i32 - 1)).then_some(at)
    };
    let jumps = everywhere().filter_map(|from| {
        let to = next(from)?;
        Some((dose(to) - dose(from.0), (from.0, to)))
    });
    let jump = match first_largest(jumps) {
        Some((value, (from, to))) => {
            let (from, to) = (place(from, axes), place(to, axes));
            format!("largest jump {}, from {from} to {to}", units(value))
        }
        None => "no jump: all doses are the same".to_string(),
    };
    let slopes =
        everywhere().map(|(at, axis)| (library.slope(at, axis as u32).unwrap(), (at, axis)));
    let slope = match first_largest(slopes) {
        Some((value, (at, axis))) => {
            let axis = ["x", "y", "z"][axis];
            format!(
                "steepest slope {} a cell, along {axis} at {}",
                units(value),
                place(at, axes)
            )
        }
        None => "no slope".to_string(),
    };
    [jump, slope]
}

fn file(random: &mut Random, axes: u32, counts: [u32; 3]) -> Vec<u8> {
    let limit = [9, 32768 >> axes][random.range(0, 1) as usize];
    table_file(axes, counts, &random.samples(counts, limit), false)
}

#[test]
fn extremes() {
    let mut random = Random(4);
    for (axes, every) in [(1, 1), (1, 2), (2, 16), (2, 32), (3, 32), (3, 64), (3, 256)] {
        let counts = random.counts(axes, 4);
        let file = file(&mut random, axes, counts);
        let folder = folder("extremes");
        fs::write(folder.join("table"), &file).expect("a file");
        let ran = run(&folder, &["show", "table", "--every", &every.to_string()]);
        let text = ran.text();
        let lines: Vec<&str> = text
            .lines()
            .rev()
            .take(4)
            .map(|line| line[12..].trim())
            .collect();
        for (degree, at) in [(3, 2), (5, 0)] {
            let [jump, slope] = expected(&Library::new(&file, degree), axes as usize, every);
            assert_eq!(
                [lines[at + 1], lines[at]],
                [jump, slope],
                "{degree}\n{text}"
            );
        }
    }
}

#[test]
fn differences() {
    let mut random = Random(5);
    for (axes, every) in [(1, 1), (2, 32), (3, 64)] {
        let counts = random.counts(axes, 4);
        let files = [0, 1].map(|_| file(&mut random, axes, counts));
        let folder = folder("differences");
        fs::write(folder.join("a"), &files[0]).expect("a file");
        fs::write(folder.join("b"), &files[1]).expect("a file");
        let text = run(&folder, &["diff", "a", "b", "--every", &every.to_string()]).text();
        for (degree, name) in [(3, "cubic"), (5, "quintic")] {
            let both = [0, 1].map(|table| Library::new(&files[table], degree));
            let dose = |table: usize, at| both[table].dose(at).expect("a dose").value;
            let all = positions(counts, every).into_iter();
            let (value, at) = first_largest(all.map(|at| (dose(1, at) - dose(0, at), at))).unwrap();
            let (a, b) = (dose(0, at), dose(1, at));
            let line = format!(
                "{name:9}{value:+} at {}, from {a} to {b}",
                place(at, axes as usize)
            );
            assert!(text.lines().any(|found| found == line), "{line}\n{text}");
        }
    }
}

// Large tables are looked at coarsely enough to be done at once.
#[test]
fn large_tables() {
    let folder = folder("large");
    for (counts, every) in [([64, 1, 1], 1), ([64, 64, 1], 8), ([64, 64, 64], 128)] {
        let axes = counts.iter().filter(|&&count| count > 1).count() as u32;
        let samples = vec![1; counts.iter().product::<u32>() as usize];
        let file = table_file(axes, counts, &samples, true);
        fs::write(folder.join("table"), file).expect("a file");
        let text = run(&folder, &["show", "table"]).text();
        let steps = match every {
            1 => "at every step".to_string(),
            _ => format!("at every {every} steps"),
        };
        assert!(text.contains(&steps), "{}\n{text}", list(&counts));
    }
}
