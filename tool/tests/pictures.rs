//! Pictures as a renderer shows them, read by their own scales and compared with the library.

mod common;
mod library;
mod pixels;

use common::{done, folder_with_examples, repository};
use library::Library;
use pixels::{render, Pixels};
use std::fs;
use std::path::Path;

type Place = (f64, f64);

// A picture's text and its pixels, or none where there is no renderer.
fn drawn(name: &str, arguments: &[&str]) -> Option<(String, Pixels)> {
    let folder = folder_with_examples(&format!("picture_{name}"));
    let mut all = vec!["draw"];
    all.extend(arguments);
    all.extend(["-o", "picture.svg"]);
    done(&folder, &all, b"");
    let picture = folder.join("picture.svg");
    let pixels = render(&picture)?;
    Some((fs::read_to_string(picture).expect("text"), pixels))
}

fn example(name: &str, degree: u32) -> Library {
    let file = fs::read(repository().join("examples").join(name)).expect("an example");
    Library::new(&file, degree)
}

// A number that an element has under a name.
fn attribute(element: &str, name: &str) -> f64 {
    let start = element.find(&format!(" {name}=\"")).expect(name) + name.len() + 3;
    let value = element[start..].split('"').next().expect("a value");
    value.parse().expect("a number")
}

fn elements<'a>(svg: &'a str, start: &'a str) -> impl Iterator<Item = &'a str> {
    svg.lines().filter(move |line| line.starts_with(start))
}

// The middles of circles of one style.
fn circles(svg: &str, style: &str) -> Vec<Place> {
    let all = elements(svg, "<circle").filter(|line| line.contains(style));
    all.map(|line| (attribute(line, "cx"), attribute(line, "cy")))
        .collect()
}

// The numbers that stand beside a scale, with the heights that they name.
fn marks(svg: &str, anchor: &str) -> Vec<(f64, f64)> {
    let all = elements(svg, "<text").filter(|line| line.contains(anchor));
    let mark = |line: &str| {
        let number = line.split(['>', '<']).nth(2)?.parse().ok()?;
        Some((attribute(line, "y") - 4.0, number))
    };
    all.filter_map(mark).collect()
}

// The number at a height, by the first and the last mark of a scale.
fn read_off(marks: &[(f64, f64)], y: f64) -> f64 {
    let ((from, low), (to, high)) = (marks[0], marks[marks.len() - 1]);
    low + (high - low) * (y - from) / (to - from)
}

// The number of a shade, as a person finds it on the scale.
fn read_shade(svg: &str, pixels: &Pixels, shade: [u8; 3]) -> f64 {
    let bar = elements(svg, "<rect").find(|line| line.contains("url(#scale)"));
    let [x, y, width, height] =
        ["x", "y", "width", "height"].map(|name| attribute(bar.unwrap(), name));
    let marks = marks(svg, "start");
    let rows = (1..height as usize - 1).map(|row| y + row as f64 + 0.5);
    let apart = |row: f64| {
        let on_bar = pixels.at(x + width / 2.0, row);
        let apart = shade
            .iter()
            .zip(on_bar)
            .map(|(&a, b)| u32::from(a.abs_diff(b)));
        apart.sum::<u32>()
    };
    let least = rows.clone().map(apart).min().expect("a row");
    let nearest: Vec<f64> = rows.filter(|&row| apart(row) == least).collect();
    let middle = (nearest[0] + nearest[nearest.len() - 1]) / 2.0;
    read_off(&marks, middle)
}

// The shades at nodes, half way between them and in the middles of cells are those of answers.
#[track_caller]
fn check_shades(
    (svg, pixels): &(String, Pixels),
    counts: [usize; 2],
    range: f64,
    answer: impl Fn([i32; 2]) -> i32,
) {
    let nodes = circles(svg, "stroke");
    assert_eq!(nodes.len(), counts[0] * counts[1]);
    let node = |i: usize, j: usize| nodes[i + counts[0] * j];
    for half_j in 0..2 * counts[1] - 1 {
        for half_i in 0..2 * counts[0] - 1 {
            let low = node(half_i / 2, half_j / 2);
            let high = node(half_i.div_ceil(2), half_j.div_ceil(2));
            let (x, y) = ((low.0 + high.0) / 2.0, (low.1 + high.1) / 2.0);
            let read = read_shade(svg, pixels, pixels.at(x, y));
            let dose = answer([half_i, half_j].map(|half| 128 * half as i32));
            let apart = (read - f64::from(dose)).abs();
            assert!(
                apart <= range / 100.0 + 0.5,
                "{half_i} {half_j}: {read} and {dose}"
            );
        }
    }
}

#[test]
fn shades_of_two_axes() {
    for degree in [3, 5] {
        let table = example("vignette.table", degree);
        let arguments = ["examples/vignette.table", "--degree", &degree.to_string()];
        let Some(picture) = drawn(&format!("two_{degree}"), &arguments) else {
            return;
        };
        let dose = |[x, y]: [i32; 2]| table.dose([x, y, 0]).unwrap().value;
        check_shades(&picture, [7, 5], 4150.0, dose);
    }
}

#[test]
fn shades_of_slices() {
    let table = example("block.table", 3);
    for (slice, counts) in [("x=0.25", [3, 2]), ("y=1.5", [2, 2]), ("z=0.5", [2, 3])] {
        let arguments = ["examples/block.table", "--slice", slice];
        let Some(picture) = drawn(&format!("slice_{}", &slice[..1]), &arguments) else {
            return;
        };
        check_shades(&picture, counts, 85.0, |[a, b]| {
            let at = match &slice[..1] {
                "x" => [64, a, b],
                "y" => [a, 384, b],
                _ => [a, b, 128],
            };
            table.dose(at).unwrap().value
        });
    }
}

#[test]
fn shades_of_slopes() {
    let table = example("vignette.table", 5);
    let arguments = ["examples/vignette.table", "--degree", "5", "--slope", "y"];
    let Some(picture) = drawn("slopes", &arguments) else {
        return;
    };
    check_shades(&picture, [7, 5], 4200.0, |[x, y]| {
        table.slope([x, y, 0], 1).unwrap()
    });
}

// The height of a curve in a column, the middle of the pixels that have about its colour.
fn height(pixels: &Pixels, x: f64, colour: [u8; 3]) -> f64 {
    let near = |&y: &f64| {
        let apart = pixels
            .at(x, y)
            .iter()
            .zip(colour)
            .map(|(&a, b)| a.abs_diff(b))
            .max();
        apart.expect("a colour") < 40
    };
    let rows: Vec<f64> = (50..pixels.height)
        .map(|y| y as f64 + 0.5)
        .filter(near)
        .collect();
    assert!(!rows.is_empty(), "no curve in column {x}");
    rows.iter().sum::<f64>() / rows.len() as f64
}

// A curve is at the answers in the middles and quarters of cells.
#[track_caller]
fn check_curve(picture: &(String, Pixels), colour: [u8; 3], answer: impl Fn(i32) -> i32) {
    let (svg, pixels) = picture;
    let frame = elements(svg, "<rect").last().expect("a frame");
    let [left, top, width, tall] = ["x", "y", "width", "height"].map(|name| attribute(frame, name));
    let marks = marks(svg, "end");
    let pixel = (read_off(&marks, top) - read_off(&marks, top + tall)).abs() / tall;
    for quarter in (1..36).filter(|quarter| quarter % 4 > 0) {
        let x = left + width * f64::from(quarter) / 36.0;
        let read = read_off(&marks, height(pixels, x, colour));
        let value = f64::from(answer(64 * quarter));
        // A column is one pixel wide.
        let beside = [-4, 4].map(|steps| f64::from(answer(64 * quarter + steps)) - value);
        let allowed = 1.5 * pixel + beside[0].abs().max(beside[1].abs());
        assert!(
            (read - value).abs() <= allowed,
            "{quarter}: {read} and {value}"
        );
    }
}

const CURVES: [(u32, [u8; 3]); 2] = [(3, [0x7d, 0xb8, 0xe0]), (5, [0xb0, 0x20, 0x40])];

#[test]
fn curves_and_samples() {
    for (degree, colour) in CURVES {
        let table = example("tint.table", degree);
        let arguments = ["examples/tint.table", "--degree", &degree.to_string()];
        let Some(picture) = drawn(&format!("curve_{degree}"), &arguments) else {
            return;
        };
        check_curve(&picture, colour, |at| table.dose([at, 0, 0]).unwrap().value);
        let (svg, pixels) = &picture;
        let (scale, points) = (marks(svg, "end"), circles(svg, "#000000"));
        // The last point is that of the legend.
        assert_eq!(points.len(), table.samples.len() + 1);
        for (&(x, y), &sample) in points.iter().zip(&table.samples) {
            assert_eq!(pixels.at(x, y), [0; 3]);
            let read = read_off(&scale, y);
            assert!(
                (read - f64::from(sample)).abs() < 1.0,
                "{read} and {sample}"
            );
        }
    }
}

#[test]
fn curves_of_slopes() {
    for (degree, colour) in CURVES {
        let table = example("tint.table", degree);
        let degree = degree.to_string();
        let arguments = ["examples/tint.table", "--slope", "x", "--degree", &degree];
        let Some(picture) = drawn(&format!("slope_{degree}"), &arguments) else {
            return;
        };
        check_curve(&picture, colour, |at| table.slope([at, 0, 0], 0).unwrap());
    }
}

// The picture of the README is what the command draws.
#[test]
fn stored_picture() {
    let out = done(
        &repository(),
        &["draw", "examples/vignette.table", "-o", "-"],
        b"",
    );
    let stored = fs::read(repository().join("docs/vignette.svg")).expect("a picture");
    assert!(out == stored);
}

// Nothing is drawn outside the picture, at any number of nodes and any samples.
#[test]
fn nothing_is_cut_off() {
    for (counts, samples) in [
        (vec![2], vec![-16384, 16384]),
        (vec![64], (0..64).map(|node| node * 100).collect()),
        (vec![64, 2], (0..128).map(|node| node * 64).collect()),
        (vec![2, 64], vec![-8192; 128]),
    ] {
        let folder = folder_with_examples("picture_sizes");
        let mut all = [1; 3];
        all[..counts.len()].copy_from_slice(&counts);
        let file = common::table_file(counts.len() as u32, all, &samples, false);
        fs::write(folder.join("table"), file).expect("a file");
        done(&folder, &["draw", "table", "-o", "picture.svg"], b"");
        check_border(&folder.join("picture.svg"));
    }
}

// The outermost pixels are white.
#[track_caller]
fn check_border(picture: &Path) {
    let Some(pixels) = render(picture) else {
        return;
    };
    let (width, height) = (pixels.width as f64, pixels.height as f64);
    for step in 0..1000 {
        let (x, y) = (
            width * f64::from(step) / 1000.0,
            height * f64::from(step) / 1000.0,
        );
        for (x, y) in [(x, 0.0), (x, height - 1.0), (0.0, y), (width - 1.0, y)] {
            assert_eq!(pixels.at(x, y), [255; 3], "{x} {y}");
        }
    }
}
