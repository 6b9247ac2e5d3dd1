//! Answers of the command against the library's, and its exact fractions against the model.

mod common;
mod library;
#[path = "../../rust/tests/model/mod.rs"]
mod model;

use common::{done, folder, list, table_file, Random};
use library::Library;
use model::int::Int;
use model::stages::{exact, Point};
use model::{Rational, Want};
use std::fs;
use std::path::PathBuf;

// A random table in a folder of its own.
struct Case {
    folder: PathBuf,
    axes: usize,
    counts: [u32; 3],
    file: Vec<u8>,
}

fn case(random: &mut Random, name: &str) -> Case {
    let axes = random.range(1, 3) as u32;
    let counts = random.counts(axes, 5);
    let samples = random.samples(counts, 32768 >> axes);
    let file = table_file(axes, counts, &samples, random.range(0, 1) == 1);
    let folder = folder(name);
    fs::write(folder.join("table"), &file).expect("a file");
    Case {
        folder,
        axes: axes as usize,
        counts,
        file,
    }
}

impl Case {
    fn text(&self, arguments: &[&str]) -> String {
        String::from_utf8(done(&self.folder, arguments, b"")).expect("text")
    }

    // A random position, often at a node.
    fn position(&self, random: &mut Random) -> [i32; 3] {
        [0, 1, 2].map(|axis| {
            let last = 256 * (i64::from(self.counts[axis]) - 1);
            let step = random.range(0, last);
            (if random.range(0, 4) == 0 {
                step / 256 * 256
            } else {
                step
            }) as i32
        })
    }

    // The cell that is read at a position, and the steps within it.
    fn within(&self, at: [i32; 3]) -> ([u32; 3], [u32; 3]) {
        let last = self.counts.map(|count| count.saturating_sub(2));
        let cell = [0, 1, 2].map(|axis| (at[axis] as u32 / 256).min(last[axis]));
        (
            cell,
            [0, 1, 2].map(|axis| at[axis] as u32 - 256 * cell[axis]),
        )
    }
}

// One of the three questions, with the options that ask it.
fn want(random: &mut Random, axes: usize, degree: u32) -> (Want, Vec<String>) {
    let axis = random.range(0, axes as i64 - 1) as u32;
    let letter = ["x", "y", "z"][axis as usize].to_string();
    let mut options = vec!["--degree".to_string(), degree.to_string()];
    let want = match random.range(0, if degree == 3 { 1 } else { 2 }) {
        0 => Want::Dose,
        1 => Want::Slope(axis),
        _ => Want::Curvature(axis),
    };
    match want {
        Want::Dose => {}
        Want::Slope(_) => options.extend(["--slope".to_string(), letter]),
        Want::Curvature(_) => options.extend(["--curvature".to_string(), letter]),
    }
    (want, options)
}

fn asked<'a>(place: &'a [String], options: &'a [String]) -> Vec<&'a str> {
    let all = ["ask", "table"].into_iter();
    all.chain(place.iter().chain(options).map(String::as_str))
        .collect()
}

#[test]
fn three_ways_of_asking() {
    let mut random = Random(1);
    for _ in 0..150 {
        let case = case(&mut random, "ways");
        let degree = [3, 5][random.range(0, 1) as usize];
        let library = Library::new(&case.file, degree);
        let at = case.position(&mut random);
        let (want, options) = want(&mut random, case.axes, degree);
        let answer = match want {
            Want::Dose => library.dose(at).map(|dose| dose.value),
            Want::Slope(axis) => library.slope(at, axis),
            Want::Curvature(axis) => library.curvature(at, axis),
        };
        let expected = format!("{}\n", answer.expect("an answer"));
        let used = &at[..case.axes];
        let cells: Vec<String> = used
            .iter()
            .map(|&p| (f64::from(p) / 256.0).to_string())
            .collect();
        let mut steps: Vec<String> = used.iter().map(i32::to_string).collect();
        steps.push("--steps".to_string());
        let (cell, u) = case.within(at);
        let within = [
            "--cell",
            &list(&cell[..case.axes]),
            "--u",
            &list(&u[..case.axes]),
        ];
        let within = within.map(str::to_string);
        for place in [&cells[..], &steps, &within] {
            assert_eq!(
                case.text(&asked(place, &options)),
                expected,
                "{place:?} {options:?}"
            );
        }
    }
}

// A number as it is printed: a whole number, a fraction, or both.
fn printed(text: &str) -> Rational {
    let digits = |text: &str| {
        let ten = Int::from(10);
        let digit =
            |sum: Int, digit: char| sum * ten + Int::from(i64::from(digit.to_digit(10).unwrap()));
        text.chars().fold(Int::ZERO, digit)
    };
    let size = text.trim_start_matches('-');
    let mut sum = Rational::ZERO;
    for part in size.split(' ') {
        sum = sum
            + match part.split_once('/') {
                Some((dividend, divisor)) => Rational::new(digits(dividend), digits(divisor)),
                None => Rational::from(digits(part)),
            };
    }
    if text.starts_with('-') {
        -sum
    } else {
        sum
    }
}

// What stands after a label, up to a comma.
fn labelled<'a>(text: &'a str, label: &str) -> &'a str {
    let line = text
        .lines()
        .find(|line| line.starts_with(label))
        .expect("a line");
    line[label.len()..]
        .trim()
        .split(", ")
        .next()
        .expect("a number")
}

// The text has the exact value, the distance of the answer, which is allowed, and a dose's mark.
#[track_caller]
fn check_explained(text: &str, answer: &str, value: Rational, mark: Option<bool>) {
    let answer = Rational::whole(answer.trim().parse().expect("a number"));
    assert!(printed(labelled(text, "exact")) == value, "{text}");
    let distance = printed(labelled(text, "distance"));
    assert!(distance == (answer - value).abs(), "{text}");
    let last = text.lines().last().expect("a line");
    let allowed = last.split(' ').nth_back(2).expect("a number");
    assert!(distance <= printed(allowed), "{text}");
    if let Some(exact) = mark {
        let mark = if exact { "exact" } else { "rounded" };
        let first = text.lines().next().expect("a line");
        assert!(first.ends_with(&format!(", marked {mark}")), "{text}");
    }
}

#[test]
fn explained_exactly() {
    let mut random = Random(2);
    for _ in 0..150 {
        let case = case(&mut random, "exactly");
        let degree = [3, 5][random.range(0, 1) as usize];
        let library = Library::new(&case.file, degree);
        let shape = model::Shape::new(case.axes as u32, degree, case.counts);
        let at = case.position(&mut random);
        let (want, mut options) = want(&mut random, case.axes, degree);
        let mut place: Vec<String> = at[..case.axes].iter().map(i32::to_string).collect();
        place.push("--steps".to_string());
        let answer = case.text(&asked(&place, &options));
        options.push("--explain".to_string());
        let text = case.text(&asked(&place, &options));
        let (cell, u) = case.within(at);
        let value = exact(&shape, &library.records, &Point { cell, u, want });
        let dose = library.dose(at).expect("a dose");
        check_explained(
            &text,
            &answer,
            value,
            (want == Want::Dose).then_some(dose.exact),
        );
    }
}

// The positions of a line are the nearest steps, and its doses those of the library.
#[test]
fn ramps() {
    let mut random = Random(3);
    for _ in 0..60 {
        let case = case(&mut random, "ramps");
        let library = Library::new(&case.file, 3);
        let (from, to) = (case.position(&mut random), case.position(&mut random));
        let count = random.range(2, 256);
        let ends = [from, to].map(|end| list(&end[..case.axes]));
        let text = case.text(&[
            "ramp",
            "table",
            &ends[0],
            &ends[1],
            &count.to_string(),
            "--steps",
        ]);
        let mut expected = String::new();
        for index in 0..count {
            let at = [0, 1, 2].map(|axis| {
                let whole = i64::from(to[axis] - from[axis]) * index;
                let part = Rational::ratio(whole, count - 1);
                from[axis] + part.round().to_i64().expect("small") as i32
            });
            let cells = at[..case.axes]
                .iter()
                .map(|&p| (f64::from(p) / 256.0).to_string());
            let cells: Vec<String> = cells.collect();
            let dose = library.dose(at).expect("a dose").value;
            expected += &format!("{} {dose}\n", cells.join(" "));
        }
        assert_eq!(text, expected);
    }
}
