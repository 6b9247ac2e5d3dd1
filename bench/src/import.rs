//! Import of text: beside hand-written Rust of the same whole call, and beside floats.

use super::clock::{side_by_side, Run};
use super::hand::import::import as by_hand;
use super::inputs::{cube, samples, Random};
use super::report::heading;
use lukhtari::{import, Key, Refusal, Shape};

type Call = fn(Shape, &[u8], &mut [i32]) -> Result<(), Refusal>;

const CALLS: [Call; 2] = [
    |shape, text, out| import(Key::Service, shape, text, out),
    by_hand,
];

// What the floats lack.
const LESS: &str = "
split_ascii_whitespace and parse::<f64> give less: the value is the nearest float and not exact;
words beyond the grammar are taken, as +1, 1., .5 and inf; nothing is counted, written or refused
with its place.";

pub fn run() {
    heading(
        "Import of text, nanoseconds a byte",
        &["library", "by hand", "f64, split and parsed"],
    );
    for (name, spell) in SPELLINGS {
        for axes in 1..=3 {
            let shape = cube(3, axes, 64);
            let name = format!("{name}, {} tokens", shape.nodes());
            row(&name, shape, &text(shape, spell));
        }
    }
    println!("{LESS}");
}

type Spell = fn(i32, &mut Random) -> String;

const SPELLINGS: [(&str, Spell); 3] = [
    ("two decimals, as 123.45", decimals),
    ("an exponent, as 12345e-2", exponent),
    ("all forms, up to 64 bytes", mixed),
];

fn decimals(sample: i32, _: &mut Random) -> String {
    let sign = if sample < 0 { "-" } else { "" };
    let size = sample.unsigned_abs();
    format!("{sign}{}.{:02}", size / 100, size % 100)
}

fn exponent(sample: i32, _: &mut Random) -> String {
    format!("{sample}e-2")
}

fn mixed(sample: i32, random: &mut Random) -> String {
    match random.below(4) {
        0 => exponent(sample, random),
        1 => decimals(sample, random) + "000",
        2 if sample != 0 => {
            let zeros = random.below(50) as usize;
            format!("{sample}{}e-{}", "0".repeat(zeros), zeros + 2)
        }
        _ => decimals(sample, random),
    }
}

// The samples of a table as text, ten in a line.
fn text(shape: Shape, spell: Spell) -> String {
    let mut random = Random::new(13);
    let mut text = String::new();
    for (index, sample) in samples(shape).into_iter().enumerate() {
        text += &spell(sample, &mut random);
        text += if index % 10 == 9 { "\n" } else { " " };
    }
    text
}

// Prints the nanoseconds a byte of each call, and of the floats' sum.
fn row(name: &str, shape: Shape, text: &str) {
    let expected = samples(shape);
    let run = |call: Call| -> Run {
        let mut out = vec![0; shape.nodes()];
        assert_eq!(call(shape, text.as_bytes(), &mut out), Ok(()));
        assert_eq!(out, expected);
        Box::new(move || {
            call(shape, text.as_bytes(), &mut out).expect("accepted text");
            out[out.len() / 2] as i64
        })
    };
    let [library, hand] = CALLS.map(run);
    let floats: Run = Box::new(|| sum(text) as i64);
    let times = side_by_side(text.len(), &mut [library, hand, floats]);
    let mut row = format!("| {name} | {:.2} |", times[0]);
    for time in &times[1..] {
        row += &format!(" {time:.2} ({:.2}) |", times[0] / time);
    }
    println!("{row}");
}

// The sum of all numbers as floats.
fn sum(text: &str) -> f64 {
    let number = |word: &str| word.parse::<f64>().expect("a number");
    text.split_ascii_whitespace().map(number).sum()
}
