//! Refusals in words: the place told as an axis, a node, a byte or a position.

use crate::failure::Failure;
use crate::table::{indices, Table};
use crate::words;
use lukhtari::limits::{estimate_limit, COUNT_MAX, COUNT_MIN, RAMP_MAX, SAMPLE_LIMIT};
use lukhtari::{Refusal, Shape};

// The library's own words, without the number.
fn plain(refusal: Refusal) -> String {
    let text = refusal.to_string();
    let reason = text.split_once(": ").map(|(_, reason)| reason);
    reason.unwrap_or(&text).to_string()
}

// Of reading a table file.
pub fn of_file(name: &str, refusal: Refusal, bytes: &[u8]) -> Failure {
    let Refusal { number, place } = refusal;
    let word = |index: u64| {
        let start = 4 * index as usize;
        let four = bytes.get(start..start + 4).unwrap_or(&[0; 4]);
        u32::from_le_bytes(four.try_into().expect("four bytes"))
    };
    let reason = match number {
        Refusal::AXES => format!("the number of axes, at byte 0, is {}", word(0)),
        Refusal::NODE_COUNT => format!(
            "the node count along {}, at byte {}, is {}: take {COUNT_MIN} to {COUNT_MAX}",
            words::axis(place),
            4 + 4 * place,
            word(1 + place)
        ),
        Refusal::BEYOND_LIMIT => {
            let axes = word(0).min(3) as usize;
            let counts = [0, 1, 2].map(|axis| match axis < axes {
                true => word(1 + axis as u64),
                false => 1,
            });
            let index = 2 + axes as u64 + place;
            format!(
                "the sample {} at node {}, byte {}, is beyond {SAMPLE_LIMIT}",
                word(index) as i32,
                words::indices(indices(counts, place as usize), axes),
                4 * index
            )
        }
        _ => plain(refusal),
    };
    Failure::refused(name, refusal, &reason)
}

// Of estimating or writing a table.
pub fn of_samples(table: &Table, refusal: Refusal) -> Failure {
    let reason = samples_reason(table, refusal);
    Failure::refused(&table.name, refusal, &reason)
}

pub fn samples_reason(table: &Table, refusal: Refusal) -> String {
    let place = refusal.place as usize;
    match refusal.number {
        Refusal::BEYOND_ESTIMATE_LIMIT => format!(
            "the sample {} at node {} is beyond {}, the most that estimation takes on {}",
            table.samples[place],
            words::indices(table.node(place), table.axes()),
            estimate_limit(table.form.axes),
            words::axes(table.axes())
        ),
        _ => plain(refusal),
    }
}

// Of a text of samples.
pub fn of_text(name: &str, refusal: Refusal, shape: Shape, text: &[u8]) -> Failure {
    let place = refusal.place as usize;
    let axes = shape.axes as usize;
    let reason = match refusal.number {
        Refusal::NODE_COUNT => count_reason(shape, place),
        Refusal::LENGTH => format!(
            "the text has {} numbers, and {} nodes take {}",
            tokens(text).count(),
            words::by(shape.counts, axes),
            shape.nodes()
        ),
        Refusal::TOKEN_TOO_LONG | Refusal::TOKEN_GRAMMAR | Refusal::TOKEN_NOT_WHOLE => {
            token_reason(refusal, text)
        }
        Refusal::BEYOND_LIMIT => {
            let node = indices(shape.counts, place);
            let token = tokens(text).nth(place).unwrap_or_default();
            format!(
                "{} g/kg at node {} is beyond {}",
                shown(token),
                words::indices(node, axes),
                words::grams(SAMPLE_LIMIT)
            )
        }
        _ => plain(refusal),
    };
    Failure::refused(name, refusal, &reason)
}

fn count_reason(shape: Shape, axis: usize) -> String {
    format!(
        "the node count along {} is {}: take {COUNT_MIN} to {COUNT_MAX}",
        words::axis(axis as u64),
        shape.counts[axis]
    )
}

// The tokens of a text, apart from each other by the four separators.
fn tokens(text: &[u8]) -> impl Iterator<Item = &[u8]> {
    let parts = text.split(|byte| b" \t\n\r".contains(byte));
    parts.filter(|token| !token.is_empty())
}

// A token as it may be printed.
fn shown(token: &[u8]) -> String {
    let head = &token[..token.len().min(64)];
    let more = if head.len() < token.len() { ".." } else { "" };
    format!("\"{}{more}\"", head.escape_ascii())
}

fn token_reason(refusal: Refusal, text: &[u8]) -> String {
    let place = refusal.place as usize;
    let before = &text[..place];
    let line = before.iter().filter(|&&byte| byte == b'\n').count() + 1;
    let column = before
        .iter()
        .rev()
        .take_while(|&&byte| byte != b'\n')
        .count()
        + 1;
    let token = tokens(&text[place..]).next().unwrap_or_default();
    let wrong = match refusal.number {
        Refusal::TOKEN_TOO_LONG => "is longer than 64 bytes",
        Refusal::TOKEN_GRAMMAR => "is no decimal number",
        _ => "is not a whole number of hundredths of a gram per kilogram",
    };
    format!(
        "{} in line {line}, column {column}, byte {place}, {wrong}",
        shown(token)
    )
}

// What a question was about, for the words of its refusal.
pub enum Asked {
    Position,
    Cell,
}

// Of a question about a table.
pub fn of_query(table: &Table, refusal: Refusal, asked: Asked) -> Failure {
    Failure::refused(&table.name, refusal, &query_reason(table, refusal, asked))
}

pub fn query_reason(table: &Table, refusal: Refusal, asked: Asked) -> String {
    let axis = words::axis(refusal.place);
    let last = table.last_cell()[(refusal.place as usize).min(2)];
    match (refusal.number, asked) {
        (Refusal::NOT_FINITE, _) => format!("the position along {axis} is not finite"),
        (Refusal::POSITION_BEYOND, Asked::Position) => format!(
            "the position along {axis} is beyond the last node, which is at {}",
            last + 1
        ),
        (Refusal::POSITION_BEYOND, Asked::Cell) => format!(
            "the step along {axis} is above {}",
            table.form.steps[refusal.place as usize]
        ),
        (Refusal::POSITION_BELOW_ZERO, _) => format!("the position along {axis} is below 0"),
        (Refusal::POSITION_UNUSED_AXIS, _) => {
            format!("the table has no axis {axis}: take 0 there")
        }
        (Refusal::SLOPE_AXIS, _) => {
            let all = words::AXES[..table.axes()].join(", ");
            format!("the table has no such axis; it has {all}")
        }
        (Refusal::CELL | Refusal::BOX, _) if refusal.place as usize >= table.axes() => {
            format!("the table has no axis {axis}: take 0 there")
        }
        (Refusal::CELL, _) => format!("cells along {axis} go from 0 to {last}"),
        (Refusal::BOX, _) => {
            format!("the box along {axis} ends before it starts or above {last}, the last cell")
        }
        _ => plain(refusal),
    }
}

// Of a ramp, or of one of its positions with what that position's own call says.
pub fn of_ramp(table: &Table, refusal: Refusal, own: Option<([i32; 3], Refusal)>) -> Failure {
    let reason = match own {
        Some((at, own)) => format!(
            "position {} of the ramp, {}: {}",
            refusal.place + 1,
            words::position(at, table.axes().max(own.place as usize + 1)),
            query_reason(table, own, Asked::Position)
        ),
        None if refusal.number == Refusal::RAMP_LENGTH => {
            format!("a ramp has at most {RAMP_MAX} positions")
        }
        None => plain(refusal),
    };
    Failure::refused(&table.name, refusal, &reason)
}

// Of pooling two tables, or of comparing them.
pub fn of_pair(a: &Table, b: &Table, refusal: Refusal) -> Failure {
    let form = |table: &Table| {
        let nodes = words::by(table.form.counts, table.axes());
        let edition = words::edition(table.form.second_edition);
        format!("{nodes} nodes of edition {edition}")
    };
    let reason = match refusal.number {
        Refusal::SHAPES_DIFFER => format!("the shapes differ: {} and {}", form(a), form(b)),
        _ => plain(refusal),
    };
    Failure::refused(&format!("{} and {}", a.name, b.name), refusal, &reason)
}
