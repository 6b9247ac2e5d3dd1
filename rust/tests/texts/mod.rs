//! Import of text: the call and what its tests share.

#![allow(dead_code)]

use crate::common::{cube, editions, outcome, plain, plain_shape, Lent, Random};
use crate::model;
use lukhtari::{import, Key, Shape};
use model::Answer;

pub const SEPARATORS: [u8; 4] = *b" \t\n\r";

#[derive(Clone, Debug)]
pub struct Import {
    pub shape: Shape,
    pub text: Vec<u8>,
    pub room: usize,
}

impl Import {
    // A call with a slice of the right length.
    pub fn new(shape: Shape, text: &[u8]) -> Import {
        let (text, room) = (text.to_vec(), shape.nodes());
        Import { shape, text, room }
    }

    // A table on one axis with as many nodes as there are tokens, with single spaces between them.
    pub fn of_tokens(tokens: &[&[u8]]) -> Import {
        let shape = cube(1, 3, tokens.len() as u32);
        Import::new(shape, &tokens.join(&b' '))
    }
}

// Makes the call in both editions, which do not matter here, compares answer and buffer with the
// model's, and returns the samples.
#[track_caller]
pub fn run_samples(call: &Import) -> Answer<Vec<i32>> {
    let shape = plain_shape(call.shape);
    let expected = model::text::import(&shape, &call.text, call.room);
    for shape in editions(call.shape) {
        let mut buffer = Lent::new(call.room);
        let got = plain(import(Key::Service, shape, &call.text, buffer.slice()));
        if got != outcome(&expected) {
            let text = call.text.escape_ascii();
            panic!("{got:?} for {:?}: {text}", outcome(&expected));
        }
        buffer.check(expected.as_deref().unwrap_or_default());
    }
    expected
}

#[track_caller]
pub fn run(call: &Import) -> Answer<()> {
    outcome(&run_samples(call))
}

// The sample of a token that is the second of two, after one of a single byte.
#[track_caller]
pub fn second(token: &[u8]) -> Answer<i32> {
    run_samples(&Import::of_tokens(&[b"0", token])).map(|samples| samples[1])
}

// A number in one of its spellings.
pub struct Spelling {
    // Zeros at the end of the digits, beside those that are needed.
    pub zeros: usize,
    // Places by which the exponent moves the point; none for no exponent.
    pub exponent: Option<i64>,
    // What stands between the digits and the exponent, as e+.
    pub mark: &'static str,
}

// A sample in grams per kilogram: the digits of its units with the point two places from the
// right, moved by the exponent.
pub fn spell(sample: i32, spelling: &Spelling) -> String {
    let sign = if sample < 0 { "-" } else { "" };
    let mut digits = sample.unsigned_abs().to_string();
    let moved = spelling.exponent.unwrap_or(0);
    // Digits after the point.
    let mut after = 2 + moved;
    if after < 0 {
        digits += &"0".repeat(-after as usize);
        after = 0;
    }
    let after = after as usize;
    let missing = (after + 1).saturating_sub(digits.len());
    digits.insert_str(0, &"0".repeat(missing));
    let (int, frac) = digits.split_at(digits.len() - after);
    let int = int.trim_start_matches('0');
    let int = if int.is_empty() { "0" } else { int };
    let frac = format!("{frac}{}", "0".repeat(spelling.zeros));
    let point = if frac.is_empty() { "" } else { "." };
    let exponent = match spelling.exponent {
        Some(moved) => format!("{}{moved}", spelling.mark),
        None => String::new(),
    };
    format!("{sign}{int}{point}{frac}{exponent}")
}

impl Random {
    // A sample in a random spelling of at most 64 bytes.
    pub fn spelled(&mut self, sample: i32) -> String {
        let exponent = match self.below(4) {
            0 => None,
            1 => Some(self.range(-2, 2)),
            _ => Some(self.range(-30, 30)),
        };
        let most = if self.chance(4) { 20 } else { 2 };
        let zeros = self.below(most) as usize;
        let plus = exponent.is_some_and(|exponent| exponent >= 0);
        let marks = if plus {
            &["e", "E", "e+", "E+", "e0", "E+00"][..]
        } else {
            &["e", "E"]
        };
        let mark = self.pick(marks);
        spell(
            sample,
            &Spelling {
                zeros,
                exponent,
                mark,
            },
        )
    }

    // Up to so many separators.
    pub fn separators(&mut self, least: u64, most: u64) -> Vec<u8> {
        let length = least + self.below(most - least + 1);
        (0..length).map(|_| self.pick(&SEPARATORS)).collect()
    }

    // A text of tokens, with separators of any number between them.
    pub fn text(&mut self, tokens: &[String]) -> Vec<u8> {
        let mut text = self.separators(0, 2);
        for (index, token) in tokens.iter().enumerate() {
            if index > 0 {
                text.extend(self.separators(1, 3));
            }
            text.extend(token.bytes());
        }
        text.extend(self.separators(0, 2));
        text
    }

    // The samples of a table as text.
    pub fn typed(&mut self, samples: &[i32]) -> Vec<u8> {
        let tokens: Vec<String> = samples.iter().map(|&s| self.spelled(s)).collect();
        self.text(&tokens)
    }
}

// A text with one byte put in, taken out or changed.
pub fn damaged(random: &mut Random, text: &[u8]) -> Vec<u8> {
    let mut text = text.to_vec();
    let index = random.below(text.len() as u64 + 1) as usize;
    let any = random.next() as u8;
    let byte = random.pick(&[b'-', b'+', b'.', b'e', b'0', b'1', b'9', b' ', any]);
    match random.below(3) {
        0 => text.insert(index, byte),
        _ if index == text.len() => {}
        1 => {
            text.remove(index);
        }
        _ => text[index] = byte,
    }
    text
}
