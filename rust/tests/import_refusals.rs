//! Import of text: refusals in order.

mod common;
mod model;
mod texts;

use common::*;
use lukhtari::{ffi, Shape};
use model::Answer;
use texts::*;

// A token of 65 bytes, one that does not fit the grammar, one that is not whole, one too large.
const LONG: &[u8] = &[b'0'; 65];
const NO_NUMBER: &[u8] = b"01";
const NOT_WHOLE: &[u8] = b"0.001";
const TOO_LARGE: &[u8] = b"-327.69";
const WRONG: [(&[u8], u32); 4] = [(LONG, 16), (NO_NUMBER, 17), (NOT_WHOLE, 18), (TOO_LARGE, 5)];

// The tokens of a table, all of them 1.
fn ones(shape: Shape) -> Vec<&'static [u8]> {
    vec![b"1"; shape.nodes()]
}

fn call_of(shape: Shape) -> Import {
    Import::new(shape, &ones(shape).join(&b' '))
}

#[test]
fn wrong_shapes_are_refused() {
    for (axes, degree) in KINDS {
        check_wrong_shapes(axes, degree, call_of, |call| &mut call.shape, run);
    }
}

#[test]
fn too_few_and_too_many_tokens() {
    for (axes, degree) in KINDS {
        let shape = cube(axes, degree, 3);
        let nodes = shape.nodes();
        for count in [0, 1, nodes - 1, nodes + 1, 2 * nodes, 1000] {
            let mut call = call_of(shape);
            call.text = vec![&b"1"[..]; count].join(&b'\n');
            assert_eq!(run(&call), refused(4, 0), "{count} tokens");
            // Room for all of them, and for none.
            call.room = 1000;
            assert_eq!(run(&call), refused(4, 0));
            call.room = 0;
            assert_eq!(run(&call), refused(4, 0));
        }
    }
}

#[test]
fn a_long_token_counts_as_one() {
    // 4 is not due where one token is longer than a table's text.
    for length in [65, 66, 127, 128, 129, 1000, 70_000] {
        for byte in [b'1', b'x', 0, 255] {
            let long = vec![byte; length];
            let call = Import::of_tokens(&[b"1", &long]);
            assert_eq!(run(&call), refused(16, 2), "{length} bytes");
            let call = Import::of_tokens(&[&long, b"1"]);
            assert_eq!(run(&call), refused(16, 0), "{length} bytes");
            let mut alone = Import::of_tokens(&[b"1", b"1"]);
            alone.text = long;
            assert_eq!(run(&alone), refused(4, 0), "{length} bytes");
        }
    }
}

#[test]
fn short_and_long_slices() {
    for (axes, degree) in KINDS {
        let shape = cube(axes, degree, 3);
        let samples = Random::new(1).samples(shape.nodes());
        let call = Import::new(shape, &Random::new(2).typed(&samples));
        check_rooms(&call, |call| &mut call.room, run);
    }
}

#[test]
fn each_token_refused_at_its_place() {
    // Separators of different lengths before and after each token.
    for (axes, degree) in KINDS {
        let shape = cube(axes, degree, 3);
        for index in 0..shape.nodes() {
            for (token, number) in WRONG {
                let mut tokens = ones(shape);
                tokens[index] = token;
                let mut text = b"\r\n".to_vec();
                let mut start = 0;
                for (other, token) in tokens.iter().enumerate() {
                    if other == index {
                        start = text.len();
                    }
                    text.extend(*token);
                    text.extend(&b" \t\n"[..1 + other % 3]);
                }
                let place = if number == 5 { index } else { start };
                let answer = run(&Import::new(shape, &text));
                assert_eq!(answer, refused(number, place as u64));
            }
        }
    }
}

#[test]
fn the_earlier_token_decides() {
    // Any two wrong tokens in any order.
    for (first, number) in WRONG {
        for (later, _) in WRONG {
            let call = Import::of_tokens(&[b"1", first, later, b"1"]);
            let place = if number == 5 { 1 } else { 2 };
            assert_eq!(run(&call), refused(number, place));
            let call = Import::of_tokens(&[first, b"1", b"1", later]);
            assert_eq!(run(&call), refused(number, 0));
        }
    }
}

#[test]
fn one_token_with_several_faults() {
    let zeros = |count: usize| "0".repeat(count);
    // 16 before 17, 18 and 5; 17 before 18 and 5; 18 before 5.
    for (token, number) in [
        (format!("x{}", zeros(64)), 16),
        (format!("0.001{}", zeros(60)), 16),
        (format!("1{}", zeros(64)), 16),
        (format!("1{}.001x", zeros(30)), 17),
        (format!("01{}", zeros(20)), 17),
        ("00.001".to_string(), 17),
        ("+0.001".to_string(), 17),
        ("+400".to_string(), 17),
        ("400.".to_string(), 17),
        ("400.001".to_string(), 18),
        (format!("-1{}.001", zeros(30)), 18),
        (format!("9{}.{}1", zeros(30), zeros(30)), 18),
    ] {
        assert_eq!(second(token.as_bytes()), refused(number, 2), "{token}");
    }
}

// The start of each token of a text.
fn starts(text: &[u8]) -> Vec<usize> {
    let tokens = model::text::tokens(text);
    tokens.into_iter().map(|(start, _)| start).collect()
}

// Puts a token in the place of token k.
fn replace(call: &mut Import, k: usize, token: &[u8]) {
    let tokens = model::text::tokens(&call.text);
    let mut all: Vec<&[u8]> = tokens.into_iter().map(|(_, token)| token).collect();
    all[k] = token;
    call.text = all.join(&b' ');
}

#[test]
fn faults_in_order() {
    for (axes, degree) in KINDS {
        let call = call_of(cube(axes, degree, 3));
        let starts = starts(&call.text);
        for first in WRONG {
            for later in WRONG {
                let mut faults = shape_faults(|call: &mut Import| &mut call.shape, axes);
                faults.push(fault(4, 0, |call: &mut Import| call.text.extend(b" 01")));
                faults.push(fault(9, 0, |call: &mut Import| call.room = 1));
                for (k, (token, number)) in [(1, first), (2, later)] {
                    let place = if number == 5 { k } else { starts[k] };
                    let make = move |call: &mut Import| replace(call, k, token);
                    faults.push(fault(number, place as u64, make));
                }
                check_faults(&call, &faults, run);
            }
        }
    }
}

#[test]
fn later_tokens_in_order() {
    // A fault in each of four tokens, and then in fewer and fewer.
    let mut call = Import::of_tokens(&[b"1", LONG, NO_NUMBER, NOT_WHOLE, TOO_LARGE, b"1"]);
    let answers: Vec<Answer<()>> = (1..=5)
        .map(|k| {
            let answer = run(&call);
            replace(&mut call, k, b"1");
            answer
        })
        .collect();
    let expected = [
        refused(16, 2),
        refused(17, 4),
        refused(18, 6),
        refused(5, 4),
        Ok(()),
    ];
    assert_eq!(answers, expected);
}

#[test]
fn the_number_of_tokens_comes_before_the_tokens() {
    for (token, _) in WRONG {
        let mut call = Import::of_tokens(&[token, token]);
        call.room = 1;
        assert_eq!(run(&call), refused(9, 0));
        call.text.extend(b" 1");
        assert_eq!(run(&call), refused(4, 0));
        call.shape.counts[2] = 2;
        assert_eq!(run(&call), refused(3, 2));
    }
}

#[test]
fn raw_results() {
    let line = shape(1, 3, [2, 1, 1]);
    let mut samples = [7; 2];
    for (text, number, place) in [
        ("1 2", 0, 0),
        ("1", 4, 0),
        ("1\t 01", 17, 3),
        ("1 0.001", 18, 2),
        ("1 1e3", 5, 1),
    ] {
        // SAFETY: pointers and lengths are those of the text and the array.
        let done = unsafe {
            ffi::lukhtari_import(
                SERVICE,
                line,
                text.as_ptr(),
                text.len(),
                samples.as_mut_ptr(),
                2,
            )
        };
        assert_eq!((done.number, done.place), (number, place), "{text}");
        assert_eq!(samples, [100, 200]);
    }
}
