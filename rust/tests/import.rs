//! Import of text: texts of whole tables against the model.

mod common;
mod model;
mod texts;

use common::*;
use lukhtari::ffi;
use std::fs;
use texts::*;

#[test]
fn the_example_is_its_table() {
    let examples = repository().join("examples");
    let file = fs::read(examples.join("plane.table")).expect("a file");
    let text = fs::read(examples.join("plane.txt")).expect("a text");
    let table = model::file::read(&file, 9).expect("permitted file");
    let shape = shape(table.axes, 3, table.counts);
    assert_eq!(run_samples(&Import::new(shape, &text)), Ok(table.samples));
}

#[test]
fn every_byte_alone_and_in_a_number() {
    for byte in 0..=255u8 {
        let separates = SEPARATORS.contains(&byte);
        let digit = byte.is_ascii_digit();
        let alone = run(&Import::of_tokens(&[b"0", &[byte]]));
        let expected = match byte {
            _ if separates => refused(4, 0),
            _ if digit => Ok(()),
            _ => refused(17, 2),
        };
        assert_eq!(alone, expected, "{byte}");
        // Before, within and after the digits of the second token; a separator within makes three.
        for token in [[byte, b'1', b'2'], [b'1', byte, b'2'], [b'1', b'2', byte]] {
            let answer = run(&Import::of_tokens(&[b"0", &token]));
            let within = token[1] == byte;
            let expected = match byte {
                _ if separates && within => refused(4, 0),
                _ if separates => Ok(()),
                b'0' if token[0] == byte => refused(17, 2),
                b'-' if token[0] == byte => Ok(()),
                b'.' if within => Ok(()),
                b'e' | b'E' if within => Ok(()),
                // 412 and more are beyond the limit.
                b'4'..=b'9' if token[0] == byte => refused(5, 1),
                _ if digit => Ok(()),
                _ => refused(17, 2),
            };
            assert_eq!(answer, expected, "{byte} in {token:?}");
        }
    }
}

#[test]
fn every_pair_of_bytes() {
    for first in 0..=255u8 {
        for last in 0..=255u8 {
            let _ = run(&Import::new(cube(1, 3, 2), &[first, b' ', last]));
            let _ = run(&Import::new(cube(1, 3, 2), &[b'1', first, last, b'1']));
        }
    }
}

// All strings of up to so many separators.
fn all_separators(most: usize) -> Vec<Vec<u8>> {
    let mut all = vec![vec![]];
    let mut from = 0;
    for _ in 0..most {
        let longer: Vec<Vec<u8>> = all[from..]
            .iter()
            .flat_map(|string| SEPARATORS.map(|byte| [&string[..], &[byte]].concat()))
            .collect();
        from = all.len();
        all.extend(longer);
    }
    all
}

#[test]
fn separators_in_any_mix() {
    let outer = all_separators(2);
    let inner = all_separators(3);
    assert_eq!((outer.len(), inner.len()), (21, 85));
    for lead in &outer {
        for between in &inner {
            for end in &outer {
                let text = [lead, &b"1"[..], between, b"2.5", end].concat();
                let samples = run_samples(&Import::new(cube(1, 3, 2), &text));
                match between.len() {
                    0 => assert_eq!(samples, refused(4, 0)),
                    _ => assert_eq!(samples, Ok(vec![100, 250])),
                }
            }
        }
    }
}

#[test]
fn texts_without_a_token() {
    for text in all_separators(3) {
        assert_eq!(run(&Import::new(cube(1, 3, 2), &text)), refused(4, 0));
    }
    assert_eq!(run(&Import::new(cube(3, 5, 2), b"")), refused(4, 0));
}

#[test]
fn every_sample_in_every_spelling() {
    let shape = shape(3, 3, [64, 64, 16]);
    let samples: Vec<i32> = (-32768..32768).collect();
    let marks = ["e", "E", "e+", "E+0"];
    for (number, exponent) in [None, Some(0), Some(-2), Some(3), Some(-9), Some(40)]
        .into_iter()
        .enumerate()
    {
        let mark = match exponent {
            Some(0..) => marks[number % 4],
            _ => "e",
        };
        let spelling = Spelling {
            zeros: number % 3,
            exponent,
            mark,
        };
        let tokens: Vec<String> = samples.iter().map(|&s| spell(s, &spelling)).collect();
        let text = tokens.join("\n");
        let imported = run_samples(&Import::new(shape, text.as_bytes()));
        assert!(imported.as_ref() == Ok(&samples), "{exponent:?}");
    }
}

#[test]
fn border_shapes() {
    let mut random = Random::new(2);
    for (axes, counts) in [
        (1, [2, 1, 1]),
        (1, [64, 1, 1]),
        (2, [2, 2, 1]),
        (2, [64, 2, 1]),
        (2, [2, 64, 1]),
        (2, [64, 64, 1]),
        (3, [2, 2, 2]),
        (3, [2, 2, 64]),
        (3, [64, 64, 64]),
    ] {
        for degree in [3, 5] {
            let shape = shape(axes, degree, counts);
            let samples = random.samples(shape.nodes());
            let text = random.typed(&samples);
            assert!(run_samples(&Import::new(shape, &text)) == Ok(samples));
        }
    }
}

#[test]
fn fifty_thousand_tokens() {
    let mut random = Random::new(3);
    let shape = shape(3, 5, [50, 50, 20]);
    assert_eq!(shape.nodes(), 50_000);
    let samples = random.samples(shape.nodes());
    let tokens: Vec<String> = samples.iter().map(|&s| random.spelled(s)).collect();
    let text = random.text(&tokens);
    assert!(run_samples(&Import::new(shape, &text)) == Ok(samples));
    // The last token refused.
    let last = model::text::tokens(&text).last().unwrap().0;
    for (token, number, place) in [
        ("327.69", 5, 49_999),
        ("0.001", 18, last as u64),
        ("1e", 17, last as u64),
        (&"0".repeat(65)[..], 16, last as u64),
    ] {
        let text = [&text[..last], token.as_bytes()].concat();
        assert_eq!(run(&Import::new(shape, &text)), refused(number, place));
    }
    // A token too few and one too many.
    for text in [&text[..last], &[&text[..], b" 1"].concat()] {
        assert_eq!(run(&Import::new(shape, text)), refused(4, 0));
    }
}

#[test]
fn a_long_slice_keeps_its_tail() {
    for (axes, degree) in KINDS {
        let shape = cube(axes, degree, 3);
        let samples = Random::new(4).samples(shape.nodes());
        let text = Random::new(5).typed(&samples);
        let mut call = Import::new(shape, &text);
        for more in [0, 1, 2, 100] {
            call.room = shape.nodes() + more;
            assert_eq!(run_samples(&call).as_ref(), Ok(&samples));
        }
    }
}

#[test]
fn random_texts() {
    let mut random = Random::new(6);
    for _ in 0..2_000 {
        for (axes, degree) in KINDS {
            let shape = random.shape(axes, degree, 4);
            let samples = random.samples(shape.nodes());
            let text = random.typed(&samples);
            assert_eq!(run_samples(&Import::new(shape, &text)), Ok(samples));
            let mut text = damaged(&mut random, &text);
            if random.chance(2) {
                text = damaged(&mut random, &text);
            }
            let _ = run(&Import::new(shape, &text));
        }
    }
}

#[test]
fn every_damage_of_one_byte() {
    // Each byte of a text changed to every value, taken out, and every byte put in before it.
    let mut random = Random::new(7);
    for axes in 1..=3 {
        let shape = cube(axes, 3, 2);
        let samples = random.samples(shape.nodes());
        let text = random.typed(&samples);
        for index in 0..text.len() {
            for value in 0..=255 {
                let mut changed = text.clone();
                changed[index] = value;
                let _ = run(&Import::new(shape, &changed));
                let mut longer = text.clone();
                longer.insert(index, value);
                let _ = run(&Import::new(shape, &longer));
            }
            let mut shorter = text.clone();
            shorter.remove(index);
            let _ = run(&Import::new(shape, &shorter));
            let _ = run(&Import::new(shape, &text[..index]));
        }
    }
}

#[test]
fn random_bytes() {
    // Bytes of numbers and separators in any order.
    let mut random = Random::new(9);
    for _ in 0..200_000 {
        let length = random.below(24) as usize;
        let byte = |_| random.pick(b"001257.e-+E   \t\n\r");
        let text: Vec<u8> = (0..length).map(byte).collect();
        let count = model::text::tokens(&text).len().clamp(2, 64);
        let _ = run(&Import::new(cube(1, 3, count as u32), &text));
    }
}

#[test]
fn place_is_0_when_done() {
    let text = b" 1 2";
    let mut samples = [0; 2];
    let line = shape(1, 3, [2, 1, 1]);
    // SAFETY: pointers and lengths are those of the arrays.
    let done =
        unsafe { ffi::lukhtari_import(SERVICE, line, text.as_ptr(), 4, samples.as_mut_ptr(), 2) };
    assert_eq!((done.number, done.place), (0, 0));
    assert_eq!(samples, [100, 200]);
}
