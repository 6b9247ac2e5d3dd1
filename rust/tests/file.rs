//! The table file: reading and writing against the model.

mod common;
mod files;
mod model;

use common::*;
use files::*;

#[test]
fn worked_examples() {
    let bytes = words(&EXAMPLE);
    let call = Read { bytes, room: 2 };
    let table = run_read_table(&call).expect("permitted file");
    assert_eq!((table.axes, table.counts), (1, [2, 1, 1]));
    assert_eq!(table.steps, [256, 1, 1]);
    assert_eq!(table.samples, [0, 100]);
    let mut cut = call.clone();
    cut.bytes.pop();
    assert_eq!(run_read(&cut), refused(6, 19));
    assert!(!table.second_edition);
    // A spare byte begins a third section.
    let mut longer = call.clone();
    longer.bytes.push(0);
    assert_eq!(run_read(&longer), refused(6, 21));
    longer.bytes.pop();
    longer.bytes.extend(words(&SECTION));
    let table = run_read_table(&longer).expect("permitted file");
    assert!(table.second_edition);
    assert_eq!(table.samples, [0, 100]);
    longer.bytes.push(0);
    assert_eq!(run_read(&longer), refused(7, 28));
    let mut other = call.clone();
    other.bytes[8] = 3;
    assert_eq!(run_read(&other), refused(8, 0));
}

#[test]
fn round_trips() {
    let mut random = Random::new(1);
    for _ in 0..300 {
        for (axes, edition) in FILES {
            let table = table(&mut random, axes, 6, edition);
            let bytes = run_write_bytes(&table).expect("permitted table");
            assert_eq!(bytes.len(), table.room);
            let room = table.samples.len();
            let again = run_read_table(&Read { bytes, room }).expect("permitted file");
            assert_eq!((again.axes, again.counts), (axes, table.counts));
            // A file holds no step numbers.
            let used = |axis: u32| if axis < axes { 256 } else { 1 };
            assert_eq!(again.steps, [0, 1, 2].map(used));
            assert_eq!(again.second_edition, edition);
            assert_eq!(again.samples, table.samples);
        }
    }
}

#[test]
fn border_shapes() {
    let mut random = Random::new(2);
    for (axes, counts) in [
        (1, [2, 1, 1]),
        (1, [64, 1, 1]),
        (2, [64, 2, 1]),
        (2, [2, 64, 1]),
        (3, [2, 2, 64]),
        (3, [64, 64, 64]),
    ] {
        for shape in editions(shape(axes, 3, counts)) {
            let call = Write {
                axes,
                counts,
                steps: shape.steps,
                second_edition: shape.second_edition,
                samples: random.samples(shape.nodes()),
                room: shape.file_bytes(),
            };
            let bytes = run_write_bytes(&call).expect("permitted table");
            let room = call.samples.len();
            assert_eq!(run_read(&Read { bytes, room }), Ok(()));
        }
    }
}

#[test]
fn damaged_bytes() {
    // Each byte of small files changed to every value.
    let mut random = Random::new(5);
    for (axes, edition) in FILES {
        let call = file(&mut random, axes, 3, edition);
        for index in 0..call.bytes.len() {
            for value in 0..=255 {
                let mut damaged = call.clone();
                damaged.bytes[index] = value;
                let _ = run_read(&damaged);
            }
        }
    }
}

#[test]
fn random_bytes() {
    let mut random = Random::new(6);
    for _ in 0..20_000 {
        let length = random.below(60) as usize;
        let byte = |index: usize| match index % 4 {
            0 => random.below(4) as u8,
            _ => 0,
        };
        let bytes = (0..length).map(byte).collect();
        let room = random.below(20) as usize;
        let _ = run_read(&Read { bytes, room });
    }
}

#[test]
fn samples_at_and_beyond_the_limit() {
    for index in 0..4u64 {
        for (sample, permitted) in [
            (32768i32, true),
            (-32768, true),
            (-1, true),
            (32769, false),
            (-32769, false),
            (i32::MIN, false),
            (i32::MAX, false),
        ] {
            let mut samples = vec![5; 4];
            samples[index as usize] = sample;
            let expected = if permitted { Ok(()) } else { refused(5, index) };
            let mut numbers = vec![2, 2, 2, 4];
            numbers.extend(samples.iter().map(|&s| s as u32));
            let bytes = words(&numbers);
            assert_eq!(run_read(&Read { bytes, room: 4 }), expected);
            let write = Write {
                axes: 2,
                counts: [2, 2, 1],
                steps: [256, 16, 1],
                second_edition: false,
                samples,
                room: 32,
            };
            assert_eq!(run_write(&write), expected);
        }
    }
}

#[test]
fn short_and_long_buffers() {
    let mut random = Random::new(7);
    for (axes, edition) in FILES {
        let right = file(&mut random, axes, 4, edition);
        let needed = right.room;
        for room in [0, 1, needed - 1, needed, needed + 1, needed + 100] {
            let expected = if room < needed { refused(9, 0) } else { Ok(()) };
            let bytes = right.bytes.clone();
            assert_eq!(run_read(&Read { bytes, room }), expected);
        }
        let right = table(&mut random, axes, 4, edition);
        let needed = right.room;
        for room in [
            0,
            4,
            needed - 8,
            needed - 4,
            needed - 1,
            needed,
            needed + 1,
            needed + 100,
        ] {
            let expected = if room < needed { refused(9, 0) } else { Ok(()) };
            let call = Write {
                room,
                ..right.clone()
            };
            assert_eq!(run_write(&call), expected);
        }
    }
}
