//! The table file: refusals in order.

mod common;
mod files;
mod model;

use common::*;
use files::*;
use lukhtari::ffi;

#[test]
fn every_shorter_file_ends_early() {
    let mut random = Random::new(3);
    for (axes, edition) in FILES {
        let call = file(&mut random, axes, 4, edition);
        let all = call.bytes.len();
        for length in 0..all {
            let mut cut = call.clone();
            cut.bytes.truncate(length);
            // Cut behind its samples, a file of edition two is one of edition one.
            let expected = match edition && length == all - 8 {
                true => Ok(()),
                false => refused(6, length as u64),
            };
            assert_eq!(run_read(&cut), expected);
        }
    }
}

#[test]
fn bytes_left_over() {
    let mut random = Random::new(4);
    for axes in 1..=3 {
        let call = file(&mut random, axes, 4, true);
        let length = call.bytes.len();
        for spare in [1, 2, 3, 4, 5, 100] {
            let mut longer = call.clone();
            longer.bytes.extend(vec![0; spare]);
            assert_eq!(run_read(&longer), refused(7, length as u64));
        }
    }
}

// Third sections: the one of edition two, and wrong ones, of which some are right in part.
const SECTIONS: [[u32; 2]; 12] = [
    SECTION,
    [2, 1],
    [1, 1],
    [2, 2],
    [1, 0],
    [0, 2],
    [0, 0],
    [1, 3],
    [1, 2 + 256],
    [1 + (1 << 24), 2],
    [1 << 24, 2 << 24],
    [u32::MAX, u32::MAX],
];

#[test]
fn every_length_from_the_samples_end_on() {
    // With the right third section and with wrong ones, up to 12 bytes beyond the samples.
    let mut random = Random::new(11);
    for axes in 1..=3 {
        let call = file(&mut random, axes, 4, false);
        let end = call.bytes.len();
        for section in SECTIONS {
            for fill in [0, 1, 255] {
                let mut whole = call.clone();
                whole.bytes.extend(words(&section));
                whole.bytes.extend([fill; 4]);
                for beyond in 0..=12 {
                    let mut cut = whole.clone();
                    cut.bytes.truncate(end + beyond);
                    let expected = match beyond {
                        0 => Ok(()),
                        1..=7 => refused(6, (end + beyond) as u64),
                        _ if section != SECTION => refused(25, 0),
                        8 => Ok(()),
                        _ => refused(7, end as u64 + 8),
                    };
                    assert_eq!(run_read(&cut), expected, "{section:?}, {beyond} bytes");
                    // Rooms and samples are tested after them.
                    cut.room = 0;
                    cut.bytes[end - 1] ^= 0x40;
                    let expected = expected.and(refused(9, 0));
                    assert_eq!(run_read(&cut), expected, "{section:?}, {beyond} bytes");
                }
            }
        }
    }
}

#[test]
fn every_bit_of_the_third_section_counts() {
    for axes in 1..=3 {
        let call = file(&mut Random::new(12), axes, 4, true);
        let end = call.bytes.len() - 8;
        for bit in 0..64 {
            let mut other = call.clone();
            other.bytes[end + bit / 8] ^= 1 << (bit % 8);
            assert_eq!(run_read(&other), refused(25, 0), "bit {bit}");
        }
    }
}

#[test]
fn wrong_numbers() {
    let case = |numbers: &[u32]| {
        let bytes = words(numbers);
        run_read(&Read { bytes, room: 64 })
    };
    for axes in [0, 4, 5, 256, 257, 1 << 24, u32::MAX] {
        assert_eq!(case(&[axes]), refused(1, 0));
        assert_eq!(case(&[axes, 2, 2, 0, 100]), refused(1, 0));
    }
    for count in [0, 1, 65, 256 + 2, 1 << 24, u32::MAX] {
        assert_eq!(case(&[1, count]), refused(3, 0));
        assert_eq!(case(&[2, 2, count]), refused(3, 1));
        assert_eq!(case(&[3, 2, 2, count]), refused(3, 2));
        // The count is tested before the next number is there.
        assert_eq!(case(&[3, count]), refused(3, 0));
        assert_eq!(case(&[3, count, count, count]), refused(3, 0));
    }
    for count in [0, 1, 3, 4, 256 + 2, u32::MAX] {
        assert_eq!(case(&[1, 2, count]), refused(8, 0));
        assert_eq!(case(&[1, 2, count, 0, 100]), refused(8, 0));
    }
    assert_eq!(case(&[2, 2, 3, 5]), refused(8, 0));
    assert_eq!(case(&[2, 2, 3, 6]), refused(6, 16));
}

#[test]
fn wrong_tables_are_not_written() {
    for (right_axes, edition) in FILES {
        let right = table(&mut Random::new(8), right_axes, 2, edition);
        for (shape, number, place) in wrong_shapes(right_axes, 3) {
            let (axes, counts, steps) = (shape.axes, shape.counts, shape.steps);
            let call = Write {
                axes,
                counts,
                steps,
                ..right.clone()
            };
            // A file has no degree.
            let expected = if number == 2 {
                Ok(())
            } else {
                refused(number, place)
            };
            assert_eq!(run_write(&call), expected);
        }
        for length in [0, 1, right.samples.len() - 1, right.samples.len() + 1] {
            let mut call = right.clone();
            call.samples.resize(length, 0);
            assert_eq!(run_write(&call), refused(4, 0));
        }
    }
}

#[test]
fn faults_in_order_of_writing() {
    for (axes, edition) in FILES {
        let mut call = table(&mut Random::new(9), axes, 4, edition);
        call.samples.fill(7);
        let mut faults = vec![fault(1, 0, |call: &mut Write| call.axes = 0)];
        for axis in 0..3 {
            let make = move |call: &mut Write| call.counts[axis] = 65;
            faults.push(fault(3, axis as u64, make));
        }
        for axis in 0..3 {
            let make = move |call: &mut Write| call.steps[axis] = 0;
            faults.push(fault(26, axis as u64, make));
        }
        faults.push(fault(4, 0, |call: &mut Write| call.samples.push(0)));
        faults.push(fault(9, 0, |call: &mut Write| call.room -= 1));
        faults.push(fault(5, 0, |call: &mut Write| call.samples[0] = 32769));
        faults.push(fault(5, 1, |call: &mut Write| call.samples[1] = -32769));
        check_faults(&call, &faults, run_write);
    }
}

// Writes a number into the bytes of a file.
fn put(call: &mut Read, index: usize, number: u32) {
    call.bytes[4 * index..4 * index + 4].copy_from_slice(&number.to_le_bytes());
}

#[test]
fn faults_in_order_of_reading() {
    for axes in 1..=3usize {
        let mut call = file(&mut Random::new(10), axes as u32, 4, true);
        let section = 2 + axes + call.room;
        for index in 2 + axes..section {
            put(&mut call, index, 7);
        }
        let length = call.bytes.len();
        let mut faults = vec![fault(1, 0, |call: &mut Read| put(call, 0, 4))];
        for axis in 0..axes {
            let make = move |call: &mut Read| put(call, 1 + axis, 1);
            faults.push(fault(3, axis as u64, make));
        }
        faults.push(fault(8, 0, move |call: &mut Read| put(call, 1 + axes, 1)));
        for (index, number) in [(section, 2), (section + 1, 1)] {
            let make = move |call: &mut Read| put(call, index, number);
            faults.push(fault(25, 0, make));
        }
        faults.push(fault(7, length as u64, |call: &mut Read| {
            call.bytes.push(1)
        }));
        faults.push(fault(9, 0, |call: &mut Read| call.room -= 1));
        faults.push(fault(5, 0, move |call: &mut Read| {
            put(call, 2 + axes, 32769)
        }));
        check_faults(&call, &faults, run_read);
        faults_in_order_with_early_end(&call, &faults, axes);
    }
}

// A file cut at any length: a fault in a number that is whole comes first, if it is before 6.
fn faults_in_order_with_early_end(call: &Read, faults: &[Fault<Read>], axes: usize) {
    let end = call.bytes.len() - 8;
    for fault in faults
        .iter()
        .filter(|fault| [1, 3, 8].contains(&fault.number))
    {
        let number = match fault.number {
            1 => 0,
            3 => 1 + fault.place as usize,
            _ => 1 + axes,
        };
        for length in 0..end {
            let mut cut = call.clone();
            (fault.make)(&mut cut);
            cut.bytes.truncate(length);
            let expected = if length >= 4 * (number + 1) {
                refused(fault.number, fault.place)
            } else {
                refused(6, length as u64)
            };
            assert_eq!(run_read(&cut), expected);
        }
    }
}

#[test]
fn refused_results_are_empty() {
    let bytes = words(&[&EXAMPLE[..], &SECTION].concat());
    let mut samples = [0; 2];
    let out = samples.as_mut_ptr();
    for (length, edition) in [(20, false), (28, true)] {
        // SAFETY: pointers and lengths are those of the arrays.
        let (done, refused) = unsafe {
            (
                ffi::lukhtari_read(SERVICE, bytes.as_ptr(), length, out, 2),
                ffi::lukhtari_read(SERVICE, bytes.as_ptr(), length, out, 1),
            )
        };
        assert_eq!((done.number, done.place), (0, 0));
        assert_eq!((done.axes, done.counts), (1, [2, 1, 1]));
        assert_eq!(done.steps, [256, 1, 1]);
        assert_eq!(done.second_edition, edition);
        assert_eq!(
            (refused.number, refused.axes, refused.counts),
            (9, 0, [0; 3])
        );
        assert_eq!(refused.steps, [0; 3]);
        assert!(!refused.second_edition);
    }
    let counts = ffi::Index { at: [2, 1, 1] };
    let steps = ffi::Index { at: [64, 1, 1] };
    let mut file = [0; 28];
    let (from, out) = (samples.as_ptr(), file.as_mut_ptr());
    for (length, edition) in [(20, false), (28, true)] {
        // SAFETY: pointers and lengths are those of the arrays.
        let (done, refused) = unsafe {
            (
                ffi::lukhtari_write(SERVICE, 1, counts, steps, edition, from, 2, out, length),
                ffi::lukhtari_write(SERVICE, 1, counts, steps, edition, from, 2, out, length - 1),
            )
        };
        let written = (done.number, done.place, done.length);
        assert_eq!(written, (0, 0, length as u64));
        assert_eq!((refused.number, refused.length), (9, 0));
    }
}
