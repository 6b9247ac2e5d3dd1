//! The program over pipes, against the model's output.

mod common;
mod model;

use common::{program, shape, Random};
use lukhtari::Shape;
use model::program::{output, BYTES, NODES};
use std::fs::File;
use std::io::{Read, Write};
use std::process::{Command, Stdio};
use std::thread;
use std::time::{Duration, Instant};

// Runs the program on an input that is written in pieces, with a pause between them.
fn run_in_pieces(input: &[u8], piece: usize, pause: Duration) -> String {
    let mut child = Command::new(program())
        .stdin(Stdio::piped())
        .stdout(Stdio::piped())
        .spawn()
        .expect("the program runs");
    let mut stdin = child.stdin.take().unwrap();
    let pieces: Vec<Vec<u8>> = input.chunks(piece).map(<[u8]>::to_vec).collect();
    // The program stops reading as soon as an input is too long.
    let writer = thread::spawn(move || {
        for piece in pieces {
            if stdin.write_all(&piece).is_err() {
                return;
            }
            thread::sleep(pause);
        }
    });
    let mut text = String::new();
    let mut stdout = child.stdout.take().unwrap();
    stdout.read_to_string(&mut text).expect("text");
    writer.join().unwrap();
    assert!(child.wait().unwrap().success());
    text
}

#[track_caller]
fn check(input: &[u8]) -> String {
    let text = run_in_pieces(input, input.len().max(1), Duration::ZERO);
    assert_eq!(text, output(input), "input of {} bytes", input.len());
    text
}

fn words(numbers: &[u32]) -> Vec<u8> {
    numbers.iter().flat_map(|n| n.to_le_bytes()).collect()
}

// The table file of these samples, of edition one.
fn file_of(counts: &[u32], samples: &[i32]) -> Vec<u8> {
    let mut numbers = vec![counts.len() as u32];
    numbers.extend(counts);
    numbers.push(samples.len() as u32);
    numbers.extend(samples.iter().map(|&sample| sample as u32));
    words(&numbers)
}

// The file with the third section of edition two.
fn second_edition(file: &[u8]) -> Vec<u8> {
    [file, &words(&[1, 2])].concat()
}

// The shape of a table with these node counts.
fn shape_of(counts: &[u32]) -> Shape {
    let mut all = [1; 3];
    all[..counts.len()].copy_from_slice(counts);
    shape(counts.len() as u32, 3, all)
}

// A table file with random samples that estimation takes.
fn file(random: &mut Random, counts: &[u32]) -> Vec<u8> {
    file_of(counts, &random.estimable(shape_of(counts)))
}

#[test]
fn worked_examples() {
    let file = words(&[1, 2, 2, 0, 100]);
    assert_eq!(check(&file), "0 0 0 50 50\n");
    assert_eq!(check(&file[..19]), "refused 6\n");
    let mut longer = file.clone();
    longer.push(0);
    assert_eq!(check(&longer), "refused 6\n");
    assert_eq!(check(&words(&[1, 2, 3, 0, 100])), "refused 8\n");
}

#[test]
fn editions() {
    // Half way between 0 and 1, and between 2 and 3.
    for (samples, first, second) in [([0, 1], 1, 0), ([2, 3], 3, 2), ([-1, 0], 0, 0)] {
        let file = file_of(&[2], &samples);
        assert_eq!(check(&file), format!("0 0 0 {first} {first}\n"));
        let file = second_edition(&file);
        assert_eq!(check(&file), format!("0 0 0 {second} {second}\n"));
        assert_eq!(check(&[&file[..], &[0]].concat()), "refused 7\n");
        for length in 21..28 {
            assert_eq!(check(&file[..length]), "refused 6\n");
        }
        for index in [20, 23, 24, 27] {
            let mut other = file.clone();
            other[index] ^= 1;
            assert_eq!(check(&other), "refused 25\n");
            other.push(0);
            assert_eq!(check(&other), "refused 25\n");
        }
    }
}

#[test]
fn negative_doses() {
    let text = check(&words(&[1, 2, 2, 0, -100i32 as u32]));
    assert_eq!(text, "0 0 0 -50 -50\n");
    check(&file_of(&[2, 2], &[-8192, 0, 5, -7]));
}

#[test]
fn lines_of_a_cube() {
    let mut random = Random::new(1);
    let text = check(&file(&mut random, &[3, 4, 2]));
    let cells: Vec<String> = text.lines().map(|line| line[..5].to_string()).collect();
    let expected = ["0 0 0", "1 0 0", "0 1 0", "1 1 0", "0 2 0", "1 2 0"];
    assert_eq!(cells, expected);
}

#[test]
fn random_tables() {
    let mut random = Random::new(2);
    for _ in 0..60 {
        for axes in 1..=3 {
            let most = if axes == 3 { 5 } else { 9 };
            let counts = random.shape(axes, 3, most).counts;
            let counts = &counts[..axes as usize];
            let file = file(&mut random, counts);
            check(&file);
            check(&second_edition(&file));
            // Samples of which many are beyond the limit of estimation.
            let nodes = counts.iter().product::<u32>() as usize;
            check(&file_of(counts, &random.samples(nodes)));
        }
    }
}

#[test]
fn largest_tables_that_fit() {
    let mut random = Random::new(3);
    assert_eq!(8 * 8 * 8, NODES);
    for counts in [&[8, 8, 8][..], &[2, 64, 4], &[64, 8], &[64]] {
        let file = file(&mut random, counts);
        for file in [second_edition(&file), file] {
            assert!(!check(&file).starts_with("refused"));
        }
    }
}

#[test]
fn tables_that_do_not_fit() {
    let mut random = Random::new(4);
    for counts in [&[9, 57][..], &[8, 8, 9], &[3, 3, 57], &[15, 64]] {
        let file = file(&mut random, counts);
        assert!(file.len() <= BYTES);
        assert_eq!(check(&file), "refused 9\n");
        // Bytes that end early or are left over come first.
        assert_eq!(check(&file[..file.len() - 1]), "refused 6\n");
        let longer = [&file[..], &[0]].concat();
        assert_eq!(check(&longer), "refused 6\n");
        let second = second_edition(&file);
        assert_eq!(check(&second), "refused 9\n");
        let longer = [&second[..], &[0]].concat();
        assert_eq!(check(&longer), "refused 7\n");
    }
}

#[test]
fn inputs_of_all_lengths() {
    let mut random = Random::new(5);
    let file = file(&mut random, &[15, 64]);
    assert_eq!(check(&[]), "refused 6\n");
    for length in [4095, 4096, 4097, 100_000] {
        for (start, number) in [(file.clone(), 25), (second_edition(&file), 7)] {
            let number = if length > BYTES { 9 } else { number };
            let mut longer = start;
            longer.resize(length, 0);
            assert_eq!(check(&longer), format!("refused {number}\n"));
        }
        // Too long an input is refused before its contents.
        let number = if length > BYTES { 9 } else { 1 };
        assert_eq!(check(&vec![0; length]), format!("refused {number}\n"));
    }
}

// Runs the program on an input without end; it has to stop reading by itself.
fn run_endless(input: Stdio) -> String {
    let mut child = Command::new(program())
        .stdin(input)
        .stdout(Stdio::piped())
        .spawn()
        .expect("the program runs");
    let start = Instant::now();
    while child.try_wait().unwrap().is_none() {
        if start.elapsed() > Duration::from_secs(20) {
            child.kill().unwrap();
            panic!("the program reads on");
        }
        thread::sleep(Duration::from_millis(1));
    }
    let mut text = String::new();
    let mut stdout = child.stdout.take().unwrap();
    stdout.read_to_string(&mut text).expect("text");
    text
}

#[test]
fn endless_inputs() {
    let zeros = File::open("/dev/zero").expect("zeros");
    assert_eq!(run_endless(zeros.into()), "refused 9\n");
    // A pipe whose writer goes on until the program no longer reads.
    let mut writer = Command::new("cat")
        .arg("/dev/zero")
        .stdout(Stdio::piped())
        .spawn()
        .expect("cat runs");
    let pipe = writer.stdout.take().unwrap();
    assert_eq!(run_endless(pipe.into()), "refused 9\n");
    assert!(!writer.wait().unwrap().success());
}

#[test]
fn refusals() {
    let case = |numbers: &[u32]| check(&words(numbers));
    assert_eq!(case(&[0]), "refused 1\n");
    assert_eq!(case(&[4, 2, 2, 2, 2]), "refused 1\n");
    assert_eq!(case(&[1, 1]), "refused 3\n");
    assert_eq!(case(&[3, 2, 65, 0]), "refused 3\n");
    assert_eq!(case(&[1, 2, 2, 0, 32769]), "refused 5\n");
    assert_eq!(case(&[1, 2, 2, -32769i32 as u32, 0]), "refused 5\n");
    assert_eq!(case(&[1, 2, 2, 16384, -16384i32 as u32]), "0 0 0 0 0\n");
    assert_eq!(case(&[1, 2, 2, 32768, -32768i32 as u32]), "refused 19\n");
}

#[test]
fn samples_that_estimation_does_not_take() {
    for (counts, limit) in [(&[3][..], 16384), (&[2, 3], 8192), (&[2, 3, 2], 4096)] {
        let nodes = counts.iter().product::<u32>() as usize;
        for sign in [1, -1] {
            for node in 0..nodes {
                let mut samples = vec![7; nodes];
                samples[node] = sign * limit;
                assert!(!check(&file_of(counts, &samples)).starts_with("refused"));
                for beyond in [limit + 1, 32768] {
                    samples[node] = sign * beyond;
                    assert_eq!(check(&file_of(counts, &samples)), "refused 19\n");
                }
            }
        }
        // All refusals of the file come before.
        let mut samples = vec![limit + 1; nodes];
        let file = file_of(counts, &samples);
        assert_eq!(check(&file[..file.len() - 1]), "refused 6\n");
        assert_eq!(check(&[&file[..], &[0]].concat()), "refused 6\n");
        assert_eq!(check(&[&file[..], &[0; 8]].concat()), "refused 25\n");
        let second = second_edition(&file);
        assert_eq!(check(&second), "refused 19\n");
        assert_eq!(check(&[&second[..], &[0]].concat()), "refused 7\n");
        samples[nodes - 1] = -32769;
        assert_eq!(check(&file_of(counts, &samples)), "refused 5\n");
        samples.pop();
        let mut other_count = file_of(counts, &samples);
        assert_eq!(check(&other_count), "refused 8\n");
        other_count[4] = 65;
        assert_eq!(check(&other_count), "refused 3\n");
    }
    let many = file_of(&[9, 57], &[8193; 513]);
    assert_eq!(check(&many), "refused 9\n");
}

#[test]
fn short_reads() {
    let mut random = Random::new(6);
    let file = file(&mut random, &[4, 3, 2]);
    let expected = output(&file);
    let pause = Duration::from_millis(1);
    for piece in [1, 3, 4, 7, 64] {
        assert_eq!(run_in_pieces(&file, piece, pause), expected);
    }
    let long = vec![1; 100_000];
    assert_eq!(run_in_pieces(&long, 4096, pause), "refused 9\n");
}

#[test]
fn damaged_files() {
    let mut random = Random::new(7);
    let file = second_edition(&file(&mut random, &[2, 3]));
    for _ in 0..400 {
        let mut damaged = file.clone();
        let index = random.below(file.len() as u64) as usize;
        damaged[index] ^= 1 << random.below(8);
        if random.chance(4) {
            damaged.truncate(random.below(file.len() as u64) as usize);
        }
        check(&damaged);
    }
}
