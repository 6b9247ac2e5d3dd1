//! Import of text: the grammar and the value of single tokens against the model.

mod common;
mod model;
mod texts;

use common::*;
use texts::*;

#[test]
fn worked_examples() {
    for (token, sample) in [
        ("5e-1", 50),
        ("0.5", 50),
        ("-0", 0),
        ("0e99", 0),
        ("0e-400", 0),
        ("327.68", 32768),
        ("-327.68", -32768),
    ] {
        assert_eq!(second(token.as_bytes()), Ok(sample), "{token}");
    }
    assert_eq!(second(b"1e400"), refused(5, 1));
    assert_eq!(second(b"1e-400"), refused(18, 2));
    let zeros = format!("1{}e-58", "0".repeat(58));
    assert_eq!(second(zeros.as_bytes()), Ok(100));
}

#[test]
fn every_form_of_the_grammar() {
    for (token, sample) in [
        ("0", 0),
        ("7", 700),
        ("10", 1000),
        ("327", 32700),
        ("-1", -100),
        ("0.0", 0),
        ("-0.0", 0),
        ("0.01", 1),
        ("-0.01", -1),
        ("0.10", 10),
        ("1.000", 100),
        ("12.34", 1234),
        ("100.00", 10000),
        ("0e0", 0),
        ("1e0", 100),
        ("1E0", 100),
        ("1e+0", 100),
        ("1e-0", 100),
        ("1E+2", 10000),
        ("1e2", 10000),
        ("1e-2", 1),
        ("1E-2", 1),
        ("1e00000002", 10000),
        ("1e-00000002", 1),
        ("1e+00000002", 10000),
        ("-1.5e1", -1500),
        ("1.234e1", 1234),
        ("0.00012340e5", 1234),
        ("-0.0e-0", 0),
        ("-0.000e+99", 0),
        ("9e-2", 9),
        ("300e-4", 3),
        ("-32768e-2", -32768),
        ("0.0000000032768e11", 32768),
    ] {
        assert_eq!(second(token.as_bytes()), Ok(sample), "{token}");
    }
}

// Tokens that are nearly numbers.
const NEIGHBOURS: &str = "
    01 00 -01 -00 00.5 01e5 +1 +0 - -- --1 -+1 +-1 1- 1+ 1. -1. 0. .5 -.5 . -. 1..5 1.5.5 1.-5 1.+5
    1.e5 .e5 1e 1E 1e+ 1e- 1e. 1e5. 1e5.5 1e5e5 1e++5 1e--5 1e+-5 1e-+5 1ee5 1eE5 e5 E5 -e5 e 1e5+
    1e5- 0x1 0X1F 0b1 0o7 1_0 1,5 1,000 1'000 1f 1d 1u 1% 1/2 NaN nan inf -inf Infinity null true
    [1] (1) 1; $1 1g x 0.5x x0.5 # 1e5x ½ １ −1 1·5 1.5\u{a0} \u{feff}1 1\u{b}1 1\u{c} \u{85}1";

#[test]
fn neighbours_of_the_grammar() {
    for token in NEIGHBOURS
        .split([' ', '\n'])
        .filter(|token| !token.is_empty())
    {
        assert_eq!(second(token.as_bytes()), refused(17, 2), "{token}");
    }
}

// Counts up in digits of the alphabet, the first fastest; false after the last.
fn step(digits: &mut [usize], base: usize) -> bool {
    for digit in digits {
        *digit += 1;
        if *digit < base {
            return true;
        }
        *digit = 0;
    }
    false
}

#[test]
fn all_short_tokens() {
    // Every token of up to six of these bytes; one of them is never in a number.
    let alphabet = b"-+.eE015/";
    let mut taken = 0;
    for length in 1..=6 {
        let mut digits = vec![0; length];
        loop {
            let token: Vec<u8> = digits.iter().map(|&digit| alphabet[digit]).collect();
            taken += u32::from(second(&token) != refused(17, 2));
            if !step(&mut digits, alphabet.len()) {
                break;
            }
        }
    }
    assert_eq!(taken, numbers_of_up_to(6));
}

// How many numbers have up to so many bytes, written with 3 digits, the zero among them: by the
// lengths of their parts.
fn numbers_of_up_to(most: usize) -> u32 {
    let digits = |length: usize| 3u32.pow(length as u32);
    let ints = |length: usize| match length {
        0 => 0,
        1 => 3,
        _ => 2 * digits(length - 1),
    };
    let fracs = |length: usize| match length {
        0 => 1,
        1 => 0,
        _ => digits(length - 1),
    };
    // Two marks, without a sign or with one of two.
    let exps = |length: usize| match length {
        0 => 1,
        1 => 0,
        2 => 2 * digits(1),
        _ => 2 * digits(length - 1) + 4 * digits(length - 2),
    };
    let mut all = 0;
    for int in 1..=most {
        for frac in 0..=most - int {
            for exp in 0..=most - int - frac {
                let signs = if int + frac + exp < most { 2 } else { 1 };
                all += signs * ints(int) * fracs(frac) * exps(exp);
            }
        }
    }
    all
}

#[test]
fn tokens_of_64_bytes() {
    // A head, as often as needed a byte, and an end, and the answer up to 64 bytes.
    for (head, byte, end, answer) in [
        ("0.", "0", "", Ok(0)),
        ("0.01", "0", "", Ok(1)),
        ("-0.01", "0", "", Ok(-1)),
        ("0e", "9", "", Ok(0)),
        ("0e-", "9", "", Ok(0)),
        ("1e-", "0", "2", Ok(1)),
        ("1e+", "0", "0", Ok(100)),
        ("1000", "0", "", refused(5, 1)),
        ("-999", "9", "", refused(5, 1)),
        ("0.00", "0", "1", refused(18, 2)),
        ("1", "0", ".001", refused(18, 2)),
        ("00", "0", "", refused(17, 2)),
        ("5e", "0", "-", refused(17, 2)),
        ("x", "y", "", refused(17, 2)),
        ("x", "\0", "", refused(17, 2)),
        ("x", "\x7f", "", refused(17, 2)),
    ] {
        for length in head.len() + end.len() + 1..=70 {
            let more = byte.repeat(length - head.len() - end.len());
            let token = format!("{head}{more}{end}");
            let expected = if length <= 64 { answer } else { refused(16, 2) };
            assert_eq!(second(token.as_bytes()), expected, "{token}");
        }
    }
}

#[test]
fn exponents_of_any_size() {
    for digits in 1..=58 {
        let nines = "9".repeat(digits);
        for (head, answer) in [
            ("0e", Ok(0)),
            ("-0e+", Ok(0)),
            ("0.0e-", Ok(0)),
            ("-1e", refused(5, 1)),
            ("1E+", refused(5, 1)),
            ("0.1e", refused(5, 1)),
            ("-1e-", refused(18, 2)),
            ("100e-", refused(18, 2)),
            ("3.14E-", refused(18, 2)),
        ] {
            let token = format!("{head}{nines}");
            assert_eq!(second(token.as_bytes()), answer, "{token}");
        }
    }
    // Exponents that are small numbers again where they wrap at 2^8, 2^16, 2^31, 2^32, 2^63, 2^64
    // or 2^128.
    for exponent in [
        "256",
        "65536",
        "2147483648",
        "4294967296",
        "9223372036854775808",
        "18446744073709551616",
        "340282366920938463463374607431768211456",
    ] {
        for (token, expected) in [
            (format!("1e{exponent}"), refused(5, 1)),
            (format!("1e-{exponent}"), refused(18, 2)),
            (format!("0e{exponent}"), Ok(0)),
            (format!("0e-{exponent}"), Ok(0)),
        ] {
            assert_eq!(second(token.as_bytes()), expected, "{token}");
        }
    }
}

#[test]
fn mantissas_of_any_size() {
    // `1` and zeros, and the exponent that takes them back.
    for zeros in 0..=58 {
        let token = format!("1{}e-{zeros}", "0".repeat(zeros));
        assert_eq!(second(token.as_bytes()), Ok(100), "{token}");
        let token = format!("0.{}1e{}", "0".repeat(zeros), zeros + 1);
        if token.len() <= 64 {
            assert_eq!(second(token.as_bytes()), Ok(100), "{token}");
        }
        // One digit more at the end is no unit.
        let token = format!("1{}1e-{}", "0".repeat(zeros), zeros + 1);
        let expected = match zeros {
            0 => Ok(110),
            1 => Ok(101),
            _ => refused(18, 2),
        };
        assert_eq!(second(token.as_bytes()), expected, "{token}");
    }
    // Mantissas that are small numbers again where they wrap at 2^32, 2^64 or 2^128.
    for mantissa in [
        "4294967296",
        "4294967396",
        "18446744073709551616",
        "18446744073709551716",
        "340282366920938463463374607431768211456",
        "340282366920938463463374607431768211556",
    ] {
        assert_eq!(second(mantissa.as_bytes()), refused(5, 1), "{mantissa}");
        let hundredths = format!("{mantissa}e-2");
        assert_eq!(second(hundredths.as_bytes()), refused(5, 1), "{mantissa}");
        let small = format!("0.{mantissa}");
        assert_eq!(second(small.as_bytes()), refused(18, 2), "{mantissa}");
    }
    let sixty = "123456789012345678901234567890123456789012345678901234567890";
    assert_eq!(second(sixty.as_bytes()), refused(5, 1));
    assert_eq!(second(format!("{sixty}e-58").as_bytes()), refused(18, 2));
    assert_eq!(second(format!("0.{sixty}").as_bytes()), refused(18, 2));
}

#[test]
fn digits_that_no_float_holds() {
    // The nearest floats of 8 bytes are 327.68, 0.5 and 0.
    for token in [
        "327.6800000000000000000000000001",
        "327.67999999999999999999999999999",
        "0.50000000000000000000000000000000000001",
        "-0.49999999999999999999999999999999999999",
        "1e-999",
    ] {
        assert_eq!(second(token.as_bytes()), refused(18, 2), "{token}");
    }
    for (token, sample) in [
        ("327.6800000000000000000000000000", 32768),
        ("0.500000000000000000000000000000000000000", 50),
        ("-0.29", -29),
        ("0.57", 57),
        ("1.15", 115),
        ("4.35", 435),
        ("81.91", 8191),
        ("163.85", 16385),
    ] {
        assert_eq!(second(token.as_bytes()), Ok(sample), "{token}");
    }
}

#[test]
fn at_and_beyond_the_limit() {
    for sign in ["", "-"] {
        let size = |token: &str| second(format!("{sign}{token}").as_bytes()).map(i32::abs);
        for token in ["327.68", "32768e-2", "0.32768e3", "3.2768E+2", "327.680"] {
            assert_eq!(size(token), Ok(32768), "{token}");
        }
        for token in [
            "327.69",
            "32769e-2",
            "0.32769e3",
            "327.7",
            "328",
            "655.36",
            "42949672.96",
            "1e3",
            "1e5",
            "1e6",
            "1e7",
        ] {
            assert_eq!(size(token), refused(5, 1), "{token}");
        }
        // No whole number of units comes before the limit.
        for token in ["327.681", "327.689", "999.999", "1234567.891"] {
            assert_eq!(size(token), refused(18, 2), "{token}");
        }
    }
}

#[test]
fn samples_are_those_of_correct_floats() {
    // Both are the float nearest to the same number.
    let mut random = Random::new(1);
    for _ in 0..20_000 {
        let sample = random.within(32768);
        let token = random.spelled(sample);
        assert_eq!(second(token.as_bytes()), Ok(sample), "{token}");
        let float: f64 = token.parse().expect("a float");
        assert_eq!(float, sample as f64 / 100.0, "{token}");
    }
}

#[test]
fn random_numbers() {
    // Numbers by the grammar, with parts of any length.
    let mut random = Random::new(8);
    let mut counts = [0; 4];
    for _ in 0..60_000 {
        let token = random_number(&mut random);
        let kind = match second(token.as_bytes()) {
            Ok(_) => 0,
            Err(refusal) if refusal.number == 5 => 1,
            Err(refusal) if refusal.number == 18 => 2,
            Err(refusal) => {
                assert_eq!(refusal, refused::<()>(16, 2).unwrap_err());
                assert!(token.len() > 64);
                3
            }
        };
        counts[kind] += 1;
    }
    assert!(counts.iter().all(|&count| count > 1_000), "{counts:?}");
}

fn random_number(random: &mut Random) -> String {
    let long = random.pick(&[2, 6, 30, 60]);
    let zeros = random.chance(2);
    let digits = |random: &mut Random, most: u64| -> String {
        let length = 1 + random.below(most);
        let digit = |_| match zeros {
            true if !random.chance(6) => '0',
            _ => char::from(b'0' + random.below(10) as u8),
        };
        (0..length).map(digit).collect()
    };
    let mut token = random.pick(&["", "-"]).to_string();
    let int = digits(random, long);
    let int = int.trim_start_matches('0');
    token += if int.is_empty() { "0" } else { int };
    if random.chance(2) {
        token += ".";
        token += &digits(random, long);
    }
    if random.chance(2) {
        token += random.pick(&["e", "E"]);
        token += random.pick(&["", "+", "-"]);
        token += &match random.below(3) {
            0 => digits(random, 12),
            _ => random.below(long + 4).to_string(),
        };
    }
    token
}
