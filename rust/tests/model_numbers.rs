//! The model's own numbers against 128-bit arithmetic.

mod common;
mod model;

use common::Random;
use model::int::Int;
use model::Rational;

// A random number of up to the given bits, with either sign.
fn number(random: &mut Random, bits: u32) -> i64 {
    let size = (random.next() >> (64 - bits)) as i64;
    if random.chance(2) {
        -size
    } else {
        size
    }
}

fn wide(value: i128) -> Int {
    let low = value.rem_euclid(1 << 62);
    let high = value.div_euclid(1 << 62);
    Int::from(high as i64) * Int::from(1 << 62) + Int::from(low as i64)
}

#[test]
fn whole_numbers() {
    let mut random = Random::new(1);
    for _ in 0..20_000 {
        let bits = 1 + random.below(62) as u32;
        let (a, b) = (number(&mut random, bits), number(&mut random, 62));
        let (x, y) = (Int::from(a), Int::from(b));
        let (a, b) = (a as i128, b as i128);
        assert_eq!(x + y, wide(a + b));
        assert_eq!(x - y, wide(a - b));
        assert_eq!(x * y, wide(a * b));
        assert_eq!(x.cmp(&y), a.cmp(&b));
        assert_eq!(x.to_i64(), Some(a as i64));
        if b > 0 {
            assert_eq!(x.div_floor(y), wide(a.div_euclid(b)));
        }
    }
}

#[test]
fn long_division() {
    let mut random = Random::new(2);
    let value = |random: &mut Random| {
        (0..4).fold(Int::ONE, |x, _| {
            x * Int::from(number(random, 50)) + Int::ONE
        })
    };
    for _ in 0..300 {
        let (a, b) = (value(&mut random), value(&mut random).abs() + Int::ONE);
        let quotient = a.div_floor(b);
        let rest = a - quotient * b;
        assert!(Int::ZERO <= rest && rest < b);
    }
}

#[test]
fn rational_numbers() {
    let mut random = Random::new(3);
    for _ in 0..20_000 {
        let [a, c] = [0; 2].map(|_| number(&mut random, 30));
        let [b, d] = [0; 2].map(|_| 1 + number(&mut random, 30).abs());
        let (x, y) = (Rational::ratio(a, b), Rational::ratio(c, d));
        assert_eq!(
            x + y,
            Rational::new(
                wide(a as i128 * d as i128 + c as i128 * b as i128),
                wide(b as i128 * d as i128)
            )
        );
        assert_eq!(
            x * y,
            Rational::new(wide(a as i128 * c as i128), wide(b as i128 * d as i128))
        );
        assert_eq!(x - x, Rational::ZERO);
        assert_eq!(
            x.cmp(&y),
            (a as i128 * d as i128).cmp(&(c as i128 * b as i128))
        );
        assert_eq!(x.floor(), Int::from(a.div_euclid(b)));
        assert_eq!(x.round(), Int::from((2 * a + b).div_euclid(2 * b)));
        // Halves to the even number are those up, or else those down, which are -round(-x).
        let (up, down) = (x.round(), -(-x).round());
        assert_eq!(x.round_even(), if up.is_even() { up } else { down });
    }
}
