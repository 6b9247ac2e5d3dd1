//! Whole numbers with a sign, up to 384 bits. More is a panic, never a wrong number.

use std::cmp::Ordering;
use std::ops::{Add, Mul, Neg, Sub};

const WORDS: usize = 6;

// Absolute value, lowest word first.
type Size = [u64; WORDS];

#[derive(Clone, Copy, Debug, PartialEq, Eq)]
pub struct Int {
    negative: bool,
    size: Size,
}

impl Int {
    pub const ZERO: Int = Int::small(0);
    pub const ONE: Int = Int::small(1);

    const fn small(word: u64) -> Int {
        let mut size = [0; WORDS];
        size[0] = word;
        Int {
            negative: false,
            size,
        }
    }

    // Zero has no sign.
    fn signed(negative: bool, size: Size) -> Int {
        Int {
            negative: negative && size != [0; WORDS],
            size,
        }
    }

    pub fn is_zero(self) -> bool {
        self == Int::ZERO
    }

    pub fn is_negative(self) -> bool {
        self.negative
    }

    pub fn is_even(self) -> bool {
        self.size[0] % 2 == 0
    }

    pub fn abs(self) -> Int {
        Int::signed(false, self.size)
    }

    pub fn power(self, exponent: u32) -> Int {
        (0..exponent).fold(Int::ONE, |product, _| product * self)
    }

    // Quotient rounded down, for a positive divisor.
    pub fn div_floor(self, divisor: Int) -> Int {
        assert!(divisor > Int::ZERO, "divisor not positive");
        let (quotient, rest) = divide(self.size, divisor.size);
        let towards_zero = Int::signed(self.negative, quotient);
        if self.negative && rest != [0; WORDS] {
            towards_zero - Int::ONE
        } else {
            towards_zero
        }
    }

    // Greatest common divisor, never negative.
    pub fn gcd(self, other: Int) -> Int {
        let (mut a, mut b) = (self.size, other.size);
        while b != [0; WORDS] {
            (a, b) = (b, divide(a, b).1);
        }
        Int::signed(false, a)
    }

    pub fn to_i64(self) -> Option<i64> {
        let size = i128::try_from(low_pair(self.size)?).ok()?;
        i64::try_from(if self.negative { -size } else { size }).ok()
    }
}

impl From<i64> for Int {
    fn from(value: i64) -> Int {
        let mut size = [0; WORDS];
        size[0] = value.unsigned_abs();
        Int::signed(value < 0, size)
    }
}

impl Neg for Int {
    type Output = Int;
    fn neg(self) -> Int {
        Int::signed(!self.negative, self.size)
    }
}

impl Add for Int {
    type Output = Int;
    fn add(self, other: Int) -> Int {
        if self.negative == other.negative {
            return Int::signed(self.negative, sum(self.size, other.size));
        }
        match compare(self.size, other.size) {
            Ordering::Less => Int::signed(other.negative, difference(other.size, self.size)),
            _ => Int::signed(self.negative, difference(self.size, other.size)),
        }
    }
}

impl Sub for Int {
    type Output = Int;
    fn sub(self, other: Int) -> Int {
        self + -other
    }
}

impl Mul for Int {
    type Output = Int;
    fn mul(self, other: Int) -> Int {
        Int::signed(
            self.negative != other.negative,
            product(self.size, other.size),
        )
    }
}

impl PartialOrd for Int {
    fn partial_cmp(&self, other: &Int) -> Option<Ordering> {
        Some(self.cmp(other))
    }
}

impl Ord for Int {
    fn cmp(&self, other: &Int) -> Ordering {
        match (self.negative, other.negative) {
            (false, true) => Ordering::Greater,
            (true, false) => Ordering::Less,
            (false, false) => compare(self.size, other.size),
            (true, true) => compare(other.size, self.size),
        }
    }
}

fn compare(a: Size, b: Size) -> Ordering {
    a.iter().rev().cmp(b.iter().rev())
}

fn sum(a: Size, b: Size) -> Size {
    let mut out = [0; WORDS];
    let mut carry = false;
    for i in 0..WORDS {
        let (word, over) = a[i].overflowing_add(b[i]);
        let (word, over_again) = word.overflowing_add(carry as u64);
        out[i] = word;
        carry = over || over_again;
    }
    assert!(!carry, "more than 384 bits");
    out
}

// a less b, for b at most a.
fn difference(a: Size, b: Size) -> Size {
    let mut out = [0; WORDS];
    let mut borrow = false;
    for i in 0..WORDS {
        let (word, under) = a[i].overflowing_sub(b[i]);
        let (word, under_again) = word.overflowing_sub(borrow as u64);
        out[i] = word;
        borrow = under || under_again;
    }
    assert!(!borrow, "difference below zero");
    out
}

fn product(a: Size, b: Size) -> Size {
    let mut out = [0; WORDS];
    for i in (0..WORDS).filter(|&i| a[i] != 0) {
        let mut carry = 0u128;
        for j in 0..WORDS - i {
            let term = a[i] as u128 * b[j] as u128 + out[i + j] as u128 + carry;
            out[i + j] = term as u64;
            carry = term >> 64;
        }
        let lost = b[WORDS - i..].iter().any(|&word| word != 0);
        assert!(carry == 0 && !lost, "more than 384 bits");
    }
    out
}

// The value as one 128-bit number, if the higher words are 0.
fn low_pair(size: Size) -> Option<u128> {
    let fits = size[2..].iter().all(|&word| word == 0);
    fits.then_some(size[0] as u128 | (size[1] as u128) << 64)
}

fn from_pair(value: u128) -> Size {
    let mut size = [0; WORDS];
    size[0] = value as u64;
    size[1] = (value >> 64) as u64;
    size
}

// Number of bits up to the highest that is set.
fn bits(size: Size) -> usize {
    let highest = size.iter().rposition(|&word| word != 0);
    highest.map_or(0, |word| {
        64 * (word + 1) - size[word].leading_zeros() as usize
    })
}

// Quotient and rest: in 128 bits where both fit, else bit by bit.
fn divide(a: Size, b: Size) -> (Size, Size) {
    assert!(b != [0; WORDS], "division by zero");
    if let (Some(x), Some(y)) = (low_pair(a), low_pair(b)) {
        return (from_pair(x / y), from_pair(x % y));
    }
    let mut quotient = [0; WORDS];
    let mut rest = [0; WORDS];
    for bit in (0..bits(a)).rev() {
        rest = sum(rest, rest);
        rest[0] |= a[bit / 64] >> (bit % 64) & 1;
        if compare(rest, b) != Ordering::Less {
            rest = difference(rest, b);
            quotient[bit / 64] |= 1 << (bit % 64);
        }
    }
    (quotient, rest)
}
