//! The text of a table: numbers by the grammar of RFC 8259, section 6, with separators between them.

use super::int::Int;
use super::rational::Rational;
use super::shape::*;

// The most bytes of a token.
pub const LONGEST: usize = 64;

// The parts of a number: digits as one whole number, how many of them follow the point, exponent.
struct Number {
    negative: bool,
    digits: Int,
    after_point: i64,
    exponent: Int,
}

// Reads a token from the front; none where it does not fit.
struct Parser<'a> {
    rest: &'a [u8],
}

impl Parser<'_> {
    // Takes the next byte if it is one of these.
    fn take(&mut self, any: &[u8]) -> Option<u8> {
        let (&first, rest) = self.rest.split_first()?;
        any.contains(&first).then(|| {
            self.rest = rest;
            first
        })
    }

    // 1*DIGIT, added at the end of `number`; their number and the whole.
    fn digits(&mut self, number: Int) -> Option<(i64, Int)> {
        let first = self.take(b"0123456789")?;
        let number = number * Int::from(10) + Int::from(i64::from(first - b'0'));
        match self.digits(number) {
            Some((more, number)) => Some((1 + more, number)),
            None => Some((1, number)),
        }
    }

    // int = zero / ( digit1-9 *DIGIT )
    fn int(&mut self) -> Option<Int> {
        match self.take(b"0") {
            Some(_) => Some(Int::ZERO),
            None => Some(self.digits(Int::ZERO)?.1),
        }
    }

    // exp = e [ minus / plus ] 1*DIGIT, after the e
    fn exponent(&mut self) -> Option<Int> {
        let sign = self.take(b"+-");
        let (_, size) = self.digits(Int::ZERO)?;
        Some(if sign == Some(b'-') { -size } else { size })
    }

    // number = [ minus ] int [ frac ] [ exp ]
    fn number(&mut self) -> Option<Number> {
        let negative = self.take(b"-").is_some();
        let int = self.int()?;
        let (after_point, digits) = match self.take(b".") {
            Some(_) => self.digits(int)?,
            None => (0, int),
        };
        let exponent = match self.take(b"eE") {
            Some(_) => self.exponent()?,
            None => Int::ZERO,
        };
        self.rest.is_empty().then_some(Number {
            negative,
            digits,
            after_point,
            exponent,
        })
    }
}

// What a number's value times 100 is.
enum Units {
    Whole(i64),
    NotWhole,
    Beyond,
}

// The digits of a token are below 10^64. Where they are not 0, a shift of the point by 6 places or
// more is beyond the limit, and one by more than 64 places to the left gives no whole number.
fn units(number: &Number) -> Units {
    if number.digits.is_zero() {
        return Units::Whole(0);
    }
    let shift = number.exponent + Int::from(2 - number.after_point);
    let small = shift.abs() <= Int::from(LONGEST as i64);
    let shift = match shift.to_i64() {
        Some(shift) if small && shift <= 5 => shift,
        _ if shift.is_negative() => return Units::NotWhole,
        _ => return Units::Beyond,
    };
    let power = Rational::from(Int::from(10).power(shift.unsigned_abs() as u32));
    let size = Rational::from(number.digits);
    let size = if shift < 0 {
        size / power
    } else {
        size * power
    };
    let value = if number.negative { -size } else { size };
    if !value.is_whole() {
        return Units::NotWhole;
    }
    match value.to_i64() {
        Some(value) if value.abs() <= LIMIT => Units::Whole(value),
        _ => Units::Beyond,
    }
}

pub fn is_separator(byte: u8) -> bool {
    [b' ', b'\t', b'\n', b'\r'].contains(&byte)
}

// All tokens with the index of their first byte.
pub fn tokens(text: &[u8]) -> Vec<(usize, &[u8])> {
    let mut all = Vec::new();
    let mut start = 0;
    for run in text.split(|&byte| is_separator(byte)) {
        if !run.is_empty() {
            all.push((start, run));
        }
        start += run.len() + 1;
    }
    all
}

// 16, 17, 18, 5 of one token, else its sample.
fn sample(token: &[u8], start: usize, index: usize) -> Answer<i32> {
    refuse_unless(token.len() <= LONGEST, 16, start)?;
    let number = Parser { rest: token }.number();
    refuse_unless(number.is_some(), 17, start)?;
    match number.map(|number| units(&number)) {
        Some(Units::Whole(value)) => Ok(value as i32),
        Some(Units::Beyond) => Err(refusal(5, index)),
        _ => Err(refusal(18, start)),
    }
}

fn refusal(number: u32, place: usize) -> Refusal {
    let place = place as u64;
    Refusal { number, place }
}

// The importing call: 1, 2, 3, 26, 4, 9, then token by token 16, 17, 18, 5, else the samples.
pub fn import(shape: &Shape, text: &[u8], room: usize) -> Answer<Vec<i32>> {
    check_shape(shape)?;
    let tokens = tokens(text);
    check_length(tokens.len(), shape.nodes())?;
    check_room(room, shape.nodes())?;
    let each = tokens.iter().enumerate();
    each.map(|(index, &(start, token))| sample(token, start, index))
        .collect()
}
