//! Samples from decimal text: the tokens are counted, then tested, then read again to be written.

use super::checks::*;
use lukhtari::Shape;

// 1, 2, 3, 26, 4, 9, then token by token 16, 17, 18, 5, else the samples
pub fn import(shape: Shape, text: &[u8], samples: &mut [i32]) -> Answer<()> {
    check_shape(shape)?;
    let nodes = nodes(shape);
    if count(text) != nodes {
        return refuse(4, 0);
    }
    if samples.len() < nodes {
        return refuse(9, 0);
    }
    let mut at = 0;
    for k in 0..nodes {
        let start = token_from(text, at);
        let (end, size) = read(text, start)?;
        match size {
            NOT_WHOLE => return refuse(18, start),
            BEYOND => return refuse(5, k),
            _ => at = end,
        }
    }
    let mut at = 0;
    for sample in &mut samples[..nodes] {
        let start = token_from(text, at);
        let (end, size) = read(text, start)?;
        let negative = text[start] == b'-';
        *sample = if negative { -size } else { size };
        at = end;
    }
    Ok(())
}

// What stands for units that are not whole, and for units beyond the limit.
const NOT_WHOLE: i32 = -1;
const BEYOND: i32 = 32769;

#[inline(always)]
fn separates(byte: u8) -> bool {
    (byte == b' ') | (byte == b'\t') | (byte == b'\n') | (byte == b'\r')
}

// The number of tokens: of the bytes that are no separators, those that follow one.
fn count(text: &[u8]) -> usize {
    let first = text.first().is_some_and(|&byte| !separates(byte));
    let pairs = text.iter().zip(text.iter().skip(1));
    let starts = pairs.map(|(&before, &byte)| (separates(before) & !separates(byte)) as usize);
    first as usize + starts.sum::<usize>()
}

// The first byte of the next token, from an index on.
#[inline(always)]
fn token_from(text: &[u8], mut at: usize) -> usize {
    while at < text.len() && separates(text[at]) {
        at += 1;
    }
    at
}

// The byte at an index, and a separator after the last.
#[inline(always)]
fn byte_at(text: &[u8], at: usize) -> u8 {
    if at < text.len() {
        text[at]
    } else {
        b' '
    }
}

// The value of a digit; more than 9 for any other byte.
#[inline(always)]
fn digit_at(text: &[u8], at: usize) -> u8 {
    byte_at(text, at).wrapping_sub(b'0')
}

// The first byte that is no digit from an index on, and the digits added at the end of `sum`, which
// holds up to 19 of them.
#[inline(always)]
fn digits(text: &[u8], mut at: usize, mut sum: u64) -> (usize, u64) {
    loop {
        let digit = digit_at(text, at);
        if digit > 9 {
            return (at, sum);
        }
        sum = sum.wrapping_mul(10).wrapping_add(digit as u64);
        at += 1;
    }
}

// 16 or 17 for a token that does not fit the grammar.
#[cold]
fn unfit<T>(text: &[u8], start: usize) -> Answer<T> {
    let rest = text[start..].iter();
    let length = rest.take_while(|&&byte| !separates(byte)).count();
    refuse(if length > 64 { 16 } else { 17 }, start)
}

// The end of the token that starts at a byte, and its units without the sign.
#[inline(always)]
fn read(text: &[u8], start: usize) -> Answer<(usize, i32)> {
    let from = start + (text[start] == b'-') as usize;
    let (int, sum) = digits(text, from, 0);
    if int == from || text[from] == b'0' && int > from + 1 {
        return unfit(text, start);
    }
    let (mut end, mut mantissa) = (int, sum);
    let mut frac = 0;
    if byte_at(text, int) == b'.' {
        (end, mantissa) = digits(text, int + 1, sum);
        frac = end - (int + 1);
        if frac == 0 {
            return unfit(text, start);
        }
    }
    let mut exponent = 0;
    let mark = byte_at(text, end);
    if mark == b'e' || mark == b'E' {
        let sign = byte_at(text, end + 1);
        let first = end + 1 + (sign == b'-' || sign == b'+') as usize;
        end = first;
        while digit_at(text, end) <= 9 {
            exponent = (10 * exponent + digit_at(text, end) as i32).min(1000);
            end += 1;
        }
        if end == first {
            return unfit(text, start);
        }
        if sign == b'-' {
            exponent = -exponent;
        }
    }
    if !separates(byte_at(text, end)) || end - start > 64 {
        return unfit(text, start);
    }
    let size = if int - from + frac <= 19 {
        units(mantissa, exponent + 2 - frac as i32)
    } else {
        units_of_many(&text[from..end], int - from, exponent)
    };
    Ok((end, size))
}

const TENS: [u64; 20] = {
    let mut tens = [1; 20];
    let mut k = 1;
    while k < 20 {
        tens[k] = 10 * tens[k - 1];
        k += 1;
    }
    tens
};

// The units of a mantissa with its point moved to the right by so many places.
#[inline(always)]
fn units(mantissa: u64, shift: i32) -> i32 {
    if mantissa == 0 || shift == 0 {
        return within(mantissa);
    }
    match shift {
        -2 if mantissa % 100 == 0 => within(mantissa / 100),
        -19..=-1 if mantissa % TENS[-shift as usize] == 0 => {
            within(mantissa / TENS[-shift as usize])
        }
        1..=5 => within(mantissa.saturating_mul(TENS[shift as usize])),
        6.. => BEYOND,
        _ => NOT_WHOLE,
    }
}

#[inline(always)]
fn within(size: u64) -> i32 {
    size.min(BEYOND as u64) as i32
}

// The same digit by digit: those before the point, moved by the exponent and two places, and those
// after it, which have to be 0.
#[inline(never)]
fn units_of_many(number: &[u8], int: usize, exponent: i32) -> i32 {
    let point = int as i32 + exponent + 2;
    let mut size = 0;
    let mut taken = 0;
    for &byte in number {
        let digit = byte.wrapping_sub(b'0');
        if digit > 9 {
            if byte == b'.' {
                continue;
            }
            break;
        }
        if taken < point {
            size = (10 * size + digit as u64).min(BEYOND as u64);
        } else if digit != 0 {
            return NOT_WHOLE;
        }
        taken += 1;
    }
    // Zeros up to the point.
    while taken < point && size != 0 && size < BEYOND as u64 {
        size *= 10;
        taken += 1;
    }
    within(size)
}
