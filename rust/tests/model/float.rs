//! From a float to its step, by the exact value of its bits.

use super::int::Int;
use super::rational::Rational;

// The exact value of a float, none for NaN and infinities.
pub fn exact_value(float: f32) -> Option<Rational> {
    let bits = float.to_bits();
    let exponent = bits >> 23 & 0xFF;
    let fraction = (bits & 0x7F_FFFF) as i64;
    if exponent == 0xFF {
        return None;
    }
    // Subnormal numbers have no leading one and the lowest exponent.
    let (digits, power) = match exponent {
        0 => (fraction, -149),
        _ => (fraction | 0x80_0000, exponent as i32 - 150),
    };
    let size = Rational::from(Int::from(digits)) * power_of_two(power);
    Some(if bits >> 31 == 1 { -size } else { size })
}

fn power_of_two(power: i32) -> Rational {
    let value = Rational::from(Int::from(2).power(power.unsigned_abs()));
    if power < 0 {
        Rational::whole(1) / value
    } else {
        value
    }
}

// The whole number nearest to so many times the float, halves up; none for NaN and infinities.
pub fn float_step(float: f32, steps: i64) -> Option<Int> {
    let value = exact_value(float)?;
    Some((value * Rational::whole(steps)).round())
}
