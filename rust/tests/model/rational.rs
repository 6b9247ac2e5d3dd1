//! Rational numbers in lowest terms.

use super::int::Int;
use std::cmp::Ordering;
use std::fmt;
use std::ops::{Add, Div, Mul, Neg, Sub};

// The divisor is positive and shares no factor with the dividend.
#[derive(Clone, Copy, PartialEq, Eq)]
pub struct Rational {
    dividend: Int,
    divisor: Int,
}

impl Rational {
    pub const ZERO: Rational = Rational {
        dividend: Int::ZERO,
        divisor: Int::ONE,
    };

    pub fn new(dividend: Int, divisor: Int) -> Rational {
        assert!(!divisor.is_zero(), "division by zero");
        if dividend.is_zero() {
            return Rational::ZERO;
        }
        let (dividend, divisor) = if divisor.is_negative() {
            (-dividend, -divisor)
        } else {
            (dividend, divisor)
        };
        if divisor == Int::ONE {
            return Rational { dividend, divisor };
        }
        let common = dividend.gcd(divisor);
        Rational {
            dividend: dividend.div_floor(common),
            divisor: divisor.div_floor(common),
        }
    }

    pub fn whole(value: i64) -> Rational {
        Rational::from(Int::from(value))
    }

    pub fn ratio(dividend: i64, divisor: i64) -> Rational {
        Rational::new(Int::from(dividend), Int::from(divisor))
    }

    pub fn is_whole(self) -> bool {
        self.divisor == Int::ONE
    }

    pub fn abs(self) -> Rational {
        Rational {
            dividend: self.dividend.abs(),
            divisor: self.divisor,
        }
    }

    // Largest whole number not above the value.
    pub fn floor(self) -> Int {
        self.dividend.div_floor(self.divisor)
    }

    // Nearest whole number, halves towards plus infinity.
    pub fn round(self) -> Int {
        (self + Rational::ratio(1, 2)).floor()
    }

    // Nearest whole number, halves to the even one.
    pub fn round_even(self) -> Int {
        let (low, half) = (self.floor(), Rational::ratio(1, 2));
        let high = low + Int::ONE;
        let above = self - Rational::from(low);
        match above.cmp(&half) {
            Ordering::Less => low,
            Ordering::Greater => high,
            Ordering::Equal => [low, high][usize::from(!low.is_even())],
        }
    }

    // The value as a 64-bit whole number, if it is one.
    pub fn to_i64(self) -> Option<i64> {
        self.is_whole().then(|| self.dividend.to_i64()).flatten()
    }

    // Six decimals, rounded down, for printing.
    pub fn to_f64(self) -> f64 {
        let millionths = (self * Rational::whole(1_000_000)).floor();
        millionths.to_i64().expect("small number") as f64 / 1e6
    }
}

impl From<Int> for Rational {
    fn from(value: Int) -> Rational {
        Rational {
            dividend: value,
            divisor: Int::ONE,
        }
    }
}

impl Neg for Rational {
    type Output = Rational;
    fn neg(self) -> Rational {
        Rational {
            dividend: -self.dividend,
            divisor: self.divisor,
        }
    }
}

impl Add for Rational {
    type Output = Rational;
    fn add(self, other: Rational) -> Rational {
        if self.divisor == other.divisor {
            return Rational::new(self.dividend + other.dividend, self.divisor);
        }
        Rational::new(
            self.dividend * other.divisor + other.dividend * self.divisor,
            self.divisor * other.divisor,
        )
    }
}

impl Sub for Rational {
    type Output = Rational;
    fn sub(self, other: Rational) -> Rational {
        self + -other
    }
}

impl Mul for Rational {
    type Output = Rational;
    fn mul(self, other: Rational) -> Rational {
        Rational::new(self.dividend * other.dividend, self.divisor * other.divisor)
    }
}

impl Div for Rational {
    type Output = Rational;
    fn div(self, other: Rational) -> Rational {
        Rational::new(self.dividend * other.divisor, self.divisor * other.dividend)
    }
}

impl PartialOrd for Rational {
    fn partial_cmp(&self, other: &Rational) -> Option<Ordering> {
        Some(self.cmp(other))
    }
}

impl Ord for Rational {
    fn cmp(&self, other: &Rational) -> Ordering {
        (self.dividend * other.divisor).cmp(&(other.dividend * self.divisor))
    }
}

impl fmt::Debug for Rational {
    fn fmt(&self, f: &mut fmt::Formatter) -> fmt::Result {
        match (self.dividend.to_i64(), self.divisor.to_i64()) {
            (Some(dividend), Some(divisor)) => write!(f, "{dividend}/{divisor}"),
            _ => write!(f, "{:?}/{:?}", self.dividend, self.divisor),
        }
    }
}
