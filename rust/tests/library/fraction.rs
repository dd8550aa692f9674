//! Exact fractions of `i128`.
use std::cmp::Ordering;
use std::ops::{Add, Mul, Sub};

/// A fraction in lowest terms, with a denominator above zero.
#[derive(Clone, Copy, Debug, PartialEq, Eq)]
pub struct Fraction {
    pub num: i128,
    pub den: i128,
}

pub const ZERO: Fraction = Fraction { num: 0, den: 1 };

/// The greatest common divisor.
pub fn gcd(a: u64, b: u64) -> u64 {
    if b == 0 {
        a
    } else {
        gcd(b, a % b)
    }
}

/// The same of numbers that may be large.
fn wide_gcd(a: u128, b: u128) -> u128 {
    match (u64::try_from(a), u64::try_from(b)) {
        (Ok(a), Ok(b)) => u128::from(gcd(a, b)),
        _ => wide_gcd(b, a % b),
    }
}

impl Fraction {
    /// The fraction num/den in lowest terms; den may not be zero.
    pub fn new(num: i128, den: i128) -> Fraction {
        let common = wide_gcd(num.unsigned_abs(), den.unsigned_abs()) as i128 * den.signum();
        Fraction {
            num: num / common,
            den: den / common,
        }
    }

    /// The fraction num/den, which must be in lowest terms.
    pub fn lowest(num: i64, den: i64) -> Fraction {
        assert!(den > 0, "{num}/{den} is no fraction");
        assert_eq!(gcd(num.unsigned_abs(), den as u64), 1, "{num}/{den}");
        Fraction {
            num: i128::from(num),
            den: i128::from(den),
        }
    }

    pub fn whole(num: i64) -> Fraction {
        Fraction {
            num: i128::from(num),
            den: 1,
        }
    }

    /// The fraction without its sign.
    pub fn magnitude(self) -> Fraction {
        Fraction {
            num: self.num.abs(),
            den: self.den,
        }
    }
}

impl Add for Fraction {
    type Output = Fraction;
    fn add(self, other: Fraction) -> Fraction {
        Fraction::new(
            self.num * other.den + other.num * self.den,
            self.den * other.den,
        )
    }
}

impl Sub for Fraction {
    type Output = Fraction;
    fn sub(self, other: Fraction) -> Fraction {
        Fraction::new(
            self.num * other.den - other.num * self.den,
            self.den * other.den,
        )
    }
}

impl Mul<i64> for Fraction {
    type Output = Fraction;
    fn mul(self, times: i64) -> Fraction {
        Fraction::new(self.num * i128::from(times), self.den)
    }
}

impl Ord for Fraction {
    fn cmp(&self, other: &Fraction) -> Ordering {
        (self.num * other.den).cmp(&(other.num * self.den))
    }
}

impl PartialOrd for Fraction {
    fn partial_cmp(&self, other: &Fraction) -> Option<Ordering> {
        Some(self.cmp(other))
    }
}
