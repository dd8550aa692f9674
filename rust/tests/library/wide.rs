//! Whole numbers wide enough for a sum over the denominators of all labels.
use std::ops::{Add, Mul};

const LIMBS: usize = 48;

/// A whole number of 3,072 bits in two's complement, its lowest 64 bits first. A sum over 48 labels needs
/// fewer: the square of a difference of two places has a denominator below 2^50.
#[derive(Clone, Copy, PartialEq, Eq)]
pub struct Wide([u64; LIMBS]);

impl Wide {
    pub fn is_below_zero(self) -> bool {
        self.0[LIMBS - 1] >> 63 == 1
    }
}

impl From<i128> for Wide {
    fn from(number: i128) -> Wide {
        let sign = if number < 0 { u64::MAX } else { 0 };
        let mut limbs = [sign; LIMBS];
        limbs[0] = number as u64;
        limbs[1] = (number >> 64) as u64;
        Wide(limbs)
    }
}

impl Add for Wide {
    type Output = Wide;
    fn add(self, other: Wide) -> Wide {
        let mut limbs = [0; LIMBS];
        let mut carry = 0;
        for (limb, (&a, &b)) in limbs.iter_mut().zip(self.0.iter().zip(&other.0)) {
            let sum = u128::from(a) + u128::from(b) + carry;
            *limb = sum as u64;
            carry = sum >> 64;
        }
        Wide(limbs)
    }
}

impl Mul for Wide {
    type Output = Wide;
    fn mul(self, other: Wide) -> Wide {
        let mut limbs = [0; LIMBS];
        for (i, &a) in self.0.iter().enumerate().filter(|(_, &a)| a != 0) {
            let mut carry = 0;
            for (limb, &b) in limbs[i..].iter_mut().zip(&other.0) {
                let sum = u128::from(a) * u128::from(b) + u128::from(*limb) + carry;
                *limb = sum as u64;
                carry = sum >> 64;
            }
        }
        Wide(limbs)
    }
}

#[test]
fn wide_numbers() {
    let wide = Wide::from;
    let (large, factors) = (i128::MAX, [-7, -1, 0, 1, 12]);
    for a in factors {
        for b in factors {
            assert!(wide(a) * wide(b) == wide(a * b));
            assert!(wide(a) + wide(b) == wide(a + b));
            let product = wide(a) * wide(large) * wide(b) * wide(large);
            assert_eq!(product.is_below_zero(), a * b < 0);
            assert!(product + wide(-a * b) * wide(large) * wide(large) == wide(0));
        }
    }
    // 2^127 - 1 and 1 more, squared
    let square = (wide(large) + wide(1)) * (wide(large) + wide(1));
    assert!(square == wide(large) * wide(large) + wide(2) * wide(large) + wide(1));
    assert!(square != wide(0) && !square.is_below_zero());
}

/// As wide as the denominator of a sum over 48 labels can get: 2^2400, and 1 less, with either sign.
#[test]
fn widest_numbers() {
    let wide = Wide::from;
    let widest = (0..48).fold(wide(1), |product, _| product * wide(1 << 50));
    let less = widest + wide(-1);
    for (one, sign) in [(wide(1), 1), (wide(-1), -1)] {
        assert_eq!((widest * one).is_below_zero(), sign < 0);
        assert_eq!((less * one).is_below_zero(), sign < 0);
        assert!(less * one + one == widest * one);
        assert!(widest * one + widest * wide(-sign) == wide(0));
    }
    assert!(widest != wide(0) && less != wide(0) && widest != less);
}
