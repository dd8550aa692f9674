//! Rounding away from zero by its six cases, and beside `f64::round`, which is IEEE 754's rounding to a whole number,
//! ties away.
use crate::random::Random;
use dirmoog::{round, Rounded};
use std::cmp::Ordering;

/// The largest denominator, and the largest numerator either way, that 12 does not refuse.
const DEN_MOST: i64 = 4_800;
const NUM_MOST: i64 = 5_472_000_000;

/// Checks a fraction that is not refused, and counts its case: zero or above, then below zero, and for each the
/// remainder of the magnitude under, at and over half.
fn check(num: i64, den: i64, met: &mut [usize; 6]) {
    let magnitude = num.abs();
    let half = (2 * (magnitude % den)).cmp(&den);
    let (case, whole) = match (num < 0, half) {
        (false, Ordering::Less) => (0, magnitude / den),
        (false, Ordering::Equal) => (1, magnitude / den + 1),
        (false, Ordering::Greater) => (2, magnitude / den + 1),
        (true, Ordering::Less) => (3, -(magnitude / den)),
        (true, Ordering::Equal) => (4, -(magnitude / den + 1)),
        (true, Ordering::Greater) => (5, -(magnitude / den + 1)),
    };
    met[case] += 1;
    assert_eq!(round(num, den), Rounded::Whole(whole), "{num}/{den}");
    // and the cases themselves are IEEE 754's. A double holds every half. Another fraction is at least 1/(2 den) from a
    // half, and its double is less than that away from it while the numerator is below 2^52.
    let double = (num as f64 / den as f64).round();
    assert_eq!(whole, double as i64, "{num}/{den}");
}

#[test]
fn small_fractions() {
    let mut met = [0; 6];
    for den in 1..=60 {
        for num in -200..=200 {
            check(num, den, &mut met);
        }
    }
    // no case is left out
    assert!(met.iter().all(|&times| times > 100), "{met:?}");
}

#[test]
fn generated_fractions() {
    let mut random = Random::new(12_000_001);
    let mut met = [0; 6];
    for _ in 0..200_000 {
        let den = random.between(1, DEN_MOST);
        check(random.between(-NUM_MOST, NUM_MOST), den, &mut met);
        // a half and its neighbours
        let den = 2 * random.between(1, DEN_MOST / 2);
        let most = NUM_MOST / den - 1;
        let half = den * random.between(-most, most) + den / 2;
        for num in [half - 1, half, half + 1] {
            check(num, den, &mut met);
        }
    }
    // no case is left out
    assert!(met.iter().all(|&times| times > 10_000), "{met:?}");
}
