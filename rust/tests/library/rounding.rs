//! The two roundings beside ones written apart from them, from document 01 and document 02, Item 4.
use crate::fraction::Fraction;
use crate::random::Random;
use dirmoog::{round, round_half_up, Refusal, Rounded};

const REFUSED: Rounded = Rounded::Refused(Refusal {
    number: 12,
    place: 0,
    ring: 0,
});

/// What a rule gives, unless 12 refuses the fraction: it guards both roundings.
fn guarded(num: i64, den: i64, rule: impl Fn(i128, i128) -> i128) -> Rounded {
    if !(1..=4_800).contains(&den) || num.unsigned_abs() > 5_472_000_000 {
        return REFUSED;
    }
    Rounded::Whole(rule(num.into(), den.into()) as i64)
}

/// The nearest whole number, halves away from zero: the magnitude plus a half, without its fraction.
pub fn away_from_zero(num: i64, den: i64) -> Rounded {
    guarded(num, den, |num, den| {
        (2 * num.abs() + den).div_euclid(2 * den) * num.signum()
    })
}

/// The nearest whole number, halves to the larger one: the one below, or the next from a half on.
pub fn half_up(num: i64, den: i64) -> Rounded {
    guarded(num, den, |num, den| {
        num.div_euclid(den) + i128::from(2 * num.rem_euclid(den) >= den)
    })
}

/// The whole number given, which is 0 where the fraction is refused.
pub fn whole(rounded: Rounded) -> i64 {
    match rounded {
        Rounded::Whole(whole) => whole,
        Rounded::Refused(_) => 0,
    }
}

/// The whole units of places by a rule.
pub fn units_of(places: &[Fraction], rule: fn(i64, i64) -> Rounded) -> Vec<i64> {
    let unit = |place: &Fraction| whole(rule(place.num as i64, place.den as i64));
    places.iter().map(unit).collect()
}

/// Holds both roundings to the other ones, and tells whether they part.
fn check(num: i64, den: i64) -> bool {
    let (away, up) = (round(num, den), round_half_up(num, den));
    assert_eq!(away, away_from_zero(num, den), "{num}/{den}, away");
    assert_eq!(up, half_up(num, den), "{num}/{den}, up");
    away != up
}

/// Checks a fraction, and gives it as rounded away from zero, then to the larger number.
fn both(num: i64, den: i64) -> [i64; 2] {
    check(num, den);
    [round(num, den), round_half_up(num, den)].map(|rounded| match rounded {
        Rounded::Whole(whole) => whole,
        refused => panic!("{num}/{den}: {refused:?}"),
    })
}

#[test]
fn examples() {
    assert_eq!(both(-5, 2), [-3, -2]);
    assert_eq!(both(-3, 2), [-2, -1]);
    assert_eq!(both(-2, 3), [-1, -1]);
    assert_eq!(both(-1, 2), [-1, 0]);
    assert_eq!(both(-1, 3), [0, 0]);
    assert_eq!(both(0, 2), [0, 0]);
    assert_eq!(both(1, 2), [1, 1]);
    assert_eq!(both(9, 2), [5, 5]);
    assert_eq!(both(-4, 2), [-2, -2]);
    // the halves furthest from zero
    assert_eq!(both(-5_471_999_999, 2), [-2_736_000_000, -2_735_999_999]);
    assert_eq!(both(-5_471_997_600, 4_800), [-1_140_000, -1_139_999]);
    assert_eq!(both(5_471_997_600, 4_800), [1_140_000, 1_140_000]);
}

#[test]
fn near_every_limit() {
    let nums = [0, 1, 5_472_000_000, i64::MAX];
    let dens = [0, 1, 2, 3, 4_799, 4_800, 4_801, i64::MAX];
    for num in nums
        .into_iter()
        .flat_map(|n| [n, -n, n.saturating_add(1), -n - 1])
    {
        for den in dens.into_iter().flat_map(|d| [d, -d]) {
            check(num, den);
        }
    }
    for (num, den) in [(i64::MIN, 1), (i64::MAX, 2), (1, i64::MIN), (-1, i64::MAX)] {
        assert_eq!([round(num, den), round_half_up(num, den)], [REFUSED; 2]);
    }
}

/// The roundings part at halves below zero, where away from zero is down, and nowhere else.
#[test]
fn generated_fractions() {
    let mut random = Random::new(12_000_000);
    let mut parted = 0;
    for _ in 0..2_000_000 {
        let den = random.between(1, 4_800);
        let most = random.pick(&[10, 10_000, 5_472_000_000]);
        let any = random.between(-most, most);
        // a half and what is next to it
        let half = den * random.between(-1_000_000, 1_000_000) + den / 2;
        let near = half + random.between(-1, 1);
        for num in [any, near] {
            let parts = num < 0 && 2 * num.rem_euclid(den) == den;
            assert_eq!(check(num, den), parts, "{num}/{den}");
            parted += u64::from(parts);
        }
        check(random.next() as i64, random.next() as i64);
    }
    assert!(parted > 100_000, "{parted} halves below zero");
}
