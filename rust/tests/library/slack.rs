//! The slack of a gap beside one written apart from it, from document 02, Item 1.
use crate::fraction;
use crate::random::Random;
use dirmoog::{slack, Fraction, Refusal, SlackAnswer};

/// A place.
fn at(num: i64, den: i64) -> Fraction {
    Fraction { num, den }
}

fn given(num: i64, den: i64) -> SlackAnswer {
    SlackAnswer::Slack(at(num, den))
}

fn refused(number: u64) -> SlackAnswer {
    let (place, ring) = (0, 0);
    SlackAnswer::Refused(Refusal {
        number,
        place,
        ring,
    })
}

/// A place within the limits of 12, as a fraction of `i128`.
fn within(place: Fraction) -> Option<fraction::Fraction> {
    let limits =
        (1..=4_800).contains(&place.den) && (-5_472_000_000..=5_472_000_000).contains(&place.num);
    limits.then(|| fraction::Fraction::new(place.num.into(), place.den.into()))
}

/// 12 for either place, then 8 for the distance, else right place less left place less distance.
pub fn expected(left: Fraction, right: Fraction, distance: i64) -> SlackAnswer {
    let (Some(left), Some(right)) = (within(left), within(right)) else {
        return refused(12);
    };
    if !(-20_000..=20_000).contains(&distance) {
        return refused(8);
    }
    let slack = right - left - fraction::Fraction::whole(distance);
    let entry = |number| i64::try_from(number).expect("64 bits");
    given(entry(slack.num), entry(slack.den))
}

/// Holds the library's answer to the other one, and gives it.
fn check(left: Fraction, right: Fraction, distance: i64) -> SlackAnswer {
    let answer = slack(left, right, distance);
    assert_eq!(
        answer,
        expected(left, right, distance),
        "{left:?}, {right:?}, {distance}"
    );
    answer
}

#[test]
fn examples() {
    assert_eq!(check(at(-3, 2), at(9, 2), 6), given(0, 1));
    assert_eq!(check(at(1, 2), at(1, 3), 0), given(-1, 6));
    assert_eq!(check(at(1, 0), at(1, 1), 30_000), refused(12));
    assert_eq!(check(at(0, 1), at(0, 1), 20_001), refused(8));
    let (first, last) = (at(-5_472_000_000, 4_799), at(5_472_000_000, 4_800));
    assert_eq!(check(first, last, -20_000), given(11_038_840_000, 4_799));
    for place in [at(5_472_000_001, 1), at(0, 4_801), at(i64::MIN, 1)] {
        assert_eq!(check(place, at(0, 1), 0), refused(12));
    }
    // P6, and the sheet nearly-touching
    assert_eq!(check(at(-5, 1), at(0, 1), 2), given(3, 1));
    assert_eq!(check(at(0, 1), at(5, 1), 2), given(3, 1));
    assert_eq!(check(at(-5, 1), at(5, 1), 10), given(0, 1));
    assert_eq!(check(at(-8, 3), at(7, 3), 5), given(0, 1));
    assert_eq!(check(at(77, 2), at(85, 2), 4), given(0, 1));
    assert_eq!(check(at(7, 3), at(77, 2), 30), given(37, 6));
}

/// Room to spare is above zero, and a broken gap below; a gap of a label to itself has its distance negated.
#[test]
fn both_signs() {
    assert_eq!(check(at(0, 1), at(10, 1), 4), given(6, 1));
    assert_eq!(check(at(0, 1), at(10, 1), 10), given(0, 1));
    assert_eq!(check(at(0, 1), at(10, 1), 11), given(-1, 1));
    assert_eq!(check(at(10, 1), at(0, 1), -4), given(-6, 1));
    assert_eq!(check(at(10, 1), at(0, 1), -11), given(1, 1));
    assert_eq!(check(at(-1, 3), at(-1, 2), 0), given(-1, 6));
    assert_eq!(check(at(7, 5), at(7, 5), 3), given(-3, 1));
    assert_eq!(check(at(7, 5), at(7, 5), -3), given(3, 1));
}

/// The places need not be in lowest terms, the slack is.
#[test]
fn unreduced_places() {
    assert_eq!(check(at(6, 4), at(10, 4), 1), given(0, 1));
    assert_eq!(check(at(2, 4), at(2, 4), -1), given(1, 1));
    assert_eq!(check(at(0, 4_800), at(0, 4_799), 0), given(0, 1));
    assert_eq!(check(at(-600, 1_200), at(4_800, 4_800), 1), given(1, 2));
    assert_eq!(check(at(1_600, 4_800), at(2_400, 4_800), 0), given(1, 6));
    let mut random = Random::new(13_000_000);
    for _ in 0..100_000 {
        let (left, right) = (small(&mut random), small(&mut random));
        let distance = random.between(-20, 20);
        let lowest = check(left, right, distance);
        let (one, other) = (random.between(1, 100), random.between(1, 100));
        let larger = |place: Fraction, by| at(place.num * by, place.den * by);
        let same = check(larger(left, one), larger(right, other), distance);
        assert_eq!(same, lowest);
    }
}

/// A place that stays within the limits when both its numbers are made up to 100 times larger.
fn small(random: &mut Random) -> Fraction {
    at(random.between(-1_000, 1_000), random.between(1, 48))
}

/// A number at a limit is taken, and one past it refused, in each of the five positions.
#[test]
fn each_limit() {
    let one = at(1, 1);
    for num in [-5_472_000_000_i64, 5_472_000_000] {
        let past = num + num.signum();
        assert_eq!(check(at(num, 1), one, 0), given(1 - num, 1));
        assert_eq!(check(at(past, 1), one, 0), refused(12));
        assert_eq!(check(one, at(num, 1), 0), given(num - 1, 1));
        assert_eq!(check(one, at(past, 1), 0), refused(12));
    }
    assert_eq!(check(at(1, 4_800), one, 0), given(4_799, 4_800));
    assert_eq!(check(one, at(1, 4_800), 0), given(-4_799, 4_800));
    for den in [4_801, 0, -1] {
        assert_eq!(check(at(1, den), one, 0), refused(12));
        assert_eq!(check(one, at(1, den), 0), refused(12));
    }
    for distance in [-20_000_i64, 20_000] {
        let past = distance + distance.signum();
        assert_eq!(check(one, one, distance), given(-distance, 1));
        assert_eq!(check(one, one, past), refused(8));
    }
}

#[test]
fn least_and_most_number_anywhere() {
    for far in [i64::MIN, i64::MIN + 1, i64::MAX] {
        assert_eq!(check(at(far, 1), at(1, 1), 1), refused(12));
        assert_eq!(check(at(1, far), at(1, 1), 1), refused(12));
        assert_eq!(check(at(1, 1), at(far, 1), 1), refused(12));
        assert_eq!(check(at(1, 1), at(1, far), 1), refused(12));
        assert_eq!(check(at(1, 1), at(1, 1), far), refused(8));
        assert_eq!(check(at(far, far), at(far, far), far), refused(12));
    }
}

/// A bad place, left or right, comes before a bad distance.
#[test]
fn twelve_before_eight() {
    let (good, bad) = (at(0, 1), at(0, 0));
    for distance in [0, 20_001, -20_001, i64::MIN] {
        assert_eq!(check(bad, good, distance), refused(12));
        assert_eq!(check(good, bad, distance), refused(12));
        assert_eq!(check(bad, bad, distance), refused(12));
    }
    assert_eq!(check(good, good, 20_001), refused(8));
}

/// These numbers and their opposites, zero, and the least of all.
fn both_ways(numbers: &[i64]) -> Vec<i64> {
    let mut both: Vec<i64> = numbers.iter().flat_map(|&n| [n, -n]).collect();
    both.extend([0, i64::MIN]);
    both
}

/// Every place and distance near a limit with every other.
#[test]
fn near_every_limit() {
    let nums = both_ways(&[1, 5_471_999_999, 5_472_000_000, 5_472_000_001, i64::MAX]);
    let dens = both_ways(&[1, 2, 4_799, 4_800, 4_801, i64::MAX]);
    let distances = both_ways(&[1, 19_999, 20_000, 20_001, i64::MAX]);
    let places: Vec<_> = nums
        .iter()
        .flat_map(|&num| dens.iter().map(move |&den| at(num, den)))
        .collect();
    let mut numbers = [0; 13];
    for &left in &places {
        for &right in &places {
            for &distance in &distances {
                match check(left, right, distance) {
                    SlackAnswer::Slack(_) => numbers[0] += 1,
                    SlackAnswer::Refused(refusal) => numbers[refusal.number as usize] += 1,
                }
            }
        }
    }
    // 7 numerators over 4 denominators are places, and 7 distances of 12 are taken
    assert_eq!((numbers[0], numbers[8]), (28 * 28 * 7, 28 * 28 * 5));
}

/// Swapping the ends and negating the distance negates the slack.
#[test]
fn generated_gaps() {
    let mut random = Random::new(14_000_000);
    let mut signs = [0; 3];
    for _ in 0..1_000_000 {
        let (left, right) = (any_place(&mut random), any_place(&mut random));
        let most = random.pick(&[3, 20_000]);
        let distance = random.between(-most, most);
        let SlackAnswer::Slack(slack) = check(left, right, distance) else {
            panic!("{left:?}, {right:?} and {distance} are within their limits");
        };
        assert_eq!(check(right, left, -distance), given(-slack.num, slack.den));
        signs[(slack.num.signum() + 1) as usize] += 1;
        let far = at(random.next() as i64, random.next() as i64);
        check(far, right, random.next() as i64);
        check(left, far, distance);
    }
    println!("slacks below, at and above zero: {signs:?}");
    assert!(signs.iter().all(|&count| count > 1_000));
}

/// A place within the limits, often near zero or over a small denominator.
fn any_place(random: &mut Random) -> Fraction {
    let most = random.pick(&[3, 10_000, 5_472_000_000]);
    let den = random.pick(&[1, 6, 4_800]);
    at(random.between(-most, most), random.between(1, den))
}
