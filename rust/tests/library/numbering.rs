//! The numbers of labels and gaps do not matter: a strip that is numbered in any order has the places of the one in
//! order.
use crate::call::{checked_call, Lent, Outcome};
use crate::fraction::Fraction;
use crate::generated::Case;
use crate::random::Random;
use crate::sheet::Sheet;

/// A strip of 48 labels, each with a gap to the next, and with further gaps to later ones, near by or anywhere. The
/// labels are wanted against the gaps, in steps of one width.
fn strip(random: &mut Random, step: i64, near: bool) -> Sheet {
    let mut sheet = Sheet::default();
    let weight = random.pick(&[1, 5, 100]);
    for i in 0..48 {
        sheet.label(step * (47 - 2 * i) / 2, random.between(1, weight));
    }
    for right in 1..48 {
        sheet.gap(right - 1, right, random.between(0, 300));
    }
    while sheet.gaps() < 192 {
        let left = random.below(47);
        let most = if near { 6.min(47 - left) } else { 47 - left };
        let right = left + 1 + random.below(most);
        sheet.gap(left, right, random.between(0, 300));
    }
    sheet
}

/// The places of a sheet, which must be the same from zeros and from any buffers.
fn places(random: &mut Random, sheet: &Sheet) -> Vec<Fraction> {
    let (labels, gaps) = (sheet.labels(), sheet.gaps());
    let lent = [
        Lent::zeros(labels, gaps),
        Lent::arbitrary(random, labels, gaps),
    ];
    let [zeros, any] = lent.map(|before| {
        let called = checked_call(sheet, &before);
        assert_eq!(called.outcome, Outcome::Placed);
        called.after.places(labels)
    });
    assert_eq!(zeros, any);
    zeros
}

#[test]
fn same_places_in_any_order() {
    let mut tight = 0;
    for seed in 19_000_000..19_000_300 {
        let _case = Case(seed);
        let mut random = Random::new(seed);
        let (step, near) = (random.pick(&[400, 8_500]), random.once_in(2));
        let sheet = strip(&mut random, step, near);
        let mut number: Vec<usize> = (0..sheet.labels()).collect();
        let mut order: Vec<usize> = (0..sheet.gaps()).collect();
        random.shuffle(&mut number);
        if random.once_in(2) {
            random.shuffle(&mut order);
        }
        let anew = sheet.with_labels_numbered(&number).with_gaps(&order);
        let (one, other) = (places(&mut random, &sheet), places(&mut random, &anew));
        let other: Vec<Fraction> = number.iter().map(|&n| other[n]).collect();
        assert_eq!(one, other);
        let gaps = sheet.all_gaps();
        tight += gaps.iter().filter(|gap| gap.is_tight(&one)).count();
    }
    // the labels of each strip push each other together
    println!("strips in any order: {tight} tight gaps");
    assert!(tight >= 300 * 47);
}
