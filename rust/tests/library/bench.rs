//! The sheets on the bench, with the answers that documents 01 and 02 give.
use crate::call::{check_call, refused_at, Lent, Outcome};
use crate::fraction::Fraction;
use crate::sheet::Sheet;
use crate::solver;

/// Labels with weights 1, and gaps.
pub fn plain(wanted: &[i64], gaps: &[(usize, usize, i64)]) -> Sheet {
    let mut sheet = Sheet::default();
    wanted.iter().for_each(|&d| sheet.label(d, 1));
    gaps.iter().for_each(|&(u, v, g)| sheet.gap(u, v, g));
    sheet
}

fn checked(sheet: &Sheet) -> Outcome {
    check_call(sheet, &Lent::zeros(sheet.labels(), sheet.gaps()))
}

/// Refused with this number at this place.
pub fn refused(sheet: &Sheet, number: u64, place: u64) {
    assert_eq!(checked(sheet), Outcome::Refused(number));
    let answer = Lent::zeros(sheet.labels(), sheet.gaps()).call(sheet);
    assert_eq!(answer, refused_at(number, place));
}

/// Placed, by the solver and by the library, at these places.
pub fn placed(sheet: &Sheet, places: &[(i128, i128)]) {
    let expected: Vec<_> = places.iter().map(|&(n, d)| Fraction::new(n, d)).collect();
    assert_eq!(solver::solve(sheet), Some(expected));
    assert_eq!(checked(sheet), Outcome::Placed);
}

#[test]
fn full_chain() {
    let wanted = [200_000; 48];
    let gaps: Vec<_> = (1..48).map(|v| (v - 1, v, 20_000)).collect();
    let sheet = plain(&wanted, &gaps);
    let places: Vec<_> = (0..48).map(|i| (-270_000 + 20_000 * i, 1)).collect();
    placed(&sheet, &places);
    assert_eq!(places[47], (670_000, 1));
}

#[test]
fn limits_of_the_table() {
    placed(&plain(&[200_000], &[]), &[(200_000, 1)]);
    refused(&plain(&[200_001], &[]), 5, 0);
    for weight in [0, 101] {
        let mut sheet = plain(&[0, 0], &[]);
        sheet.weight[1] = weight;
        refused(&sheet, 6, 1);
    }
    let mut both = plain(&[0, 0], &[(2, 0, 1)]);
    refused(&both, 7, 0);
    both.weight[0] = 0;
    refused(&both, 6, 0);
    refused(&plain(&[], &[(0, 0, 0)]), 7, 0);
    refused(&plain(&[0], &[(0, 0, 0), (0, 0, -20_001)]), 8, 1);
    placed(&plain(&[], &[]), &[]);
}

/// Document 02, Item 3: the sheet of a text whose first weight is blank. A lent weight of 0 is refused, as ever.
#[test]
fn mixed_weights() {
    let mut mixed = plain(&[0, 11], &[(0, 1, 22)]);
    mixed.weight[0] = 10;
    placed(&mixed, &[(-1, 1), (21, 1)]);
    mixed.weight[0] = 0;
    refused(&mixed, 6, 0);
}

/// Document 02, Item 4: labels that may cross by one unit at most.
#[test]
fn crossing_labels() {
    placed(&plain(&[2, -2], &[(0, 1, -1)]), &[(1, 2), (-1, 2)]);
}

/// The solver beside the library is held to the cases P of the list too.
#[test]
fn cases_p() {
    placed(&plain(&[0, 0], &[(0, 1, 10)]), &[(-5, 1), (5, 1)]);
    let mut weighted = plain(&[0, 4], &[(0, 1, 10)]);
    weighted.weight[1] = 2;
    placed(&weighted, &[(-4, 1), (6, 1)]);
    placed(&plain(&[0, 3], &[(0, 1, 6)]), &[(-3, 2), (9, 2)]);
    placed(&plain(&[1, 3], &[(0, 1, 6)]), &[(-1, 1), (5, 1)]);
    placed(&plain(&[0, 100], &[(0, 1, 10)]), &[(0, 1), (100, 1)]);
    let three = plain(&[0; 3], &[(0, 1, 2), (1, 2, 2), (0, 2, 10)]);
    placed(&three, &[(-5, 1), (0, 1), (5, 1)]);
    let opposite = |back| plain(&[0, 0], &[(0, 1, 5), (1, 0, back)]);
    assert_eq!(checked(&opposite(-4)), Outcome::Refused(9));
    placed(&opposite(-5), &[(-5, 2), (5, 2)]);
    placed(&plain(&[0], &[(0, 0, 0)]), &[(0, 1)]);
    assert_eq!(checked(&plain(&[0], &[(0, 0, 1)])), Outcome::Refused(9));
}
