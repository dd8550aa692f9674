//! The refusal table of document 01, 1 to 8, and 23 of document 02, Item 6, written apart from the
//! library: each rule with its number and first offender.
use crate::call::Lent;
use crate::sheet::Sheet;
use std::ops::RangeInclusive;

/// The number and the place of the refusal, if a rule is broken. Labels are counted by the wanted
/// places, gaps by the left labels, and each rule is held to the whole sheet before the next.
pub fn table(sheet: &Sheet, lent: &Lent) -> Option<(u64, u64)> {
    let rules = [
        (1, first(sheet.wanted.len() > 48)),
        (2, first(sheet.left.len() > 192)),
        (3, first(is_ragged(sheet, lent))),
        (4, first(is_short(sheet, lent))),
        (5, outside(&sheet.wanted, -200_000..=200_000)),
        (6, outside(&sheet.weight, 1..=100)),
        (7, stranger(sheet)),
        (8, outside(&sheet.distance, -20_000..=20_000)),
        (23, sheet.kind.iter().position(|&kind| kind > 1)),
    ];
    rules
        .into_iter()
        .find_map(|(number, place)| Some((number, place? as u64)))
}

/// A rule whose place is 0.
fn first(broken: bool) -> Option<usize> {
    broken.then_some(0)
}

fn is_ragged(sheet: &Sheet, lent: &Lent) -> bool {
    let labels = [sheet.weight.len()];
    let gaps = [
        sheet.right.len(),
        sheet.distance.len(),
        sheet.kind.len(),
        lent.carried.len(),
    ];
    labels.iter().any(|&count| count != sheet.wanted.len())
        || gaps.iter().any(|&count| count != sheet.left.len())
}

fn is_short(sheet: &Sheet, lent: &Lent) -> bool {
    let labels = [
        lent.place_num.len(),
        lent.place_den.len(),
        lent.ring.len(),
        lent.back.len(),
    ];
    let gaps = [lent.mult_num.len(), lent.mult_den.len()];
    labels.iter().any(|&room| room < sheet.wanted.len())
        || gaps.iter().any(|&room| room < sheet.left.len())
}

fn outside(list: &[i64], range: RangeInclusive<i64>) -> Option<usize> {
    list.iter().position(|number| !range.contains(number))
}

fn stranger(sheet: &Sheet) -> Option<usize> {
    let labels = sheet.wanted.len() as u64;
    sheet
        .left
        .iter()
        .zip(&sheet.right)
        .position(|(&left, &right)| left >= labels || right >= labels)
}
