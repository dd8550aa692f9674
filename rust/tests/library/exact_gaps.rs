//! Exact gaps, document 02, Item 6: answers worked out for it, refusal 23, and the list and the buffer that 3 and 4 cover.
use crate::bench::{placed, plain, refused};
use crate::call::{check_call, checked_call, Checked, Lent, Outcome};
use crate::fraction::Fraction;
use crate::sheet::{Sheet, EXACTLY};
use dirmoog::{back_part, ring_part};

/// Labels with weights 1, and exact gaps.
fn joined(wanted: &[i64], gaps: &[(usize, usize, i64)]) -> Sheet {
    let mut sheet = plain(wanted, gaps);
    sheet.kind.fill(EXACTLY);
    sheet
}

fn checked(sheet: &Sheet) -> Checked {
    checked_call(sheet, &Lent::zeros(sheet.labels(), sheet.gaps()))
}

/// Placed, with these multipliers.
fn multipliers(sheet: &Sheet, expected: &[(i128, i128)]) {
    let called = checked(sheet);
    assert_eq!(called.outcome, Outcome::Placed);
    let expected: Vec<_> = expected.iter().map(|&(n, d)| Fraction::new(n, d)).collect();
    assert_eq!(called.after.multipliers(sheet.gaps()), expected);
}

/// Refused with 9, and a ring of these gaps, which may start at any of them.
fn ring(sheet: &Sheet, expected: &[(u64, u8)]) {
    let called = checked(sheet);
    assert_eq!(called.outcome, Outcome::Refused(9));
    let mut turned =
        (0..expected.len()).map(|first| [&expected[first..], &expected[..first]].concat());
    let given = called.ring;
    assert!(turned.any(|ring| ring == given), "{given:?}");
}

/// The parts of a marker want to stand 10 apart and stand 6 apart. Of two opposite gaps the one that pulls back has the
/// multiplier.
#[test]
fn two_part_marker() {
    let sheet = joined(&[0, 10], &[(0, 1, 6)]);
    placed(&sheet, &[(2, 1), (8, 1)]);
    multipliers(&sheet, &[(-4, 1)]);
    let opposite = plain(&[0, 10], &[(0, 1, 6), (1, 0, -6)]);
    placed(&opposite, &[(2, 1), (8, 1)]);
    multipliers(&opposite, &[(0, 1), (4, 1)]);
    // written the other way round, and with parts that want to stand closer
    multipliers(&joined(&[0, 10], &[(1, 0, -6)]), &[(4, 1)]);
    multipliers(&joined(&[0, 2], &[(0, 1, 6)]), &[(4, 1)]);
    // as they want to stand
    multipliers(&joined(&[0, 6], &[(0, 1, 6)]), &[(0, 1)]);
    // at least 6 apart they are already
    multipliers(&plain(&[0, 10], &[(0, 1, 6)]), &[(0, 1)]);
}

/// All three are tight, and one is implied by the others: with all marked there would be a ring of marks.
#[test]
fn an_exact_gap_that_others_imply() {
    let sheet = joined(&[0; 3], &[(0, 1, 5), (1, 2, 5), (0, 2, 10)]);
    placed(&sheet, &[(-5, 1), (0, 1), (5, 1)]);
    for carried in [[0; 3], [1; 3], [1, 1, 0], [0, 0, 1], [255; 3]] {
        let mut lent = Lent::zeros(3, 3);
        lent.carried = carried.to_vec();
        let marks: u8 = checked_call(&sheet, &lent).after.carried.iter().sum();
        assert!(marks == 1 || marks == 2, "{marks} marks");
    }
    // the same gap twice, and both ways
    placed(
        &joined(&[0, 10], &[(0, 1, 6), (0, 1, 6)]),
        &[(2, 1), (8, 1)],
    );
    placed(
        &joined(&[0, 10], &[(0, 1, 6), (1, 0, -6)]),
        &[(2, 1), (8, 1)],
    );
}

#[test]
fn an_exact_gap_beside_one_with_room() {
    let mut sheet = joined(&[0, 0, 9], &[(0, 1, 4)]);
    sheet.weight[1] = 2;
    sheet.gap(1, 2, 3);
    placed(&sheet, &[(-8, 3), (4, 3), (9, 1)]);
    multipliers(&sheet, &[(16, 3), (0, 1)]);
    let slacks = checked(&sheet).after.records(&sheet).slacks;
    assert_eq!(slacks, [Fraction::new(0, 1), Fraction::new(14, 3)]);
}

#[test]
fn exactly_5_and_at_least_6() {
    let mut sheet = joined(&[0, 0], &[(0, 1, 5)]);
    sheet.gap(0, 1, 6);
    ring(&sheet, &[(1, 0), (0, 1)]);
    // at least 5 or less is no contradiction, and at most 4 is one
    sheet.distance[1] = 5;
    placed(&sheet, &[(-5, 2), (5, 2)]);
    let mut at_most = joined(&[0, 0], &[(0, 1, 5)]);
    at_most.gap(1, 0, -4);
    ring(&at_most, &[(0, 0), (1, 0)]);
}

#[test]
fn exact_gaps_that_contradict() {
    let three = |last| joined(&[0; 3], &[(0, 1, 5), (1, 2, 5), (0, 2, last)]);
    ring(&three(9), &[(0, 0), (1, 0), (2, 1)]);
    ring(&three(11), &[(2, 0), (1, 1), (0, 1)]);
    // two distances between two labels
    ring(&joined(&[0, 0], &[(0, 1, 5), (0, 1, 6)]), &[(1, 0), (0, 1)]);
    ring(
        &joined(&[0, 0], &[(0, 1, 5), (1, 0, -6)]),
        &[(1, 1), (0, 1)],
    );
    ring(
        &joined(&[0, 0], &[(0, 1, 5), (1, 0, -4)]),
        &[(0, 0), (1, 0)],
    );
}

/// A label stands exactly 0 from itself.
#[test]
fn exact_self_gaps() {
    placed(&joined(&[7], &[(0, 0, 0)]), &[(7, 1)]);
    multipliers(&joined(&[7], &[(0, 0, 0)]), &[(0, 1)]);
    ring(&joined(&[7], &[(0, 0, 1)]), &[(0, 0)]);
    ring(&joined(&[7], &[(0, 0, -1)]), &[(0, 1)]);
    placed(&plain(&[7], &[(0, 0, -1)]), &[(7, 1)]);
}

/// 23 comes after 8 and before 9, and its place is the first gap whose kind is neither.
#[test]
fn kinds_that_are_neither() {
    let mut sheet = plain(&[0, 0], &[(0, 1, 5), (0, 1, 20_001)]);
    sheet.kind[1] = 2;
    refused(&sheet, 8, 1);
    sheet.distance[1] = 6;
    refused(&sheet, 23, 1);
    for kind in 2..=255 {
        sheet.kind[1] = kind;
        refused(&sheet, 23, 1);
        sheet.kind = vec![kind, kind];
        refused(&sheet, 23, 0);
        sheet.kind = vec![EXACTLY, kind];
        refused(&sheet, 23, 1);
    }
    // a bad distance behind a bad kind, and a ring
    sheet.kind = vec![2, 0];
    sheet.distance[1] = -20_001;
    refused(&sheet, 8, 1);
    let mut impossible = plain(&[0, 0], &[(0, 1, 5), (1, 0, -4), (0, 1, 0)]);
    assert_eq!(checked(&impossible).outcome, Outcome::Refused(9));
    impossible.kind[2] = 255;
    refused(&impossible, 23, 2);
}

/// 3 covers the list of kinds: it is as long as the list of left labels.
#[test]
fn as_many_kinds_as_gaps() {
    let sheet = joined(&[0, 10], &[(0, 1, 6), (1, 0, -6)]);
    for kinds in [0, 1, 3, 192] {
        let mut uneven = sheet.clone();
        uneven.kind.resize(kinds, EXACTLY);
        refused(&uneven, 3, 0);
    }
    placed(&sheet, &[(2, 1), (8, 1)]);
}

/// 4 covers the second ring buffer: it has at least as many entries as there are labels.
#[test]
fn room_for_the_way() {
    let sheet = joined(&[0; 3], &[(0, 1, 5), (1, 2, 5), (0, 2, 9)]);
    for (entries, outcome) in [(0, 4), (2, 4), (3, 9), (4, 9)] {
        let mut lent = Lent::zeros(3, 3);
        lent.back = vec![77; entries];
        assert_eq!(check_call(&sheet, &lent), Outcome::Refused(outcome));
    }
}

/// The front of a buffer by the ring's length, and none of it where that is beyond.
#[test]
fn parts_of_the_ring_buffers() {
    let (ring, back) = ([4, 1, 0], [1, 0, 1]);
    for length in 0..=3 {
        assert_eq!(ring_part(&ring, length), &ring[..length as usize]);
        assert_eq!(back_part(&back, length), &back[..length as usize]);
    }
    for length in [4, 1 << 32, u64::MAX] {
        assert_eq!(ring_part(&ring, length), []);
        assert_eq!(back_part(&back, length), []);
    }
}

/// An exact gap counts once towards 192: so many are taken, while opposite gaps in their stead are refused.
#[test]
fn long_strips() {
    let mut sheet = plain(&[0; 48], &[]);
    let mut opposite = sheet.clone();
    for e in 0..192 {
        let (left, right) = (e % 47, e % 47 + 1);
        sheet.same(left, right, 500);
        opposite.gap(left, right, 500);
        opposite.gap(right, left, -500);
    }
    let places: Vec<_> = (0..48).map(|i| (500 * i - 23 * 500 - 250, 1)).collect();
    placed(&sheet, &places);
    refused(&opposite, 2, 0);
    sheet.same(0, 1, 500);
    refused(&sheet, 2, 0);
}
