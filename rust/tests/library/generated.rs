//! Generated sheets, each checked against the solver and the refusal table.
use crate::call::{check_call, checked_call, Lent, Outcome};
use crate::came::{Came, Counts};
use crate::generate::{damage, sheet, SHAPES};
use crate::random::Random;
use crate::sheet::{Sheet, AT_LEAST, EXACTLY};
use std::ops::RangeInclusive;

/// Says which case failed, where one does.
pub struct Case(pub u64);

impl Drop for Case {
    fn drop(&mut self) {
        if std::thread::panicking() {
            eprintln!("in the case of seed {}", self.0);
        }
    }
}

/// Checks so many sheets of each shape, with so many damages each, and counts what came.
fn run(seed: u64, cases: u64, labels: RangeInclusive<i64>, damages: usize) -> Counts {
    let mut counts = Counts::default();
    let mut exact = [false; SHAPES.len()];
    for case in 0..cases {
        for (number, shape) in SHAPES.into_iter().enumerate() {
            let seed = seed + case * SHAPES.len() as u64 + number as u64;
            let _case = Case(seed);
            let mut random = Random::new(seed);
            let mut sheet = sheet(&mut random, shape, labels.clone());
            let mut lent = Lent::arbitrary(&mut random, sheet.labels(), sheet.gaps());
            for _ in 0..damages {
                damage(&mut random, &mut sheet, &mut lent);
            }
            exact[number] |= sheet.kind.contains(&EXACTLY);
            counts.add(&sheet, &checked_call(&sheet, &lent));
        }
    }
    println!("sheets of {labels:?} labels, damages {damages}: {counts:?}");
    assert!(exact.into_iter().all(|met| met), "{SHAPES:?}: {exact:?}");
    counts
}

const PLACED: Came = Came::As(Outcome::Placed);
const RING: Came = Came::As(Outcome::Refused(9));

/// What exact gaps bring about on sheets that keep to the limits.
const OF_EXACT_GAPS: [Came; 9] = [
    Came::ExactGap,
    Came::ExactSelfGap,
    Came::ExactGapImplied,
    Came::NegativeMultiplier,
    Came::ExactGapsContradict,
    Came::EveryRingBackwards,
    Came::RingBackwards,
    Came::RingBothWays,
    Came::RingOfOneBackwards,
];

/// What a kind that is neither brings about.
const OF_BAD_KINDS: [Came; 4] = [
    Came::Kind2,
    Came::Kind255,
    Came::BadKindBeforeRing,
    Came::BadKindBehindOther,
];

#[test]
fn small_sheets() {
    let counts = run(1_000_000, 10_000, 0..=6, 0);
    counts.met(&[PLACED, RING], 5_000);
    counts.met(&OF_EXACT_GAPS, 1_000);
}

#[test]
fn middle_sheets() {
    let counts = run(2_000_000, 4_000, 7..=20, 0);
    counts.met(&[PLACED, RING], 1_000);
    counts.met(&OF_EXACT_GAPS, 300);
}

#[test]
fn large_sheets() {
    let counts = run(3_000_000, 1_000, 21..=47, 0);
    counts.met(&[PLACED, RING], 300);
    counts.met(&OF_EXACT_GAPS, 60);
}

#[test]
fn full_sheets() {
    let counts = run(4_000_000, 800, 48..=48, 0);
    counts.met(&[PLACED, RING], 200);
    counts.met(&OF_EXACT_GAPS, 50);
}

#[test]
fn damaged_sheets() {
    let counts = run(5_000_000, 2_000, 0..=12, 1);
    let refused = [1, 2, 3, 4, 5, 6, 7, 8, 9, 23].map(|number| Came::As(Outcome::Refused(number)));
    counts.met(&refused, 100);
    counts.met(&[PLACED], 100);
}

#[test]
fn sheets_damaged_thrice() {
    let counts = run(6_000_000, 2_000, 0..=48, 3);
    let refused = [1, 2, 3, 4, 5, 6, 7, 8, 23].map(|number| Came::As(Outcome::Refused(number)));
    counts.met(&refused, 100);
    counts.met(&[PLACED], 100);
    counts.met(&OF_BAD_KINDS, 40);
}

/// A sheet of three labels and three gaps, by which of 9 wants and which of 27 ends and distances.
fn tiny(wants: i64, distances: [i64; 3], codes: [usize; 3], kinds: [u8; 3]) -> Sheet {
    let mut sheet = Sheet::default();
    sheet.label(0, 1);
    sheet.label(wants % 3 * 2, 2);
    sheet.label(wants / 3 - 1, 5);
    for (code, kind) in codes.into_iter().zip(kinds) {
        sheet.add(code % 3, code / 3 % 3, distances[code / 9], kind);
    }
    sheet
}

/// Every sheet of three labels and three gaps over a few wants, weights and distances.
#[test]
fn every_tiny_sheet() {
    let mut placed = 0;
    for wants in 0..9 {
        for code in 0..27 * 27 * 27 {
            let codes = [code % 27, code / 27 % 27, code / 729];
            let sheet = tiny(wants, [-2, 0, 3], codes, [AT_LEAST; 3]);
            placed += u64::from(check_call(&sheet, &Lent::zeros(3, 3)) == Outcome::Placed);
        }
    }
    println!("tiny sheets: {placed} placed of {}", 9 * 27 * 27 * 27);
    assert!(placed > 50_000);
}

/// The same with exact gaps, one to three, and other distances, so that exact gaps meet often.
#[test]
fn every_tiny_sheet_with_exact_gaps() {
    let (mut counts, mut sheets) = (Counts::default(), 0);
    for wants in [0, 5] {
        for code in 0..7 * 27 * 27 * 27 {
            let codes = [code % 27, code / 27 % 27, code / 729 % 27];
            let kinds = [1, 2, 4].map(|bit| u8::from((code / 19_683 + 1) & bit != 0));
            let sheet = tiny(wants, [-2, 0, 2], codes, kinds);
            counts.add(&sheet, &checked_call(&sheet, &Lent::zeros(3, 3)));
            sheets += 1;
        }
    }
    println!("tiny sheets with exact gaps, {sheets}: {counts:?}");
    counts.met(&[PLACED, RING], 50_000);
    counts.met(&OF_EXACT_GAPS, 5_000);
}
