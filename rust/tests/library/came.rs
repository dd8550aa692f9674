//! What came of a checked call, to be counted, so that no family of generated sheets is empty.
use crate::call::{Checked, Lent, Outcome};
use crate::sheet::{Sheet, AT_LEAST, EXACTLY};
use crate::solver::has_placement;
use std::collections::BTreeMap;

#[derive(Clone, Copy, Debug, PartialEq, Eq, PartialOrd, Ord)]
pub enum Came {
    As(Outcome),
    // of a placed sheet
    ExactGap,
    ExactSelfGap,
    ExactGapImplied,
    NegativeMultiplier,
    // of a sheet without a placement: what its gaps are, and what ring was given
    ExactGapsContradict,
    EveryRingBackwards,
    RingBackwards,
    RingBothWays,
    RingOfOneBackwards,
    // of kinds that are neither
    Kind2,
    Kind255,
    BadKindBeforeRing,
    BadKindBehindOther,
}

/// How often each came.
#[derive(Debug, Default)]
pub struct Counts(BTreeMap<Came, u64>);

impl Counts {
    pub fn add(&mut self, sheet: &Sheet, checked: &Checked) {
        for came in came(sheet, checked) {
            *self.0.entry(came).or_insert(0) += 1;
        }
    }

    /// That each of these came at least so often.
    pub fn met(&self, all: &[Came], least: u64) {
        for came in all {
            let count = self.0.get(came).copied().unwrap_or(0);
            assert!(count >= least, "{came:?} was met {count} times");
        }
    }
}

fn came(sheet: &Sheet, checked: &Checked) -> Vec<Came> {
    let mut came = match checked.outcome {
        Outcome::Placed => of_placed(sheet, &checked.after),
        Outcome::Refused(9) => of_ring(sheet, &checked.ring),
        Outcome::Refused(23) => of_bad_kind(sheet),
        Outcome::Refused(_) => vec![(bad_kinds(sheet).next().is_some(), Came::BadKindBehindOther)],
    };
    came.push((true, Came::As(checked.outcome)));
    came.into_iter()
        .filter_map(|(is, came)| is.then_some(came))
        .collect()
}

fn of_placed(sheet: &Sheet, after: &Lent) -> Vec<(bool, Came)> {
    let exact = || sheet.all_gaps().into_iter().filter(|gap| gap.exact);
    let self_gap = exact().any(|gap| gap.left == gap.right);
    let negative = after.mult_num[..sheet.gaps()].iter().any(|&num| num < 0);
    vec![
        (exact().next().is_some(), Came::ExactGap),
        (self_gap, Came::ExactSelfGap),
        (is_one_implied(sheet), Came::ExactGapImplied),
        (negative, Came::NegativeMultiplier),
    ]
}

/// Whether an exact gap between two labels joins what exact gaps before it join already.
fn is_one_implied(sheet: &Sheet) -> bool {
    let mut group: Vec<usize> = (0..sheet.labels()).collect();
    for gap in sheet.all_gaps().iter().filter(|gap| gap.exact) {
        let (from, to) = (group[gap.left], group[gap.right]);
        if from == to && gap.left != gap.right {
            return true;
        }
        for g in group.iter_mut().filter(|g| **g == from) {
            *g = to;
        }
    }
    false
}

fn of_ring(sheet: &Sheet, ring: &[(u64, u8)]) -> Vec<(bool, Came)> {
    let mut exact_alone = Sheet {
        wanted: sheet.wanted.clone(),
        ..Sheet::default()
    };
    for gap in sheet.all_gaps().iter().filter(|gap| gap.exact) {
        exact_alone.same(gap.left, gap.right, gap.distance);
    }
    let mut forwards_alone = sheet.clone();
    forwards_alone.kind.fill(AT_LEAST);
    let forwards = ring.iter().any(|&(_, back)| back == 0);
    let backwards = ring.iter().any(|&(_, back)| back == 1);
    vec![
        (!has_placement(&exact_alone), Came::ExactGapsContradict),
        (has_placement(&forwards_alone), Came::EveryRingBackwards),
        (backwards, Came::RingBackwards),
        (forwards && backwards, Came::RingBothWays),
        (backwards && ring.len() == 1, Came::RingOfOneBackwards),
    ]
}

fn of_bad_kind(sheet: &Sheet) -> Vec<(bool, Came)> {
    let first = bad_kinds(sheet).next().map(|e| sheet.kind[e]);
    let mut mended = sheet.clone();
    bad_kinds(sheet).for_each(|e| mended.kind[e] = AT_LEAST);
    vec![
        (first == Some(2), Came::Kind2),
        (first == Some(255), Came::Kind255),
        (!has_placement(&mended), Came::BadKindBeforeRing),
    ]
}

fn bad_kinds(sheet: &Sheet) -> impl Iterator<Item = usize> + '_ {
    (0..sheet.kind.len()).filter(|&e| sheet.kind[e] > EXACTLY)
}
