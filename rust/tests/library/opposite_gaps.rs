//! An exact gap and the two opposite gaps that it replaces: the same places, or 9 with both (document 02, Item 6).
use crate::call::{check_call, checked_call, Lent, Outcome};
use crate::generate::{hard, sheet, SHAPES};
use crate::generated::Case;
use crate::hair::hair;
use crate::random::Random;
use crate::sheet::{Gap, Sheet};
use std::ops::Range;

/// The labels of a sheet with these gaps, numbered anew.
fn with_gaps(random: &mut Random, sheet: &Sheet, mut gaps: Vec<Gap>) -> Sheet {
    let mut other = Sheet {
        wanted: sheet.wanted.clone(),
        weight: sheet.weight.clone(),
        ..Sheet::default()
    };
    while !gaps.is_empty() {
        let gap = gaps.swap_remove(random.below(gaps.len()));
        other.add(gap.left, gap.right, gap.distance, gap.kind());
    }
    other
}

/// The gap that with this one makes an equality.
fn opposite(gap: Gap) -> Gap {
    Gap {
        left: gap.right,
        right: gap.left,
        distance: -gap.distance,
        exact: false,
    }
}

/// The sheet with some of its exact gaps, or all, replaced by two opposite gaps each; nothing where none is.
fn with_opposite_gaps(random: &mut Random, sheet: &Sheet) -> Option<Sheet> {
    let times = random.pick(&[1, 1, 2, 4]);
    let (mut gaps, mut replaced) = (Vec::new(), 0);
    for mut gap in sheet.all_gaps() {
        if gap.exact && random.once_in(times) {
            gap.exact = false;
            gaps.push(opposite(gap));
            replaced += 1;
        }
        gaps.push(gap);
    }
    (replaced > 0).then(|| with_gaps(random, sheet, gaps))
}

/// The sheet with two opposite gaps, wherever there are two, replaced by an exact one; nothing where there are none.
fn with_exact_gaps(random: &mut Random, sheet: &Sheet) -> Option<Sheet> {
    let mut before = sheet.all_gaps();
    let (mut gaps, mut replaced) = (Vec::new(), 0);
    while let Some(mut gap) = before.pop() {
        if let Some(at) = before.iter().position(|&other| opposite(other) == gap) {
            before.swap_remove(at);
            gap.exact = true;
            replaced += 1;
        }
        gaps.push(gap);
    }
    (replaced > 0).then(|| with_gaps(random, sheet, gaps))
}

/// What a call on a sheet gives, from any buffers: the numerators and denominators, if it is placed.
fn numbers(random: &mut Random, sheet: &Sheet) -> Option<(Vec<i64>, Vec<i64>)> {
    let (labels, gaps) = (sheet.labels(), sheet.gaps());
    let called = checked_call(sheet, &Lent::arbitrary(random, labels, gaps));
    match called.outcome {
        Outcome::Placed => Some((
            called.after.place_num[..labels].to_vec(),
            called.after.place_den[..labels].to_vec(),
        )),
        Outcome::Refused(9) => None,
        outcome => panic!("{outcome:?} for a sheet within the limits"),
    }
}

/// What came of a pair.
enum Pair {
    Placed,
    Ring,
    NothingReplaced,
    OverGapped,
}

/// Holds a sheet with exact gaps to one with opposite gaps in their stead.
fn pair(seed: u64) -> Pair {
    let _case = Case(seed);
    let mut random = Random::new(seed);
    let shape = random.pick(&SHAPES);
    let most = random.pick(&[3, 6, 12, 48]);
    let sheet = sheet(&mut random, shape, 1..=most);
    let Some(other) = with_opposite_gaps(&mut random, &sheet) else {
        return Pair::NothingReplaced;
    };
    if other.gaps() > 192 {
        let lent = Lent::zeros(other.labels(), other.gaps());
        assert_eq!(check_call(&other, &lent), Outcome::Refused(2));
        return Pair::OverGapped;
    }
    alike(&mut random, &sheet, &other)
}

/// The same of a sheet whose labels are wanted against its gaps: it has opposite gaps, and the other exact ones.
fn hard_pair(seed: u64) -> Pair {
    let _case = Case(seed);
    let mut random = Random::new(seed);
    let sheet = hard(&mut random);
    match with_exact_gaps(&mut random, &sheet) {
        Some(other) => alike(&mut random, &sheet, &other),
        None => Pair::NothingReplaced,
    }
}

/// The same of a sheet on which a gap lacks by a hair, whichever of the two kinds of gaps it has.
fn hair_pair(seed: u64) -> Pair {
    let _case = Case(seed);
    let mut random = Random::new(seed);
    let sheet = hair(&mut random).sheet;
    let other =
        with_exact_gaps(&mut random, &sheet).or_else(|| with_opposite_gaps(&mut random, &sheet));
    match other {
        Some(other) if other.gaps() > 192 => Pair::OverGapped,
        Some(other) => alike(&mut random, &sheet, &other),
        None => Pair::NothingReplaced,
    }
}

/// Holds two sheets to the same places, or 9 with both.
fn alike(random: &mut Random, sheet: &Sheet, other: &Sheet) -> Pair {
    let one = numbers(random, sheet);
    assert_eq!(one, numbers(random, other));
    match one {
        Some(_) => Pair::Placed,
        None => Pair::Ring,
    }
}

/// How many pairs were placed, refused with 9, without a gap to replace, and over-gapped.
fn count(seeds: Range<u64>, pair: fn(u64) -> Pair) -> [u64; 4] {
    let mut counts = [0; 4];
    seeds.for_each(|seed| counts[pair(seed) as usize] += 1);
    counts
}

#[test]
fn same_places_or_9() {
    let [placed, ring, nothing, over] = count(15_000_000..15_030_000, pair);
    println!("pairs with exact gaps: {placed} placed, {ring} refused with 9, {over} over-gapped, {nothing} without");
    assert!(placed > 5_000 && ring > 2_000 && over > 100);
}

#[test]
fn same_places_or_9_on_hard_sheets() {
    let [placed, ring, nothing, _] = count(16_000_000..16_001_200, hard_pair);
    println!(
        "hard pairs with exact gaps: {placed} placed, {ring} refused with 9, {nothing} without"
    );
    assert!(placed > 200 && ring > 30);
}

#[test]
fn same_places_on_sheets_with_a_hair() {
    let [placed, ring, nothing, over] = count(16_500_000..16_501_500, hair_pair);
    println!("pairs with a hair: {placed} placed, {over} over-gapped, {nothing} without");
    assert!(placed > 1_350 && ring == 0);
}
