//! Strips with labels in slots: between two that keep their distance there is a label, with a gap on either side. It
//! stands at the left end of its slot, at the right end, or between them.
use crate::call::{checked_call, Lent, Outcome};
use crate::fraction::Fraction;
use crate::generated::Case;
use crate::random::Random;
use crate::sheet::Sheet;

/// A sheet, and the labels in its slots.
struct Strip {
    sheet: Sheet,
    inner: Vec<usize>,
}

/// A chain of up to 48 labels, with more or less room. Of some that have one label between them the distance is kept,
/// by an exact gap or by two opposite ones; their slots have up to 500 units to spare.
fn strip(random: &mut Random) -> Strip {
    let mut sheet = Sheet::default();
    let room = random.pick(&[-150, 0, 0, 100, 400]);
    let labels = random.between(3, 48) as usize;
    let mut wanted = random.between(-20_000, 0);
    let mut widths = Vec::new();
    for label in 0..labels {
        let width = 100 * random.between(4, 12);
        wanted += width + room + random.between(-300, 300);
        let weight = random.pick(&[1, 1, 2, 5, 100]);
        sheet.label(wanted, weight);
        if label > 0 {
            sheet.gap(label - 1, label, width);
        }
        widths.push(width);
    }
    let (opposite, mut inner) = (random.once_in(2), Vec::new());
    let mut label = 1;
    while label + 1 < labels {
        if random.once_in(3) {
            label += 1;
            continue;
        }
        let distance = widths[label] + widths[label + 1] + random.between(0, 500);
        if opposite {
            sheet.gap(label - 1, label + 1, distance);
            sheet.gap(label + 1, label - 1, -distance);
        } else {
            sheet.same(label - 1, label + 1, distance);
        }
        inner.push(label);
        label += random.pick(&[2, 3]);
    }
    Strip { sheet, inner }
}

/// The strip's labels with other numbers, whose order is no longer that of the gaps.
fn numbered_anew(random: &mut Random, sheet: &Sheet) -> (Sheet, Vec<usize>) {
    let mut number: Vec<usize> = (0..sheet.labels()).collect();
    random.shuffle(&mut number);
    (sheet.with_labels_numbered(&number), number)
}

/// The places that a call gives, from no marks or from any; they are held to the solver and to the conditions.
fn places(random: &mut Random, sheet: &Sheet, cold: bool) -> Vec<Fraction> {
    let (labels, gaps) = (sheet.labels(), sheet.gaps());
    let lent = match cold {
        true => Lent::zeros(labels, gaps),
        false => Lent::arbitrary(random, labels, gaps),
    };
    let called = checked_call(sheet, &lent);
    assert_eq!(called.outcome, Outcome::Placed);
    called.after.places(labels)
}

/// Whether the gap of a chain between two neighbours is tight.
fn is_tight(sheet: &Sheet, places: &[Fraction], right: usize) -> bool {
    let distance = Fraction::new(sheet.distance[right - 1].into(), 1);
    places[right - 1] + distance == places[right]
}

#[test]
fn labels_in_slots() {
    // at the left end, at the right end, at neither, and at both where nothing is to spare
    let mut stands = [0; 4];
    for seed in 17_000_000..17_002_000 {
        let _case = Case(seed);
        let mut random = Random::new(seed);
        let Strip { sheet, inner } = strip(&mut random);
        let at = places(&mut random, &sheet, true);
        assert_eq!(at, places(&mut random, &sheet, false));
        let (other, number) = numbered_anew(&mut random, &sheet);
        let there = places(&mut random, &other, true);
        assert!((0..at.len()).all(|i| at[i] == there[number[i]]));
        for label in inner {
            let left = is_tight(&sheet, &at, label);
            let right = is_tight(&sheet, &at, label + 1);
            stands[usize::from(left) + 2 * usize::from(right)] += 1;
        }
    }
    println!(
        "labels in slots: at neither end {}, left {}, right {}, both {}",
        stands[0], stands[1], stands[2], stands[3]
    );
    assert!(stands[0] >= 1_000 && stands[1] >= 1_000 && stands[2] >= 1_000 && stands[3] >= 10);
}
