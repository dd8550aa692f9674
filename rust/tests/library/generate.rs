//! Sheets of many shapes, and what breaks them.
use crate::call::Lent;
use crate::random::Random;
use crate::sheet::{Sheet, EXACTLY};
use std::ops::RangeInclusive;

/// The shapes of sheets. All keep to the limits, each has sheets with exact gaps, and some shapes have
/// sheets with a ring.
#[derive(Clone, Copy, Debug)]
pub enum Shape {
    Feasible,
    AnyDistances,
    Chain,
    Dense,
    Equalities,
    Duplicates,
    SelfGaps,
    Rings,
    Limits,
    Rigid,
    Contradictions,
}

pub const SHAPES: [Shape; 11] = [
    Shape::Feasible,
    Shape::AnyDistances,
    Shape::Chain,
    Shape::Dense,
    Shape::Equalities,
    Shape::Duplicates,
    Shape::SelfGaps,
    Shape::Rings,
    Shape::Limits,
    Shape::Rigid,
    Shape::Contradictions,
];

/// A sheet of a shape with so many labels.
pub fn sheet(random: &mut Random, shape: Shape, labels: RangeInclusive<i64>) -> Sheet {
    let labels = random.between(*labels.start(), *labels.end()) as usize;
    let mut sheet = labels_only(random, labels);
    if labels == 0 {
        return sheet;
    }
    // a placement that the gaps are made to allow, where they are
    let spread = random.pick(&[5, 100, 5_000, 60_000]);
    let hidden: Vec<i64> = (0..labels).map(|_| random.between(0, spread)).collect();
    let gaps = random.below(1 + 192.min(4 * labels));
    match shape {
        Shape::Feasible => allowed_gaps(random, &mut sheet, &hidden, gaps),
        Shape::AnyDistances => any_gaps(random, &mut sheet, gaps.min(labels + 2)),
        Shape::Chain => chain(random, &mut sheet),
        Shape::Dense => dense(random, &mut sheet, &hidden),
        Shape::Equalities => equalities(random, &mut sheet, &hidden, gaps / 2),
        Shape::Duplicates => duplicates(random, &mut sheet, &hidden, gaps),
        Shape::SelfGaps => self_gaps(random, &mut sheet, &hidden, gaps),
        Shape::Rings => ring(random, &mut sheet, &hidden, gaps),
        Shape::Limits => limits(random, &mut sheet),
        Shape::Rigid => rigid(random, &mut sheet, &hidden, gaps),
        Shape::Contradictions => contradictions(random, &mut sheet, &hidden, gaps),
    }
    match shape {
        Shape::AnyDistances | Shape::Chain | Shape::Dense | Shape::Limits => {
            any_exact(random, &mut sheet)
        }
        _ => allowed_exact(random, &mut sheet, &hidden),
    }
    sheet
}

/// Makes gaps exact that the hidden placement meets just so, on some sheets none, on some all. The placement still meets
/// what it met.
fn allowed_exact(random: &mut Random, sheet: &mut Sheet, hidden: &[i64]) {
    let times = random.pick(&[0, 0, 1, 2, 8]);
    for (e, gap) in sheet.all_gaps().iter().enumerate() {
        let just_so = hidden[gap.left] + gap.distance == hidden[gap.right];
        if just_so && times > 0 && random.once_in(times) {
            sheet.kind[e] = EXACTLY;
        }
    }
}

/// Makes any gaps exact, on some sheets none, on most a few.
fn any_exact(random: &mut Random, sheet: &mut Sheet) {
    let times = random.pick(&[0, 0, 2, 8, 40]);
    for kind in &mut sheet.kind {
        if times > 0 && random.once_in(times) {
            *kind = EXACTLY;
        }
    }
}

/// What a blank weight counts in the text.
pub const BLANK_WEIGHT: i64 = 10;

/// Labels whose wants and weights are of one of several sizes; in some sheets half of the labels weigh as a blank weight
/// counts.
pub fn labels_only(random: &mut Random, labels: usize) -> Sheet {
    let mut sheet = Sheet::default();
    let (want, weight) = (
        random.pick(&[3, 50, 3_000, 200_000]),
        random.pick(&[1, 3, 100]),
    );
    let blanks = random.once_in(3);
    for _ in 0..labels {
        let weight = if blanks && random.once_in(2) {
            BLANK_WEIGHT
        } else {
            random.between(1, weight)
        };
        sheet.label(random.between(-want, want), weight);
    }
    sheet
}

/// A gap between any two labels that the hidden placement meets, often just so.
fn allowed_gap(random: &mut Random, sheet: &mut Sheet, hidden: &[i64]) {
    let (left, right) = (random.below(hidden.len()), random.below(hidden.len()));
    let slack = random.pick(&[0, 0, 1, 40, 2_000]);
    let distance = hidden[right] - hidden[left] - random.between(0, slack);
    if distance >= -20_000 {
        sheet.gap(left, right, distance.min(20_000));
    }
}

fn allowed_gaps(random: &mut Random, sheet: &mut Sheet, hidden: &[i64], gaps: usize) {
    for _ in 0..gaps {
        allowed_gap(random, sheet, hidden);
    }
}

/// Gaps of any distances, of one size.
fn any_gaps(random: &mut Random, sheet: &mut Sheet, gaps: usize) {
    let size = random.pick(&[4, 300, 20_000]);
    for _ in 0..gaps {
        let (left, right) = (random.below(sheet.labels()), random.below(sheet.labels()));
        let distance = random.between(-size, size / 4);
        sheet.gap(left, right, distance);
    }
}

/// Each label with the next, and some with one further on.
fn chain(random: &mut Random, sheet: &mut Sheet) {
    let size = random.pick(&[4, 300, 20_000]);
    for right in 1..sheet.labels() {
        sheet.gap(right - 1, right, random.between(0, size));
        if right > 1 && random.once_in(3) {
            sheet.gap(right - 2, right, random.between(0, size));
        }
    }
}

/// Every pair of labels near each other in the hidden order, as far as gaps go.
fn dense(random: &mut Random, sheet: &mut Sheet, hidden: &[i64]) {
    let mut order: Vec<usize> = (0..hidden.len()).collect();
    order.sort_by_key(|&i| (hidden[i], i));
    let size = random.pick(&[4, 300, 5_000]);
    for apart in 1..order.len() {
        for pair in order.windows(apart + 1) {
            if sheet.gaps() < 192 {
                let distance = random.between(0, size) * apart as i64;
                sheet.gap(pair[0], pair[apart], distance.min(20_000));
            }
        }
    }
}

/// Pairs of opposite gaps that the hidden placement meets, and some others.
fn equalities(random: &mut Random, sheet: &mut Sheet, hidden: &[i64], pairs: usize) {
    for _ in 0..pairs.min(90) {
        let (left, right) = (random.below(hidden.len()), random.below(hidden.len()));
        let distance = hidden[right] - hidden[left];
        if distance.abs() <= 20_000 {
            sheet.gap(left, right, distance);
            sheet.gap(right, left, -distance);
        }
    }
    allowed_gaps(random, sheet, hidden, pairs.min(12));
}

/// Gaps that stand twice, as they are or with another distance.
fn duplicates(random: &mut Random, sheet: &mut Sheet, hidden: &[i64], gaps: usize) {
    allowed_gaps(random, sheet, hidden, gaps / 2);
    for _ in 0..sheet.gaps() {
        let again = random.below(sheet.gaps());
        let (left, right) = (sheet.left[again] as usize, sheet.right[again] as usize);
        let less = random.pick(&[0, 0, 0, 1, 17]);
        let distance = (sheet.distance[again] - less).max(-20_000);
        sheet.gap(left, right, distance);
    }
}

/// Gaps of a label to itself among others; now and then one that cannot hold.
fn self_gaps(random: &mut Random, sheet: &mut Sheet, hidden: &[i64], gaps: usize) {
    for _ in 0..gaps {
        if random.once_in(3) {
            let label = random.below(hidden.len());
            match random.below(80) {
                0 => sheet.same(label, label, random.between(-5, 3)),
                1 => sheet.gap(label, label, random.between(-5, 3)),
                _ => sheet.gap(label, label, random.between(-5, 0)),
            }
        } else {
            allowed_gap(random, sheet, hidden);
        }
    }
}

/// A ring through some labels whose distances sum to about zero, among gaps that can hold. On some sheets gaps of the
/// ring are exact, and those that stand the other way round can only be passed backwards.
fn ring(random: &mut Random, sheet: &mut Sheet, hidden: &[i64], gaps: usize) {
    allowed_gaps(random, sheet, hidden, gaps.min(140));
    let mut walk: Vec<usize> = (0..hidden.len()).collect();
    random.shuffle(&mut walk);
    walk.truncate(1 + random.below(walk.len()));
    let extra = random.pick(&[-1, 0, 0, 1, 1, 700]);
    let exact = random.pick(&[0, 2, 3]);
    for k in 0..walk.len() {
        let (left, right) = (walk[k], walk[(k + 1) % walk.len()]);
        let more = if k == 0 { extra } else { 0 };
        let distance = (hidden[right] - hidden[left] + more).clamp(-20_000, 20_000);
        if random.below(4) >= exact {
            sheet.gap(left, right, distance);
        } else if random.once_in(3) {
            sheet.same(left, right, distance);
        } else {
            sheet.same(right, left, -distance);
        }
    }
}

/// Exact gaps that join many labels as they stand in the hidden placement, either way round; as there are more of them
/// than labels on many sheets, others imply some. Among them are gaps that can hold.
fn rigid(random: &mut Random, sheet: &mut Sheet, hidden: &[i64], gaps: usize) {
    for _ in 0..gaps {
        let (left, right) = (random.below(hidden.len()), random.below(hidden.len()));
        let distance = hidden[right] - hidden[left];
        if random.once_in(3) {
            allowed_gap(random, sheet, hidden);
        } else if distance.abs() <= 20_000 {
            sheet.same(left, right, distance);
        }
    }
}

/// The same with an exact gap, or some, off by a little: what others imply, it contradicts.
fn contradictions(random: &mut Random, sheet: &mut Sheet, hidden: &[i64], gaps: usize) {
    rigid(random, sheet, hidden, gaps);
    let exact: Vec<usize> = (0..sheet.gaps())
        .filter(|&e| sheet.kind[e] == EXACTLY)
        .collect();
    for _ in 0..random.below(3).min(exact.len()) {
        let off = &mut sheet.distance[random.pick(&exact)];
        *off = (*off + random.pick(&[-300, -1, 1, 300])).clamp(-20_000, 20_000);
    }
}

/// Everything at or next to its limit.
fn limits(random: &mut Random, sheet: &mut Sheet) {
    for i in 0..sheet.labels() {
        sheet.wanted[i] = random.pick(&[-200_000, -199_999, 0, 199_999, 200_000]);
        sheet.weight[i] = random.pick(&[1, 2, 99, 100]);
    }
    for right in 1..sheet.labels() {
        sheet.gap(
            right - 1,
            right,
            random.pick(&[20_000, 20_000, 19_999, -20_000]),
        );
    }
    let more = random.pick(&[0, 0, 10, 192 - sheet.gaps()]);
    for _ in 0..more.min(192 - sheet.gaps()) {
        let (a, b) = (random.below(sheet.labels()), random.below(sheet.labels()));
        let distance = random.pick(&[-20_000, -19_999]);
        sheet.gap(a.max(b), a.min(b), distance);
    }
}

/// A sheet that is hard to propose for: 48 labels that are wanted against the order of their gaps, backwards or with the
/// two halves swapped. The guess of earlier releases mostly failed on such sheets. Some have a ring.
pub fn hard(random: &mut Random) -> Sheet {
    let mut sheet = Sheet::default();
    let backwards = random.once_in(2);
    let (step, weight) = (random.pick(&[400, 8_000, 8_000]), random.pick(&[1, 5, 100]));
    // a placement that the gaps are made to allow
    let mut hidden = vec![0];
    for label in 0..48 {
        let stands = if backwards {
            47 - label
        } else {
            (label + 24) % 48
        };
        sheet.label((stands - 24) * step, random.between(1, weight));
        hidden.push(hidden[label as usize] + random.between(0, 300));
    }
    for right in 1..48 {
        let most = hidden[right] - hidden[right - 1];
        sheet.gap(right - 1, right, random.between(0, most));
    }
    if random.once_in(6) {
        long_ring(random, &mut sheet);
    }
    order_gaps(random, &mut sheet, &hidden);
    sheet
}

/// A gap from a label back to one before it: with the chain between the two it is a ring whose distances sum to 1.
fn long_ring(random: &mut Random, sheet: &mut Sheet) {
    let (left, right) = (random.below(24), 24 + random.below(24));
    let way: i64 = sheet.distance[left..right].iter().sum();
    sheet.gap(right, left, 1 - way);
}

/// Gaps between any two labels that the hidden placement meets; on some sheets a few are exact, as two opposite gaps.
fn order_gaps(random: &mut Random, sheet: &mut Sheet, hidden: &[i64]) {
    let mut exact = random.pick(&[0, 0, 8]);
    let tight = random.once_in(2);
    while sheet.gaps() < 191 {
        let left = random.below(47);
        let right = left + 1 + random.below(47 - left);
        let most = hidden[right] - hidden[left];
        if exact > 0 {
            exact -= 1;
            sheet.gap(left, right, most);
            sheet.gap(right, left, -most);
        } else if tight {
            sheet.gap(left, right, random.between(0.max(most - 300), most));
        } else {
            sheet.gap(left, right, random.between(0, most.min(300)));
        }
    }
}

/// Breaks one rule or none: a list too long, uneven or short, or an entry out of its range.
pub fn damage(random: &mut Random, sheet: &mut Sheet, lent: &mut Lent) {
    match random.below(12) {
        0 => too_many(random, sheet, lent),
        1 => uneven(random, sheet, lent),
        2 => short(random, lent),
        _ => out_of_range(random, sheet),
    }
}

/// More than 48 labels or 192 gaps, with buffers to match.
fn too_many(random: &mut Random, sheet: &mut Sheet, lent: &mut Lent) {
    if random.once_in(2) {
        while sheet.labels() < 49 + random.below(4) {
            sheet.label(0, 1);
        }
    } else {
        while sheet.gaps() < 193 + random.below(4) {
            sheet.gap(0, 0, 0);
        }
    }
    *lent = Lent::arbitrary(random, sheet.labels(), sheet.gaps());
}

/// A list that belongs to others is longer or shorter by some entries.
fn uneven(random: &mut Random, sheet: &mut Sheet, lent: &mut Lent) {
    let change = |random: &mut Random, count: usize| match random.below(3) {
        0 => 0,
        1 => count.saturating_sub(1),
        _ => count + 1 + random.below(200),
    };
    match random.below(7) {
        0 => sheet.wanted.resize(change(random, sheet.wanted.len()), 1),
        1 => sheet.weight.resize(change(random, sheet.weight.len()), 1),
        2 => sheet.left.resize(change(random, sheet.left.len()), 0),
        3 => sheet.right.resize(change(random, sheet.right.len()), 0),
        5 => sheet.kind.resize(change(random, sheet.kind.len()), 0),
        4 => sheet
            .distance
            .resize(change(random, sheet.distance.len()), 0),
        _ => lent.carried.resize(change(random, lent.carried.len()), 0),
    }
}

/// A buffer that may be too short.
fn short(random: &mut Random, lent: &mut Lent) {
    let mut cut = |count: usize| random.below(count + 1);
    match cut(5) {
        0 => lent.place_num.truncate(cut(lent.place_num.len())),
        1 => lent.place_den.truncate(cut(lent.place_den.len())),
        2 => lent.mult_num.truncate(cut(lent.mult_num.len())),
        3 => lent.mult_den.truncate(cut(lent.mult_den.len())),
        4 => lent.back.truncate(cut(lent.back.len())),
        _ => lent.ring.truncate(cut(lent.ring.len())),
    }
}

/// An entry at, or just beyond, its limit or far from it.
fn out_of_range(random: &mut Random, sheet: &mut Sheet) {
    let (label, labels) = (random.below(sheet.labels().max(1)), sheet.labels() as u64);
    let gap = random.below(sheet.gaps().max(1));
    let far = random.pick(&[i64::MIN, i64::MAX, i64::MIN + 1]);
    let stranger = random.pick(&[
        labels,
        labels + 1,
        u64::MAX,
        1 << 63,
        labels.wrapping_sub(1),
    ]);
    let place = random.pick(&[-200_001, -200_000, 200_000, 200_001, far]);
    let weight = random.pick(&[0, 1, 100, 101, -1, far]);
    let distance = random.pick(&[-20_001, -20_000, 20_001, far]);
    let kind = random.pick(&[0, 1, 2, 2, 3, 128, 254, 255]);
    match random.below(6) {
        0 => put(&mut sheet.wanted, label, place),
        1 => put(&mut sheet.weight, label, weight),
        2 => put(&mut sheet.left, gap, stranger),
        3 => put(&mut sheet.right, gap, stranger),
        4 => put(&mut sheet.distance, gap, distance),
        _ => put(&mut sheet.kind, gap, kind),
    }
}

/// Sets an entry, if the list has it.
fn put<T>(list: &mut [T], at: usize, entry: T) {
    if let Some(old) = list.get_mut(at) {
        *old = entry;
    }
}
