//! Sheets on which a gap lacks by a hair: by less than the doubles of the library's core see, so that only exact
//! numbers do.
//!
//! The labels of such a sheet are in groups that gaps hold together. A group by itself stands at a fraction over its
//! weight, and fractions over two weights without a common divisor may differ by as little as 1 over the product of
//! both.
use crate::fraction::{gcd, Fraction};
use crate::random::Random;
use crate::sheet::Sheet;

/// A sheet, those of its gaps that lack by a hair where the others alone put the labels, and the group of each label.
pub struct Hair {
    pub sheet: Sheet,
    pub lacking: Vec<usize>,
    pub group: Vec<usize>,
}

/// What groups weigh, the part of a unit at which each stands, over its weight, how gaps may hold it together, and
/// which have a gap to which: the two meet there, but for parts of a unit.
struct Plan {
    weights: Vec<i64>,
    parts: Vec<i64>,
    joins: &'static [Join],
    links: Vec<(usize, usize)>,
    /// A gap that lacks so much that the doubles see it.
    seen: Option<(usize, usize)>,
}

/// How gaps hold a group together.
#[derive(Clone, Copy, PartialEq, Eq)]
enum Join {
    Exact,
    Opposite,
    /// A chain of gaps, against which its labels are wanted.
    Pushed,
}

/// The labels of a group, how far they stand from its place, and the whole units of that place.
struct Group {
    labels: Vec<usize>,
    offset: Vec<i64>,
    whole: i64,
    join: Join,
}

/// Most plans are of the first kind, as it has the most shapes.
const PLANS: [fn(&mut Random) -> Plan; 6] = [
    two_fractions,
    three_fractions,
    two_fractions,
    two_fractions,
    two_fractions,
    lets_go,
];

/// A sheet with one gap at least that lacks by a hair. It has a placement. If no mark is carried, the outer loop has to
/// find it, but on a few sheets with opposite gaps: taking a group apart, the doubles may come upon the gap.
pub fn hair(random: &mut Random) -> Hair {
    let plan = random.pick(&PLANS)(random);
    let mut sheet = Sheet::default();
    let groups = groups(random, &mut sheet, &plan);
    let mut lacking = Vec::new();
    for &(from, to) in &plan.links {
        if plan.place(from) > plan.place(to) {
            lacking.push(sheet.gaps());
        }
        touch(random, &mut sheet, &groups[from], &groups[to], 0);
    }
    if let Some((from, to)) = plan.seen {
        touch(random, &mut sheet, &groups[from], &groups[to], 0);
    }
    gaps_with_room(random, &mut sheet, &plan, &groups);
    let mut group = vec![0; sheet.labels()];
    for (g, labels) in groups.iter().map(|group| &group.labels).enumerate() {
        labels.iter().for_each(|&i| group[i] = g);
    }
    let mut hair = Hair {
        sheet,
        lacking,
        group,
    };
    if random.once_in(2) {
        hair.number_labels_anew(random);
    }
    if !random.once_in(4) {
        hair.number_gaps_anew(random);
    }
    hair
}

/// Products of weights above this make a hair. It is a little more than the doubles' tolerance asks for, as places are
/// rounded there.
const PRODUCT: i64 = 1_010_000;

/// So many labels can weigh so much, and one of them 1.
fn labels_for(weight: i64) -> i64 {
    1 + (weight + 98) / 100
}

impl Plan {
    /// Groups of these weights, of which the first stands r/(its weight × their weight) right of the others, but for
    /// whole units. Divided by the first weight, the others leave one remainder, which has no common divisor with it.
    fn new(weights: Vec<i64>, r: i64) -> Plan {
        let first = weights[0];
        let part = r * inverse(weights[1], first);
        let mut parts: Vec<i64> = weights.iter().map(|w| (part * w - r) / first).collect();
        parts[0] = part;
        Plan {
            weights,
            parts,
            joins: &[
                Join::Exact,
                Join::Exact,
                Join::Exact,
                Join::Opposite,
                Join::Pushed,
                Join::Pushed,
            ],
            links: Vec::new(),
            seen: None,
        }
    }

    /// Links each group to the next, in an order in which one stands too far right, and some to a later one.
    fn linked(mut self, random: &mut Random) -> Plan {
        let count = self.weights.len();
        let mut order: Vec<usize> = (0..count).collect();
        random.shuffle(&mut order);
        if order.is_sorted_by_key(|&g| self.place(g)) {
            order.reverse();
        }
        self.links = order.windows(2).map(|pair| (pair[0], pair[1])).collect();
        for _ in 0..random.below(count) {
            let (one, other) = (random.below(count), random.below(count));
            if one < other {
                self.links.push((order[one], order[other]));
            }
        }
        // a gap back, which closes a ring whose distances sum to zero
        if random.once_in(4) {
            let (from, to) = random.pick(&self.links);
            self.links.push((to, from));
            self.joins = &[Join::Exact, Join::Exact, Join::Opposite];
        }
        self
    }

    /// So many labels are enough.
    fn labels(&self) -> i64 {
        self.weights.iter().map(|&w| labels_for(w)).sum()
    }

    /// Where a group stands, but for whole units.
    fn place(&self, group: usize) -> Fraction {
        Fraction::new(self.parts[group].into(), self.weights[group].into())
    }
}

/// The number below the modulus that leaves 1 when it is multiplied by this one; the two have no common divisor.
fn inverse(of: i64, modulus: i64) -> i64 {
    let (mut r, mut s) = ((modulus, of.rem_euclid(modulus)), (0, 1));
    while r.1 > 0 {
        let times = r.0 / r.1;
        r = (r.1, r.0 - times * r.1);
        s = (s.1, s.0 - times * s.1);
    }
    s.0.rem_euclid(modulus)
}

fn coprime(one: i64, other: i64) -> bool {
    gcd(one.unsigned_abs(), other.unsigned_abs()) == 1
}

/// One group beside others of a second weight. Those stand at the same part of a unit, so that they touch: where the
/// first pushes one by a hair, that one pushes the next.
fn two_fractions(random: &mut Random) -> Plan {
    loop {
        let (one, r) = (
            random.between(1_000, 3_400),
            random.pick(&[1, 1, 1, 2, 3, 5]),
        );
        let more = random.pick(&[80, 80, 1_200]);
        let other = r * PRODUCT / one + random.between(1, more);
        let most = (48 - labels_for(one)) / labels_for(other);
        if most > 0 && coprime(one, other) {
            let any = random.between(1, most);
            let others = random.pick(&[most, any, 1]) as usize;
            let mut weights = vec![other; 1 + others];
            weights[0] = one;
            return Plan::new(weights, random.pick(&[r, -r])).linked(random);
        }
    }
}

/// Two groups, and a third that stands between them: just where they meet if one pushes the other.
fn three_fractions(random: &mut Random) -> Plan {
    loop {
        let (one, other) = (random.between(1_005, 1_100), random.between(1_005, 1_100));
        if coprime(one, other) {
            let weights = vec![one, other, one + other];
            return Plan::new(weights, random.pick(&[1, -1])).linked(random);
        }
    }
}

/// A light group with gaps to two heavy ones that lack so much that the doubles see both. They come to the second group
/// first and make the gap to it tight, which leaves the gap to the third lacking by a hair. Where that one is tight,
/// the other need not be: it has to be let go.
fn lets_go(random: &mut Random) -> Plan {
    loop {
        let (light, third) = (random.between(180, 400), random.between(1_250, 1_700));
        let second = third + 2 * light;
        let seen = light * second < 950_000;
        let hidden = third * (third + 3 * light) > 3 * PRODUCT;
        if seen && hidden && coprime(light, third) {
            let plan = Plan {
                joins: &[Join::Exact],
                links: vec![(0, 2)],
                seen: Some((0, 1)),
                ..Plan::new(vec![light, second, third], 1)
            };
            if plan.labels() <= 48 {
                return plan;
            }
        }
    }
}

/// Adds the groups of a plan to a sheet, in any order. Where the doubles see a gap, label 0 is in the group that they
/// are to come to first.
fn groups(random: &mut Random, sheet: &mut Sheet, plan: &Plan) -> Vec<Group> {
    let mut order: Vec<usize> = (0..plan.weights.len()).collect();
    match plan.seen {
        Some((_, first)) => order.swap(0, first),
        None => random.shuffle(&mut order),
    }
    let spread = random.pick(&[0, 30, 6_000]);
    let far = random.pick(&[0, 5_000, 90_000]);
    let middle = random.between(-far, far);
    let mut spare = 48 - plan.labels();
    let mut groups: Vec<(usize, Group)> = Vec::new();
    for g in order {
        let more = random.between(0, spare);
        spare -= more;
        let weights = split(random, plan.weights[g], labels_for(plan.weights[g]) + more);
        let group = Group {
            labels: (0..weights.len()).map(|k| sheet.labels() + k).collect(),
            offset: weights.iter().map(|_| random.between(0, spread)).collect(),
            whole: middle + random.between(-2_000, 2_000),
            join: random.pick(plan.joins),
        };
        group.add_labels(random, sheet, &weights, plan.parts[g]);
        group.hold_together(random, sheet);
        groups.push((g, group));
    }
    groups.sort_by_key(|&(g, _)| g);
    groups.into_iter().map(|(_, group)| group).collect()
}

/// The weights of so many labels that weigh so much together. One of them is 1.
fn split(random: &mut Random, weight: i64, labels: i64) -> Vec<i64> {
    let mut weights = vec![1];
    let mut rest = weight - 1;
    for more in (0..labels - 1).rev() {
        let next = random.between(1.max(rest - 100 * more), 100.min(rest - more));
        weights.push(next);
        rest -= next;
    }
    random.shuffle(&mut weights);
    weights
}

impl Group {
    /// Adds the labels of the group, wanted so that it stands at its whole units and this part of a unit, over its
    /// weight.
    fn add_labels(&self, random: &mut Random, sheet: &mut Sheet, weights: &[i64], part: i64) {
        let all: i64 = weights.iter().sum();
        let size = random.pick(&[0, 9, 300, 20_000]);
        let step = all / 2 + random.between(1, 300);
        // how far each is wanted from where it stands in the group
        let mut away: Vec<i64> = (0..weights.len() as i64)
            .map(|k| match self.join {
                Join::Pushed => -k * step,
                _ => random.between(-size, size),
            })
            .collect();
        // a label of weight 1 makes up for any part of a unit
        let sum = |away: &[i64]| -> i64 { away.iter().zip(weights).map(|(a, w)| a * w).sum() };
        let one = weights.iter().position(|&w| w == 1).expect("a weight of 1");
        let more = (part - sum(&away)).rem_euclid(all);
        away[one] += if more > all / 2 { more - all } else { more };
        let whole = self.whole - (sum(&away) - part) / all;
        for k in 0..weights.len() {
            sheet.label(whole + away[k] + self.offset[k], weights[k]);
        }
    }

    /// Adds the gaps that hold the group together.
    fn hold_together(&self, random: &mut Random, sheet: &mut Sheet) {
        let tree = self.join == Join::Exact && random.once_in(2);
        for k in 1..self.labels.len() {
            let near = if tree { random.below(k) } else { k - 1 };
            let turned = self.join != Join::Pushed && random.once_in(2);
            let (one, other) = if turned { (k, near) } else { (near, k) };
            let distance = self.offset[other] - self.offset[one];
            let (left, right) = (self.labels[one], self.labels[other]);
            if self.join == Join::Exact {
                sheet.same(left, right, distance);
            } else {
                sheet.gap(left, right, distance);
            }
            if self.join == Join::Opposite {
                sheet.gap(right, left, -distance);
            }
        }
    }

    /// Where a gap to another group may begin: in a chain at the last label, to which the doubles come when they have
    /// seen the others.
    fn exit(&self, random: &mut Random) -> usize {
        match self.join {
            Join::Pushed => self.labels.len() - 1,
            _ => random.below(self.labels.len()),
        }
    }
}

/// Adds a gap from a label of a group to one of another, with so much room but for parts of a unit, or more at the
/// limit of distances.
fn touch(random: &mut Random, sheet: &mut Sheet, from: &Group, to: &Group, room: i64) {
    let (one, other) = (from.exit(random), random.below(to.labels.len()));
    let apart = to.whole + to.offset[other] - from.whole - from.offset[one];
    let distance = (apart - room).max(-20_000);
    sheet.gap(from.labels[one], to.labels[other], distance);
}

/// Adds gaps that hold and push nothing, on some sheets as many as may be. None begins where the doubles would see a
/// part of a group before all of it, or come to the last group too early.
fn gaps_with_room(random: &mut Random, sheet: &mut Sheet, plan: &Plan, groups: &[Group]) {
    let begin: Vec<&Group> = groups[..groups.len() - plan.seen.iter().len()]
        .iter()
        .filter(|group| group.join != Join::Pushed)
        .collect();
    let most = 192 - sheet.gaps();
    let few = random.below(8);
    let count = if random.once_in(20) { most } else { few };
    for _ in 0..if begin.is_empty() { 0 } else { count } {
        let (from, to) = (random.pick(&begin), random.below(groups.len()));
        let most = random.pick(&[1, 40, 2_000]);
        let room = random.between(1, most);
        touch(random, sheet, from, &groups[to], room);
    }
}

impl Hair {
    /// Numbers the labels anew, but for label 0.
    fn number_labels_anew(&mut self, random: &mut Random) {
        let mut number: Vec<usize> = (0..self.sheet.labels()).collect();
        random.shuffle(&mut number[1..]);
        self.sheet = self.sheet.with_labels_numbered(&number);
        let before = self.group.clone();
        number
            .iter()
            .zip(before)
            .for_each(|(&i, g)| self.group[i] = g);
    }

    /// Numbers the gaps anew.
    fn number_gaps_anew(&mut self, random: &mut Random) {
        let mut order: Vec<usize> = (0..self.sheet.gaps()).collect();
        random.shuffle(&mut order);
        self.sheet = self.sheet.with_gaps(&order);
        let before = std::mem::take(&mut self.lacking);
        self.lacking = (0..order.len())
            .filter(|&e| before.contains(&order[e]))
            .collect();
    }
}
