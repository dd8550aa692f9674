//! Laws of pairs of calls: the largest move, and the carried record, which never changes a place.
use crate::bench::plain;
use crate::call::Lent;
use crate::fraction::{Fraction, ZERO};
use crate::generate::{labels_only, sheet, SHAPES};
use crate::generated::Case;
use crate::random::Random;
use crate::sheet::{Sheet, EXACTLY};
use dirmoog::Answer;

/// The places that are printed for a sheet, from these buffers, if it is accepted.
pub fn places_in(lent: &mut Lent, sheet: &Sheet) -> Option<Vec<Fraction>> {
    let answer = lent.call(sheet);
    (answer == Answer::Placed).then(|| lent.records(sheet).places)
}

/// The same from any buffers.
fn places(random: &mut Random, sheet: &Sheet) -> Option<Vec<Fraction>> {
    places_in(
        &mut Lent::arbitrary(random, sheet.labels(), sheet.gaps()),
        sheet,
    )
}

/// The largest difference, without sign.
fn largest(one: &[Fraction], other: &[Fraction]) -> Fraction {
    one.iter()
        .zip(other)
        .map(|(&a, &b)| (a - b).magnitude())
        .fold(ZERO, Fraction::max)
}

/// Other wants for the same weights and gaps: all of them, or one a little.
pub fn other_wants(random: &mut Random, sheet: &Sheet) -> Sheet {
    let mut other = sheet.clone();
    if random.once_in(2) {
        other.wanted = labels_only(random, sheet.labels()).wanted;
    } else {
        let label = random.below(sheet.labels());
        let moved = other.wanted[label] + random.between(-9, 9);
        other.wanted[label] = moved.clamp(-200_000, 200_000);
    }
    other
}

fn wants(sheet: &Sheet) -> Vec<Fraction> {
    sheet.wanted.iter().map(|&d| Fraction::whole(d)).collect()
}

/// The sheet of a pair that was accepted, if it was; then no place moved further than the want that moved furthest.
fn largest_move_holds(seed: u64) -> Option<Sheet> {
    let _case = Case(seed);
    let mut random = Random::new(seed);
    let shape = random.pick(&SHAPES);
    let most = random.pick(&[6, 12, 12, 48]);
    let first = sheet(&mut random, shape, 1..=most);
    let second = other_wants(&mut random, &first);
    let pair = (places(&mut random, &first), places(&mut random, &second));
    let (Some(one), Some(other)) = pair else {
        assert_eq!(pair, (None, None), "gaps alone decide on 9");
        return None;
    };
    assert!(largest(&one, &other) <= largest(&wants(&first), &wants(&second)));
    Some(first)
}

#[test]
fn largest_move() {
    let accepted: Vec<Sheet> = (0..12_000)
        .filter_map(|case| largest_move_holds(10_000_000 + case))
        .collect();
    let exact = accepted
        .iter()
        .filter(|sheet| sheet.kind.contains(&EXACTLY));
    let (accepted, exact) = (accepted.len(), exact.count());
    println!("largest move: {accepted} accepted pairs, {exact} with exact gaps");
    assert!(accepted > 6_000 && exact > 3_000);
}

/// Two sheets have the same gaps only if their gaps agree in kind too: here no want moves, and places do.
#[test]
fn kinds_are_part_of_the_gaps() {
    let mut random = Random::new(10_500_000);
    let at_least = plain(&[0, 10], &[(0, 1, 6)]);
    let mut exact = at_least.clone();
    exact.kind[0] = EXACTLY;
    let [one, other] = [at_least, exact].map(|sheet| places(&mut random, &sheet).expect("places"));
    assert_eq!(one, [0, 10].map(Fraction::whole));
    assert_eq!(other, [2, 8].map(Fraction::whole));
    assert_eq!(largest(&one, &other), Fraction::whole(2));
}

/// Calls with several carried records: zeros, ones, the outgoing record of the call before, and any bytes.
fn same_for_any_record(seed: u64) {
    let _case = Case(seed);
    let mut random = Random::new(seed);
    let shape = random.pick(&SHAPES);
    let sheet = sheet(&mut random, shape, 0..=48);
    let (labels, gaps) = (sheet.labels(), sheet.gaps());
    let mut lent = Lent::zeros(labels, gaps);
    let answer = lent.call(&sheet);
    let first = lent.clone();
    for round in 0..4 {
        match round {
            0 => (),
            1 => lent.carried.fill(1),
            _ => lent = Lent::arbitrary(&mut random, labels, gaps),
        }
        let again = lent.call(&sheet);
        let refused = answer != Answer::Placed;
        assert_eq!(again == Answer::Placed, !refused);
        assert!(refused || lent.records(&sheet).places == first.places(labels));
    }
}

#[test]
fn any_carried_record() {
    (0..4_000).for_each(|case| same_for_any_record(11_000_000 + case));
}
