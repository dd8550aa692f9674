//! The two laws for moved wants, document 02, Item 7: of two sheets that differ in wants only, whatever their calls are lent,
//! no place goes down if no want does, and the sum of weight times squared change of place is at most the sum of weight times
//! change of place times change of want.
use crate::bench::{placed, plain};
use crate::call::Lent;
use crate::fraction::{Fraction, ZERO};
use crate::generate::{sheet, SHAPES};
use crate::generated::Case;
use crate::laws::{other_wants, places_in};
use crate::random::Random;
use crate::sheet::{file, Sheet, EXACTLY};
use crate::text::reader::read;
use crate::wide::Wide;

/// Two sheets that differ in wants only, with places of each.
#[derive(Debug)]
struct Revision {
    first: Sheet,
    second: Sheet,
    one: Vec<Fraction>,
    other: Vec<Fraction>,
}

/// A label's weight, change of want and change of place.
struct Change {
    weight: i64,
    want: i64,
    place: Fraction,
}

impl Revision {
    /// By two calls of the library, each lent any buffers and any carried record, the second in half of the cases what the
    /// first left, if both sheets are accepted.
    fn laid(random: &mut Random, first: &Sheet, second: &Sheet) -> Option<Revision> {
        let mut lent = Lent::arbitrary(random, first.labels(), first.gaps());
        let one = places_in(&mut lent, first);
        if random.once_in(2) {
            lent = Lent::arbitrary(random, first.labels(), first.gaps());
        }
        let other = places_in(&mut lent, second);
        assert_eq!(one.is_some(), other.is_some(), "gaps alone decide on 9");
        Some(Revision {
            first: first.clone(),
            second: second.clone(),
            one: one?,
            other: other?,
        })
    }

    /// From the second to the first.
    fn turned(self) -> Revision {
        Revision {
            first: self.second,
            second: self.first,
            one: self.other,
            other: self.one,
        }
    }

    fn changes(&self) -> impl Iterator<Item = Change> + '_ {
        (0..self.first.labels()).map(|i| Change {
            weight: self.first.weight[i],
            want: self.second.wanted[i] - self.first.wanted[i],
            place: self.other[i] - self.one[i],
        })
    }

    fn no_want_down(&self) -> bool {
        self.changes().all(|change| change.want >= 0)
    }

    fn no_want_up(&self) -> bool {
        self.changes().all(|change| change.want <= 0)
    }

    fn no_place_down(&self) -> bool {
        self.changes().all(|change| change.place >= ZERO)
    }

    fn no_place_up(&self) -> bool {
        self.changes().all(|change| change.place <= ZERO)
    }

    /// The two sums, of sheets with few denominators.
    fn sums(&self) -> (Fraction, Fraction) {
        let add = |sums: (Fraction, Fraction), change: Change| {
            let moved = change.place * change.weight;
            let squared = Fraction::new(moved.num * change.place.num, moved.den * change.place.den);
            (sums.0 + squared, sums.1 + moved * change.want)
        };
        self.changes().fold((ZERO, ZERO), add)
    }

    /// The first sum less the second, of any sheets, as a numerator and a denominator above zero.
    fn surplus(&self) -> (Wide, Wide) {
        let add = |(num, den): (Wide, Wide), change: Change| {
            let Change {
                weight,
                want,
                place,
            } = change;
            let (w, d) = (i128::from(weight), i128::from(want));
            let term = w * place.num * (place.num - d * place.den);
            let square = Wide::from(place.den * place.den);
            (num * square + Wide::from(term) * den, den * square)
        };
        self.changes().fold((Wide::from(0), Wide::from(1)), add)
    }

    fn sums_are_equal(&self) -> bool {
        self.surplus().0 == Wide::from(0)
    }

    /// Both laws, the first both ways; the second is the same either way.
    fn laws_hold(&self) -> bool {
        let up = !self.no_want_down() || self.no_place_down();
        let down = !self.no_want_up() || self.no_place_up();
        let squares = self.sums_are_equal() || self.surplus().0.is_below_zero();
        up && down && squares
    }
}

// ---- worked examples

/// The library's places of the two sheets, which the solver has too, and the two sums.
fn revised(
    first: &Sheet,
    one: &[(i128, i128)],
    second: &Sheet,
    other: &[(i128, i128)],
    sums: [(i128, i128); 2],
) {
    placed(first, one);
    placed(second, other);
    let mut random = Random::new(17_500_000);
    let revision = Revision::laid(&mut random, first, second).expect("places");
    let [squared, matched] = sums.map(|(n, d)| Fraction::new(n, d));
    assert_eq!(revision.sums(), (squared, matched));
    let ((num, den), exact) = (revision.surplus(), squared - matched);
    assert!(num * Wide::from(exact.den) == den * Wide::from(exact.num));
    assert!(revision.laws_hold());
    assert!(revision.turned().laws_hold());
}

/// P3 to P4: a want goes up by 1, and both places by 1/2.
#[test]
fn a_half_each() {
    revised(
        &plain(&[0, 3], &[(0, 1, 6)]),
        &[(-3, 2), (9, 2)],
        &plain(&[1, 3], &[(0, 1, 6)]),
        &[(-1, 1), (5, 1)],
        [(1, 2), (1, 2)],
    );
}

/// The gap is tight in the first sheet alone.
#[test]
fn a_gap_that_opens() {
    revised(
        &plain(&[0, 0], &[(0, 1, 10)]),
        &[(-5, 1), (5, 1)],
        &plain(&[0, 20], &[(0, 1, 10)]),
        &[(0, 1), (20, 1)],
        [(250, 1), (300, 1)],
    );
}

/// Wants go both ways, and so do places.
#[test]
fn an_exact_gap_and_another() {
    let sheet = |wanted: &[i64]| {
        let mut sheet = plain(wanted, &[]);
        sheet.weight[1] = 2;
        sheet.same(0, 1, 4);
        sheet.gap(1, 2, 3);
        sheet
    };
    revised(
        &sheet(&[0, 0, 9]),
        &[(-8, 3), (4, 3), (9, 1)],
        &sheet(&[0, 5, 3]),
        &[(-1, 2), (7, 2), (13, 2)],
        [(61, 3), (110, 3)],
    );
}

/// Without the weights the law would not hold: 25 of 24.
#[test]
fn weights_count() {
    let sheet = |wanted: &[i64]| {
        let mut sheet = plain(wanted, &[(0, 1, 0)]);
        sheet.weight = vec![2, 3];
        sheet
    };
    revised(
        &sheet(&[5, 0]),
        &[(2, 1), (2, 1)],
        &sheet(&[5, 6]),
        &[(5, 1), (6, 1)],
        [(66, 1), (72, 1)],
    );
}

/// The wants of joined labels go by as much, one up and one down.
#[test]
fn joined_labels_that_stay() {
    let sheet = |wanted: &[i64]| {
        let mut sheet = plain(wanted, &[]);
        sheet.same(0, 1, 10);
        sheet
    };
    let places = [(-5, 1), (5, 1)];
    revised(
        &sheet(&[0, 0]),
        &places,
        &sheet(&[3, -3]),
        &places,
        [(0, 1), (0, 1)],
    );
}

/// The two sheets that the README compares, by the second reader.
#[test]
fn two_part_markers() {
    let [first, second] = ["two-part-markers.csv", "two-part-markers-revised.csv"]
        .map(|name| read(&file(name)).expect("a sheet"));
    let (last, before_last) = ((3115, 2), (2635, 2));
    revised(
        &first,
        &[(5, 1), (245, 1), (515, 1), (755, 1), before_last, last],
        &second,
        &[(10, 1), (250, 1), (560, 1), (800, 1), before_last, last],
        [(4_100, 1), (4_500, 1)],
    );
}

// ---- wrong places

/// A gap of 10 with wants 0, 0 and then these, and whole places of each.
fn wrong(second: [i64; 2], one: [i64; 2], other: [i64; 2]) -> Revision {
    Revision {
        first: plain(&[0, 0], &[(0, 1, 10)]),
        second: plain(&second, &[(0, 1, 10)]),
        one: one.map(Fraction::whole).to_vec(),
        other: other.map(Fraction::whole).to_vec(),
    }
}

/// The checks below would see wrong places.
#[test]
fn wrong_places_break_the_laws() {
    let goes_down = wrong([0, 20], [-5, 5], [-6, 15]);
    assert!(goes_down.no_want_down() && !goes_down.no_place_down());
    assert_eq!(
        goes_down.sums(),
        (Fraction::whole(101), Fraction::whole(200))
    );
    assert!(goes_down.surplus().0.is_below_zero());
    assert!(!goes_down.laws_hold());
    assert!(!goes_down.turned().laws_hold());

    let goes_along = wrong([0, 20], [-5, 5], [15, 25]);
    assert!(goes_along.no_want_down() && goes_along.no_place_down());
    assert_eq!(
        goes_along.sums(),
        (Fraction::whole(800), Fraction::whole(400))
    );
    assert!(!goes_along.laws_hold());
    assert!(!goes_along.turned().laws_hold());

    let moves_unasked = wrong([0, 0], [-5, 5], [5, 15]);
    assert_eq!(moves_unasked.sums(), (Fraction::whole(200), ZERO));
    assert!(!moves_unasked.laws_hold());

    assert!(wrong([0, 20], [-5, 5], [0, 20]).laws_hold());
}

// ---- random pairs

/// Wants that go up by up to a size, or stay.
fn wants_up(random: &mut Random, sheet: &Sheet) -> Sheet {
    let (size, times) = (
        random.pick(&[1, 30, 2_000, 100_000]),
        random.pick(&[1, 2, 8]),
    );
    let mut other = sheet.clone();
    for wanted in &mut other.wanted {
        if random.once_in(times) {
            *wanted = (*wanted + random.between(0, size)).min(200_000);
        }
    }
    other
}

/// What is counted of the pairs.
#[derive(Debug, Default)]
struct Counts {
    accepted: usize,
    exact: usize,
    none_down: usize,
    none_up: usize,
    both_ways: usize,
    equal: usize,
    less: usize,
}

impl Counts {
    fn count(&mut self, revision: &Revision) {
        let moved = revision.one != revision.other;
        let (down, up) = (revision.no_want_down(), revision.no_want_up());
        self.accepted += 1;
        self.exact += usize::from(moved && revision.first.kind.contains(&EXACTLY));
        self.none_down += usize::from(moved && down);
        self.none_up += usize::from(moved && up);
        self.both_ways += usize::from(moved && !down && !up);
        self.equal += usize::from(moved && revision.sums_are_equal());
        self.less += usize::from(!revision.sums_are_equal());
    }
}

/// A pair of the library's layouts, if both sheets were accepted; then both laws hold of it.
fn moved_wants_hold(seed: u64) -> Option<Revision> {
    let _case = Case(seed);
    let mut random = Random::new(seed);
    let shape = random.pick(&SHAPES);
    let most = random.pick(&[6, 12, 12, 48]);
    let first = sheet(&mut random, shape, 1..=most);
    let (any, up) = (random.once_in(3), random.once_in(2));
    let second = if any {
        other_wants(&mut random, &first)
    } else {
        wants_up(&mut random, &first)
    };
    let revision = Revision::laid(&mut random, &first, &second)?;
    let revision = if up { revision } else { revision.turned() };
    assert!(revision.laws_hold(), "{revision:?}");
    Some(revision)
}

#[test]
fn moved_wants() {
    let mut counts = Counts::default();
    (0..12_000)
        .filter_map(|case| moved_wants_hold(17_000_000 + case))
        .for_each(|revision| counts.count(&revision));
    println!("moved wants: {counts:?}");
    assert!(counts.accepted > 6_000 && counts.exact > 2_000);
    assert!(counts.none_down > 1_500 && counts.none_up > 1_500);
    assert!(counts.both_ways > 600 && counts.equal > 1_000 && counts.less > 1_000);
}
