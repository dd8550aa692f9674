//! Calls on little stack: 32 KiB are enough, as include/dirmoog.h says. Where a call needs more, its thread overruns
//! the stack, and the tests end there.
use crate::call::{refused_at, Lent};
use crate::generate::{sheet, SHAPES};
use crate::generated::Case;
use crate::hair::hair;
use crate::random::Random;
use crate::sheet::Sheet;
use crate::text::writer::listing;
use dirmoog::{read_sheet, round, round_half_up, slack, write_listing};
use dirmoog::{Answer, Counts, Fraction, Listable, Listed, Lists, Reading, Rounded, SlackAnswer};
use std::thread::{scope, Builder};

const STACK: usize = 32 * 1024;

/// Works in a thread that has so much stack in all, its own share included.
fn on_little<T: Send>(work: impl FnOnce() -> T + Send) -> T {
    scope(|threads| {
        let little = Builder::new().stack_size(STACK);
        let thread = little.spawn_scoped(threads, work).expect("a thread");
        thread.join().expect("an answer")
    })
}

/// A call on a sheet.
fn layout(mut lent: Lent, sheet: &Sheet) {
    let mut again = lent.clone();
    let answer = on_little(|| lent.call(sheet));
    assert_eq!(answer, again.call(sheet));
    assert_eq!(lent, again);
    if answer == Answer::Placed {
        again.records(sheet);
    }
}

#[test]
fn layouts() {
    for seed in 0..900 {
        let _case = Case(seed);
        let mut random = Random::new(seed);
        let shape = random.pick(&SHAPES);
        let sheet = sheet(&mut random, shape, 40..=48);
        let lent = Lent::arbitrary(&mut random, sheet.labels(), sheet.gaps());
        layout(lent, &sheet);
    }
}

/// Sheets on which the outer loop runs and finds no ring.
#[test]
fn layouts_with_a_hair() {
    for seed in 0..300 {
        let _case = Case(seed);
        let mut random = Random::new(seed);
        let sheet = hair(&mut random).sheet;
        layout(Lent::zeros(sheet.labels(), sheet.gaps()), &sheet);
    }
}

#[test]
fn texts() {
    let mut text = String::new();
    (0..48).for_each(|i| text += &format!("label,{i},-200000,100\r\n"));
    (0..192).for_each(|_| text += "same,0,47,-20000\r\n");
    let (mut wanted, mut weight) = ([0; 48], [0; 48]);
    let (mut left, mut right, mut distance) = ([0; 192], [0; 192], [0; 192]);
    let mut kind = [0; 192];
    let mut lists = Lists {
        wanted: &mut wanted,
        weight: &mut weight,
        left: &mut left,
        right: &mut right,
        distance: &mut distance,
        kind: &mut kind,
    };
    let (labels, gaps) = (48, 192);
    let counts = Counts { labels, gaps };
    let reading = on_little(|| read_sheet(text.as_bytes(), &mut lists));
    assert_eq!(reading, Reading::Sheet(counts));
    text += "same,0,47,-";
    let reading = on_little(|| read_sheet(text.as_bytes(), &mut lists));
    let told = reading.sheet().expect_err("a bad number");
    assert_eq!((told.refusal.number, told.refusal.place), (14, 241));
    assert_eq!(told.field, 4);
}

/// The most labels and gaps, the most digits, and slacks to be taken.
#[test]
fn listings() {
    let (mut place_num, mut place_den) = ([i64::MIN; 48], [i64::MIN; 48]);
    (place_num[0], place_den[0]) = (-5_472_000_000, 4_799);
    (place_num[47], place_den[47]) = (5_471_999_999, 4_800);
    let lists = Listable {
        place_num: &place_num,
        place_den: &place_den,
        left: &[0; 192],
        right: &[47; 192],
        distance: &[-20_000; 192],
    };
    let expected = listing(Answer::Placed, 0, &lists);
    let mut text = vec![0; expected.len()];
    let listed = on_little(|| write_listing(Answer::Placed, 0, &lists, &mut text));
    assert_eq!(listed, Listed::Written(expected.len() as u64));
    assert_eq!(text, expected);
    let mut text = [0; 80];
    let answer = refused_at(u64::MAX, u64::MAX);
    let listed = on_little(|| write_listing(answer, u64::MAX, &lists, &mut text));
    assert_eq!(listed, Listed::Written(72));
}

#[test]
fn single_fractions() {
    assert_eq!(on_little(|| round(-3, 2)), Rounded::Whole(-2));
    assert_eq!(on_little(|| round_half_up(-3, 2)), Rounded::Whole(-1));
    let place = |num, den| Fraction { num, den };
    let (left, right) = (place(-5_472_000_000, 4_799), place(5_471_999_999, 4_800));
    let most = place(52_986_431_995_201, 23_035_200);
    let answer = on_little(|| slack(left, right, -20_000));
    assert_eq!(answer, SlackAnswer::Slack(most));
}
