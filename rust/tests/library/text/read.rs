//! The library's reader beside the second one.
use super::reader::{read, Refused};
use super::typed::{damage, misplaced, slipped, typed, Slipped};
use crate::generate::{sheet, BLANK_WEIGHT, SHAPES};
use crate::generated::Case;
use crate::random::Random;
use crate::sheet::{labels_text, Sheet, AT_LEAST, EXACTLY};
use dirmoog::{read_sheet, Counts, Lists, Reading, Refusal, TextRefusal};
use std::collections::BTreeMap;

/// Lists of arbitrary contents with these lengths.
fn any_lists(random: &mut Random, lengths: [usize; 6]) -> Sheet {
    let mut signed = |count: usize| (0..count).map(|_| random.next() as i64).collect();
    let (wanted, weight, distance) = (signed(lengths[0]), signed(lengths[1]), signed(lengths[4]));
    let mut numbers = |count: usize| (0..count).map(|_| random.next()).collect();
    let (left, right) = (numbers(lengths[2]), numbers(lengths[3]));
    Sheet {
        wanted,
        weight,
        left,
        right,
        distance,
        kind: (0..lengths[5]).map(|_| random.next() as u8).collect(),
    }
}

fn lengths(lists: &Sheet) -> [usize; 6] {
    [
        lists.wanted.len(),
        lists.weight.len(),
        lists.left.len(),
        lists.right.len(),
        lists.distance.len(),
        lists.kind.len(),
    ]
}

/// The front of a list as it was read, and the rest as it was before.
fn filled<T: Copy>(read: &[T], before: &[T]) -> Vec<T> {
    [read, &before[read.len()..]].concat()
}

/// What the second reader makes of a text and these lists: 4 where a list is too short.
fn expected(text: &[u8], before: &Sheet) -> (Reading, Sheet) {
    let refused = |(number, place, field): Refused| {
        let ring = 0;
        let refusal = Refusal {
            number,
            place,
            ring,
        };
        let answer = Reading::Refused(TextRefusal { refusal, field });
        (answer, before.clone())
    };
    let sheet = match read(text) {
        Ok(sheet) => sheet,
        Err(refusal) => return refused(refusal),
    };
    let needed = lengths(&sheet);
    if needed
        .iter()
        .zip(lengths(before))
        .any(|(&needed, there)| there < needed)
    {
        return refused((4, 0, 0));
    }
    let counts = Counts {
        labels: sheet.labels() as u64,
        gaps: sheet.gaps() as u64,
    };
    let after = Sheet {
        wanted: filled(&sheet.wanted, &before.wanted),
        weight: filled(&sheet.weight, &before.weight),
        left: filled(&sheet.left, &before.left),
        right: filled(&sheet.right, &before.right),
        distance: filled(&sheet.distance, &before.distance),
        kind: filled(&sheet.kind, &before.kind),
    };
    (Reading::Sheet(counts), after)
}

/// Reads a text into lists with the library.
pub fn read_into(text: &[u8], lists: &mut Sheet) -> Reading {
    let mut lent = Lists {
        wanted: &mut lists.wanted,
        weight: &mut lists.weight,
        left: &mut lists.left,
        right: &mut lists.right,
        distance: &mut lists.distance,
        kind: &mut lists.kind,
    };
    read_sheet(text, &mut lent)
}

/// Checks the library's answer and every list afterwards, and gives the refusal's number, place and field, or zeros.
fn check(text: &[u8], before: &Sheet) -> Refused {
    let mut after = before.clone();
    let reading = read_into(text, &mut after);
    let (answer, lists) = expected(text, before);
    assert_eq!(reading, answer, "{}", text.escape_ascii());
    assert!(after == lists, "lists of {}", text.escape_ascii());
    match reading.sheet() {
        Ok(_) => (0, 0, 0),
        Err(TextRefusal { refusal, field }) => (refusal.number, refusal.place, field),
    }
}

/// Lists that are mostly long enough.
fn lists_for(random: &mut Random, sheet: &Sheet) -> Sheet {
    let mut room = lengths(sheet).map(|length| length + random.below(4));
    if random.once_in(8) {
        let list = random.below(6);
        room[list] = random.below(room[list] + 1);
    }
    any_lists(random, room)
}

/// Checks so many generated texts with so many damages each, and counts the numbers.
fn run(seed: u64, cases: u64, damages: usize) -> BTreeMap<u64, u64> {
    let mut numbers = BTreeMap::new();
    for seed in seed..seed + cases {
        let _case = Case(seed);
        let mut random = Random::new(seed);
        let shape = random.pick(&SHAPES);
        let most = random.pick(&[3, 3, 10, 48]);
        let sheet = sheet(&mut random, shape, 0..=most);
        let mut text = typed(&mut random, &sheet);
        for _ in 0..damages {
            damage(&mut random, &mut text);
        }
        let lists = lists_for(&mut random, &sheet);
        let (number, _, _) = check(&text, &lists);
        *numbers.entry(number).or_insert(0) += 1;
    }
    println!("texts with {damages} damages, by number: {numbers:?}");
    numbers
}

#[test]
fn good_texts() {
    let numbers = run(20_000_000, 10_000, 0);
    assert!(numbers[&0] > 8_000 && numbers[&4] > 100);
}

#[test]
fn damaged_texts() {
    let once = run(21_000_000, 60_000, 1);
    assert!(once[&0] > 2_000);
    let thrice = run(22_000_000, 20_000, 3);
    for number in [10, 13, 14] {
        assert!(once[&number] > 5_000 && thrice[&number] > 2_000, "{number}");
    }
    assert!(once[&15] > 200 && thrice[&15] > 80);
}

/// Answers by number and field: all, those behind more than 48 labels, which 1 would refuse, and those to the line of an
/// exact gap.
#[derive(Default)]
struct Answers {
    all: BTreeMap<(u64, u64), u64>,
    beyond: BTreeMap<(u64, u64), u64>,
    exact: BTreeMap<(u64, u64), u64>,
}

/// Checks so many generated texts with slips: what must be answered is known from where the slips were made.
fn run_slips(seed: u64, cases: u64, slips: impl Fn(&mut Random, &Sheet) -> Slipped) -> Answers {
    let mut answers = Answers::default();
    for seed in seed..seed + cases {
        let _case = Case(seed);
        let mut random = Random::new(seed);
        let shape = random.pick(&SHAPES);
        let labels = random.pick(&[(1, 3), (1, 10), (11, 48), (49, 70)]);
        let sheet = sheet(&mut random, shape, labels.0..=labels.1);
        let Slipped {
            text,
            told,
            labels,
            exact,
        } = slips(&mut random, &sheet);
        let lists = lists_for(&mut random, &sheet);
        assert_eq!(check(&text, &lists), told, "{}", text.escape_ascii());
        let (number, _, field) = told;
        let count = |counts: &mut BTreeMap<_, _>, counted: bool| {
            *counts.entry((number, field)).or_insert(0) += u64::from(counted);
        };
        count(&mut answers.all, true);
        count(&mut answers.beyond, labels > 48);
        count(&mut answers.exact, exact);
    }
    answers
}

#[test]
fn slipped_texts() {
    let Answers { all, beyond, exact } = run_slips(26_000_000, 60_000, slipped);
    println!("texts with slips, by number and field: {all:?}");
    println!("those behind more than 48 labels: {beyond:?}");
    println!("those to the line of an exact gap: {exact:?}");
    for answer in [(10, 0), (13, 1), (14, 2), (14, 3), (14, 4), (15, 2)] {
        assert!(all[&answer] > 4_000 && beyond[&answer] > 300, "{answer:?}");
    }
    for answer in [(10, 0), (13, 1), (14, 2), (14, 3), (14, 4)] {
        assert!(exact[&answer] > 300, "{answer:?}");
    }
    assert!(all[&(11, 0)] > 1_000);
}

#[test]
fn misplaced_labels() {
    let Answers { all, beyond, .. } = run_slips(27_000_000, 10_000, misplaced);
    println!(
        "labels typed twice or left out, by number and field: {all:?}, behind more than 48 {beyond:?}"
    );
    assert!(all[&(15, 2)] == 10_000 && beyond[&(15, 2)] > 300);
}

/// Texts of so many labels and gaps, with room for all or none.
#[test]
fn many_records() {
    let mut random = Random::new(23_000_000);
    for (labels, gaps, number) in [
        (48, 192, 0),
        (49, 0, 1),
        (49, 193, 1),
        (700, 0, 1),
        (0, 193, 2),
        (0, 0, 0),
    ] {
        let mut sheet = Sheet::default();
        (0..labels).for_each(|i| sheet.label(i, [1, BLANK_WEIGHT][i as usize % 2]));
        (0..gaps).for_each(|e| sheet.add(0, 0, 0, [AT_LEAST, EXACTLY][e % 2]));
        let text = typed(&mut random, &sheet);
        let room = lengths(&sheet).map(|length| length + 1);
        let lists = any_lists(&mut random, room);
        assert_eq!(check(&text, &lists), (number, 0, 0));
        let short = if number == 0 && labels > 0 { 4 } else { number };
        assert_eq!(check(&text, &Sheet::default()), (short, 0, 0));
    }
}

/// The list of kinds is too short, and all others have room: 4 covers it too.
#[test]
fn short_kinds() {
    let mut random = Random::new(29_000_000);
    for text in [
        &b"same,0,0,0\nsame,0,0,0\n"[..],
        b"gap,0,0,0\nsame,0,0,0\n",
        b"gap,0,0,0\ngap,0,0,0\n",
    ] {
        for (kinds, number) in [(0, 4), (1, 4), (2, 0), (3, 0)] {
            let lists = any_lists(&mut random, [9, 9, 9, 9, 9, kinds]);
            assert_eq!(check(text, &lists), (number, 0, 0));
        }
    }
}

/// A bad line far behind the last that a byte could count.
#[test]
fn bad_line_far_behind() {
    let lists = any_lists(&mut Random::new(28_000_000), [1; 6]);
    let labels = labels_text(300) + "label,44,0,1\n";
    assert_eq!(check(labels.as_bytes(), &lists), (15, 301, 2));
    let gaps = "gap,0,0,0\n".repeat(1_000) + "x\n";
    assert_eq!(check(gaps.as_bytes(), &lists), (10, 1_001, 0));
}

/// A text of 16,384 bytes is read, and one byte more is refused whatever it holds.
#[test]
fn longest_text() {
    let lists = any_lists(&mut Random::new(24_000_000), [1; 6]);
    let mut long = b"label,000000000,000000000,000000001\n".repeat(456);
    long.truncate(16_384);
    assert_eq!(check(&long, &lists), (15, 2, 2));
    long.push(b'\n');
    assert_eq!(check(&long, &lists), (11, 0, 0));
    assert_eq!(check(&[0; 20_000], &lists), (11, 0, 0));
    let gaps = b"gap,0,0,00000\n".repeat(1_170);
    assert_eq!(check(&gaps, &lists), (2, 0, 0));
}

/// Texts without a bad line.
const GOOD_LINES: [&[u8]; 13] = [
    b"label,0,5,2",
    b"label,0,-5,",
    b"label,000,-000,1\r\n",
    b"gap,7,9,-1\n",
    b"",
    b"gap,0,0,999999999",
    b"label,0,-999999999,999999999\n",
    b"gap,0,0,0\ngap,0,0,0",
    b"gap,0,0,-0\r\ngap,0,0,0\n",
    b"same,7,9,-1\n",
    b"same,000,0,-999999999\r\n",
    b"same,0,0,0\ngap,0,0,0\nsame,0,0,0",
    b"gap,0,0,0\nsame,0,0,0\r\nlabel,0,0,\n",
];

/// Texts whose first line is bad, each with what documents 01 and 02 say of it: the number and the field.
const BAD_LINES: [(&[u8], u64, u64); 43] = [
    (b"label,1,5,2", 15, 2),
    (b"label,0,5", 10, 0),
    (b"label,0,5,2,", 10, 0),
    (b"label,0,,2", 14, 3),
    (b"label,,5,2", 14, 2),
    (b"Label,0,5,2", 13, 1),
    (b"label ,0,5,2", 13, 1),
    (b"label,0,5,-2", 14, 4),
    (b"label,0,5, ", 14, 4),
    (b"label,-0,5,2", 14, 2),
    (b"gap,-1,0,0", 14, 2),
    (b"gap,0,-0,0", 14, 3),
    (b"gap,0,0,", 14, 4),
    (b"gap,0,0,-", 14, 4),
    (b"gap,0,0,+1", 14, 4),
    (b"gap,0,0,--1", 14, 4),
    (b"gap,0,0,1000000000", 14, 4),
    (b"label,0,5,2\r", 14, 4),
    (b"\"label\",0,5,2", 13, 1),
    (b"\n", 10, 0),
    (b"\r\n", 10, 0),
    (b"\r", 10, 0),
    (b"label,0,5\r,2\n", 14, 3),
    // more than one thing is wrong
    (b"x,y,z", 10, 0),
    (b"x,,,,", 10, 0),
    (b"x,,,", 13, 1),
    (b"gap,,,", 14, 2),
    (b"label,1,x,y", 14, 3),
    (b"label,1,5,\0", 14, 4),
    (b"label,0000000001,5,2", 14, 2),
    // exact gaps
    (b"same,0,0", 10, 0),
    (b"same,0,0,0,", 10, 0),
    (b"Same,0,0,0", 13, 1),
    (b"same ,0,0,0", 13, 1),
    (b"sam,0,0,0", 13, 1),
    (b"samee,0,0,0", 13, 1),
    (b"\"same\",0,0,0", 13, 1),
    (b"1,0,0,0", 13, 1),
    (b"same,-1,0,0", 14, 2),
    (b"same,0,,0", 14, 3),
    (b"same,0,0,", 14, 4),
    (b"same,0,0,+1", 14, 4),
    (b"same,0,0,0\r", 14, 4),
];

#[test]
fn single_lines() {
    let lists = any_lists(&mut Random::new(25_000_000), [4; 6]);
    for text in GOOD_LINES {
        assert_eq!(check(text, &lists), (0, 0, 0), "{}", text.escape_ascii());
    }
    for (text, number, field) in BAD_LINES {
        let told = check(text, &lists);
        assert_eq!(told, (number, 1, field), "{}", text.escape_ascii());
    }
}
