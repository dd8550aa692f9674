//! Sheets that the proposal of a call does not settle, so that the outer loop has to: those with a ring, and those on
//! which a gap lacks by a hair. Beside them, sheets that are hard to propose for, since their labels are wanted against
//! their gaps.
//!
//! A call does not tell whether the outer loop ran. The program `hard_sheets` of the repository does, and the gate
//! holds what it writes to its file `stdout`. Here the library is checked on the very texts that the program is run
//! on, and the program's word on the outer loop is held to the kind of the sheet.
use crate::call::{check_call, checked_call, Checked, Lent, Outcome};
use crate::fraction::{Fraction, ZERO};
use crate::generate::hard;
use crate::generated::Case;
use crate::hair::{hair, Hair};
use crate::random::Random;
use crate::sheet::{Sheet, EXACTLY};
use crate::solver;
use crate::text::reader::read;
use std::collections::BTreeSet;
use std::fmt::Write;
use std::path::Path;

/// A text of the program with its name, and the program's lines on it, one for each of its carried records.
struct Told {
    name: String,
    text: String,
    lines: Vec<String>,
}

/// A file of the program.
fn file(name: &str) -> String {
    let program = Path::new(env!("CARGO_MANIFEST_DIR")).join("../crates/hard_sheets");
    std::fs::read_to_string(program.join(name)).expect("a file of the program hard_sheets")
}

/// The texts of the program with what it says, and in how many calls the outer loop ran, as it says.
fn told() -> (Vec<Told>, usize) {
    let (texts, said) = (file("stdin"), file("stdout"));
    let mut said = said.lines();
    let entries = texts.strip_suffix('\0').expect("a byte 0 behind each");
    let told = entries
        .split('\0')
        .map(|entry| {
            let (name, text) = entry.split_once('\n').expect("a name in front of each");
            assert_eq!(said.next(), Some(name));
            Told {
                name: name.to_string(),
                text: text.to_string(),
                lines: said.by_ref().take(3).map(String::from).collect(),
            }
        })
        .collect();
    let ran = said
        .next()
        .and_then(|line| line.strip_prefix("calls in which the outer loop ran: "))
        .and_then(|count| count.parse().ok());
    (told, ran.expect("a count"))
}

/// The carried records of the program: zeros, ones, and every second gap marked.
fn records(gaps: usize) -> [(&'static str, Vec<u8>); 3] {
    let every_second = (0..gaps).map(|e| u8::from(e % 2 == 0)).collect();
    [
        ("zeros", vec![0; gaps]),
        ("ones", vec![1; gaps]),
        ("every second", every_second),
    ]
}

fn with_record(sheet: &Sheet, carried: Vec<u8>) -> Lent {
    Lent {
        carried,
        ..Lent::zeros(sheet.labels(), sheet.gaps())
    }
}

/// Whether the outer loop ran in a call of the program, which must give the library's answer in it.
fn outer_loop_ran(name: &str, record: &str, line: &str, outcome: Outcome) -> bool {
    let answer = match outcome {
        Outcome::Placed => "placed".to_string(),
        Outcome::Refused(number) => format!("refused {number}"),
    };
    let by = line
        .strip_prefix(&format!("  {record}: "))
        .and_then(|rest| rest.strip_suffix(&format!(", {answer}")));
    match by {
        Some("outer loop") => true,
        Some("proposal") => false,
        _ => panic!("{name}, {record}: the library says {answer}, the program {line}"),
    }
}

/// The library lays the program's sheets out as the second solver and the program say. The outer loop ran where the
/// sheet has a ring, and where a gap lacks by a hair; everywhere else the proposal was right.
#[test]
fn sheets_of_the_program() {
    let (told, ran) = told();
    let (mut placed, mut refused, mut settled) = (0, 0, 0);
    let mut joined = Vec::new();
    for told in told {
        let sheet = read(told.text.as_bytes()).expect("a sheet");
        for ((record, carried), line) in records(sheet.gaps()).into_iter().zip(&told.lines) {
            let outcome = check_call(&sheet, &with_record(&sheet, carried));
            let ran = outer_loop_ran(&told.name, record, line, outcome);
            if ran && sheet.kind.contains(&EXACTLY) {
                joined.push(outcome);
            }
            match outcome {
                _ if !ran => settled += 1,
                Outcome::Placed => placed += 1,
                Outcome::Refused(_) => refused += 1,
            }
            // marks that are carried may be right where a gap lacks by a hair
            let hair = told.name.starts_with("hair ");
            let expected = hair || outcome == Outcome::Refused(9);
            assert!(ran == expected || hair && record != "zeros", "{line}");
        }
    }
    println!("by the outer loop {placed} placed and {refused} refused, by the proposal {settled}");
    assert_eq!(placed + refused, ran);
    assert!(placed >= 14 && refused >= 21 && settled >= 70);
    // of sheets with exact gaps, too, it placed one and refused one
    assert!(joined.contains(&Outcome::Placed) && joined.contains(&Outcome::Refused(9)));
}

/// The text of a sheet, its labels first.
fn plain_text(sheet: &Sheet) -> String {
    let mut text = String::new();
    for (i, (wanted, weight)) in sheet.wanted.iter().zip(&sheet.weight).enumerate() {
        writeln!(text, "label,{i},{wanted},{weight}").expect("a string takes all");
    }
    for gap in sheet.all_gaps() {
        let (left, right, distance) = (gap.left, gap.right, gap.distance);
        let word = ["gap", "same"][usize::from(gap.exact)];
        writeln!(text, "{word},{left},{right},{distance}").expect("a string takes all");
    }
    text
}

/// What the program says of its sheets `family 0`, `family 1` and so on, or of others of such a name: they are the
/// first of a family.
fn told_of(family: &str, sheet: fn(&mut Random) -> Sheet) -> Vec<Told> {
    let of_family = |told: &Told| told.name.split(' ').next() == Some(family);
    let told: Vec<Told> = told().0.into_iter().filter(of_family).collect();
    for (seed, told) in told.iter().enumerate() {
        assert_eq!(told.name, format!("{family} {seed}"));
        let sheet = sheet(&mut Random::new(seed as u64));
        assert_eq!(plain_text(&sheet), told.text);
    }
    told
}

/// Of the family of hard sheets, the program's are settled by the proposal, whatever is carried, but for those with a
/// ring.
#[test]
fn family_of_the_program() {
    let (mut placed, mut refused) = (0, 0);
    for line in told_of("family", hard).iter().flat_map(|told| &told.lines) {
        match line.split_once(": ").map(|(_, said)| said) {
            Some("proposal, placed") => placed += 1,
            Some("outer loop, refused 9") => refused += 1,
            _ => panic!("{line}"),
        }
    }
    println!("hard sheets of the program: {placed} calls placed, {refused} refused");
    assert!(placed >= 27 && refused >= 9);
}

/// Of the family of sheets with a hair, the program's are all placed, by the outer loop where no mark is carried.
#[test]
fn hair_of_the_program() {
    let told = told_of("hair", |random| hair(random).sheet);
    for lines in told.iter().map(|told| &told.lines) {
        assert_eq!(lines[0], "  zeros: outer loop, placed");
        assert!(lines.iter().all(|line| line.ends_with(", placed")));
    }
    assert!(told.len() >= 8);
}

/// Calls on a sheet from the program's records, from the marks that a call leaves, and from any bytes.
fn calls(random: &mut Random, sheet: &Sheet) -> Vec<Checked> {
    let mut lent = Lent::zeros(sheet.labels(), sheet.gaps());
    lent.call(sheet);
    let any = Lent::arbitrary(random, sheet.labels(), sheet.gaps());
    let fresh = records(sheet.gaps()).map(|(_, carried)| with_record(sheet, carried));
    let befores = fresh.into_iter().chain([lent, any]);
    befores.map(|before| checked_call(sheet, &before)).collect()
}

#[test]
fn family() {
    let (mut placed, mut refused) = (0, 0);
    for seed in 0..2_000 {
        let _case = Case(seed);
        let mut random = Random::new(seed);
        let sheet = hard(&mut random);
        for called in calls(&mut random, &sheet) {
            match called.outcome {
                Outcome::Placed => placed += 1,
                Outcome::Refused(_) => refused += 1,
            }
        }
    }
    println!("hard sheets: {placed} calls placed, {refused} refused");
    assert!(placed > 8_000 && refused > 1_500);
}

/// A gap that lacks less than this holds for the doubles (`TOLERANCE` of `core_guess`).
const TOLERANCE: Fraction = Fraction {
    num: 1,
    den: 1_000_000,
};

/// Where the other gaps alone put the labels. There each of the gaps in question lacks, and less than the doubles see.
fn places_without(hair: &Hair) -> Vec<Fraction> {
    let others: Vec<usize> = (0..hair.sheet.gaps())
        .filter(|e| !hair.lacking.contains(e))
        .collect();
    let places = solver::solve(&hair.sheet.with_gaps(&others)).expect("places");
    let gaps = hair.sheet.all_gaps();
    for &e in &hair.lacking {
        let slack = gaps[e].slack(&places);
        assert!(slack < ZERO && slack.magnitude() < TOLERANCE, "{slack:?}");
    }
    assert!(!hair.lacking.is_empty());
    places
}

/// On how many sheets with a hair several gaps lack, some gap is exact, there are as many gaps as may be, or the last
/// one lacks; and on how many another gap that was tight opens, one that had room gets tight, or a group is pushed that
/// no lacking gap ends in.
#[derive(Debug, Default)]
struct Hairs {
    several: usize,
    exact: usize,
    full: usize,
    last: usize,
    opened: usize,
    closed: usize,
    pushed_on: usize,
}

impl Hairs {
    /// Counts a sheet by its places without the gaps that lack by a hair, and with them.
    fn count(&mut self, hair: &Hair, without: &[Fraction], with: &[Fraction]) {
        let gaps = hair.sheet.all_gaps();
        let lacking = hair.lacking.iter().map(|&e| gaps[e]);
        let ends: Vec<usize> = lacking
            .flat_map(|gap| [hair.group[gap.left], hair.group[gap.right]])
            .collect();
        let moved_on = |i: usize| with[i] != without[i] && !ends.contains(&hair.group[i]);
        let others = || (0..gaps.len()).filter(|e| !hair.lacking.contains(e));
        let tight = |e: usize| (gaps[e].is_tight(without), gaps[e].is_tight(with));
        let opened = others().any(|e| tight(e) == (true, false));
        let closed = others().any(|e| tight(e) == (false, true));
        self.several += usize::from(hair.lacking.len() > 1);
        self.exact += usize::from(hair.sheet.kind.contains(&EXACTLY));
        self.full += usize::from(gaps.len() == 192);
        self.last += usize::from(hair.lacking.contains(&(gaps.len() - 1)));
        self.opened += usize::from(opened);
        self.closed += usize::from(closed);
        self.pushed_on += usize::from(!opened && (0..with.len()).any(moved_on));
    }
}

/// Sheets with a hair, from the same records.
#[test]
fn hairs() {
    let (mut counts, mut numbers) = (Hairs::default(), BTreeSet::new());
    for seed in 0..2_000 {
        let _case = Case(seed);
        let mut random = Random::new(seed);
        let hair = hair(&mut random);
        let without = places_without(&hair);
        let calls = calls(&mut random, &hair.sheet);
        assert!(calls.iter().all(|call| call.outcome == Outcome::Placed));
        counts.count(&hair, &without, &calls[0].after.places(without.len()));
        numbers.extend(hair.lacking);
    }
    let many = numbers.len();
    println!("sheets with a hair, all placed: {counts:?}, gaps of {many} numbers lack");
    assert!(counts.several > 380 && counts.exact > 1_700 && counts.full > 85);
    assert!(counts.opened > 320 && counts.closed > 420 && counts.pushed_on > 260);
    assert!(counts.last > 95 && many > 120 && (0..80).all(|e| numbers.contains(&e)));
}
