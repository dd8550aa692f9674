//! Texts as people and programs type them, and what damages them.
use super::reader::Refused;
use crate::generate::BLANK_WEIGHT;
use crate::random::Random;
use crate::sheet::{Sheet, EXACTLY};
use std::collections::BTreeMap;

/// A line as it is typed: its fields and its end, and which label it is the record of, if of any; else whether of an
/// exact gap.
#[derive(Clone)]
struct Line {
    fields: Vec<Vec<u8>>,
    end: &'static [u8],
    label: Option<usize>,
    exact: bool,
}

/// The text of a sheet, in one of many ways: any line ends, leading zeros, blank weights, gaps before labels.
pub fn typed(random: &mut Random, sheet: &Sheet) -> Vec<u8> {
    text_of(&typed_lines(random, sheet))
}

fn text_of(lines: &[Line]) -> Vec<u8> {
    let text = |line: &Line| [&line.fields.join(&b','), line.end].concat();
    lines.iter().flat_map(text).collect()
}

fn typed_lines(random: &mut Random, sheet: &Sheet) -> Vec<Line> {
    let mut lines = Vec::new();
    let (mut labels, mut gaps) = (0, 0);
    while labels < sheet.labels() || gaps < sheet.gaps() {
        let (label, exact, record);
        if gaps == sheet.gaps() || (labels < sheet.labels() && !random.once_in(4)) {
            (label, exact) = (Some(labels), false);
            record = label_record(random, sheet, labels);
            labels += 1;
        } else {
            (label, exact) = (None, sheet.kind[gaps] == EXACTLY);
            record = gap_record(random, sheet, gaps);
            gaps += 1;
        }
        lines.push(Line {
            fields: record.map(String::into_bytes).into(),
            end: random.pick(&[&b"\r\n"[..], b"\n"]),
            label,
            exact,
        });
    }
    match lines.last_mut() {
        Some(last) if random.once_in(4) => last.end = b"",
        _ => (),
    }
    lines
}

fn label_record(random: &mut Random, sheet: &Sheet, label: usize) -> [String; 4] {
    let weight = match sheet.weight[label] {
        BLANK_WEIGHT if random.once_in(2) => String::new(),
        weight => digits(random, weight),
    };
    let number = digits(random, label as i64);
    let wanted = digits(random, sheet.wanted[label]);
    ["label".into(), number, wanted, weight]
}

fn gap_record(random: &mut Random, sheet: &Sheet, gap: usize) -> [String; 4] {
    let left = digits(random, sheet.left[gap] as i64);
    let right = digits(random, sheet.right[gap] as i64);
    let distance = digits(random, sheet.distance[gap]);
    let word = ["gap", "same"][usize::from(sheet.kind[gap] == EXACTLY)];
    [word.into(), left, right, distance]
}

/// Whether a label of a text without bad lines has a blank weight.
pub fn leaves_blank(text: &[u8]) -> bool {
    text.split(|&byte| byte == b'\n').any(|line| {
        let line = line.strip_suffix(b"\r").unwrap_or(line);
        line.starts_with(b"label,") && line.ends_with(b",")
    })
}

/// A number, now and then with leading zeros, of at most 9 digits.
fn digits(random: &mut Random, number: i64) -> String {
    let sign = if number < 0 { "-" } else { "" };
    let width = if random.once_in(6) {
        random.below(10)
    } else {
        1
    };
    format!("{sign}{:0width$}", number.unsigned_abs())
}

/// Pieces that break a rule, or nearly.
const PIECES: [&[u8]; 27] = [
    b",",
    b"\r",
    b"\n",
    b"\r\n",
    b"\r\r\n",
    b"\n\n",
    b"-",
    b"--1",
    b"+1",
    b" ",
    b"\"",
    b"0",
    b"-0",
    b"000000000",
    b"0000000000",
    b"999999999",
    b"1000000000",
    b"label",
    b"gap",
    b"same",
    b"Label",
    b"label,",
    b"same,",
    b"gap,0,0,0\n",
    b"same,0,0,0\n",
    b"label,0,0,\n",
    b"\0",
];

/// Puts a piece into the text, or takes a byte out, or changes one, or cuts it off.
pub fn damage(random: &mut Random, text: &mut Vec<u8>) {
    let at = random.below(text.len() + 1);
    match random.below(6) {
        0 if at < text.len() => {
            text.remove(at);
        }
        1 if at < text.len() => text[at] = random.next() as u8,
        2 if at < text.len() => text[at] = random.pick(b"0123456789,-\r\n"),
        3 => text.truncate(at),
        _ => {
            text.splice(at..at, random.pick(&PIECES).iter().copied());
        }
    }
}

/// A text with slips, what must be answered to it, how many labels are typed before the line that is told, and whether
/// that is an exact gap's.
pub struct Slipped {
    pub text: Vec<u8>,
    pub told: Refused,
    pub labels: usize,
    pub exact: bool,
}

impl Slipped {
    fn at(lines: &[Line], at: usize, (number, field): (u64, u64)) -> Slipped {
        let is_label = |line: &&Line| line.label.is_some();
        Slipped {
            text: text_of(lines),
            told: (number, at as u64 + 1, field),
            labels: lines[..at].iter().filter(is_label).count(),
            exact: lines[at].exact,
        }
    }
}

/// Types a sheet, which must have a record, with slips in some of its lines. What must be answered is known from where the
/// slips were made: the text is not read.
pub fn slipped(random: &mut Random, sheet: &Sheet) -> Slipped {
    let mut lines = typed_lines(random, sheet);
    let first = random.pick(&[0, 0, lines.len() / 2, lines.len() * 3 / 4]);
    let mut wrong = BTreeMap::new();
    for _ in 0..random.pick(&[1, 1, 1, 2, 4]) {
        let at = first + random.below(lines.len() - first);
        wrong
            .entry(at)
            .or_insert_with(|| slip(random, &mut lines[at]));
    }
    let (&at, &what) = wrong.first_key_value().expect("a slip");
    let mut slipped = Slipped::at(&lines, at, what);
    if random.once_in(30) {
        // too long a text, which comes before all slips
        slipped.text.resize(16_385 + random.below(90), b'\n');
        slipped.told = (11, 0, 0);
    }
    slipped
}

/// Types a sheet, which must have a label, and types a label's line once more further on, or leaves it out: then that line
/// or the next label's is out of turn.
pub fn misplaced(random: &mut Random, sheet: &Sheet) -> Slipped {
    let mut lines = typed_lines(random, sheet);
    lines.last_mut().expect("a line").end = b"\r\n";
    let labels: Vec<usize> = (0..lines.len())
        .filter(|&at| lines[at].label.is_some())
        .collect();
    let which = random.below(labels.len());
    let from = labels[which];
    let at = match labels.get(which + 1) {
        Some(next) if random.once_in(2) => {
            lines.remove(from);
            next - 1
        }
        _ => {
            let at = from + 1 + random.below(lines.len() - from);
            lines.insert(at, lines[from].clone());
            at
        }
    };
    Slipped::at(&lines, at, (15, 2))
}

/// Makes slips in a line and gives the number and the field of the worst. They are numbered by how bad they are: 0 in the
/// count of fields, 1 to 4 in that field, 5 in a label's turn. Those that are less bad come along once in three times.
fn slip(random: &mut Random, line: &mut Line) -> (u64, u64) {
    // the turn more often than others, since gaps have none
    let worst = match line.label {
        Some(_) => random.pick(&[0, 1, 2, 3, 4, 5, 5, 5]),
        None => random.below(5),
    };
    let made = [0, 1, 2, 3, 4, 5].map(|slip| slip == worst || (slip > worst && random.once_in(3)));
    if let (Some(label), true) = (line.label, made[5]) {
        line.fields[1] = out_of_turn(random, label).into_bytes();
    }
    for field in (2..=4).filter(|&field| made[field]) {
        line.fields[field - 1] = bad_number(random, line, field);
    }
    if made[1] {
        line.fields[0] = random.pick(&BAD_WORDS).to_vec();
    }
    if made[0] {
        miscount(random, &mut line.fields);
    }
    keep_apart(line);
    match worst {
        0 => (10, 0),
        1 => (13, 1),
        5 => (15, 2),
        field => (14, field as u64),
    }
}

/// A number that is not this label's, above or below it.
fn out_of_turn(random: &mut Random, label: usize) -> String {
    let label = label as i64;
    let other = match random.below(4) {
        0 if label > 0 => random.between(0, label - 1),
        1 => label + 1,
        2 => 999_999_999,
        _ => random.between(label + 1, label + 100),
    };
    digits(random, other)
}

/// First fields that are no word of a record.
const BAD_WORDS: [&[u8]; 26] = [
    b"",
    b"Label",
    b"LABEL",
    b"GAP",
    b"labe",
    b"labels",
    b"ga",
    b"gap ",
    b" label",
    b"\"gap\"",
    b"label\r",
    b"\rgap",
    b"gap\0",
    b"\xef\xbb\xbflabel",
    b"label;0",
    b"0",
    b"1",
    b"Same",
    b"SAME",
    b"sam",
    b"sane",
    b"same ",
    b" same",
    b"\"same\"",
    b"same\r",
    b"exactly",
];

/// Numbers that break the rule of every field.
const BAD_NUMBERS: [&[u8]; 16] = [
    b"-",
    b"--1",
    b"1-",
    b"+5",
    b"x",
    b"1e3",
    b"0x1",
    b"1.5",
    b" ",
    b"1 2",
    b"\"1\"",
    b"1000000000",
    b"-1000000000",
    b"\r",
    b"1\r2",
    b"\0",
];

/// A number that breaks the rule of its field, mostly made from what was typed there.
fn bad_number(random: &mut Random, line: &Line, field: usize) -> Vec<u8> {
    let typed = &line.fields[field - 1];
    let may_lack = line.label.is_some() && field == 4;
    let may_be_signed = field == if line.label.is_some() { 3 } else { 4 };
    match random.below(6) {
        0 if !may_lack => Vec::new(),
        1 if !may_be_signed => [b"-", &typed[..]].concat(),
        2 => {
            let digits = typed.strip_prefix(b"-").unwrap_or(typed);
            let sign = &typed[..typed.len() - digits.len()];
            let zeros = vec![b'0'; 10 - digits.len()];
            [sign, &zeros, digits].concat()
        }
        3 => random.pick(&BAD_NUMBERS).to_vec(),
        _ => {
            let mut number = typed.clone();
            let strange = random.pick(b" +x.O;/:\"\t\r\0\xb2");
            number.insert(random.below(typed.len() + 1), strange);
            number
        }
    }
}

/// Takes fields away or puts more in, so that they are not four.
fn miscount(random: &mut Random, fields: &mut Vec<Vec<u8>>) {
    match random.below(4) {
        0 => *fields = vec![Vec::new()],
        1 => fields.truncate(1 + random.below(3)),
        2 => {
            fields.remove(random.below(4));
        }
        _ => {
            for _ in 0..1 + random.below(3) {
                let more = random.pick(&[&b""[..], b"0", b"x", b"label"]);
                fields.insert(random.below(fields.len() + 1), more.to_vec());
            }
        }
    }
}

/// Ends a line so that its fields stay as they are: a CR just before a LF would be part of the end, and a blank line that
/// lacks its end would be none.
fn keep_apart(line: &mut Line) {
    let last = line.fields.last().expect("a field");
    if last.ends_with(b"\r") && line.end == b"\n" {
        line.end = b"\r\n";
    }
    if line.fields.len() == 1 && last.is_empty() && line.end.is_empty() {
        line.end = b"\n";
    }
}
