//! Refusals in words, beside the refusal table of include/dirmoog.h.
use crate::random::Random;
use dirmoog::{Counts, Reading, Refusal, TextRefusal};
use std::error::Error;
use std::path::Path;

/// A row of the header's table: the number, the trade's word and what the place is. Columns are two spaces apart or more.
fn row(line: &str) -> Option<(u64, String, String)> {
    let columns = line.strip_prefix(" *")?.split("  ").map(str::trim);
    let columns: Vec<&str> = columns.filter(|column| !column.is_empty()).collect();
    let [number, word, _, place] = columns[..] else {
        return None;
    };
    Some((number.parse().ok()?, word.into(), place.into()))
}

fn refusal(number: u64, place: u64, ring: u64) -> Refusal {
    Refusal {
        number,
        place,
        ring,
    }
}

fn of_text(number: u64, place: u64, field: u64) -> TextRefusal {
    let refusal = refusal(number, place, 0);
    TextRefusal { refusal, field }
}

/// Each number of the table has the table's word, and the place with what it counts.
#[test]
fn words_of_the_table() {
    let header = Path::new(env!("CARGO_MANIFEST_DIR")).join("../include/dirmoog.h");
    let header = std::fs::read_to_string(header).expect("the header");
    let table: Vec<_> = header.lines().filter_map(row).collect();
    let numbers: Vec<u64> = table.iter().map(|row| row.0).collect();
    assert_eq!(numbers, Vec::from_iter((1..=15).chain([23])));
    for (number, word, place) in table {
        let words = match (number, place.as_str()) {
            (9, "0") => format!("{word} of 6 gaps"),
            (_, "0") => word,
            (_, "label") => format!("{word}: label 7"),
            (_, "gap") => format!("{word}: gap 7"),
            (_, "line, from 1") => format!("{word}: line 7"),
            _ => panic!("{number} at {place}"),
        };
        assert_eq!(refusal(number, 7, 6).to_string(), words);
    }
}

/// Every number that no text has, each as it is answered.
#[test]
fn words_of_sheets() {
    for (number, place, ring, words) in [
        (3, 0, 0, "ragged"),
        (5, 0, 0, "off plate: label 0"),
        (6, 17, 0, "bad weight: label 17"),
        (7, 191, 0, "stranger: gap 191"),
        (8, 2, 0, "bad gap: gap 2"),
        (9, 0, 1, "ring of 1 gap"),
        (9, 0, 48, "ring of 48 gaps"),
        (12, 0, 0, "bad fraction"),
        (23, 191, 0, "unknown kind: gap 191"),
    ] {
        assert_eq!(refusal(number, place, ring).to_string(), words);
    }
}

/// Every number of a text, each as it is answered.
#[test]
fn words_of_texts() {
    for (number, place, field, words) in [
        (1, 0, 0, "crowded"),
        (2, 0, 0, "over-gapped"),
        (4, 0, 0, "short room"),
        (10, 2, 0, "bad line: line 2"),
        (11, 0, 0, "long text"),
        (13, 1, 1, "unknown word: line 1, first field"),
        (14, 31, 2, "bad number: line 31, second field"),
        (14, 31, 3, "bad number: line 31, third field"),
        (14, 31, 4, "bad number: line 31, fourth field"),
        (15, 50, 2, "out of turn: line 50, second field"),
    ] {
        assert_eq!(of_text(number, place, field).to_string(), words);
    }
}

/// A refusal may hold any numbers: there are words for all, and a field is told with 13 to 15 alone.
#[test]
fn words_of_any_numbers() {
    for (number, place, field, words) in [
        (0, 3, 3, "refusal 0"),
        (16, 3, 3, "refusal 16"),
        (22, 3, 3, "refusal 22"),
        (23, 3, 3, "unknown kind: gap 3"),
        (24, 3, 3, "refusal 24"),
        (99, 3, 3, "refusal 99"),
        (u64::MAX, 3, 3, "refusal 18446744073709551615"),
        (10, 3, 3, "bad line: line 3"),
        (11, 3, 3, "long text"),
        (12, 3, 3, "bad fraction"),
        (13, 0, 0, "unknown word: line 0, field 0"),
        (14, 3, 5, "bad number: line 3, field 5"),
        (14, 3, 7, "bad number: line 3, field 7"),
        (
            15,
            3,
            u64::MAX,
            "out of turn: line 3, field 18446744073709551615",
        ),
        (6, u64::MAX, 3, "bad weight: label 18446744073709551615"),
    ] {
        assert_eq!(of_text(number, place, field).to_string(), words);
    }
    let mut random = Random::new(50_000_000);
    for _ in 0..10_000 {
        let mut any = || random.next() >> random.below(64);
        let (number, place, ring, field) = (any(), any(), any(), any());
        let refusal = refusal(number, place, ring);
        let words = refusal.to_string();
        assert!(words.starts_with(|first: char| first.is_ascii_lowercase()));
        let more = TextRefusal { refusal, field }.to_string();
        let told = matches!(number, 13..=15);
        assert!(more.starts_with(&words) && told == more[words.len()..].contains("field"));
    }
}

/// Both are errors that `?` hands on, and neither has another behind it, whose words would be told twice.
#[test]
fn refusals_are_errors() {
    fn handed_on(reading: Reading) -> Result<Counts, Box<dyn Error>> {
        Ok(reading.sheet()?)
    }
    let (labels, gaps) = (2, 1);
    let counts = Counts { labels, gaps };
    assert_eq!(handed_on(Reading::Sheet(counts)).expect("a sheet"), counts);
    let told = of_text(13, 4, 1);
    let error = handed_on(Reading::Refused(told)).expect_err("an error");
    assert_eq!(error.to_string(), "unknown word: line 4, first field");
    assert_eq!(error.downcast_ref(), Some(&told));
    assert!(error.source().is_none());
    let error: Box<dyn Error> = refusal(7, 3, 0).into();
    assert_eq!(error.to_string(), "stranger: gap 3");
    assert!(error.source().is_none());
}
