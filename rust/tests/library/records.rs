//! The records of an accepted sheet's listing, taken apart so that what is printed can be checked.
use crate::fraction::Fraction;
use crate::sheet::Sheet;

/// What is printed: of each label its place and its whole unit, of each gap its slack.
pub struct Records {
    pub places: Vec<Fraction>,
    pub units: Vec<i64>,
    pub slacks: Vec<Fraction>,
}

impl Records {
    /// The records of a sheet's listing: one for each label, then one for each gap, in the order of their numbers.
    pub fn of(text: &[u8], sheet: &Sheet) -> Records {
        let text = std::str::from_utf8(text).expect("a listing");
        let lines: Vec<&str> = text.split_terminator("\r\n").collect();
        assert_eq!(lines.len(), sheet.labels() + sheet.gaps());
        let (labels, gaps) = lines.split_at(sheet.labels());
        let (places, units) = (0..)
            .zip(labels)
            .map(|(i, line)| numbers("place", i, line))
            .map(|[num, den, unit]| (Fraction::lowest(num, den), unit))
            .unzip();
        let slacks = (0..)
            .zip(gaps)
            .map(|(e, line)| numbers("slack", e, line))
            .map(|[num, den]| Fraction::lowest(num, den))
            .collect();
        Records {
            places,
            units,
            slacks,
        }
    }
}

/// The numbers of a record, behind its word and the number of its label or gap.
fn numbers<const COUNT: usize>(word: &str, number: usize, line: &str) -> [i64; COUNT] {
    line.strip_prefix(&format!("{word},{number},"))
        .and_then(|rest| rest.split(',').map(shortest).collect::<Option<Vec<i64>>>())
        .and_then(|numbers| numbers.try_into().ok())
        .unwrap_or_else(|| panic!("{line} is no record of {word} {number}"))
}

/// A number without a digit or a sign to spare, so that 0 is never -0.
fn shortest(field: &str) -> Option<i64> {
    let number: i64 = field.parse().ok()?;
    (number.to_string() == field).then_some(number)
}
