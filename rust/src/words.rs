//! Refusals in words, for people. A refusal may hold any numbers.
use crate::{Refusal, TextRefusal};
use std::error::Error;
use std::fmt::{Display, Formatter, Result};

/// The row of a number in the refusal table, if there is one: the trade's word, and what the place counts;
/// nothing where that is always 0.
fn row(number: u64) -> Option<(&'static str, Option<&'static str>)> {
    let row = match number {
        1 => ("crowded", None),
        2 => ("over-gapped", None),
        3 => ("ragged", None),
        4 => ("short room", None),
        5 => ("off plate", Some("label")),
        6 => ("bad weight", Some("label")),
        7 => ("stranger", Some("gap")),
        8 => ("bad gap", Some("gap")),
        9 => ("ring", None),
        10 => ("bad line", Some("line")),
        11 => ("long text", None),
        12 => ("bad fraction", None),
        13 => ("unknown word", Some("line")),
        14 => ("bad number", Some("line")),
        15 => ("out of turn", Some("line")),
        23 => ("unknown kind", Some("gap")),
        _ => return None,
    };
    Some(row)
}

/// The trade's word of the refusal table and, where it has one, the place; with 9 the ring's length.
/// A number that the table does not have is told as it is. [`slack`](crate::slack) tells no place, so
/// its 8 says gap 0.
///
/// ```
/// use dirmoog::Refusal;
///
/// let words = |number, place, ring| Refusal { number, place, ring }.to_string();
/// assert_eq!(words(1, 0, 0), "crowded");
/// assert_eq!(words(6, 17, 0), "bad weight: label 17");
/// assert_eq!(words(7, 2, 0), "stranger: gap 2");
/// assert_eq!(words(9, 0, 3), "ring of 3 gaps");
/// assert_eq!(words(10, 2, 0), "bad line: line 2");
/// assert_eq!(words(23, 5, 0), "unknown kind: gap 5");
/// assert_eq!(words(99, 0, 0), "refusal 99");
/// ```
impl Display for Refusal {
    fn fmt(&self, out: &mut Formatter<'_>) -> Result {
        let Some((word, counted)) = row(self.number) else {
            return write!(out, "refusal {}", self.number);
        };
        write!(out, "{word}")?;
        match (self.number, self.ring) {
            (9, 1) => return write!(out, " of 1 gap"),
            (9, length) => return write!(out, " of {length} gaps"),
            _ => (),
        }
        match counted {
            Some(counted) => write!(out, ": {counted} {}", self.place),
            None => Ok(()),
        }
    }
}

impl Error for Refusal {}

/// The words of its refusal and, with 13 to 15, the bad field.
///
/// ```
/// use dirmoog::{Refusal, TextRefusal};
///
/// let words = |number, place, field| {
///     let refusal = Refusal { number, place, ring: 0 };
///     TextRefusal { refusal, field }.to_string()
/// };
/// assert_eq!(words(14, 31, 4), "bad number: line 31, fourth field");
/// assert_eq!(words(14, 31, 7), "bad number: line 31, field 7");
/// assert_eq!(words(10, 2, 0), "bad line: line 2");
/// assert_eq!(words(11, 0, 0), "long text");
/// ```
impl Display for TextRefusal {
    fn fmt(&self, out: &mut Formatter<'_>) -> Result {
        write!(out, "{}", self.refusal)?;
        match (self.refusal.number, self.field) {
            (13..=15, 1) => write!(out, ", first field"),
            (13..=15, 2) => write!(out, ", second field"),
            (13..=15, 3) => write!(out, ", third field"),
            (13..=15, 4) => write!(out, ", fourth field"),
            (13..=15, field) => write!(out, ", field {field}"),
            _ => Ok(()),
        }
    }
}

impl Error for TextRefusal {}
