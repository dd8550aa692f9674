//! A second reader of the sheet text, written from document 01 and document 02, Items 3, 5 and 6, apart from the
//! library's.
use crate::sheet::{Sheet, AT_LEAST, EXACTLY};

/// A refusal's number, its place, and its field: for 13 to 15 the bad field of the line, counted from 1, else 0.
pub type Refused = (u64, u64, u64);

/// What is wrong with a line: the refusal's number and the bad field.
type Wrong = (u64, u64);

/// Reads a text: 11 for one that is too long, then the first bad line, then 1 and 2.
pub fn read(text: &[u8]) -> Result<Sheet, Refused> {
    if text.len() > 16_384 {
        return Err((11, 0, 0));
    }
    let mut sheet = Sheet::default();
    for (line, place) in lines(text).into_iter().zip(1..) {
        add_record(&mut sheet, line).map_err(|(number, field)| (number, place, field))?;
    }
    match (sheet.labels(), sheet.gaps()) {
        (49.., _) => Err((1, 0, 0)),
        (_, 193..) => Err((2, 0, 0)),
        _ => Ok(sheet),
    }
}

/// The lines without their ends: a LF, or a CR and a LF. The last end may lack, and then a CR belongs to its field.
fn lines(text: &[u8]) -> Vec<&[u8]> {
    let mut lines: Vec<&[u8]> = text.split_inclusive(|&byte| byte == b'\n').collect();
    for line in &mut lines {
        *line = line
            .strip_suffix(b"\r\n")
            .or(line.strip_suffix(b"\n"))
            .unwrap_or(line);
    }
    lines
}

/// Adds the record of a line to the sheet. A bad line is 10 if it has not four fields, then 13 for its first field, 14 at
/// the first number that breaks its rule, and 15 for a label's number that is not its turn.
fn add_record(sheet: &mut Sheet, line: &[u8]) -> Result<(), Wrong> {
    let fields: Vec<&[u8]> = line.split(|&byte| byte == b',').collect();
    match fields[..] {
        [b"label", number, wanted, weight] => {
            let weight = if weight.is_empty() { b"10" } else { weight };
            let number = unsigned(number).ok_or((14, 2))?;
            let wanted = signed(wanted).ok_or((14, 3))?;
            let weight = unsigned(weight).ok_or((14, 4))?;
            if number != sheet.labels() as u64 {
                return Err((15, 2));
            }
            sheet.label(wanted, weight as i64);
        }
        [word @ (b"gap" | b"same"), left, right, distance] => {
            let left = unsigned(left).ok_or((14, 2))?;
            let right = unsigned(right).ok_or((14, 3))?;
            let distance = signed(distance).ok_or((14, 4))?;
            let kind = if word == b"same" { EXACTLY } else { AT_LEAST };
            sheet.add(left as usize, right as usize, distance, kind);
        }
        [_, _, _, _] => return Err((13, 1)),
        _ => return Err((10, 0)),
    }
    Ok(())
}

/// 1 to 9 digits.
fn unsigned(field: &[u8]) -> Option<u64> {
    let digits = field.iter().all(u8::is_ascii_digit) && (1..=9).contains(&field.len());
    if !digits {
        return None;
    }
    std::str::from_utf8(field).ok()?.parse().ok()
}

/// The same with or without a minus sign in front.
fn signed(field: &[u8]) -> Option<i64> {
    match field {
        [b'-', digits @ ..] => Some(-(unsigned(digits)? as i64)),
        digits => Some(unsigned(digits)? as i64),
    }
}
