//! The sheet text and the listing.
use crate::{raw, refusal, Answer, Refusal};

/// How many labels and gaps a text has.
#[derive(Clone, Copy, Debug, PartialEq, Eq)]
pub struct Counts {
    pub labels: u64,
    pub gaps: u64,
}

/// The refusal of a text and, beside it, the bad field of its line: with 13 to 15 counted from 1, else 0.
/// A text has no ring, so the refusal's is 0.
#[derive(Clone, Copy, Debug, PartialEq, Eq)]
pub struct TextRefusal {
    pub refusal: Refusal,
    pub field: u64,
}

/// The answer of the reader.
#[derive(Clone, Copy, Debug, PartialEq, Eq)]
pub enum Reading {
    Sheet(Counts),
    Refused(TextRefusal),
}

impl Reading {
    /// The counts of a sheet, or the refusal as an error, which `?` hands on.
    ///
    /// ```
    /// use dirmoog::{read_sheet, Counts, Lists};
    /// use std::error::Error;
    ///
    /// fn count(text: &[u8]) -> Result<Counts, Box<dyn Error>> {
    ///     let mut lists = Lists {
    ///         wanted: &mut [0; 48],
    ///         weight: &mut [0; 48],
    ///         left: &mut [0; 192],
    ///         right: &mut [0; 192],
    ///         distance: &mut [0; 192],
    ///         kind: &mut [0; 192],
    ///     };
    ///     let counts = read_sheet(text, &mut lists).sheet()?;
    ///     Ok(counts)
    /// }
    ///
    /// let counts = count(b"label,0,0,1\r\ngap,0,0,-6\r\n").unwrap();
    /// assert_eq!(counts, Counts { labels: 1, gaps: 1 });
    ///
    /// // the letter O for a zero
    /// let error = count(b"label,0,0,1\r\nlabel,1,3,1O\r\n").unwrap_err();
    /// assert_eq!(error.to_string(), "bad number: line 2, fourth field");
    /// ```
    pub fn sheet(self) -> Result<Counts, TextRefusal> {
        match self {
            Reading::Sheet(counts) => Ok(counts),
            Reading::Refused(refused) => Err(refused),
        }
    }
}

/// The answer of the listing: how many bytes were written, or a refusal.
#[derive(Clone, Copy, Debug, PartialEq, Eq)]
pub enum Listed {
    Written(u64),
    Refused(Refusal),
}

/// The lists that a text is read into; 48 entries per label list and 192 per gap list are enough
/// for every sheet.
#[derive(Debug)]
pub struct Lists<'a> {
    pub wanted: &'a mut [i64],
    pub weight: &'a mut [i64],
    pub left: &'a mut [u64],
    pub right: &'a mut [u64],
    pub distance: &'a mut [i64],
    pub kind: &'a mut [u8],
}

/// Reads a sheet's text into the front of lent lists. The entries beyond stay; a refused text writes nothing.
/// The kind of a gap is read from its word: [`AT_LEAST`](crate::AT_LEAST) from gap, [`EXACTLY`](crate::EXACTLY)
/// from same. A weight that is left blank in the text is read as 10; a weight of 0 is no blank one, and
/// [`lay_out`](crate::lay_out) refuses it.
///
/// A text is refused, in this order, with 11 if it is too long; else at the first bad line, with 10 if that is
/// without four fields, 13 if its first field is none of label, gap and same, 14 at the first number that breaks
/// its rule, 15 if a label's number is out of turn; else with 1 for too many labels, 2 for too many gaps, 4 if a
/// list is too short. The rules are those of `dirmoog_read` in include/dirmoog.h.
///
/// ```
/// use dirmoog::{read_sheet, Counts, Lists, Reading, Refusal, TextRefusal, AT_LEAST, EXACTLY};
///
/// let (mut wanted, mut weight) = ([0; 48], [0; 48]);
/// let (mut left, mut right, mut distance) = ([0; 192], [0; 192], [0; 192]);
/// let mut kind = [0; 192];
/// let mut lists = Lists {
///     wanted: &mut wanted,
///     weight: &mut weight,
///     left: &mut left,
///     right: &mut right,
///     distance: &mut distance,
///     kind: &mut kind,
/// };
/// let text = b"label,0,0,1\r\nlabel,1,3,\r\ngap,0,1,6\r\nsame,0,1,7\r\n";
/// assert_eq!(read_sheet(text, &mut lists), Reading::Sheet(Counts { labels: 2, gaps: 2 }));
///
/// // a second label with the number of the first: out of turn, and the lists stay as they were read
/// let reading = read_sheet(b"label,0,7,1\r\nlabel,0,9,1\r\n", &mut lists);
/// let refusal = Refusal { number: 15, place: 2, ring: 0 };
/// assert_eq!(reading, Reading::Refused(TextRefusal { refusal, field: 2 }));
///
/// assert_eq!((&wanted[..2], &weight[..2]), (&[0, 3][..], &[1, 10][..]));
/// assert_eq!((&left[..2], &right[..2], &distance[..2]), (&[0, 0][..], &[1, 1][..], &[6, 7][..]));
/// assert_eq!(kind[..2], [AT_LEAST, EXACTLY]);
/// ```
pub fn read_sheet(text: &[u8], lists: &mut Lists<'_>) -> Reading {
    let mut out = [0; 2];
    // SAFETY: every pointer and length is that of a slice, and the slices that are written are borrowed for writing.
    let number = unsafe {
        raw::dirmoog_read(
            text.as_ptr(),
            text.len(),
            lists.wanted.as_mut_ptr(),
            lists.wanted.len(),
            lists.weight.as_mut_ptr(),
            lists.weight.len(),
            lists.left.as_mut_ptr(),
            lists.left.len(),
            lists.right.as_mut_ptr(),
            lists.right.len(),
            lists.distance.as_mut_ptr(),
            lists.distance.len(),
            lists.kind.as_mut_ptr(),
            lists.kind.len(),
            out.as_mut_ptr(),
            out.len(),
        )
    };
    match number {
        0 => Reading::Sheet(Counts {
            labels: out[0],
            gaps: out[1],
        }),
        _ => Reading::Refused(TextRefusal {
            refusal: refusal(number, [out[0], 0]),
            field: out[1],
        }),
    }
}

/// What a listing is made of: one place per label, then one entry per gap.
#[derive(Clone, Copy, Debug, Default)]
pub struct Listable<'a> {
    pub place_num: &'a [i64],
    pub place_den: &'a [i64],
    pub left: &'a [u64],
    pub right: &'a [u64],
    pub distance: &'a [i64],
}

/// Writes the listing of an answer to the front of a buffer: a record per label with its place, then
/// one per gap with its slack; or the refusal's, for which the lists are without effect. A refusal
/// with the number 0, which no call answers, is listed as placed. 24,576 bytes are room for every
/// listing. A slack is 0/1 where an end of the gap is no label, and where [`slack`](crate::slack)
/// refuses it.
///
/// A refusal's record is the word refused, number, place and field. The field is that of a
/// [`TextRefusal`], and 0 for an answer of [`lay_out`](crate::lay_out); it is shown as it is, and is
/// without effect for a placed sheet.
///
/// The whole unit of a place is what [`round_half_up`](crate::round_half_up) gives, and 0 where that
/// refuses it. The whole units of places that [`lay_out`](crate::lay_out) wrote meet every gap.
///
/// Refused with 1 for more than 48 labels, 2 for more than 192 gaps, 3 for lists that belong
/// together and differ in length, 4 for a buffer that is too short; then nothing is written.
///
/// ```
/// use dirmoog::{write_listing, Answer, Listable, Listed, Refusal};
///
/// let lists = Listable {
///     place_num: &[-3, 9],
///     place_den: &[2, 2],
///     left: &[0],
///     right: &[1],
///     distance: &[6],
///     ..Listable::default()
/// };
/// let mut text = [0; 64];
/// let listed = write_listing(Answer::Placed, 0, &lists, &mut text);
/// assert_eq!(listed, Listed::Written(45));
/// assert_eq!(&text[..45], b"place,0,-3,2,-1\r\nplace,1,9,2,5\r\nslack,0,0,1\r\n");
///
/// // a bad number in the fourth field of line 31, as it is read from a text
/// let refusal = Refusal { number: 14, place: 31, ring: 0 };
/// let listed = write_listing(Answer::Refused(refusal), 4, &Listable::default(), &mut text);
/// assert_eq!(listed, Listed::Written(17));
/// assert_eq!(&text[..17], b"refused,14,31,4\r\n");
/// ```
pub fn write_listing(answer: Answer, field: u64, lists: &Listable<'_>, text: &mut [u8]) -> Listed {
    let (number, place) = match answer {
        Answer::Placed => (0, 0),
        Answer::Refused(refusal) => (refusal.number, refusal.place),
    };
    let mut out = [0; 2];
    // SAFETY: every pointer and length is that of a slice, and the slices that are written are borrowed for writing.
    let listed = unsafe {
        raw::dirmoog_listing(
            number,
            place,
            field,
            lists.place_num.as_ptr(),
            lists.place_num.len(),
            lists.place_den.as_ptr(),
            lists.place_den.len(),
            lists.left.as_ptr(),
            lists.left.len(),
            lists.right.as_ptr(),
            lists.right.len(),
            lists.distance.as_ptr(),
            lists.distance.len(),
            text.as_mut_ptr(),
            text.len(),
            out.as_mut_ptr(),
            out.len(),
        )
    };
    match listed {
        0 => Listed::Written(out[0]),
        _ => Listed::Refused(refusal(listed, [0, 0])),
    }
}
