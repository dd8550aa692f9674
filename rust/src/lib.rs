//! Least moves for marker strips: a safe interface to the proved library `libdirmoog_c.a`.
//!
//! A sheet has labels, each with a wanted place and a weight, and gaps, each of which asks that its
//! right label stand at least its distance to the right of its left label, or exactly there.
//! [`lay_out`] finds the placement with the least sum of weight times squared move, in exact
//! fractions, or refuses the sheet; [`round_half_up`] gives the whole units of its places, as they are
//! listed, and [`slack`] tells how far a gap is from closing. Any slices may be lent: nothing panics.
//! A call needs less than 32 KiB of stack.
//!
//! A sheet's text is read by [`read_sheet`], and [`write_listing`] writes what a station prints. A
//! refusal, [`Refusal`] or [`TextRefusal`], is an error that prints itself in words.
//!
//! What is proved is the library. Nothing proves this package: its `unsafe` calls, how it turns
//! numbers into enums and words, and [`ring_part`] and [`back_part`], which are its own.
//!
//! ```
//! use dirmoog::{lay_out, round_half_up, slack};
//! use dirmoog::{Answer, Fraction, Room, Rounded, Sheet, SlackAnswer, AT_LEAST};
//!
//! let sheet = Sheet {
//!     wanted: &[0, 3],
//!     weight: &[1, 1],
//!     left: &[0],
//!     right: &[1],
//!     distance: &[6],
//!     kind: &[AT_LEAST],
//! };
//! let (mut place_num, mut place_den) = ([0; 2], [0; 2]);
//! let (mut mult_num, mut mult_den) = ([0; 1], [0; 1]);
//! let mut room = Room {
//!     carried: &mut [0],
//!     place_num: &mut place_num,
//!     place_den: &mut place_den,
//!     mult_num: &mut mult_num,
//!     mult_den: &mut mult_den,
//!     ring: &mut [0; 2],
//!     back: &mut [0; 2],
//! };
//! assert_eq!(lay_out(&sheet, &mut room), Answer::Placed);
//! assert_eq!((place_num, place_den), ([-3, 9], [2, 2]));
//! assert_eq!((mult_num, mult_den), ([3], [1]));
//! assert_eq!(round_half_up(place_num[0], place_den[0]), Rounded::Whole(-1));
//!
//! // the two labels touch: nothing is left between them
//! let place = |label: usize| Fraction { num: place_num[label], den: place_den[label] };
//! let nothing = Fraction { num: 0, den: 1 };
//! assert_eq!(slack(place(0), place(1), 6), SlackAnswer::Slack(nothing));
//! ```

pub mod raw;
mod text;
mod words;

pub use text::{read_sheet, write_listing, Counts, Listable, Listed, Lists, Reading, TextRefusal};

/// A refusal: its number in the refusal table, its place (a label or a gap, from 0, or a line, from 1;
/// else 0) and, with 9, the ring's length.
#[derive(Clone, Copy, Debug, PartialEq, Eq)]
pub struct Refusal {
    pub number: u64,
    pub place: u64,
    pub ring: u64,
}

/// The answer of a layout.
#[derive(Clone, Copy, Debug, PartialEq, Eq)]
pub enum Answer {
    Placed,
    Refused(Refusal),
}

/// The answer of a rounding.
#[derive(Clone, Copy, Debug, PartialEq, Eq)]
pub enum Rounded {
    Whole(i64),
    Refused(Refusal),
}

/// A numerator over a denominator. Any two numbers may be lent; what the library answers is in lowest
/// terms, with a denominator above zero.
#[derive(Clone, Copy, Debug, PartialEq, Eq)]
pub struct Fraction {
    pub num: i64,
    pub den: i64,
}

/// The slack of a gap, or a refusal.
#[derive(Clone, Copy, Debug, PartialEq, Eq)]
pub enum SlackAnswer {
    Slack(Fraction),
    Refused(Refusal),
}

/// The kind of a gap whose right label stands at least its distance to the right of its left label.
pub const AT_LEAST: u8 = 0;

/// The kind of a gap whose right label stands exactly its distance to the right of its left label.
pub const EXACTLY: u8 = 1;

/// Beside a gap of a ring that is passed from its left label to its right.
pub const FORWARDS: u8 = 0;

/// Beside a gap of a ring, an exact one, that is passed from its right label to its left.
pub const BACKWARDS: u8 = 1;

/// What a station lends to read: one entry per label, then one per gap. A kind is [`AT_LEAST`] or
/// [`EXACTLY`]; any other is refused with 23.
#[derive(Clone, Copy, Debug)]
pub struct Sheet<'a> {
    pub wanted: &'a [i64],
    pub weight: &'a [i64],
    pub left: &'a [u64],
    pub right: &'a [u64],
    pub distance: &'a [i64],
    pub kind: &'a [u8],
}

/// What a station lends to write, and the carried record, which is read too: its bytes may be anything.
#[derive(Debug)]
pub struct Room<'a> {
    pub carried: &'a mut [u8],
    pub place_num: &'a mut [i64],
    pub place_den: &'a mut [i64],
    pub mult_num: &'a mut [i64],
    pub mult_den: &'a mut [i64],
    pub ring: &'a mut [u64],
    pub back: &'a mut [u8],
}

/// Lays out a sheet.
///
/// Placed: the first entries of the room hold places, multipliers and marks; the rest of it and both
/// ring buffers stay. The multiplier of an exact gap may have either sign.
///
/// ```
/// use dirmoog::{lay_out, Answer, Room, Sheet, EXACTLY};
///
/// // The parts of a marker want to stand 10 apart, and stand 6 apart.
/// let sheet = Sheet {
///     wanted: &[0, 10],
///     weight: &[1, 1],
///     left: &[0],
///     right: &[1],
///     distance: &[6],
///     kind: &[EXACTLY],
/// };
/// let (mut place_num, mut place_den) = ([0; 2], [0; 2]);
/// let (mut mult_num, mut mult_den) = ([0; 1], [0; 1]);
/// let mut room = Room {
///     carried: &mut [0],
///     place_num: &mut place_num,
///     place_den: &mut place_den,
///     mult_num: &mut mult_num,
///     mult_den: &mut mult_den,
///     ring: &mut [0; 2],
///     back: &mut [0; 2],
/// };
/// assert_eq!(lay_out(&sheet, &mut room), Answer::Placed);
/// assert_eq!((place_num, place_den), ([2, 8], [1, 1]));
/// assert_eq!((mult_num, mult_den), ([-4], [1]));
/// ```
///
/// Refused: nothing is written but, with 9, a ring: its gap numbers in the front of one ring buffer
/// ([`ring_part`]) and beside each, in the front of the other ([`back_part`]), [`FORWARDS`] or
/// [`BACKWARDS`]. It may start at any of its gaps.
///
/// ```
/// use dirmoog::{back_part, lay_out, ring_part, Answer, Refusal, Room, Sheet};
/// use dirmoog::{AT_LEAST, BACKWARDS, EXACTLY, FORWARDS};
///
/// // Label 1 stands exactly 5 right of label 0, and at least 6: no placement.
/// let sheet = Sheet {
///     wanted: &[0, 0],
///     weight: &[1, 1],
///     left: &[0, 0],
///     right: &[1, 1],
///     distance: &[5, 6],
///     kind: &[EXACTLY, AT_LEAST],
/// };
/// let (mut ring, mut back) = ([7; 3], [7; 3]);
/// let mut room = Room {
///     carried: &mut [0; 2],
///     place_num: &mut [0; 2],
///     place_den: &mut [0; 2],
///     mult_num: &mut [0; 2],
///     mult_den: &mut [0; 2],
///     ring: &mut ring,
///     back: &mut back,
/// };
/// let answer = lay_out(&sheet, &mut room);
/// assert_eq!(answer, Answer::Refused(Refusal { number: 9, place: 0, ring: 2 }));
/// let mut steps: Vec<_> = ring_part(&ring, 2).iter().zip(back_part(&back, 2)).collect();
/// steps.sort();
/// assert_eq!(steps, [(&0, &BACKWARDS), (&1, &FORWARDS)]);
/// assert_eq!((ring[2], back[2]), (7, 7));
/// ```
///
/// Of two placed sheets that differ in wants only, whatever rooms they are lent: no place moves further
/// than the want that moves furthest, and where no want moves every place is the same numerator over
/// the same denominator. If no want goes down no place goes down, and if no want goes up no place goes
/// up. The sum over all labels of weight times squared change of place is at most that of weight times
/// change of place times change of want. This is promised of the fractions, not of whole units.
///
/// ```
/// use dirmoog::{lay_out, Answer, Room, Sheet, AT_LEAST};
///
/// // Two labels with a gap of 10, from any carried record: the numerators of their places.
/// let places = |wanted: [i64; 2], carried: u8| {
///     let sheet = Sheet {
///         wanted: &wanted,
///         weight: &[1, 1],
///         left: &[0],
///         right: &[1],
///         distance: &[10],
///         kind: &[AT_LEAST],
///     };
///     let (mut place_num, mut place_den) = ([0; 2], [0; 2]);
///     let mut room = Room {
///         carried: &mut [carried],
///         place_num: &mut place_num,
///         place_den: &mut place_den,
///         mult_num: &mut [0],
///         mult_den: &mut [0],
///         ring: &mut [0; 2],
///         back: &mut [0; 2],
///     };
///     assert_eq!(lay_out(&sheet, &mut room), Answer::Placed);
///     assert_eq!(place_den, [1, 1]);
///     place_num
/// };
/// let (first, second) = (places([0, 0], 0), places([0, 20], 1));
/// assert_eq!((first, second), ([-5, 5], [0, 20]));
/// // the places change by 5 and 15, the wants by 0 and 20
/// let changes = [second[0] - first[0], second[1] - first[1]];
/// assert!(changes[0] >= 0 && changes[1] >= 0);
/// let squares = changes[0] * changes[0] + changes[1] * changes[1];
/// assert!(squares <= changes[1] * 20);
/// ```
pub fn lay_out(sheet: &Sheet<'_>, room: &mut Room<'_>) -> Answer {
    let mut out = [0; 2];
    // SAFETY: every pointer and length is that of a slice, and the slices that are written are borrowed for writing.
    let number = unsafe {
        raw::dirmoog_layout(
            sheet.wanted.as_ptr(),
            sheet.wanted.len(),
            sheet.weight.as_ptr(),
            sheet.weight.len(),
            sheet.left.as_ptr(),
            sheet.left.len(),
            sheet.right.as_ptr(),
            sheet.right.len(),
            sheet.distance.as_ptr(),
            sheet.distance.len(),
            sheet.kind.as_ptr(),
            sheet.kind.len(),
            room.carried.as_mut_ptr(),
            room.carried.len(),
            room.place_num.as_mut_ptr(),
            room.place_num.len(),
            room.place_den.as_mut_ptr(),
            room.place_den.len(),
            room.mult_num.as_mut_ptr(),
            room.mult_num.len(),
            room.mult_den.as_mut_ptr(),
            room.mult_den.len(),
            room.ring.as_mut_ptr(),
            room.ring.len(),
            room.back.as_mut_ptr(),
            room.back.len(),
            out.as_mut_ptr(),
            out.len(),
        )
    };
    match number {
        0 => Answer::Placed,
        _ => Answer::Refused(refusal(number, out)),
    }
}

/// The refusal of a number, at the place and with the ring length that were told.
fn refusal(number: u64, out: [u64; 2]) -> Refusal {
    Refusal {
        number,
        place: out[0],
        ring: out[1],
    }
}

/// The front part of a ring buffer that holds a ring's gap numbers; for a length beyond the buffer,
/// the empty part. This is Rust code beside the library, not the proved function of that name.
///
/// ```
/// assert_eq!(dirmoog::ring_part(&[4, 1, 0], 2), [4, 1]);
/// assert_eq!(dirmoog::ring_part(&[4, 1, 0], 4), []);
/// ```
pub fn ring_part(ring: &[u64], length: u64) -> &[u64] {
    front(ring, length)
}

/// The front part of the second ring buffer, beside that of [`ring_part`] and by the same rule: it tells of
/// each gap of a ring whether it is passed [`FORWARDS`] or [`BACKWARDS`].
///
/// ```
/// assert_eq!(dirmoog::back_part(&[1, 0, 0], 2), [1, 0]);
/// assert_eq!(dirmoog::back_part(&[1, 0, 0], 4), []);
/// ```
pub fn back_part(back: &[u8], length: u64) -> &[u8] {
    front(back, length)
}

/// So many entries from the front of a buffer, or none where it has fewer.
fn front<T>(buffer: &[T], length: u64) -> &[T] {
    usize::try_from(length)
        .ok()
        .and_then(|length| buffer.get(..length))
        .unwrap_or(&[])
}

/// Rounds a fraction to the nearest whole number, halves away from zero, or refuses it with 12. Places
/// rounded so may break a gap by one unit; a listing goes by [`round_half_up`].
///
/// ```
/// use dirmoog::{round, Refusal, Rounded};
///
/// assert_eq!(round(-3, 2), Rounded::Whole(-2));
/// assert_eq!(round(9, 2), Rounded::Whole(5));
/// assert_eq!(round(1, 0), Rounded::Refused(Refusal { number: 12, place: 0, ring: 0 }));
/// ```
pub fn round(num: i64, den: i64) -> Rounded {
    let mut out = [0];
    // SAFETY: the pointer and the length are those of a slice that is borrowed for writing.
    let number = unsafe { raw::dirmoog_round(num, den, out.as_mut_ptr(), out.len()) };
    rounded(number, out)
}

/// Rounds a fraction to the nearest whole number, halves to the larger one, or refuses it with 12. This
/// is the whole unit of a listing: places that meet a gap meet it when rounded so, too.
///
/// ```
/// use dirmoog::{round, round_half_up, Refusal, Rounded};
///
/// assert_eq!(round_half_up(-3, 2), Rounded::Whole(-1));
/// assert_eq!(round_half_up(9, 2), Rounded::Whole(5));
/// assert_eq!(round_half_up(1, 0), Rounded::Refused(Refusal { number: 12, place: 0, ring: 0 }));
///
/// // labels at 1/2 and -1/2 with a gap of -1, which halves away from zero would break
/// assert_eq!([round_half_up(1, 2), round_half_up(-1, 2)], [1, 0].map(Rounded::Whole));
/// assert_eq!([round(1, 2), round(-1, 2)], [1, -1].map(Rounded::Whole));
/// ```
pub fn round_half_up(num: i64, den: i64) -> Rounded {
    let mut out = [0];
    // SAFETY: the pointer and the length are those of a slice that is borrowed for writing.
    let number = unsafe { raw::dirmoog_round_half_up(num, den, out.as_mut_ptr(), out.len()) };
    rounded(number, out)
}

/// The answer of either rounding: the whole number that was told, or the refusal of a number.
fn rounded(number: u64, out: [i64; 1]) -> Rounded {
    match number {
        0 => Rounded::Whole(out[0]),
        _ => Rounded::Refused(refusal(number, [0, 0])),
    }
}

/// How far a gap is from closing: right place less left place less distance, in lowest terms, and
/// negative where the gap is broken; an exact gap is broken, too, where it is above zero. The places
/// need not be in lowest terms. Refused with 12 for either place, then with 8 for the distance.
///
/// ```
/// use dirmoog::{slack, Fraction, Refusal, SlackAnswer};
///
/// let place = |num, den| Fraction { num, den };
/// let given = |num, den| SlackAnswer::Slack(Fraction { num, den });
/// assert_eq!(slack(place(6, 4), place(5, 1), 2), given(3, 2));
/// assert_eq!(slack(place(1, 2), place(1, 3), 0), given(-1, 6));
///
/// let refused = |number| SlackAnswer::Refused(Refusal { number, place: 0, ring: 0 });
/// assert_eq!(slack(place(1, 0), place(1, 1), 30_000), refused(12));
/// assert_eq!(slack(place(0, 1), place(0, 1), 20_001), refused(8));
/// ```
pub fn slack(left: Fraction, right: Fraction, distance: i64) -> SlackAnswer {
    let mut out = [0; 2];
    // SAFETY: the pointer and the length are those of a slice that is borrowed for writing.
    let number = unsafe {
        raw::dirmoog_slack(
            left.num,
            left.den,
            right.num,
            right.den,
            distance,
            out.as_mut_ptr(),
            out.len(),
        )
    };
    match number {
        0 => SlackAnswer::Slack(Fraction {
            num: out[0],
            den: out[1],
        }),
        _ => SlackAnswer::Refused(refusal(number, [0, 0])),
    }
}
