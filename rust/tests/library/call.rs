//! A layout call with everything that is lent, and what is checked of it.
use crate::conditions::{
    confirm, confirm_marks, confirm_none_to_spare, confirm_ring, confirm_slacks, confirm_units,
};
use crate::fraction::Fraction;
use crate::random::Random;
use crate::records::Records;
use crate::refusals;
use crate::rounding::{half_up, units_of};
use crate::sheet::Sheet;
use crate::solver;
use dirmoog::{back_part, lay_out, ring_part, write_listing};
use dirmoog::{Answer, Listable, Listed, Refusal, Room};

/// What is lent to write, and the carried record. The lists may be of any lengths and hold anything.
#[derive(Clone, Debug, Default, PartialEq, Eq)]
pub struct Lent {
    pub carried: Vec<u8>,
    pub place_num: Vec<i64>,
    pub place_den: Vec<i64>,
    pub mult_num: Vec<i64>,
    pub mult_den: Vec<i64>,
    pub ring: Vec<u64>,
    pub back: Vec<u8>,
}

/// How a call came out.
#[derive(Clone, Copy, Debug, PartialEq, Eq, PartialOrd, Ord)]
pub enum Outcome {
    Placed,
    Refused(u64),
}

impl Lent {
    /// Buffers that are just long enough for so many labels and gaps, of zeros.
    pub fn zeros(labels: usize, gaps: usize) -> Lent {
        Lent {
            carried: vec![0; gaps],
            place_num: vec![0; labels],
            place_den: vec![0; labels],
            mult_num: vec![0; gaps],
            mult_den: vec![0; gaps],
            ring: vec![0; labels],
            back: vec![0; labels],
        }
    }

    /// Buffers with some entries more, of arbitrary contents.
    pub fn arbitrary(random: &mut Random, labels: usize, gaps: usize) -> Lent {
        let mut signed = |count: usize| -> Vec<i64> {
            let more = random.below(4);
            (0..count + more).map(|_| random.next() as i64).collect()
        };
        let (place_num, place_den) = (signed(labels), signed(labels));
        let (mult_num, mult_den) = (signed(gaps), signed(gaps));
        Lent {
            carried: (0..gaps).map(|_| carried_byte(random)).collect(),
            place_num,
            place_den,
            mult_num,
            mult_den,
            ring: (0..labels + random.below(4))
                .map(|_| random.next())
                .collect(),
            back: (0..labels + random.below(4))
                .map(|_| random.next() as u8)
                .collect(),
        }
    }

    /// Calls the library.
    pub fn call(&mut self, sheet: &Sheet) -> Answer {
        let sheet = dirmoog::Sheet {
            wanted: &sheet.wanted,
            weight: &sheet.weight,
            left: &sheet.left,
            right: &sheet.right,
            distance: &sheet.distance,
            kind: &sheet.kind,
        };
        let mut room = Room {
            carried: &mut self.carried,
            place_num: &mut self.place_num,
            place_den: &mut self.place_den,
            mult_num: &mut self.mult_num,
            mult_den: &mut self.mult_den,
            ring: &mut self.ring,
            back: &mut self.back,
        };
        lay_out(&sheet, &mut room)
    }

    /// What is listed of an accepted sheet: the places that were written, and the sheet's gaps.
    pub fn listable<'a>(&'a self, sheet: &'a Sheet) -> Listable<'a> {
        Listable {
            place_num: &self.place_num[..sheet.labels()],
            place_den: &self.place_den[..sheet.labels()],
            left: &sheet.left,
            right: &sheet.right,
            distance: &sheet.distance,
        }
    }

    /// What the library prints for an answer with a field.
    pub fn printed(&self, answer: Answer, field: u64, sheet: &Sheet) -> Vec<u8> {
        let mut text = vec![0; 24_576];
        let listed = write_listing(answer, field, &self.listable(sheet), &mut text);
        let Listed::Written(bytes) = listed else {
            panic!("{listed:?}");
        };
        text.truncate(bytes as usize);
        text
    }

    /// What the library prints for an accepted sheet, taken apart. The whole units are those of the places, halves to
    /// the larger number, and meet every gap.
    pub fn records(&self, sheet: &Sheet) -> Records {
        let records = Records::of(&self.printed(Answer::Placed, 0, sheet), sheet);
        assert_eq!(records.units, units_of(&records.places, half_up));
        confirm_units(sheet, &records.units).expect("whole units");
        records
    }

    /// The places that were written, which must be fractions in lowest terms.
    pub fn places(&self, labels: usize) -> Vec<Fraction> {
        fractions(&self.place_num[..labels], &self.place_den[..labels])
    }

    /// The multipliers that were written, which must be fractions in lowest terms.
    pub fn multipliers(&self, gaps: usize) -> Vec<Fraction> {
        fractions(&self.mult_num[..gaps], &self.mult_den[..gaps])
    }
}

/// Mostly 0 or 1, else any byte.
fn carried_byte(random: &mut Random) -> u8 {
    match random.below(4) {
        0 => random.next() as u8,
        _ => random.below(2) as u8,
    }
}

fn fractions(nums: &[i64], dens: &[i64]) -> Vec<Fraction> {
    nums.iter()
        .zip(dens)
        .map(|(&num, &den)| Fraction::lowest(num, den))
        .collect()
}

/// A refusal by the table, which tells no ring.
pub fn refused_at(number: u64, place: u64) -> Answer {
    let ring = 0;
    Answer::Refused(Refusal {
        number,
        place,
        ring,
    })
}

/// Calls the library and checks its answer and every lent entry afterwards against the parts beside it.
pub fn check_call(sheet: &Sheet, before: &Lent) -> Outcome {
    checked_call(sheet, before).outcome
}

/// A call that was checked: how it came out, the ring if it is one, and what is lent afterwards.
pub struct Checked {
    pub outcome: Outcome,
    pub ring: Vec<(u64, u8)>,
    pub after: Lent,
}

/// The same, and gives what is lent afterwards too.
pub fn checked_call(sheet: &Sheet, before: &Lent) -> Checked {
    let mut after = before.clone();
    let answer = after.call(sheet);
    let (outcome, ring) = if let Some((number, place)) = refusals::table(sheet, before) {
        assert_eq!(answer, refused_at(number, place));
        assert_eq!(after, *before);
        (Outcome::Refused(number), vec![])
    } else if let Some(places) = solver::solve(sheet) {
        assert_eq!(answer, Answer::Placed);
        check_placed(sheet, before, &after, &places);
        (Outcome::Placed, vec![])
    } else {
        let ring = check_ring(sheet, before, &after, answer);
        (Outcome::Refused(9), ring)
    };
    Checked {
        outcome,
        ring,
        after,
    }
}

/// The places are the solver's; multipliers, marks and the whole units and slacks that are printed meet
/// their conditions; entries beyond and both ring buffers stay.
fn check_placed(sheet: &Sheet, before: &Lent, after: &Lent, places: &[Fraction]) {
    let (labels, gaps) = (sheet.labels(), sheet.gaps());
    let multipliers = after.multipliers(gaps);
    assert_eq!(after.places(labels), places);
    confirm(sheet, places, &multipliers).expect("multipliers");
    confirm_marks(sheet, places, &multipliers, &after.carried).expect("marks");
    let records = after.records(sheet);
    assert_eq!(records.places, places);
    confirm_slacks(sheet, places, &records.slacks).expect("slacks");
    confirm_none_to_spare(&records.slacks, &multipliers, &after.carried).expect("tight gaps");
    assert_eq!(after.carried.len(), before.carried.len());
    assert_eq!(after.place_num[labels..], before.place_num[labels..]);
    assert_eq!(after.place_den[labels..], before.place_den[labels..]);
    assert_eq!(after.mult_num[gaps..], before.mult_num[gaps..]);
    assert_eq!(after.mult_den[gaps..], before.mult_den[gaps..]);
    assert_eq!(after.ring, before.ring);
    assert_eq!(after.back, before.back);
}

/// Refused with 9 and place 0; the fronts of both ring buffers are a ring, which is given, and everything else stays.
fn check_ring(sheet: &Sheet, before: &Lent, after: &Lent, answer: Answer) -> Vec<(u64, u8)> {
    let Answer::Refused(Refusal {
        number: 9,
        place: 0,
        ring,
    }) = answer
    else {
        panic!("{answer:?} for a sheet without a placement");
    };
    let (gaps, back) = (ring_part(&after.ring, ring), back_part(&after.back, ring));
    confirm_ring(sheet, gaps, back).expect("ring");
    let mut expected = before.clone();
    expected.ring[..gaps.len()].copy_from_slice(gaps);
    expected.back[..back.len()].copy_from_slice(back);
    assert_eq!(*after, expected);
    gaps.iter().copied().zip(back.iter().copied()).collect()
}
