//! The conditions of document 01, "Least move", "What a station lends" and refusal 9, and of document
//! 02, Items 1, 4 and 6, each as a check of its own.
use crate::fraction::{Fraction, ZERO};
use crate::sheet::{Gap, Sheet};

/// That the placement is the least move, by these multipliers: every gap holds, an exact one with
/// nothing to spare, no multiplier but an exact gap's is negative, those of gaps that are not tight
/// and of self gaps are zero, and each label balances.
pub fn confirm(sheet: &Sheet, places: &[Fraction], multipliers: &[Fraction]) -> Result<(), String> {
    for (e, gap) in sheet.all_gaps().iter().enumerate() {
        let (slack, multiplier) = (gap.slack(places), multipliers[e]);
        if !gap.holds_with(slack) {
            return Err(format!("gap {e} is broken"));
        }
        if multiplier < ZERO && !gap.exact {
            return Err(format!("the multiplier of gap {e} is negative"));
        }
        if multiplier != ZERO && (slack != ZERO || gap.left == gap.right) {
            return Err(format!("gap {e} may have no multiplier"));
        }
    }
    match (0..sheet.labels()).find(|&i| !balances(sheet, places, multipliers, i)) {
        Some(i) => Err(format!("label {i} does not balance")),
        None => Ok(()),
    }
}

/// 2 × weight × move is the sum of multipliers on the right of gaps less the sum of those on the left.
fn balances(sheet: &Sheet, places: &[Fraction], multipliers: &[Fraction], i: usize) -> bool {
    let mut sum = ZERO;
    for (e, &multiplier) in multipliers.iter().enumerate() {
        if sheet.right[e] as usize == i {
            sum = sum + multiplier;
        }
        if sheet.left[e] as usize == i {
            sum = sum - multiplier;
        }
    }
    (places[i] - Fraction::whole(sheet.wanted[i])) * (2 * sheet.weight[i]) == sum
}

/// That the carried bytes are marks: 0 or 1, on tight gaps only, with no ring along marked gaps
/// walked either way, and a multiplier of zero without one.
pub fn confirm_marks(
    sheet: &Sheet,
    places: &[Fraction],
    multipliers: &[Fraction],
    carried: &[u8],
) -> Result<(), String> {
    let mut group: Vec<usize> = (0..sheet.labels()).collect();
    for (e, gap) in sheet.all_gaps().iter().enumerate() {
        match carried[e] {
            0 if multipliers[e] == ZERO => continue,
            0 => return Err(format!("gap {e} has a multiplier and no mark")),
            1 => (),
            byte => return Err(format!("the carried byte of gap {e} is {byte}")),
        }
        if gap.slack(places) != ZERO {
            return Err(format!("gap {e} is marked and not tight"));
        }
        let (from, to) = (group[gap.left], group[gap.right]);
        if from == to {
            return Err(format!("gap {e} closes a ring of marks"));
        }
        for g in group.iter_mut().filter(|g| **g == from) {
            *g = to;
        }
    }
    Ok(())
}

/// That these are the slacks of the gaps, none is negative and those of exact gaps are zero.
pub fn confirm_slacks(
    sheet: &Sheet,
    places: &[Fraction],
    slacks: &[Fraction],
) -> Result<(), String> {
    for (e, (gap, &slack)) in sheet.all_gaps().iter().zip(slacks).enumerate() {
        if !gap.holds_with(slack) {
            return Err(format!("gap {e} does not hold with the slack {slack:?}"));
        }
        if slack != gap.slack(places) {
            return Err(format!("{slack:?} is not the slack of gap {e}"));
        }
    }
    Ok(())
}

/// That whole units, one per label, meet every gap, an exact one with nothing to spare.
pub fn confirm_units(sheet: &Sheet, units: &[i64]) -> Result<(), String> {
    for (e, gap) in sheet.all_gaps().iter().enumerate() {
        let (left, right) = (units[gap.left], units[gap.right]);
        if !gap.holds_with(Fraction::whole(right - left - gap.distance)) {
            return Err(format!("the units {left} and {right} break gap {e}"));
        }
    }
    Ok(())
}

/// That the slack is 0/1 where a gap has a multiplier, and where it is marked.
pub fn confirm_none_to_spare(
    slacks: &[Fraction],
    multipliers: &[Fraction],
    carried: &[u8],
) -> Result<(), String> {
    for (e, &slack) in slacks.iter().enumerate() {
        if slack != ZERO && multipliers[e] != ZERO {
            return Err(format!("gap {e} has a multiplier and the slack {slack:?}"));
        }
        if slack != ZERO && carried[e] == 1 {
            return Err(format!("gap {e} is marked and has the slack {slack:?}"));
        }
    }
    Ok(())
}

/// A gap as a ring passes it.
struct Step {
    from: usize,
    to: usize,
    distance: i64,
}

/// The step along a gap, forwards by the byte 0, or by the byte 1 backwards, with the distance negated. An exact gap
/// alone may be passed backwards.
fn step(gap: Gap, back: u8) -> Option<Step> {
    match back {
        0 => Some(Step {
            from: gap.left,
            to: gap.right,
            distance: gap.distance,
        }),
        1 if gap.exact => Some(Step {
            from: gap.right,
            to: gap.left,
            distance: -gap.distance,
        }),
        _ => None,
    }
}

/// That gap numbers and the bytes beside them are a ring: end to end as walked, closed, no label started from twice,
/// and the distances as walked sum above zero.
pub fn confirm_ring(sheet: &Sheet, ring: &[u64], back: &[u8]) -> Result<(), String> {
    let gaps = sheet.all_gaps();
    if ring.is_empty() || ring.len() != back.len() {
        return Err(format!("{ring:?} with {back:?} beside are no ring"));
    }
    let mut walk = Vec::new();
    for (&e, &back) in ring.iter().zip(back) {
        let gap = gaps.get(e as usize).ok_or(format!("{e} is no gap"))?;
        walk.push(step(*gap, back).ok_or(format!("gap {e} has {back} beside"))?);
    }
    let mut starts: Vec<usize> = walk.iter().map(|step| step.from).collect();
    let joined = (0..walk.len()).all(|k| walk[k].to == walk[(k + 1) % walk.len()].from);
    starts.sort_unstable();
    if !joined || starts.windows(2).any(|pair| pair[0] == pair[1]) {
        return Err(format!("{ring:?} by {back:?} do not go round"));
    }
    match walk.iter().map(|step| step.distance).sum::<i64>() {
        sum if sum > 0 => Ok(()),
        sum => Err(format!(
            "the distances of {ring:?} by {back:?} sum to {sum}"
        )),
    }
}
