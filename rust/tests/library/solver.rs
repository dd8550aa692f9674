//! A solver by another method than the library's: a descent over feasible placements.
//!
//! It starts at a feasible placement (Bellman and Ford) and moves whole groups of labels that tight
//! gaps hold together to their weighted means, or until another gap gets tight. Then a largest flow
//! along the tight gaps either is a set of multipliers, or shows groups that can move right and
//! make the cost smaller. The placements at which a flow is sought are fixed by their tight gaps
//! and the cost falls from one to the next, so this ends. Every answer is confirmed by the
//! conditions of documents 01 and 02 before it is given.
//!
//! An exact gap pushes both ways at the start, so it is tight there, and it stays so: both its ends
//! are in one group. The flow may go either way along it, so both its ends are reached, or neither.
use crate::conditions;
use crate::flow::{largest_flow, Arc};
use crate::fraction::{Fraction, ZERO};
use crate::sheet::{Gap, Sheet};

struct Descent<'a> {
    sheet: &'a Sheet,
    gaps: Vec<Gap>,
    places: Vec<Fraction>,
}

/// Whether a placement meets all gaps of a sheet within the limits.
pub fn has_placement(sheet: &Sheet) -> bool {
    pushed_right(sheet, &sheet.all_gaps()).is_some()
}

/// The places of the least move of a sheet within the limits, or nothing where no placement meets all gaps.
pub fn solve(sheet: &Sheet) -> Option<Vec<Fraction>> {
    let gaps = sheet.all_gaps();
    let places = pushed_right(sheet, &gaps)?;
    let mut descent = Descent {
        sheet,
        gaps,
        places: places.into_iter().map(Fraction::whole).collect(),
    };
    let multipliers = loop {
        descent.settle();
        match descent.balance() {
            Ok(multipliers) => break multipliers,
            Err(parts) => parts.iter().for_each(|part| {
                descent.advance(part);
            }),
        }
    };
    conditions::confirm(sheet, &descent.places, &multipliers).expect("the solver's own answer");
    Some(descent.places)
}

/// The first feasible placement right of the wanted places; nothing where the pushing never ends.
fn pushed_right(sheet: &Sheet, gaps: &[Gap]) -> Option<Vec<i64>> {
    let mut places = sheet.wanted.clone();
    for _ in 0..=sheet.labels() {
        let mut moved = false;
        for gap in gaps {
            moved |= push(&mut places, gap.left, gap.right, gap.distance);
            if gap.exact {
                moved |= push(&mut places, gap.right, gap.left, -gap.distance);
            }
        }
        if !moved {
            return Some(places);
        }
    }
    None
}

/// Moves a label at least so far right of another; whether it moved at all.
fn push(places: &mut [i64], from: usize, to: usize, distance: i64) -> bool {
    let least = places[from] + distance;
    let moves = places[to] < least;
    if moves {
        places[to] = least;
    }
    moves
}

impl Descent<'_> {
    /// Moves the groups that tight gaps hold together to their means, and joins those that meet on the way.
    fn settle(&mut self) {
        loop {
            let groups = self.groups();
            let moved = groups.iter().filter(|group| self.advance(group)).count();
            if moved == 0 {
                return;
            }
        }
    }

    /// The groups that tight gaps hold together, as one flag per label.
    fn groups(&self) -> Vec<Vec<bool>> {
        let labels = self.places.len();
        let mut group: Vec<usize> = (0..labels).collect();
        for gap in &self.gaps {
            if gap.is_tight(&self.places) {
                let (from, to) = (group[gap.left], group[gap.right]);
                group
                    .iter_mut()
                    .filter(|g| **g == from)
                    .for_each(|g| *g = to);
            }
        }
        (0..labels)
            .filter(|&root| group.contains(&root))
            .map(|root| group.iter().map(|&g| g == root).collect())
            .collect()
    }

    /// Moves a group towards its mean as far as the gaps allow; whether it moved at all.
    fn advance(&mut self, group: &[bool]) -> bool {
        let mut step = self.to_mean(group);
        for gap in &self.gaps {
            let (left, right) = (group[gap.left], group[gap.right]);
            if step > ZERO && left && !right {
                step = step.min(gap.slack(&self.places));
            }
            if step < ZERO && right && !left {
                step = step.max(ZERO - gap.slack(&self.places));
            }
        }
        if step == ZERO {
            return false;
        }
        for (place, _) in self
            .places
            .iter_mut()
            .zip(group)
            .filter(|(_, in_it)| **in_it)
        {
            *place = *place + step;
        }
        true
    }

    /// How far a group is from its weighted mean. Tight gaps hold it together, so all its places
    /// have one denominator.
    fn to_mean(&self, group: &[bool]) -> Fraction {
        let (mut lack, mut weight, mut den) = (0, 0, 1);
        for i in (0..group.len()).filter(|&i| group[i]) {
            den = self.places[i].den;
            lack -= self.scaled_move(i) * i128::from(self.sheet.weight[i]);
            weight += i128::from(self.sheet.weight[i]);
        }
        Fraction::new(lack, den * weight)
    }

    /// Place less wanted place, times the place's denominator.
    fn scaled_move(&self, i: usize) -> i128 {
        let place = self.places[i];
        place.num - i128::from(self.sheet.wanted[i]) * place.den
    }

    /// Multipliers for the placement, or groups that can move right and make the cost smaller. A
    /// label left of its wanted place gives 2 × weight × move, one right of it takes, and tight
    /// gaps carry it from left to right, exact ones also from right to left.
    fn balance(&self) -> Result<Vec<Fraction>, Vec<Vec<bool>>> {
        let tight: Vec<usize> = (0..self.gaps.len())
            .filter(|&e| self.gaps[e].is_tight(&self.places))
            .collect();
        let arc = |gap: Gap| Arc {
            from: gap.left,
            to: gap.right,
            either_way: gap.exact,
        };
        let arcs: Vec<Arc> = tight.iter().map(|&e| arc(self.gaps[e])).collect();
        let surplus = (0..self.places.len())
            .map(|i| -2 * i128::from(self.sheet.weight[i]) * self.scaled_move(i))
            .collect();
        let flow = largest_flow(&arcs, surplus);
        if flow.left_over {
            return Err(self.movable(&flow.reached));
        }
        let mut multipliers = vec![ZERO; self.gaps.len()];
        for (along, &e) in flow.along.into_iter().zip(&tight) {
            multipliers[e] = Fraction::new(along, self.places[self.gaps[e].left].den);
        }
        Ok(multipliers)
    }

    /// The parts of the groups that can still be reached from a label with something left to give.
    fn movable(&self, reached: &[bool]) -> Vec<Vec<bool>> {
        let mut parts = self.groups();
        for part in &mut parts {
            part.iter_mut()
                .zip(reached)
                .for_each(|(in_it, reached)| *in_it &= reached);
        }
        parts.retain(|part| part.contains(&true));
        parts
    }
}
