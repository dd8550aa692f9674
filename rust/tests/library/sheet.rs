//! A sheet as the tests hold it.
use crate::fraction::{Fraction, ZERO};
use std::path::Path;

/// The kinds of gaps.
pub const AT_LEAST: u8 = 0;
pub const EXACTLY: u8 = 1;

/// The lists that are lent to read. They may be of any lengths and hold anything.
#[derive(Clone, Debug, Default, PartialEq, Eq)]
pub struct Sheet {
    pub wanted: Vec<i64>,
    pub weight: Vec<i64>,
    pub left: Vec<u64>,
    pub right: Vec<u64>,
    pub distance: Vec<i64>,
    pub kind: Vec<u8>,
}

/// A gap of a sheet whose lists belong together.
#[derive(Clone, Copy, PartialEq, Eq)]
pub struct Gap {
    pub left: usize,
    pub right: usize,
    pub distance: i64,
    pub exact: bool,
}

/// A text of the repository's folder of sheets.
pub fn file(name: &str) -> Vec<u8> {
    let sheets = Path::new(env!("CARGO_MANIFEST_DIR")).join("../sheets");
    std::fs::read(sheets.join(name)).expect("the sheet")
}

/// The text of so many labels, all wanted at 0 with weight 1.
pub fn labels_text(count: usize) -> String {
    (0..count).map(|i| format!("label,{i},0,1\n")).collect()
}

impl Sheet {
    pub fn label(&mut self, wanted: i64, weight: i64) {
        self.wanted.push(wanted);
        self.weight.push(weight);
    }

    /// Adds a gap that asks for at least its distance.
    pub fn gap(&mut self, left: usize, right: usize, distance: i64) {
        self.add(left, right, distance, AT_LEAST);
    }

    /// Adds a gap that asks for exactly its distance.
    pub fn same(&mut self, left: usize, right: usize, distance: i64) {
        self.add(left, right, distance, EXACTLY);
    }

    /// Adds a gap of a kind.
    pub fn add(&mut self, left: usize, right: usize, distance: i64, kind: u8) {
        self.left.push(left as u64);
        self.right.push(right as u64);
        self.distance.push(distance);
        self.kind.push(kind);
    }

    pub fn labels(&self) -> usize {
        self.wanted.len()
    }

    pub fn gaps(&self) -> usize {
        self.left.len()
    }

    /// The gaps in the order of their numbers.
    pub fn all_gaps(&self) -> Vec<Gap> {
        (0..self.gaps())
            .map(|e| Gap {
                left: self.left[e] as usize,
                right: self.right[e] as usize,
                distance: self.distance[e],
                exact: self.kind[e] == EXACTLY,
            })
            .collect()
    }

    /// The sheet with its labels numbered anew: label i gets the number `number[i]`.
    pub fn with_labels_numbered(&self, number: &[usize]) -> Sheet {
        let mut other = self.clone();
        for (i, &n) in number.iter().enumerate() {
            other.wanted[n] = self.wanted[i];
            other.weight[n] = self.weight[i];
        }
        for e in 0..self.gaps() {
            other.left[e] = number[self.left[e] as usize] as u64;
            other.right[e] = number[self.right[e] as usize] as u64;
        }
        other
    }

    /// The sheet with these of its gaps, in this order.
    pub fn with_gaps(&self, order: &[usize]) -> Sheet {
        let mut other = Sheet {
            wanted: self.wanted.clone(),
            weight: self.weight.clone(),
            ..Sheet::default()
        };
        for &e in order {
            let (left, right) = (self.left[e] as usize, self.right[e] as usize);
            other.add(left, right, self.distance[e], self.kind[e]);
        }
        other
    }
}

impl Gap {
    pub fn kind(&self) -> u8 {
        [AT_LEAST, EXACTLY][usize::from(self.exact)]
    }

    /// Right place less left place less distance.
    pub fn slack(&self, places: &[Fraction]) -> Fraction {
        places[self.right] - places[self.left] - Fraction::whole(self.distance)
    }

    /// Whether it holds where this is its slack.
    pub fn holds_with(&self, slack: Fraction) -> bool {
        slack == ZERO || (slack > ZERO && !self.exact)
    }

    pub fn is_tight(&self, places: &[Fraction]) -> bool {
        let (left, right) = (places[self.left], places[self.right]);
        left.den == right.den && left.num + i128::from(self.distance) * left.den == right.num
    }
}
