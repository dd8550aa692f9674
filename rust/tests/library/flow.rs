//! A largest flow along arcs without capacity limits, from nodes that give to nodes that take. Along some arcs it may
//! go either way.
use std::collections::VecDeque;

/// An arc from one node to another.
#[derive(Clone, Copy)]
pub struct Arc {
    pub from: usize,
    pub to: usize,
    pub either_way: bool,
}

/// A largest flow, below zero along an arc where it goes against it, and the nodes that can still be reached from a node
/// with something left to give.
pub struct Flow {
    pub along: Vec<i128>,
    pub reached: Vec<bool>,
    pub left_over: bool,
}

/// How a node was reached in a search: from a node that gives, along an arc, or against one that has flow or lets it
/// go either way.
#[derive(Clone, Copy)]
enum From {
    Nothing,
    Giver,
    Along(usize),
    Against(usize),
}

struct Network<'a> {
    arcs: &'a [Arc],
    touching: Vec<Vec<usize>>,
    along: Vec<i128>,
    surplus: Vec<i128>,
}

/// The largest flow. A node gives its surplus where that is above zero and takes where it is below.
pub fn largest_flow(arcs: &[Arc], surplus: Vec<i128>) -> Flow {
    let mut touching = vec![Vec::new(); surplus.len()];
    for (arc, &Arc { from, to, .. }) in arcs.iter().enumerate() {
        touching[from].push(arc);
        touching[to].push(arc);
    }
    let mut network = Network {
        arcs,
        touching,
        along: vec![0; arcs.len()],
        surplus,
    };
    loop {
        let (from, taker) = network.search();
        match taker {
            Some(taker) => network.send(&from, taker),
            None => return network.finish(&from),
        }
    }
}

impl Network<'_> {
    /// A search from all givers, breadth first, until a taker is met.
    fn search(&self) -> (Vec<From>, Option<usize>) {
        let mut from = vec![From::Nothing; self.surplus.len()];
        let mut queue = VecDeque::new();
        for (node, &surplus) in self.surplus.iter().enumerate() {
            if surplus > 0 {
                from[node] = From::Giver;
                queue.push_back(node);
            }
        }
        while let Some(node) = queue.pop_front() {
            if self.surplus[node] < 0 {
                return (from, Some(node));
            }
            for &arc in &self.touching[node] {
                let Arc {
                    from: tail,
                    to: head,
                    either_way,
                } = self.arcs[arc];
                let step = if tail == node {
                    (head, From::Along(arc))
                } else if either_way || self.along[arc] > 0 {
                    (tail, From::Against(arc))
                } else {
                    continue;
                };
                if let From::Nothing = from[step.0] {
                    from[step.0] = step.1;
                    queue.push_back(step.0);
                }
            }
        }
        (from, None)
    }

    /// The nodes of the way to a taker, as arcs with their direction, and the giver that it starts at.
    fn way(&self, from: &[From], taker: usize) -> (Vec<(usize, bool)>, usize) {
        let (mut way, mut node) = (Vec::new(), taker);
        loop {
            match from[node] {
                From::Along(arc) => {
                    way.push((arc, true));
                    node = self.arcs[arc].from;
                }
                From::Against(arc) => {
                    way.push((arc, false));
                    node = self.arcs[arc].to;
                }
                From::Giver | From::Nothing => return (way, node),
            }
        }
    }

    /// Sends as much as the way takes.
    fn send(&mut self, from: &[From], taker: usize) {
        let (way, giver) = self.way(from, taker);
        let mut amount = self.surplus[giver].min(-self.surplus[taker]);
        for &(arc, forwards) in &way {
            if !forwards && !self.arcs[arc].either_way {
                amount = amount.min(self.along[arc]);
            }
        }
        for (arc, forwards) in way {
            self.along[arc] += if forwards { amount } else { -amount };
        }
        self.surplus[giver] -= amount;
        self.surplus[taker] += amount;
    }

    fn finish(self, from: &[From]) -> Flow {
        Flow {
            reached: from.iter().map(|f| !matches!(f, From::Nothing)).collect(),
            left_over: self.surplus.iter().any(|&s| s != 0),
            along: self.along,
        }
    }
}
