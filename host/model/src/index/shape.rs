//! The shape of a tree over so many leaves, which are numbered from 0 in key order:
//! which branch has which children.

use super::DEEPEST;
use crate::random::Random;
use std::ops::Range;

/// What a branch's pointer goes to, by its index.
#[derive(Clone, Copy, Debug)]
#[allow(missing_docs)]
pub enum Child {
    Node(usize),
    Leaf(usize),
}

/// What becomes a node: its children, and the first leaf below it.
#[derive(Clone, Debug)]
#[allow(missing_docs)]
pub struct Branch {
    pub first_leaf: usize,
    pub children: Vec<Child>,
}

/// All branches of a tree, children before parents: the last is the root.
#[derive(Clone, Debug, Default)]
#[allow(missing_docs)]
pub struct Shape {
    pub branches: Vec<Branch>,
}

impl Shape {
    /// The root, unless the tree is empty.
    pub fn root(&self) -> Option<usize> {
        self.branches.len().checked_sub(1)
    }

    /// How many branches stand on the way to the first leaf.
    pub fn levels(&self) -> usize {
        let mut levels = 0;
        let mut next = self.root();
        while let Some(at) = next {
            levels += 1;
            next = match self.branches[at].children[0] {
                Child::Node(below) => Some(below),
                Child::Leaf(_) => None,
            };
        }
        levels
    }

    fn push(&mut self, children: Vec<Child>) -> Child {
        let first_leaf = match children[0] {
            Child::Leaf(at) => at,
            Child::Node(at) => self.branches[at].first_leaf,
        };
        self.branches.push(Branch {
            first_leaf,
            children,
        });
        Child::Node(self.branches.len() - 1)
    }

    /// Full branches of `most` children, level by level from the lowest on.
    pub fn full(leaves: usize, most: usize) -> Shape {
        let mut shape = Shape::default();
        let mut level: Vec<Child> = (0..leaves).map(Child::Leaf).collect();
        while level.len() > 1 || matches!(level[..], [Child::Leaf(_)]) {
            let groups = level.chunks(most);
            level = groups.map(|group| shape.push(group.to_vec())).collect();
        }
        shape
    }

    /// Any shape of at most 16 branches on a way, with up to `most` children each. In half
    /// of the shapes all ways are equally long.
    pub fn any(leaves: usize, most: usize, random: &mut Random) -> Shape {
        let needed = (1..=DEEPEST).find(|&levels| capacity(most, levels) >= leaves);
        let needed = needed.expect("too many leaves for this order");
        let levels = (needed + random.pick(&[0, 1, 2, DEEPEST])).min(DEEPEST);
        let mut growing = Growing {
            shape: Shape::default(),
            most,
            even: random.one_in(2),
        };
        if leaves > 0 {
            growing.branch(0..leaves, levels, random);
        }
        growing.shape
    }
}

/// How many leaves so many levels of branches reach.
fn capacity(most: usize, levels: usize) -> usize {
    most.saturating_pow(levels as u32)
}

/// A shape that grows from the root down.
struct Growing {
    shape: Shape,
    most: usize,
    even: bool,
}

impl Growing {
    /// A branch over these leaves with at most so many levels, itself one of them.
    fn branch(&mut self, leaves: Range<usize>, levels: usize, random: &mut Random) -> Child {
        let mut children = Vec::new();
        for part in self.parts(leaves, capacity(self.most, levels - 1), random) {
            let alone = part.len() == 1;
            let stop = levels == 1 || alone && !self.even && random.one_in(2);
            children.push(if stop {
                Child::Leaf(part.start)
            } else {
                self.branch(part, levels - 1, random)
            });
        }
        self.shape.push(children)
    }

    /// Takes leaves apart into 1 to `most` parts of 1 to `largest` leaves each.
    fn parts(
        &self,
        leaves: Range<usize>,
        largest: usize,
        random: &mut Random,
    ) -> Vec<Range<usize>> {
        let fewest = leaves.len().div_ceil(largest);
        let count = random.between(fewest, self.most.min(leaves.len()));
        let mut from = leaves.start;
        let parts = (0..count).rev().map(|after| {
            let rest = leaves.end - from;
            let low = rest.saturating_sub(after.saturating_mul(largest)).max(1);
            let high = largest.min(rest - after);
            let part = from..from + random.between(low, high);
            from = part.end;
            part
        });
        parts.collect()
    }
}
