//! The fact store in its plain form: the least sums of all chains, as a
//! difference-bound matrix over the variables and zero.
//!
//! `sums[x][y]` is the least k such that x <= y + k is shown. Sums between a
//! pointer and an integer are kept too; facts never relate the two, so such a
//! sum is always the chain through zero.

use crate::table::{Condition, Kind, Relation, Right, Var, MAX_VARIABLES};

/// The greatest value of a variable.
pub const GREATEST: i64 = 4_294_967_295;

/// A row or column of the matrix: a variable, or zero.
pub type Node = usize;
pub const ZERO: Node = MAX_VARIABLES;
const NODES: usize = MAX_VARIABLES + 1;

/// A missing integer of an end counts as zero.
pub fn node_or_zero(variable: Option<Var>) -> Node {
    variable.map_or(ZERO, Node::from)
}

#[derive(Clone, Debug)]
pub struct Facts {
    kinds: Vec<Kind>,
    sums: [[i64; NODES]; NODES],
    contradictory: bool,
}

impl Facts {
    /// What is always known: 0 <= v <= 4,294,967,295.
    pub fn new(kinds: &[Kind]) -> Facts {
        let mut facts = Facts { kinds: kinds.to_vec(), sums: [[0; NODES]; NODES], contradictory: false };
        for x in 0..kinds.len() {
            facts = facts.drop(x);
        }
        facts
    }

    fn nodes(&self) -> impl Iterator<Item = Node> {
        (0..self.kinds.len()).chain([ZERO])
    }

    pub fn contradictory(&self) -> bool {
        self.contradictory
    }

    /// Whether a chain from x to y has a sum of at most k.
    pub fn shows(&self, x: Node, y: Node, k: i64) -> bool {
        self.contradictory || self.sums[x][y] <= k
    }

    /// The least sum from x to y; of use only where the facts do not contradict.
    pub fn sum(&self, x: Node, y: Node) -> i64 {
        self.sums[x][y]
    }

    /// Adds the fact x <= y + k.
    pub fn add(mut self, x: Node, y: Node, k: i64) -> Facts {
        if self.contradictory || self.sums[y][x] + k < 0 {
            self.contradictory = true;
            return self;
        }
        let before = self.sums;
        for a in self.nodes() {
            for b in self.nodes() {
                let through = before[a][x] + k + before[y][b];
                self.sums[a][b] = before[a][b].min(through);
            }
        }
        self
    }

    /// Keeps each shown fact without x; of x only what is always known stays. Point 11: "Dropping keeps a
    /// contradiction, also where no other variable is left", and so do all other changes.
    pub fn drop(mut self, x: Node) -> Facts {
        if self.contradictory {
            return self;
        }
        for y in self.nodes() {
            self.sums[x][y] = GREATEST + self.sums[ZERO][y];
            self.sums[y][x] = self.sums[y][ZERO];
        }
        self.sums[x][x] = 0;
        self
    }

    /// x := x + k: every shown fact of x moves with it, the always-known ones
    /// too; then the new x is known to be in range.
    pub fn shift(mut self, x: Node, k: i64) -> Facts {
        if self.contradictory {
            return self;
        }
        for y in self.nodes().filter(|&y| y != x) {
            self.sums[x][y] += k;
            self.sums[y][x] -= k;
        }
        self.add(x, ZERO, GREATEST).add(ZERO, x, 0)
    }

    /// x := y + k for another variable or zero as y.
    pub fn equate(self, x: Node, y: Node, k: i64) -> Facts {
        self.drop(x).add(x, y, k).add(y, x, -k)
    }

    /// A condition that is known to hold.
    pub fn assume(self, condition: Condition) -> Facts {
        let x = Node::from(condition.left);
        let (y, k) = match condition.right {
            Right::Variable(y) => (Node::from(y), 0),
            Right::Literal(k) => (ZERO, i64::from(k)),
        };
        match condition.relation {
            Relation::Less => self.add(x, y, k - 1),
            Relation::LessEqual => self.add(x, y, k),
            Relation::Greater => self.add(y, x, -k - 1),
            Relation::GreaterEqual => self.add(y, x, -k),
            Relation::Equal => self.add(x, y, k).add(y, x, -k),
            Relation::NotEqual => self.differ(x, y, k),
        }
    }

    /// Point 4: where x and y + k differ and "x <= y is shown there .., x <= y - 1 is now a fact, and the same from
    /// the other side". Both sides are asked of the same facts.
    fn differ(self, x: Node, y: Node, k: i64) -> Facts {
        let (below, above) = (self.shows(x, y, k), self.shows(y, x, -k));
        let facts = if below { self.add(x, y, k - 1) } else { self };
        if above {
            facts.add(y, x, -k - 1)
        } else {
            facts
        }
    }

    /// What both sides show. A contradictory side shows everything.
    pub fn join(mut self, other: &Facts) -> Facts {
        if self.contradictory {
            return other.clone();
        }
        if other.contradictory {
            return self;
        }
        for a in self.nodes() {
            for b in self.nodes() {
                self.sums[a][b] = self.sums[a][b].max(other.sums[a][b]);
            }
        }
        // No fact relates a pointer and an integer: their sum is the chain through zero.
        for a in 0..self.kinds.len() {
            for b in 0..self.kinds.len() {
                if self.kinds[a].is_pointer() != self.kinds[b].is_pointer() {
                    self.sums[a][b] = self.sums[a][ZERO] + self.sums[ZERO][b];
                }
            }
        }
        self
    }
}

#[cfg(test)]
#[path = "facts_tests.rs"]
mod tests;
