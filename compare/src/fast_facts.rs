//! The fact store in its fast form.
//!
//! Facts never relate a pointer and an integer, and a chain through zero and
//! back cannot fall below 0 unless the facts contradict. So the least sums
//! among pointers and zero, and those among integers and zero, do not depend on
//! each other: two small matrices with zero in common. They lie in one array,
//! pointers first, then zero, then integers; the mixed corners stay unused.

use oracle::facts::GREATEST;
use oracle::table::Relation;
use std::ops::Range;

const NODES: usize = 17;

#[derive(Clone, Copy)]
pub struct FastFacts {
    sums: [[i64; NODES]; NODES],
    /// The row of zero, which is the number of pointers.
    zero: usize,
    /// All rows in use.
    len: usize,
    pub contradictory: bool,
}

impl FastFacts {
    pub fn new(pointers: usize, integers: usize) -> FastFacts {
        let mut facts = FastFacts {
            sums: [[GREATEST; NODES]; NODES],
            zero: pointers,
            len: pointers + 1 + integers,
            contradictory: false,
        };
        facts.sums[pointers] = [0; NODES];
        for x in 0..NODES {
            facts.sums[x][x] = 0;
        }
        facts
    }

    /// The rows that a chain from or to x can use.
    #[inline(always)]
    fn side(&self, x: usize) -> Range<usize> {
        if x < self.zero {
            0..(self.zero + 1).min(NODES)
        } else {
            self.zero..self.len.min(NODES)
        }
    }

    /// The side on which x and y lie; zero lies on both.
    #[inline(always)]
    fn side_of_both(&self, x: usize, y: usize) -> Range<usize> {
        self.side(if x == self.zero { y } else { x })
    }

    #[inline(always)]
    pub fn sum(&self, x: usize, y: usize) -> i64 {
        self.sums[x][y]
    }

    #[inline(always)]
    pub fn shows(&self, x: usize, y: usize, k: i64) -> bool {
        self.contradictory || self.sums[x][y] <= k
    }

    /// x <= y + k. Once the facts contradict, the sums mean nothing and stay so small that they never overflow.
    #[inline]
    pub fn add(&mut self, x: usize, y: usize, k: i64) {
        if k >= self.sums[x][y] || self.contradictory {
            return;
        }
        if self.sums[y][x] + k < 0 {
            self.contradictory = true;
            return;
        }
        let side = self.side_of_both(x, y);
        // Row y stays as it is; rows are taken from both sides of it.
        let (before, rest) = self.sums.split_at_mut(y);
        let Some((tail, after)) = rest.split_first_mut() else { return };
        let tail = &tail[side.clone()];
        let through = |row: &mut [i64; NODES]| {
            // Only a row whose sum to y falls can have any other sum fall.
            let head = row[x] + k;
            if head < row[y] {
                for (sum, tail) in row[side.clone()].iter_mut().zip(tail) {
                    *sum = (*sum).min(head + tail);
                }
            }
        };
        before[side.start..].iter_mut().for_each(through);
        after[..side.end - y - 1].iter_mut().for_each(through);
    }

    /// Row x to be written, another one to be read.
    #[inline(always)]
    fn two_rows(&mut self, x: usize, y: usize) -> (&mut [i64; NODES], &[i64; NODES]) {
        let [row, other] = self.sums.get_disjoint_mut([x, y]).expect("two rows of the matrix");
        (row, other)
    }

    /// Drops x and makes it a variable from `least` to `greatest`.
    #[inline]
    pub fn renew(&mut self, x: usize, least: i64, greatest: i64) {
        let side = self.side(x);
        let zero = self.zero;
        let (row, from_zero) = self.two_rows(x, zero);
        for (sum, rest) in row[side.clone()].iter_mut().zip(&from_zero[side.clone()]) {
            *sum = greatest + rest;
        }
        for row in &mut self.sums[side] {
            row[x] = row[zero] - least;
        }
        self.sums[x][x] = 0;
    }

    #[inline]
    pub fn drop(&mut self, x: usize) {
        self.renew(x, 0, GREATEST);
    }

    /// Drops x and makes it y + k, for another y of the same kind.
    #[inline]
    pub fn copy(&mut self, x: usize, y: usize, k: i64) {
        let side = self.side(x);
        let (row, source) = self.two_rows(x, y);
        for (sum, from) in row[side.clone()].iter_mut().zip(&source[side.clone()]) {
            *sum = from + k;
        }
        for row in &mut self.sums[side] {
            row[x] = row[y] - k;
        }
        self.sums[x][x] = 0;
        self.keep_in_range(x);
    }

    /// x := x + k with every fact of x.
    #[inline]
    pub fn shift(&mut self, x: usize, k: i64) {
        let side = self.side(x);
        for sum in &mut self.sums[x][side.clone()] {
            *sum += k;
        }
        for row in &mut self.sums[side] {
            row[x] -= k;
        }
        self.keep_in_range(x);
    }

    #[inline]
    fn keep_in_range(&mut self, x: usize) {
        self.add(x, self.zero, GREATEST);
        self.add(self.zero, x, 0);
    }

    /// The facts of a condition: x against y + k.
    #[inline]
    pub fn assume(&mut self, x: usize, relation: Relation, y: usize, k: i64) {
        match relation {
            Relation::Less => self.add(x, y, k - 1),
            Relation::LessEqual => self.add(x, y, k),
            Relation::Greater => self.add(y, x, -k - 1),
            Relation::GreaterEqual => self.add(y, x, -k),
            Relation::Equal => {
                self.add(x, y, k);
                self.add(y, x, -k);
            }
            Relation::NotEqual => {
                let (below, above) = (self.shows(x, y, k), self.shows(y, x, -k));
                if below {
                    self.add(x, y, k - 1);
                }
                if above {
                    self.add(y, x, -k - 1);
                }
            }
        }
    }

    /// What both sides show.
    pub fn join(&mut self, other: &FastFacts) {
        if other.contradictory {
            return;
        }
        if self.contradictory {
            *self = *other;
            return;
        }
        for side in [0..self.zero + 1, self.zero..self.len] {
            let rows = self.sums[side.clone()].iter_mut().zip(&other.sums[side.clone()]);
            for (row, other_row) in rows {
                for (sum, other_sum) in row[side.clone()].iter_mut().zip(&other_row[side.clone()]) {
                    *sum = (*sum).max(*other_sum);
                }
            }
        }
    }
}

#[cfg(test)]
#[path = "fast_facts_tests.rs"]
mod tests;
