//! Patterns with blocks, joins and moving pointers; the rest of `Writer`.

use super::*;

pub(super) fn negation(relation: i32) -> i32 {
    oracle::syntax::negation(relation as usize) as i32
}

impl Writer<'_> {
    pub(super) fn if_block(&mut self, depth: usize) -> Option<Chunk> {
        if depth >= MAX_DEPTH {
            return None;
        }
        let condition = self.condition();
        let (then, other) = (self.rng.below(4), self.rng.below(3));
        let then = self.body(then, depth + 1);
        let other = self.body(other, depth + 1);
        Some(if_else(condition, then, other))
    }

    pub(super) fn while_block(&mut self, depth: usize) -> Option<Chunk> {
        if depth >= MAX_DEPTH {
            return None;
        }
        let size = self.rng.below(4);
        let body = self.body(size, depth + 1);
        // A loop that ends more often than not.
        match self.rng.pick_any(&self.layout.free) {
            Some(i) if self.rng.chance(60) => {
                let step = add_constant(i, i, 1);
                let limit = self.rng.range(1, 9);
                let body = [body, vec![step]].concat();
                Some(while_loop(with_literal(i, LESS, limit), body))
            }
            _ => Some(while_loop(self.condition(), body)),
        }
    }

    pub(super) fn any_bundle(&mut self) -> Chunk {
        let count = match self.rng.below(40) {
            0 => 16,
            1 => 17,
            _ => self.rng.range(1, 5),
        };
        let mut inner = Chunk::new();
        for _ in 0..count {
            inner.push(if self.rng.chance(60) { self.harmless() } else { self.simple() });
        }
        bundle(inner)
    }

    /// A block that is dead where the condition is known to be false: only there is all that it holds accepted.
    pub(super) fn sensor(&mut self, condition: Cond) -> Chunk {
        let then = if self.rng.chance(70) { self.unshown() } else { vec![self.harmless()] };
        if_else(condition, then, Chunk::new())
    }

    /// A fact, then an assignment to what it names, then the question whether it is known.
    pub(super) fn forgotten(&mut self, depth: usize) -> Option<Chunk> {
        if depth + 1 >= MAX_DEPTH {
            return None;
        }
        let mut fact = self.condition();
        if let Some(p) = self.rng.pick_any(&self.layout.movers).filter(|_| self.rng.chance(35)) {
            fact = with_variable(p, self.rng.range(0, 4), self.pointer()?);
        }
        let [left, relation, form, right] = fact;
        let v = if form == 0 && self.rng.chance(40) { right } else { left };
        let assigned = vec![self.assignment(v)?];
        let mut chunk = vec![dynamic_check(fact)];
        chunk.extend(match self.rng.below(5) {
            0 => while_loop(self.condition(), assigned),
            1 => while_loop(self.condition(), bundle(assigned)),
            2 => if_else(self.condition(), assigned, Chunk::new()),
            3 => if_else(self.condition(), Chunk::new(), assigned),
            _ => assigned,
        });
        let asked = if self.rng.chance(60) { negation(relation) } else { self.rng.range(0, 5) };
        chunk.extend(self.sensor([left, asked, form, right]));
        Some(chunk)
    }

    /// Some statement that assigns v.
    pub(super) fn assignment(&mut self, v: i32) -> Option<Record> {
        let k = constant(self.rng);
        if self.layout.pointers.contains(&v) {
            let q = if self.rng.chance(50) { v } else { self.pointer()? };
            return Some(match self.rng.below(5) {
                0 => null(v),
                1 => address(v, self.object(v)?),
                2 => index_pointer(v, q, self.integer()?),
                _ => move_pointer(v, q, k),
            });
        }
        let y = if self.rng.chance(50) { v } else { self.integer()? };
        Some(match self.rng.below(5) {
            0 => set(v, self.literal()),
            1 => operate(v, y, self.integer()?, self.rng.range(0, 2)),
            2 => load(v, self.pointer()?, -1, 0),
            _ => add_constant(v, y, k),
        })
    }

    /// Indexes and sums that would come out small if they wrapped.
    pub(super) fn wrapping(&mut self) -> Option<Chunk> {
        let (x, p) = (self.scratch()?, self.pointer()?);
        let k = self.rng.range(1, 3);
        let mut chunk = vec![set(x, 0), add_constant(x, x, -k)];
        chunk.push(match self.rng.below(4) {
            0 => load(x, p, x, k),
            1 => store(p, x, k + 1, x),
            2 => index_pointer(self.rng.pick_any(&self.layout.movers)?, p, x),
            _ => operate(x, x, self.integer()?, self.rng.range(0, 2)),
        });
        Some(chunk)
    }

    /// A join of facts over pointers with facts over integers: the mixed sums
    /// of both sides lie below the chain through zero of the join.
    pub(super) fn mixed_join(&mut self, depth: usize) -> Option<Chunk> {
        if depth + 1 >= MAX_DEPTH {
            return None;
        }
        let (p, v) = (self.pointer()?, self.integer()?);
        let high = self.rng.pick(&[0, 5, i32::MAX, -1, -1, -2]);
        let mut sides = [
            vec![dynamic_check(with_literal(p, NOT_EQUAL, 0))],
            vec![dynamic_check(with_literal(v, LESS_EQUAL, high))],
        ];
        if self.rng.chance(40) {
            sides = [
                vec![dynamic_check(with_literal(v, GREATER_EQUAL, high))],
                vec![dynamic_check(with_literal(p, EQUAL, 0))],
            ];
        }
        let [then, other] = sides;
        let mut chunk = if_else(self.condition(), then, other);
        // Now what one side knows of p would tell of v, if a mixed sum were kept.
        let other_pointer = self.pointer()?;
        chunk.push(dynamic_check(match self.rng.below(4) {
            0 | 1 => with_literal(p, EQUAL, 0),
            2 => with_variable(p, LESS_EQUAL, other_pointer),
            _ => with_literal(v, LESS_EQUAL, 0),
        }));
        let by = self.rng.pick(&[1, 1, 2]);
        match self.rng.below(3) {
            0 => chunk.extend(bundle(vec![add_constant(v, v, by), add_constant(v, v, -by)])),
            1 => {
                chunk.push(add_constant(v, v, by));
                chunk.extend(self.sensor(with_literal(v, EQUAL, 0)));
            }
            _ => chunk.push(move_pointer(other_pointer, p, self.rng.range(0, 1))),
        }
        Some(chunk)
    }

    /// Pointers that have their bounds elsewhere move and are read through.
    pub(super) fn free_pointer(&mut self, depth: usize) -> Option<Chunk> {
        if depth + 1 >= MAX_DEPTH {
            return None;
        }
        let p = self.rng.pick_any(&self.layout.movers)?;
        let (q, i) = (self.pointer()?, self.integer()?);
        let far = self.rng.pick(&[1, 2, -1, -1, -2, -3, -5, 10, -10, 65_536, -65_536]);
        let mut chunk = vec![match self.rng.below(6) {
            0 => index_pointer(p, p, i),
            1 => index_pointer(p, q, i),
            2 => move_pointer(p, q, constant(self.rng)),
            _ => move_pointer(p, p, far),
        }];
        if self.rng.chance(20) {
            chunk.extend(self.sensor(with_literal(p, EQUAL, 0)));
        }
        if self.rng.chance(20) {
            return Some(while_loop(self.condition(), chunk));
        }
        if self.rng.chance(60) {
            let index = if self.rng.chance(60) { -1 } else { i };
            let k = self.rng.range(-2, 2);
            chunk.push(match self.rng.chance(50) {
                true => load(self.scratch()?, p, index, k),
                false => store(p, index, k, self.integer()?),
            });
        }
        Some(chunk)
    }

    /// Comparisons of pointers, then a copy that may need them.
    pub(super) fn pointer_order(&mut self) -> Option<Chunk> {
        let (p, q, r) = (self.pointer()?, self.pointer()?, self.pointer()?);
        let mut chunk = vec![
            dynamic_check(with_variable(p, self.rng.range(0, 5), q)),
            dynamic_check(with_variable(q, self.rng.pick(&[LESS, LESS_EQUAL, EQUAL]), r)),
        ];
        let k = self.rng.range(-2, 2);
        match self.rng.below(4) {
            0 => chunk.push(move_pointer(p, r, k)),
            1 => chunk.push(move_pointer(r, p, k)),
            2 => chunk.extend(bundle(vec![
                move_pointer(p, q, 0),
                move_pointer(q, r, 0),
                move_pointer(r, p, 0),
            ])),
            _ => chunk.push(dynamic_check(with_variable(r, self.rng.range(0, 5), p))),
        }
        Some(chunk)
    }

    /// Shifts that cancel in a bundle, some by the greatest k.
    pub(super) fn there_and_back(&mut self) -> Option<Chunk> {
        let k = self.rng.pick(&[1, 2, 3, -1, -2, 65_536, -65_536]);
        let miss = self.rng.pick(&[0, 0, 0, 0, 1]);
        let back = (miss - k).clamp(-65_536, 65_536);
        let mut inner = match self.rng.chance(70) {
            true => {
                let p = self.pointer()?;
                vec![move_pointer(p, p, k), move_pointer(p, p, back)]
            }
            false => {
                let n = self.integer()?;
                vec![add_constant(n, n, k), add_constant(n, n, back)]
            }
        };
        if self.rng.chance(50) {
            inner.insert(1, self.harmless());
        }
        Some(bundle(inner))
    }

    /// Deep nesting, and other things that come seldom.
    pub(super) fn rare(&mut self, depth: usize) -> Option<Chunk> {
        match self.rng.below(4) {
            0 => Some(if_else(self.condition(), Chunk::new(), Chunk::new())),
            1 if self.rng.chance(20) => Some(vec![dynamic_check(self.never()?)]),
            _ if depth == 0 => {
                let deepest = MAX_DEPTH + 1 - self.rng.pick(&[0, 1, 1, 1, 2, 3]);
                Some(self.nest(deepest))
            }
            _ => None,
        }
    }

    /// Heads within heads; the innermost statement has this depth.
    fn nest(&mut self, depth: usize) -> Chunk {
        let mut inner = match self.rng.below(4) {
            0 => Chunk::new(),
            1 => bundle(vec![self.harmless()]),
            _ => vec![self.harmless()],
        };
        for _ in 0..depth {
            let condition = self.condition();
            let beside = if self.rng.chance(25) { vec![self.check()] } else { Chunk::new() };
            inner = match self.rng.below(4) {
                0 => if_else(condition, beside, inner),
                1 => while_loop(condition, [inner, beside].concat()),
                _ => if_else(condition, inner, beside),
            };
        }
        inner
    }
}
