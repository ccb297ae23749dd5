//! Conditions written with !=, where an order of the two sides is known, nearly known or not.

use super::*;

impl Writer<'_> {
    /// Two sides of a condition: left, form, right. Now and then a variable beside itself.
    fn sides(&mut self) -> Option<[i32; 3]> {
        let pointers = self.rng.chance(35);
        let left = if pointers { self.pointer() } else { self.integer() }?;
        let right = if pointers { self.pointer() } else { self.integer() }?;
        let literal = self.literal();
        Some(match self.rng.below(6) {
            0 | 1 if pointers => [left, 1, 0],
            0 => [left, 1, self.rng.pick(&[0, -1])],
            1 => [left, 1, literal],
            _ => [left, 0, right],
        })
    }

    /// An order of the two sides, then != in one of its places, then the question whether the order is strict.
    pub(super) fn unequal(&mut self, depth: usize) -> Option<Chunk> {
        if depth + 1 >= MAX_DEPTH {
            return None;
        }
        let [left, form, right] = self.sides()?;
        let condition = |relation: i32| [left, relation, form, right];
        let order = self.rng.pick(&[LESS_EQUAL, LESS_EQUAL, GREATER_EQUAL, EQUAL, LESS]);
        let mut chunk = match self.rng.chance(75) {
            true => vec![dynamic_check(condition(order))],
            false => Chunk::new(),
        };
        if self.rng.chance(10) {
            chunk.push(self.assignment(left)?);
        }
        let strict = match (order, self.rng.below(3)) {
            (_, 0) => self.use_of_order(left, form, right)?,
            (GREATER_EQUAL, _) => self.sensor(condition(LESS_EQUAL)),
            _ => self.sensor(condition(GREATER_EQUAL)),
        };
        // In a loop that assigns a side, the order is gone before it is asked for.
        let body = if self.rng.chance(30) { vec![self.assignment(left)?] } else { vec![self.harmless()] };
        let (equal, unequal) = (condition(EQUAL), condition(NOT_EQUAL));
        chunk.extend(match self.rng.below(7) {
            0 | 1 => [vec![dynamic_check(unequal)], strict].concat(),
            2 => if_else(unequal, strict, body),
            3 => if_else(equal, body, strict),
            4 => while_loop(unequal, [strict, body].concat()),
            5 => [while_loop(equal, body), strict].concat(),
            _ => {
                let inner = strict.into_iter().filter(|record| record[0] < 11);
                bundle([vec![dynamic_check(unequal)], inner.collect()].concat())
            }
        });
        Some(chunk)
    }

    /// Statements that a strict order allows: the greater side can fall, the lesser one rise.
    fn use_of_order(&mut self, left: i32, form: i32, right: i32) -> Option<Chunk> {
        let greater = if form == 0 && self.rng.chance(60) { right } else { left };
        if self.layout.pointers.contains(&greater) {
            let by = self.rng.pick(&[1, -1]);
            return Some(vec![move_pointer(self.pointer()?, greater, by)]);
        }
        let by = if greater == left { self.rng.pick(&[1, -1]) } else { -1 };
        Some(match self.rng.below(3) {
            0 => vec![add_constant(greater, greater, by)],
            1 => vec![add_constant(self.integer()?, greater, by)],
            _ => bundle(vec![add_constant(greater, greater, by), add_constant(greater, greater, -by)]),
        })
    }
}
