//! Code that cannot be reached: contradictory conditions, and blocks that only there are accepted.

use super::patterns::negation;
use super::*;

impl Writer<'_> {
    /// A condition that never holds, by itself.
    pub(super) fn never(&mut self) -> Option<Cond> {
        let (x, p) = (self.integer(), self.pointer());
        Some(match self.rng.below(6) {
            0 => with_variable(x?, self.rng.pick(&[LESS, GREATER, NOT_EQUAL]), x?),
            1 => with_variable(p?, self.rng.pick(&[LESS, GREATER, NOT_EQUAL]), p?),
            2 => with_literal(p?, LESS, 0),
            3 => with_literal(x?, GREATER, -1),
            _ => with_literal(x?, LESS, 0),
        })
    }

    /// Statements that are refused where facts do not contradict, most often: by drops, by shifts, in a bundle.
    pub(super) fn unshown(&mut self) -> Chunk {
        self.try_unshown().unwrap_or_else(|| vec![self.harmless()])
    }

    fn try_unshown(&mut self) -> Option<Chunk> {
        let group = self.group()?;
        let (p, k) = (self.rng.pick(&group.pointers), constant(self.rng));
        let step = if self.rng.chance(50) { 1 } else { -1 };
        Some(match self.rng.below(8) {
            0 => vec![set(group.count, self.literal())],
            1 => vec![operate(group.count, self.integer()?, self.integer()?, self.rng.range(0, 2))],
            2 => vec![add_constant(group.count, group.count, step)],
            3 => vec![add_constant(group.count, self.integer()?, k)],
            4 => vec![move_pointer(p, p, step)],
            5 => vec![index_pointer(p, self.pointer()?, self.integer()?)],
            6 => vec![null(p), add_constant(group.count, group.count, k), move_pointer(p, p, step)],
            _ => {
                let access = load(self.scratch()?, p, -1, self.rng.range(0, 1));
                bundle(vec![move_pointer(p, p, step), access, add_constant(group.count, group.count, step)])
            }
        })
    }

    /// A block for where facts contradict: some of it in joins and loops, where there is depth for them.
    fn dead_block(&mut self, depth: usize) -> Chunk {
        let mut block = Chunk::new();
        for _ in 0..self.rng.range(1, 3) {
            let inner = self.unshown();
            block.extend(match self.rng.below(8) {
                0 if depth < MAX_DEPTH => if_else(self.condition(), inner, self.unshown()),
                1 if depth < MAX_DEPTH => if_else(self.condition(), Chunk::new(), inner),
                2 if depth < MAX_DEPTH => while_loop(self.condition(), inner),
                3 => self.any_bundle(),
                4 => vec![self.check()],
                _ => inner,
            });
        }
        block
    }

    /// Dead code: in a then or else block, in a loop's body, behind a loop, in a bundle, to the end of the block.
    pub(super) fn dead_code(&mut self, depth: usize) -> Option<Chunk> {
        if depth >= MAX_DEPTH {
            return None;
        }
        let never = self.never()?;
        let always = [never[0], negation(never[1]), never[2], never[3]];
        let dead = self.dead_block(depth + 1);
        let live = if self.rng.chance(50) { vec![self.harmless()] } else { Chunk::new() };
        // What makes all that follows dead is seldom at the top: it would hide the rest of the routine.
        let to_the_end = depth > 0 || self.rng.chance(15);
        Some(match self.rng.below(10) {
            0 if to_the_end => [vec![dynamic_check(never)], self.dead_block(depth)].concat(),
            1 if to_the_end => [while_loop(always, live), self.dead_block(depth)].concat(),
            2 if to_the_end => {
                let mut inner = vec![self.harmless(), dynamic_check(never)];
                inner.extend(self.unshown().into_iter().filter(|record| record[0] < 11));
                bundle(inner)
            }
            0 | 3 | 4 => if_else(never, dead, live),
            1 | 5 => if_else(always, live, dead),
            6 => while_loop(never, dead),
            // What a line above decided.
            2 | 7 => {
                let known = self.condition();
                let negated = [known[0], negation(known[1]), known[2], known[3]];
                [vec![dynamic_check(known)], if_else(negated, dead, live)].concat()
            }
            _ => {
                let (x, literal) = (self.scratch()?, self.rng.range(0, 9));
                let other = with_literal(x, self.rng.pick(&[LESS, GREATER, EQUAL]), literal + 1);
                [vec![set(x, literal)], if_else(other, dead, live)].concat()
            }
        })
    }
}
