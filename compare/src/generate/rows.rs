//! Bounds declared at statements (point 2): rows shown and not shown, chosen by an if, in loops, in bundles.

use super::*;

impl Writer<'_> {
    /// A row and the pointer that it was made for.
    fn row_of_pointer(&mut self) -> (i32, i32) {
        let row = self.rng.below(self.layout.rows.len());
        (self.layout.rows[row].pointer, row as i32)
    }

    /// Another row for the same pointer, or the same row where it has no other.
    fn other_row(&mut self, p: i32, row: i32) -> i32 {
        let rows = (0..self.layout.rows.len()).filter(|&r| self.layout.rows[r].pointer == p);
        let others: Vec<i32> = rows.map(|r| r as i32).filter(|&r| r != row).collect();
        self.rng.pick_any(&others).unwrap_or(row)
    }

    /// Any pointer and any row.
    pub(super) fn any_declaration(&mut self) -> Record {
        let (p, row) = self.row_of_pointer();
        let p = if self.rng.chance(90) { p } else { self.pointer().unwrap_or(p) };
        declare(p, row)
    }

    /// One of the patterns with a kind 14.
    pub(super) fn with_rows(&mut self, depth: usize) -> Option<Chunk> {
        match self.rng.below(10) {
            0..=2 => self.declared_row(),
            3..=5 => self.chosen_row(depth),
            6 | 7 => self.looped_row(depth),
            _ => self.bundled_row(),
        }
    }

    /// Checks after which end a is at most end b, both with this size, as far as dynamic checks can say it.
    fn end_guards(&mut self, a: &[i32], b: &[i32], size: i32) -> Chunk {
        let mut guards = Chunk::new();
        if a[0] != b[0] {
            guards.push(dynamic_check(with_variable(a[0], self.rng.pick(&[LESS_EQUAL, EQUAL]), b[0])));
        }
        let less = (b[2] - a[2]).div_euclid(size);
        match (a[1], b[1]) {
            (-1, -1) => {}
            (n, -1) => guards.push(dynamic_check(with_literal(n, LESS_EQUAL, less.max(0)))),
            (-1, m) => guards.push(dynamic_check(with_literal(m, GREATER_EQUAL, (-less).max(0)))),
            (n, m) if n == m => {}
            (n, m) => {
                let relation = if less < 0 { LESS } else { LESS_EQUAL };
                guards.push(dynamic_check(with_variable(n, relation, m)));
            }
        }
        guards
    }

    /// Checks after which a row is shown where the pointer has its own bound, or that of another row; now and
    /// then one of them is left out.
    fn guards(&mut self, p: i32, row: i32) -> Chunk {
        let known = match self.rng.chance(70) {
            true => self.layout.own[p as usize],
            false => self.layout.rows[self.other_row(p, row) as usize].bounds,
        };
        let bounds = self.layout.rows[row as usize].bounds;
        let size = self.layout.sizes[p as usize];
        let mut guards = self.end_guards(&known[..3], &bounds[..3], size);
        guards.extend(self.end_guards(&bounds[3..], &known[3..], size));
        if self.rng.chance(10) {
            guards.pop();
        }
        guards
    }

    /// An access near the ends of a row of p: by the row it is in bounds and by p's own bound not, or the other way.
    fn access_at_row(&mut self, p: i32, row: i32) -> Option<Record> {
        let x = self.scratch()?;
        let [q, n, lower, r, m, upper] = self.layout.rows[row as usize].bounds;
        let [_, i, k] = self.rng.pick(&[[p, -1, 0], [q, n, lower], [r, m, upper]]);
        let k = (k + self.rng.range(-1, 1)).clamp(-65_536, 65_536);
        // A load into a count would take bounds away.
        let free = self.layout.free.contains(&x);
        Some(if free && self.rng.chance(60) { load(x, p, i, k) } else { store(p, i, k, x) })
    }

    /// A kind 14 with the checks that it needs, and accesses behind it.
    fn declared_row(&mut self) -> Option<Chunk> {
        let (p, row) = self.row_of_pointer();
        let mut chunk = if self.rng.chance(75) { self.guards(p, row) } else { Chunk::new() };
        chunk.push(declare(p, row));
        match self.rng.below(4) {
            0 => {}
            1 => {
                let other = self.other_row(p, row);
                chunk.extend(self.guards(p, other));
                chunk.push(declare(p, other));
                chunk.push(self.access_at_row(p, other)?);
            }
            2 => {
                chunk.push(self.assignment(p)?);
                chunk.push(self.access_at_row(p, row)?);
            }
            _ => chunk.push(self.access_at_row(p, row)?),
        }
        Some(chunk)
    }

    /// Statements that leave a row in force: with checks, or together with new cells for the pointer.
    fn leave(&mut self, p: i32, row: i32) -> Option<Chunk> {
        let bounds = self.layout.rows[row as usize].bounds;
        Some(match self.rng.below(8) {
            0 => vec![declare(p, row)],
            1 => vec![null(p), declare(p, row)],
            2..=4 => {
                let object = self.object(p)?;
                let mut inner = vec![address(p, object)];
                if bounds[4] >= 0 {
                    let cells = self.layout.objects[object as usize] - bounds[5];
                    let elements = cells.div_euclid(self.layout.sizes[p as usize]);
                    inner.push(set(bounds[4], (elements + self.rng.pick(&[0, 0, -1, 1])).max(0)));
                }
                inner.push(declare(p, row));
                bundle(inner)
            }
            5 => {
                let q = self.pointer()?;
                let mut inner = vec![move_pointer(p, q, 0), declare(p, row)];
                let count = self.layout.own[q as usize][4];
                if bounds[4] >= 0 && count >= 0 {
                    inner.insert(1, add_constant(bounds[4], count, 0));
                }
                bundle(inner)
            }
            _ => [self.guards(p, row), vec![declare(p, row)]].concat(),
        })
    }

    /// An if whose sides leave the same row in force, or different ones, or one of them its own bound.
    fn chosen_row(&mut self, depth: usize) -> Option<Chunk> {
        if depth >= MAX_DEPTH {
            return None;
        }
        let (p, row) = self.row_of_pointer();
        let mut sides = [self.leave(p, row)?, self.leave(p, row)?];
        if self.rng.chance(25) {
            let other = self.other_row(p, row);
            let side = self.rng.below(2);
            sides[side] = match self.rng.below(3) {
                0 => Chunk::new(),
                1 => vec![self.harmless()],
                _ => self.leave(p, other)?,
            };
        } else if self.rng.chance(25) {
            // What was in force before counts for nothing.
            let (side, other) = (self.rng.below(2), self.other_row(p, row));
            sides[side].splice(0..0, vec![declare(p, other)]);
        }
        if depth + 1 < MAX_DEPTH && self.rng.chance(15) {
            // Another head inside: its own 13 comes first.
            let side = self.rng.below(2);
            let inner = std::mem::take(&mut sides[side]);
            let beside = if self.rng.chance(60) { self.leave(p, row)? } else { Chunk::new() };
            sides[side] = if_else(self.condition(), inner, beside);
        }
        // Before it leaves its row, a side has the one of the head in force.
        for side in &mut sides {
            if self.rng.chance(30) {
                side.insert(0, self.access_at_row(p, row)?);
            }
        }
        let condition = if self.rng.chance(12) { self.never()? } else { self.condition() };
        let [then, other] = sides;
        let mut chunk = if_else(condition, then, other);
        if self.rng.chance(60) {
            chunk.push(self.access_at_row(p, row)?);
        }
        Some(chunk)
    }

    /// A while whose body leaves the row of its head in force, or another one.
    fn looped_row(&mut self, depth: usize) -> Option<Chunk> {
        if depth >= MAX_DEPTH {
            return None;
        }
        let (p, row) = self.row_of_pointer();
        let other = self.other_row(p, row);
        let mut chunk = if self.rng.chance(80) { self.leave(p, row)? } else { Chunk::new() };
        let mut body = match self.rng.below(6) {
            0 => bundle(vec![declare(p, other), declare(p, row)]),
            1 => [vec![declare(p, other)], self.leave(p, row)?].concat(),
            2 => self.leave(p, other)?,
            3 => vec![declare(p, row)],
            _ => self.leave(p, row)?,
        };
        if self.rng.chance(60) {
            let at = if self.rng.chance(30) { 0 } else { body.len() };
            body.insert(at, self.access_at_row(p, row)?);
        }
        // A loop that ends more often than not.
        chunk.extend(match self.rng.pick_any(&self.layout.free) {
            Some(i) if self.rng.chance(70) => {
                body.push(add_constant(i, i, 1));
                while_loop(with_literal(i, LESS, self.rng.range(1, 9)), body)
            }
            _ if self.rng.chance(12) => while_loop(self.never()?, body),
            _ => while_loop(self.condition(), body),
        });
        Some(chunk)
    }

    /// A bundle with kinds 14 among moves, counts and accesses.
    fn bundled_row(&mut self) -> Option<Chunk> {
        let (p, row) = self.row_of_pointer();
        let other = self.other_row(p, row);
        let step = self.rng.pick(&[1, 1, -1, 2]);
        let mut inner = vec![declare(p, row)];
        match self.rng.below(4) {
            0 => inner.insert(0, declare(p, other)),
            1 => inner.extend([
                move_pointer(p, p, step),
                self.access_at_row(p, row)?,
                move_pointer(p, p, -step),
            ]),
            2 => {
                inner.insert(0, move_pointer(p, p, step));
                if let Some(n) = self.rng.pick_any(&self.layout.counts) {
                    inner.insert(self.rng.below(2), add_constant(n, n, -step));
                }
            }
            _ => inner.insert(self.rng.below(2), self.assignment(p)?),
        }
        for _ in 0..self.rng.below(3) {
            let at = self.rng.below(inner.len() + 1);
            let more = match self.rng.below(3) {
                0 => self.harmless(),
                1 => self.any_declaration(),
                _ => self.access_at_row(p, row)?,
            };
            inner.insert(at, more);
        }
        let guards = if self.rng.chance(60) { self.guards(p, row) } else { Chunk::new() };
        Some([guards, bundle(inner)].concat())
    }
}
