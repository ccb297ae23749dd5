//! Loops that a list of loop facts (point 9) says something of: accesses that it makes safe, statements behind the
//! loop that are accepted only with it, facts that hold only together.

use super::*;

impl Writer<'_> {
    pub(super) fn listed_loop(&mut self, depth: usize) -> Option<Chunk> {
        if depth + 1 >= MAX_DEPTH {
            return None;
        }
        match self.rng.below(8) {
            0..=3 => self.rising(depth),
            4 => self.falling(),
            5 => self.abreast(),
            6 => self.moving(),
            _ => self.exchanged(),
        }
    }

    /// p is not null, or nothing is said of it.
    fn not_null(&mut self, p: i32) -> Chunk {
        match self.rng.chance(85) {
            true => vec![dynamic_check(with_literal(p, NOT_EQUAL, 0))],
            false => Chunk::new(),
        }
    }

    /// An access p[i + k], just in or just out of reach of the count.
    fn indexed(&mut self, p: i32, i: i32, k: i32) -> Option<Record> {
        let k = k + self.rng.pick(&[0, 0, 0, 0, -1, 1]);
        Some(match self.rng.chance(60) {
            true => load(self.scratch()?, p, i, k),
            false => store(p, i, k, self.integer()?),
        })
    }

    /// A group's pointer and count, and an index that no end names.
    fn indexed_group(&mut self) -> Option<(i32, i32, i32)> {
        let (group, i) = (self.group()?, self.rng.pick_any(&self.layout.free)?);
        Some((self.rng.pick(&group.pointers), group.count, i))
    }

    /// An index rises to the count, by != too; behind the loop it is the count.
    fn rising(&mut self, depth: usize) -> Option<Chunk> {
        let (p, n, i) = self.indexed_group()?;
        let first = self.rng.pick(&[0, 0, 0, 1, 2]);
        let mut chunk = self.not_null(p);
        if self.rng.chance(50) {
            chunk.push(self.at_least(n, first));
        }
        chunk.push(set(i, first));
        let mut body = vec![self.indexed(p, i, 0)?];
        if self.rng.chance(20) {
            body.extend(self.body(1, depth + 1));
        }
        if self.rng.chance(20) {
            body = if_else(self.condition(), body, Chunk::new());
        }
        body.push(add_constant(i, i, self.rng.pick(&[1, 1, 1, 2])));
        let to_count =
            with_variable(i, self.rng.pick(&[NOT_EQUAL, NOT_EQUAL, NOT_EQUAL, LESS, GREATER_EQUAL]), n);
        chunk.extend(while_loop(to_count, body));
        // n is at least what i began with, since i is: without a guard only the list says so.
        match self.rng.below(4) {
            0 => chunk.push(add_constant(n, n, -first.max(1))),
            1 => chunk.extend(bundle(vec![add_constant(n, n, -1), add_constant(n, n, 1)])),
            2 => chunk.push(self.indexed(p, i, -1)?),
            _ => {}
        }
        Some(chunk)
    }

    /// An index falls from the count to nothing.
    fn falling(&mut self) -> Option<Chunk> {
        let (p, n, i) = self.indexed_group()?;
        let mut chunk = self.not_null(p);
        chunk.push(add_constant(i, n, 0));
        let (access, lower) = (self.indexed(p, i, 0)?, add_constant(i, i, -1));
        let body = if self.rng.chance(75) { vec![lower, access] } else { vec![access, lower] };
        let condition = with_literal(i, self.rng.pick(&[GREATER, NOT_EQUAL]), 0);
        chunk.extend(while_loop(condition, body));
        Some(chunk)
    }

    /// Two indexes rise together: what one is compared with holds of the other by facts of both.
    fn abreast(&mut self) -> Option<Chunk> {
        let (p, n, i) = self.indexed_group()?;
        let j = self.rng.pick_any(&self.layout.free).filter(|&j| j != i)?;
        let mut chunk = self.not_null(p);
        chunk.extend([set(i, 0), set(j, self.rng.pick(&[0, 0, 1]))]);
        let mut body = vec![self.indexed(p, j, 0)?, add_constant(i, i, 1), add_constant(j, j, 1)];
        if self.rng.chance(30) {
            body[2] = add_constant(j, i, 0);
        }
        let condition = with_variable(i, self.rng.pick(&[NOT_EQUAL, LESS]), n);
        chunk.extend(while_loop(condition, body));
        Some(chunk)
    }

    /// A pointer runs from one to another; its bounds lie elsewhere.
    fn moving(&mut self) -> Option<Chunk> {
        let (q, p) = (self.rng.pick_any(&self.layout.movers)?, self.pointer()?);
        let step = self.cells(q, 1);
        let mut chunk = self.not_null(p);
        chunk.push(move_pointer(q, p, self.rng.pick(&[0, 0, step])));
        let access = self.indexed(q, -1, 0)?;
        let body = vec![access, move_pointer(q, q, self.rng.pick(&[step, step, -step]))];
        let other = self.pointer()?;
        let condition = match self.rng.pick_any(&self.layout.free).filter(|_| self.rng.chance(50)) {
            Some(i) => with_literal(i, LESS, self.rng.range(1, 9)),
            None => with_variable(q, self.rng.pick(&[NOT_EQUAL, LESS, GREATER]), other),
        };
        chunk.extend(while_loop(condition, body));
        Some(chunk)
    }

    /// Two indexes change places in each round: neither fact holds without the other.
    fn exchanged(&mut self) -> Option<Chunk> {
        let (p, n, i) = self.indexed_group()?;
        let others: Vec<i32> = self.layout.free.iter().copied().filter(|&v| v != i).collect();
        let (j, kept) = (self.rng.pick_any(&others)?, self.rng.pick_any(&others)?);
        let mut chunk = self.not_null(p);
        chunk.extend([self.at_least(n, 3), set(i, self.rng.range(0, 3)), set(j, self.rng.range(0, 3))]);
        let body = vec![
            self.indexed(p, i, 0)?,
            add_constant(kept, i, 0),
            add_constant(i, j, 0),
            add_constant(j, kept, 0),
        ];
        chunk.extend(while_loop(self.condition(), body));
        Some(chunk)
    }
}
