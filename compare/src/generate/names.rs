//! Null-terminated names (point 7): cells at the upper end read and written, kind 2 pointers taken to array_ptrs.

use super::*;

impl Writer<'_> {
    /// A kind 2 pointer; where it can be, one with a count.
    fn name(&mut self) -> Option<i32> {
        let names = self.layout.pointers.iter().copied().filter(|&p| self.layout.terminated[p as usize]);
        let names: Vec<i32> = names.collect();
        let counted = names.iter().copied().filter(|&p| self.layout.own[p as usize][4] >= 0);
        let counted: Vec<i32> = counted.collect();
        self.rng.pick_any(&counted).filter(|_| self.rng.chance(80)).or_else(|| self.rng.pick_any(&names))
    }

    /// One of the patterns that need a kind 2 pointer.
    pub(super) fn with_names(&mut self, depth: usize) -> Option<Chunk> {
        match self.rng.below(10) {
            0 | 1 => self.read_name(depth),
            2..=6 => self.at_upper(),
            7 => self.end_name(),
            _ => self.taken_down(),
        }
    }

    /// A number that is 0, or is not, in a variable that no end names.
    fn number(&mut self) -> Option<(i32, Record)> {
        let x = self.rng.pick_any(&self.layout.free)?;
        Some((x, set(x, self.rng.pick(&[0, 0, 1, 7, -1]))))
    }

    /// The upper end of p as index and constant of an access.
    fn upper(&self, p: i32) -> (i32, i32) {
        let [.., i, k] = self.layout.own[p as usize];
        (i, k)
    }

    /// An index runs to the upper end, the cell there included or even the one behind it.
    fn read_name(&mut self, depth: usize) -> Option<Chunk> {
        if depth >= MAX_DEPTH {
            return None;
        }
        let (p, i, x) = (self.name()?, self.rng.pick_any(&self.layout.free)?, self.scratch()?);
        let (n, k) = self.upper(p);
        let relation = self.rng.pick(&[LESS_EQUAL, LESS_EQUAL, LESS]);
        let to_end = if n >= 0 { with_variable(i, relation, n) } else { with_literal(i, relation, k) };
        let mut body = vec![load(x, p, i, 0), add_constant(i, i, 1)];
        if self.rng.chance(40) {
            // To the first 0.
            body.insert(1, dynamic_check(with_literal(x, NOT_EQUAL, 0)));
        }
        if self.rng.chance(20) {
            body.insert(0, store(p, i, 0, self.integer()?));
        }
        Some([vec![set(i, 0)], while_loop(to_end, body)].concat())
    }

    /// A name of some object in p, with all its cells or fewer.
    fn placed(&mut self, p: i32) -> Option<Chunk> {
        let object = self.object(p)?;
        let (count, k) = self.upper(p);
        let elements = (self.layout.objects[object as usize] - k).div_euclid(self.layout.sizes[p as usize]);
        let mut inner = vec![address(p, object)];
        if count >= 0 {
            inner.push(set(count, (elements - self.rng.pick(&[0, 0, 1, 2])).max(0)));
        }
        Some(bundle(inner))
    }

    /// Accesses at the upper end, below it and behind it.
    fn at_upper(&mut self) -> Option<Chunk> {
        let p = self.name()?;
        let mut chunk = if self.rng.chance(50) { self.placed(p)? } else { Chunk::new() };
        let (i, k) = self.upper(p);
        let k = (k + self.rng.pick(&[0, 0, 0, 0, -1, 1])).clamp(-65_536, 65_536);
        if self.rng.chance(30) {
            chunk.push(load(self.scratch()?, p, i, k));
            return Some(chunk);
        }
        let accessed = match self.number().filter(|_| self.rng.chance(60)) {
            Some((x, number)) => vec![number, store(p, i, k, x)],
            None => vec![store(p, i, k, self.integer()?)],
        };
        chunk.extend(if self.rng.chance(25) { bundle(accessed) } else { accessed });
        Some(chunk)
    }

    /// A name cut off: a 0, or another number, somewhere in it.
    fn end_name(&mut self) -> Option<Chunk> {
        let (p, (x, number)) = (self.name()?, self.number()?);
        let index = if self.rng.chance(50) { -1 } else { self.integer()? };
        let access = store(p, index, self.rng.range(0, 4), x);
        Some(vec![number, access, load(x, p, index, self.rng.range(0, 4))])
    }

    /// An array_ptr takes the bounds of a name and stops where the name does not.
    fn taken_down(&mut self) -> Option<Chunk> {
        let p = self.name()?;
        let q = self.pointer()?;
        let (to, from) = if self.layout.terminated[q as usize] { (p, q) } else { (q, p) };
        let mut inner = vec![match self.rng.chance(75) {
            true => move_pointer(to, from, self.rng.pick(&[0, 0, 0, 1])),
            false => index_pointer(to, from, self.integer()?),
        }];
        let [count, length] = [to, from].map(|v| self.layout.own[v as usize][4]);
        if count >= 0 && length >= 0 {
            inner.push(add_constant(count, length, self.rng.pick(&[0, 0, 0, -1])));
        }
        let mut chunk = if inner.len() > 1 { bundle(inner) } else { inner };
        let (i, k) = self.upper(to);
        chunk.push(match self.rng.chance(50) {
            true => load(self.scratch()?, to, i, k),
            false => store(to, i, k, self.integer()?),
        });
        Some(chunk)
    }
}
