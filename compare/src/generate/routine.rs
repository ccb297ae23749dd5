//! The statements of a generated routine: patterns that the checker accepts or
//! just fails to accept, put together at random.

use super::layout::{constant, Group, Layout};
use crate::rng::Rng;
use oracle::draft::*;
use oracle::table::MAX_DEPTH;

pub struct Writer<'a> {
    pub rng: &'a mut Rng,
    pub layout: &'a Layout,
}

type Chunk = Vec<Record>;

impl Writer<'_> {
    /// A body of about so many statements; `depth` is that of its statements.
    pub fn body(&mut self, size: usize, depth: usize) -> Chunk {
        let mut body = Chunk::new();
        while body.len() < size {
            body.extend(self.chunk(depth));
        }
        body
    }

    fn chunk(&mut self, depth: usize) -> Chunk {
        if !self.layout.callees.is_empty() && self.rng.chance(35) {
            return self.calls().unwrap_or_else(|| vec![self.check()]);
        }
        if !self.layout.rows.is_empty() && self.rng.chance(40) {
            return self.with_rows(depth).unwrap_or_else(|| vec![self.check()]);
        }
        if self.layout.loops && self.rng.chance(38) {
            return self.listed_loop(depth).unwrap_or_else(|| vec![self.check()]);
        }
        if self.layout.sizes.iter().any(|&size| size > 1) && self.rng.chance(20) {
            return self.with_sizes().unwrap_or_else(|| vec![self.check()]);
        }
        if self.layout.terminated.contains(&true) && self.rng.chance(35) {
            return self.with_names(depth).unwrap_or_else(|| vec![self.check()]);
        }
        let chunk = match self.rng.below(44) {
            0 | 1 => Some(vec![self.simple()]),
            2 | 3 => Some(vec![self.check()]),
            4 => self.lower_count(),
            5 | 6 => self.advance(),
            7 => self.set_object(),
            8 => self.null_group(),
            9 => self.scan(depth),
            10 => self.walk(depth),
            11 => self.copy_group(),
            12 => self.range_edge(),
            13 => self.chain(),
            14 | 15 => self.mixed_join(depth),
            16 => self.rare(depth),
            17..=20 => self.if_block(depth),
            21 | 22 => self.while_block(depth),
            23 | 24 => Some(self.any_bundle()),
            25 | 26 => self.free_pointer(depth),
            27 => self.pointer_order(),
            28 => self.there_and_back(),
            29..=31 => self.forgotten(depth),
            32 => self.wrapping(),
            33 | 34 => self.dead_code(depth),
            35..=37 => self.unequal(depth),
            38 if depth < MAX_DEPTH => {
                let condition = self.condition();
                Some(self.sensor(condition))
            }
            _ => Some(vec![self.harmless()]),
        };
        chunk.unwrap_or_else(|| vec![self.check()])
    }

    fn integer(&mut self) -> Option<i32> {
        let counted = self.rng.chance(40);
        let list = if counted { &self.layout.counts } else { &self.layout.integers };
        self.rng.pick_any(list).or_else(|| self.rng.pick_any(&self.layout.integers))
    }

    fn pointer(&mut self) -> Option<i32> {
        self.rng.pick_any(&self.layout.pointers)
    }

    /// An object whose address kind 5 may give to p.
    fn object(&mut self, p: i32) -> Option<i32> {
        let fits =
            |o: &i32| self.layout.terminated_objects[*o as usize] || !self.layout.terminated[p as usize];
        let fitting: Vec<i32> = self.layout.named.iter().copied().filter(fits).collect();
        self.rng.pick_any(&fitting)
    }

    fn group(&mut self) -> Option<Group> {
        let groups = self.layout.groups.len();
        (groups > 0).then(|| self.layout.groups[self.rng.below(groups)].clone())
    }

    /// An integer that no end names, or any.
    fn scratch(&mut self) -> Option<i32> {
        self.rng.pick_any(&self.layout.free).or_else(|| self.rng.pick_any(&self.layout.integers))
    }

    /// A literal word: small ones, lengths of objects, and large ones, whose words are negative.
    fn literal(&mut self) -> i32 {
        match self.rng.below(16) {
            0 => self.rng.pick(&[i32::MAX - 1, i32::MAX, i32::MIN, i32::MIN + 1]),
            1 => self.rng.pick(&[65_535, 65_536, 65_537, 1_000_000]),
            2 | 3 => self.rng.pick_any(&self.layout.objects).unwrap_or(5) + self.rng.range(-1, 1),
            4 => self.rng.pick(&[-65_535, -65_536, -65_537, -65_538]),
            5 | 6 => self.rng.range(-9, -1),
            _ => self.rng.range(0, 9),
        }
    }

    pub fn condition(&mut self) -> Cond {
        let relation =
            self.rng.pick(&[LESS, GREATER_EQUAL, GREATER, LESS_EQUAL, EQUAL, NOT_EQUAL, NOT_EQUAL]);
        let pointer = self.rng.chance(35);
        let left = if pointer { self.pointer() } else { self.integer() };
        let Some(left) = left.or(self.integer()).or(self.pointer()) else {
            return [0, relation, 1, 0];
        };
        let is_pointer = self.layout.pointers.contains(&left);
        if self.rng.chance(50) {
            let right = if is_pointer { self.pointer() } else { self.integer() };
            return with_variable(left, relation, right.unwrap_or(left));
        }
        // Beside a pointer only 0 is right.
        let literal = if is_pointer && self.rng.chance(98) { 0 } else { self.literal() };
        with_literal(left, relation, literal)
    }

    fn check(&mut self) -> Record {
        dynamic_check(self.condition())
    }

    /// Any statement of kinds 1 to 10 and 14.
    fn simple(&mut self) -> Record {
        if !self.layout.rows.is_empty() && self.rng.chance(12) {
            return self.any_declaration();
        }
        self.try_simple().unwrap_or_else(|| self.check())
    }

    fn try_simple(&mut self) -> Option<Record> {
        let index = if self.rng.chance(40) { -1 } else { self.integer().unwrap_or(-1) };
        let k = constant(self.rng);
        Some(match self.rng.range(1, 10) {
            1 => set(self.integer()?, self.literal()),
            2 if self.rng.chance(50) => {
                let x = self.integer()?;
                add_constant(x, x, k)
            }
            2 => add_constant(self.integer()?, self.integer()?, k),
            3 => operate(self.integer()?, self.integer()?, self.integer()?, self.rng.range(0, 2)),
            4 => null(self.pointer()?),
            5 => {
                let p = self.pointer()?;
                address(p, self.object(p)?)
            }
            6 => move_pointer(self.pointer()?, self.pointer()?, k),
            7 => index_pointer(self.pointer()?, self.pointer()?, self.integer()?),
            8 => load(self.integer()?, self.pointer()?, index, k),
            9 => store(self.pointer()?, index, k, self.integer()?),
            _ => self.check(),
        })
    }

    /// A statement that needs nothing shown: scratch arithmetic or an access.
    fn harmless(&mut self) -> Record {
        self.try_harmless().unwrap_or_else(|| self.check())
    }

    fn try_harmless(&mut self) -> Option<Record> {
        let x = self.scratch()?;
        let index = if self.rng.chance(50) { -1 } else { self.integer()? };
        Some(match self.rng.below(7) {
            0 => set(x, self.literal()),
            1 => add_constant(x, self.integer()?, constant(self.rng)),
            2 => operate(x, self.integer()?, self.integer()?, self.rng.range(0, 2)),
            3 | 4 => load(x, self.pointer()?, index, self.rng.range(-1, 2)),
            5 => store(self.pointer()?, index, self.rng.range(-1, 2), x),
            _ => add_constant(x, x, self.rng.range(-2, 2)),
        })
    }

    /// A guard for n >= k, now and then one too weak.
    fn at_least(&mut self, n: i32, k: i32) -> Record {
        let k = if self.rng.chance(8) { k - 1 } else { k };
        dynamic_check(match self.rng.below(3) {
            0 if k > 0 => with_literal(n, GREATER, k - 1),
            1 if k == 1 => with_literal(n, NOT_EQUAL, 0),
            _ => with_literal(n, GREATER_EQUAL, k.max(0)),
        })
    }

    /// Routine (b): lowering a count behind a check.
    fn lower_count(&mut self) -> Option<Chunk> {
        let n = self.rng.pick_any(&self.layout.counts)?;
        let k = self.rng.pick(&[1, 1, 2, 3, 65_536]);
        let mut chunk = vec![self.at_least(n, k)];
        if self.rng.chance(30) {
            chunk.push(self.harmless());
        }
        chunk.push(add_constant(n, n, -k));
        Some(chunk)
    }

    /// Routines (e) to (g): pointers raised and their count lowered.
    fn advance(&mut self) -> Option<Chunk> {
        let group = self.group()?;
        let k = self.rng.pick(&[1, 1, 1, 2, 3, 65_536]);
        let moved = group.pointers.iter().map(|&p| move_pointer(p, p, self.cells(p, k)));
        let mut inner: Chunk = moved.collect();
        self.rng.shuffle(&mut inner);
        let lowered = add_constant(group.count, group.count, -k);
        let access = load(self.scratch()?, self.rng.pick(&group.pointers), -1, self.rng.range(0, 1));
        match self.rng.below(5) {
            // Lowered first: an access in between is in bounds.
            0 => inner.splice(0..0, [lowered, access]).for_each(drop),
            1 => inner.insert(0, lowered),
            2 => {
                inner.push(lowered);
                let at = self.rng.below(inner.len() + 1);
                inner.insert(at, access);
            }
            _ => inner.push(lowered),
        }
        match self.rng.below(16) {
            0 => {
                let at = self.rng.below(inner.len());
                inner.remove(at);
            }
            // Null has no bounds to come back to.
            1 => inner.insert(0, null(self.rng.pick(&group.pointers))),
            _ => {}
        }
        let guard = self.at_least(group.count, k);
        // The guard may stand inside the bundle too.
        if self.rng.chance(15) {
            inner.insert(0, guard);
            return Some(bundle(inner));
        }
        Some([vec![guard], bundle(inner)].concat())
    }

    /// Routines (h) and (i): pointers at objects, the count at most the least length.
    fn set_object(&mut self) -> Option<Chunk> {
        let group = self.group()?;
        let mut least = i32::MAX;
        let mut inner = Chunk::new();
        for &p in &group.pointers {
            match self.object(p).filter(|_| self.rng.chance(85)) {
                None => inner.push(null(p)),
                Some(object) => {
                    least = least.min(self.layout.objects[object as usize] / self.layout.sizes[p as usize]);
                    inner.push(address(p, object));
                }
            }
        }
        let excess = self.rng.pick(&[0, 0, 0, -1, -1, 1]);
        inner.push(set(group.count, least.saturating_add(excess).max(0)));
        self.rng.shuffle(&mut inner);
        if self.rng.chance(20) {
            inner.push(load(self.scratch()?, self.rng.pick(&group.pointers), -1, 0));
        }
        Some(bundle(inner))
    }

    /// Routine (j): under null pointers a count can take any value.
    fn null_group(&mut self) -> Option<Chunk> {
        let group = self.group()?;
        let mut chunk: Chunk = group.pointers.iter().map(|&p| null(p)).collect();
        chunk.push(match self.rng.below(3) {
            0 => set(group.count, self.literal()),
            1 => add_constant(group.count, self.integer()?, constant(self.rng)),
            _ => load(group.count, self.pointer()?, -1, 0),
        });
        Some(chunk)
    }

    /// An index runs to the count.
    fn scan(&mut self, depth: usize) -> Option<Chunk> {
        let group = self.group()?;
        let (i, x) = (self.rng.pick_any(&self.layout.free)?, self.scratch()?);
        let p = self.rng.pick(&group.pointers);
        let mut body = vec![load(x, p, i, self.cell(p))];
        if self.rng.chance(50) {
            body.push(store(p, i, self.cell(p), self.integer()?));
        }
        if depth + 2 < MAX_DEPTH && self.rng.chance(30) {
            body.extend(self.body(2, depth + 1));
        }
        body.push(add_constant(i, i, 1));
        let to_count = with_variable(i, self.rng.pick(&[LESS, LESS, NOT_EQUAL]), group.count);
        Some([vec![set(i, 0)], while_loop(to_count, body)].concat())
    }

    /// Routine (k) with a pointer: the count falls to nothing.
    fn walk(&mut self, depth: usize) -> Option<Chunk> {
        let group = self.group()?;
        let k = self.rng.pick(&[1, 1, 2]);
        let moved = group.pointers.iter().map(|&p| move_pointer(p, p, self.cells(p, k)));
        let mut inner: Chunk = moved.collect();
        inner.insert(0, add_constant(group.count, group.count, -k));
        let mut body = bundle(inner);
        if depth + 2 < MAX_DEPTH && self.rng.chance(30) {
            body.extend(self.body(1, depth + 1));
        }
        let condition = match self.rng.below(3) {
            0 if k == 1 => with_literal(group.count, NOT_EQUAL, 0),
            1 => with_literal(group.count, GREATER, k - 1),
            _ => with_literal(group.count, GREATER_EQUAL, k),
        };
        Some(while_loop(condition, body))
    }

    /// The pointers of one count take over a pointer of another, and its count.
    fn copy_group(&mut self) -> Option<Chunk> {
        let (to, from) = (self.group()?, self.group()?);
        let q = self.rng.pick(&from.pointers);
        let k = self.rng.pick(&[0, 0, 1, 2]);
        let mut inner: Chunk = to.pointers.iter().map(|&p| move_pointer(p, q, self.cells(q, k))).collect();
        inner.push(add_constant(to.count, from.count, -k));
        self.rng.shuffle(&mut inner);
        let mut chunk = if k > 0 { vec![self.at_least(from.count, k)] } else { Chunk::new() };
        chunk.extend(bundle(inner));
        Some(chunk)
    }

    /// Kind 2 just inside and just outside the range shown.
    fn range_edge(&mut self) -> Option<Chunk> {
        let (y, z) = (self.integer()?, self.scratch()?);
        let k = self.rng.pick(&[1, 2, 7, 65_535, 65_536]);
        let back = (k + self.rng.range(-1, 1)).min(65_536);
        let mut chunk = vec![dynamic_check(with_literal(z, GREATER_EQUAL, k)), add_constant(z, z, -k)];
        match self.rng.below(3) {
            0 => chunk.push(add_constant(z, z, back)),
            1 => chunk.extend([add_constant(y, z, back), dynamic_check(with_variable(y, LESS, z))]),
            _ => chunk.extend(bundle(vec![add_constant(z, z, back), add_constant(z, z, -back)])),
        }
        chunk.push(dynamic_check(with_literal(z, self.rng.range(0, 5), k)));
        if self.rng.chance(40) {
            // The same at the upper end of the range, which only a large literal can name.
            let guard = with_literal(z, self.rng.pick(&[LESS, LESS_EQUAL]), self.rng.range(-1, 1) - k);
            let up = vec![dynamic_check(guard), add_constant(z, z, k)];
            let asked = dynamic_check(with_literal(z, self.rng.range(0, 5), -self.rng.range(1, 2)));
            chunk = [up, vec![asked], chunk].concat();
        }
        Some(chunk)
    }

    /// Comparisons that chain, then something that needs the chain.
    fn chain(&mut self) -> Option<Chunk> {
        let mut names = self.layout.integers.clone();
        self.rng.shuffle(&mut names);
        names.truncate(self.rng.range(2, 4) as usize);
        if names.len() < 2 {
            return None;
        }
        let mut chunk = Chunk::new();
        for pair in names.windows(2) {
            let relation = self.rng.pick(&[LESS, LESS, LESS_EQUAL, EQUAL]);
            chunk.push(dynamic_check(with_variable(pair[0], relation, pair[1])));
        }
        let (first, last) = (names[0], names[names.len() - 1]);
        let k = self.rng.range(1, 3);
        match self.rng.below(4) {
            0 => chunk.extend(bundle(vec![add_constant(first, first, k), add_constant(first, first, -k)])),
            1 => chunk.extend(bundle(vec![add_constant(last, last, -k), add_constant(last, last, k)])),
            2 => chunk.push(add_constant(last, first, self.rng.range(0, k))),
            _ => chunk.push(dynamic_check(with_variable(last, self.rng.range(0, 5), first))),
        }
        Some(chunk)
    }
}

#[path = "calls.rs"]
mod calls;
#[path = "dead.rs"]
mod dead;
#[path = "loops.rs"]
mod loops;
#[path = "names.rs"]
mod names;
#[path = "patterns.rs"]
mod patterns;
#[path = "rows.rs"]
mod rows;
#[path = "sizes.rs"]
mod sizes;
#[path = "unequal.rs"]
mod unequal;
