//! Elements of several cells (point 10): steps by rows, bounds of equal and of different sizes, products that wrap.

use super::*;

impl Writer<'_> {
    fn size(&self, p: i32) -> i32 {
        self.layout.sizes[p as usize]
    }

    /// So many elements of p in cells; where an element has several, now and then a wrong number.
    pub(super) fn cells(&mut self, p: i32, elements: i32) -> i32 {
        if self.size(p) == 1 {
            return elements;
        }
        let cells = self.size(p) * elements;
        let cells = match self.rng.below(12) {
            0 => elements,
            1 => cells - 1,
            2 => cells + 1,
            _ => cells,
        };
        cells.clamp(-65_536, 65_536)
    }

    /// A cell of an element of p; where it has several, now and then the one behind it.
    pub(super) fn cell(&mut self, p: i32) -> i32 {
        match self.size(p) {
            1 => 0,
            size if self.rng.chance(85) => self.rng.range(0, size - 1),
            size => size,
        }
    }

    /// One of the patterns that need a pointer with elements of several cells.
    pub(super) fn with_sizes(&mut self) -> Option<Chunk> {
        match self.rng.below(8) {
            0 | 1 => self.taken_object(),
            2 | 3 => self.taken_bounds(),
            4 | 5 => self.moved_by_elements(),
            6 => self.wrapped_product(),
            _ => self.last_address(),
        }
    }

    fn several(&mut self) -> Option<i32> {
        let pointers = self.layout.pointers.iter().copied().filter(|&p| self.size(p) > 1);
        let pointers: Vec<i32> = pointers.collect();
        self.rng.pick_any(&pointers)
    }

    /// The count that the upper end of p's own bound names.
    fn count_of(&self, p: i32) -> Option<i32> {
        Some(self.layout.own[p as usize][4]).filter(|&count| count >= 0)
    }

    /// A count for p such that so many cells hold all elements, or just not.
    fn fitting(&mut self, p: i32, cells: i32) -> Option<Record> {
        let elements = cells.div_euclid(self.size(p)) + self.rng.pick(&[0, 0, 0, -1, 1]);
        Some(set(self.count_of(p)?, elements.max(0)))
    }

    /// Kind 5 gives its bounds the size of its pointer, and another pointer takes them.
    fn taken_object(&mut self) -> Option<Chunk> {
        let (p, q, object) = (self.several()?, self.pointer()?, self.rng.pick_any(&self.layout.named)?);
        let (from, to) = if self.rng.chance(50) { (p, q) } else { (q, p) };
        let length = self.layout.objects[object as usize];
        let k = if self.rng.chance(70) { 0 } else { self.cells(from, 1) };
        let mut inner = vec![address(from, object), move_pointer(to, from, k)];
        inner.extend(self.fitting(to, length - k));
        inner.extend(self.fitting(from, length));
        if self.rng.chance(30) {
            inner.push(null(self.rng.pick(&[from, to])));
        }
        if let Some(row) = (0..self.layout.rows.len()).find(|&r| self.layout.rows[r].pointer == to) {
            if self.rng.chance(50) {
                inner.push(declare(to, row as i32));
            }
        }
        Some(bundle(inner))
    }

    /// A pointer takes the known bounds of another, with a count of its own; and perhaps they come back.
    fn taken_bounds(&mut self) -> Option<Chunk> {
        let (q, k) = (self.several()?, self.rng.range(0, 2));
        let same = self.layout.pointers.iter().copied().filter(|&p| self.size(p) == self.size(q));
        let same: Vec<i32> = same.collect();
        let p = if self.rng.chance(50) { self.rng.pick(&same) } else { self.pointer()? };
        let mut inner = vec![match self.rng.chance(80) {
            true => move_pointer(p, q, self.cells(q, k)),
            false => index_pointer(p, q, self.integer()?),
        }];
        if let (Some(to), Some(from)) = (self.count_of(p), self.count_of(q)) {
            inner.push(add_constant(to, from, -k));
        }
        if self.rng.chance(25) {
            inner.push(move_pointer(q, p, self.cells(q, -k)));
        }
        if self.rng.chance(30) {
            let at = self.rng.below(inner.len() + 1);
            inner.insert(at, self.harmless());
        }
        let mut chunk = Chunk::new();
        if let Some(n) = self.count_of(q) {
            chunk.push(self.at_least(n, k));
        }
        chunk.extend(bundle(inner));
        Some(chunk)
    }

    /// An index whose product with the size is small if it wraps.
    fn wrapped_product(&mut self) -> Option<Chunk> {
        let (p, x) = (self.several()?, self.scratch()?);
        let index = ((1u64 << 32) / self.size(p) as u64) as i32;
        let mut chunk = vec![set(x, index.wrapping_add(self.rng.range(0, 2)))];
        chunk.push(match self.rng.below(3) {
            0 => load(x, p, x, self.rng.range(-2, 1)),
            1 => store(p, x, self.rng.range(-2, 1), x),
            _ => index_pointer(self.rng.pick_any(&self.layout.movers)?, p, x),
        });
        Some(chunk)
    }

    /// Kind 7 by some elements of q, to a pointer whose elements may have another size, and an access there.
    fn moved_by_elements(&mut self) -> Option<Chunk> {
        let (p, q, i) = (self.rng.pick_any(&self.layout.movers)?, self.several()?, self.scratch()?);
        let access = load(i, p, -1, self.rng.range(-1, 1));
        Some(vec![set(i, self.rng.range(0, 3)), index_pointer(p, q, i), access])
    }

    /// Kind 7 to about the greatest address: by the size of q it comes there, by that of p it does not.
    fn last_address(&mut self) -> Option<Chunk> {
        let (p, q, x) = (self.rng.pick_any(&self.layout.movers)?, self.several()?, self.scratch()?);
        let size = if self.rng.chance(80) { self.size(q) } else { self.size(p) };
        let index = (u32::MAX / size as u32).wrapping_sub(self.rng.below(12) as u32);
        Some(vec![set(x, index as i32), index_pointer(p, q, x)])
    }
}
