//! Well-formed tables of all forms, those of later change requests too.

use super::Random;
use mizzengrape_tool::table::Table;

/// A set of tables with a list of loop facts (of a single one).
#[derive(Debug)]
pub struct Case {
    pub tables: Vec<Vec<i32>>,
    pub facts: Vec<i32>,
}

pub fn case(random: &mut Random) -> Case {
    let routines = if random.chance(70) { 1 } else { 2 + random.below(3) };
    let lengths: Vec<i32> = (0..random.below(4)).map(|_| object(random)).collect();
    let mut facts = Vec::new();
    let tables = (0..routines).map(|routine| {
        let table = Draft::new(random, &lengths, routine).table();
        if routines == 1 && random.chance(40) {
            facts = loop_facts(random, &table);
        }
        table.words()
    });
    Case { tables: tables.collect(), facts }
}

fn object(random: &mut Random) -> i32 {
    let length = random.pick(&[1, 2, 3, 4, 12, 1_000_000]);
    if random.chance(30) {
        -length
    } else {
        length
    }
}

fn constant(random: &mut Random) -> i32 {
    if random.chance(10) {
        return random.below(131_073) as i32 - 65_536;
    }
    random.pick(&[0, 0, 0, 1, -1, 2, -2, 3, -3, 4, 5, 6, -6, 8, 24, 65_536, -65_536])
}

fn literal(random: &mut Random) -> i32 {
    random.pick(&[0, 1, 2, 10, 2_147_483_647, -1, -2_147_483_648, -1_294_967_296])
}

/// Some facts of some whiles, in the order of the statements.
fn loop_facts(random: &mut Random, table: &Table) -> Vec<i32> {
    let mut facts = Vec::new();
    let heads = (0..table.statements.len()).filter(|&s| table.statements[s][0] == 12);
    for head in heads {
        for _ in 0..random.below(4) {
            let x = random.below(table.variables.len()) as i32;
            let kind = table.variables[x as usize][0];
            let same: Vec<i32> = (0..table.variables.len() as i32)
                .filter(|&v| table.variables[v as usize][0] == kind)
                .collect();
            let (x, y) = match random.below(3) {
                0 => (x, -1),
                1 => (-1, x),
                _ => (x, random.pick(&same)),
            };
            facts.extend([head as i32, x, y, constant(random)]);
        }
    }
    facts
}

struct Draft<'a> {
    random: &'a mut Random,
    lengths: &'a [i32],
    table: Table,
    integers: Vec<i32>,
    pointers: Vec<i32>,
}

impl<'a> Draft<'a> {
    fn new(random: &'a mut Random, lengths: &'a [i32], routine: usize) -> Draft<'a> {
        let objects = if routine == 0 { lengths.to_vec() } else { Vec::new() };
        let count = if random.chance(5) { 16 } else { 1 + random.below(6) };
        let kinds: Vec<i32> = (0..count).map(|_| random.pick(&[0, 0, 0, 1, 1, 2])).collect();
        let of = |wanted: &[i32]| -> Vec<i32> {
            (0..count as i32).filter(|&v| wanted.contains(&kinds[v as usize])).collect()
        };
        let (integers, pointers) = (of(&[0]), of(&[1, 2]));
        let table = Table { objects, variables: Vec::new(), statements: Vec::new(), rows: None };
        let mut draft = Draft { random, lengths, table, integers, pointers };
        for (v, &kind) in kinds.iter().enumerate() {
            let record = if kind == 0 { [0; 8] } else { draft.pointer(v as i32, kind) };
            draft.table.variables.push(record);
        }
        if draft.random.chance(40) && !draft.pointers.is_empty() || draft.random.chance(5) {
            draft.table.rows = Some(draft.rows());
        }
        draft
    }

    fn table(mut self) -> Table {
        let count = if self.random.chance(20) { 0 } else { self.random.below(24) };
        self.block(count, 0);
        if self.random.chance(30) {
            self.used_rows_only();
        }
        self.table
    }

    /// Rows in the order of first use, each used and no two alike, so that they are printed where they are used.
    fn used_rows_only(&mut self) {
        let Some(rows) = self.table.rows.take() else { return };
        let mut kept: Vec<[i32; 6]> = Vec::new();
        for record in self.table.statements.iter_mut().filter(|record| record[0] == 14) {
            let row = rows[record[2] as usize];
            record[2] = kept.iter().position(|other| *other == row).unwrap_or(kept.len()) as i32;
            if record[2] as usize == kept.len() {
                kept.push(row);
            }
        }
        self.table.rows = (!kept.is_empty()).then_some(kept);
    }

    fn pointer(&mut self, v: i32, kind: i32) -> [i32; 8] {
        let size = self.random.pick(&[0, 0, 0, 1, 2, 3, 8]);
        let [a, b, c, d, e, f] = self.ends(v, size.max(1));
        [kind, size, a, b, c, d, e, f]
    }

    /// Often a count.
    fn ends(&mut self, p: i32, size: i32) -> [i32; 6] {
        let (n, many) = (self.integer_or_none(), self.random.below(5) as i32);
        match self.random.below(4) {
            0 => [p, -1, 0, p, n, 0],
            1 => [p, -1, 0, p, -1, many * size],
            _ => {
                let ([a, b, c], [d, e, f]) = (self.end(), self.end());
                [a, b, c, d, e, f]
            }
        }
    }

    fn end(&mut self) -> [i32; 3] {
        let pointers = self.pointers.clone();
        [self.random.pick(&pointers), self.integer_or_none(), constant(self.random)]
    }

    fn rows(&mut self) -> Vec<[i32; 6]> {
        let count = if self.pointers.is_empty() { 0 } else { self.random.below(5) };
        let mut rows: Vec<[i32; 6]> = Vec::new();
        for _ in 0..count {
            let row = match rows.last() {
                Some(&last) if self.random.chance(20) => last,
                _ => {
                    let pointers = self.pointers.clone();
                    let p = self.random.pick(&pointers);
                    self.ends(p, self.table.size(p))
                }
            };
            rows.push(row);
        }
        rows
    }

    fn integer_or_none(&mut self) -> i32 {
        let mut choices = self.integers.clone();
        choices.push(-1);
        self.random.pick(&choices)
    }

    /// So many statements, blocks and all.
    fn block(&mut self, count: usize, depth: usize) {
        let end = self.table.statements.len() + count;
        while self.table.statements.len() < end {
            let left = end - self.table.statements.len() - 1;
            match self.random.below(10) {
                0 if depth < 6 => self.head(11, left, depth),
                1 if depth < 6 => self.head(12, left, depth),
                2 if left > 0 => self.bundle(left),
                _ => {
                    let record = self.plain(true);
                    self.table.statements.push(record);
                }
            }
        }
    }

    fn head(&mut self, kind: i32, left: usize, depth: usize) {
        let inside = self.random.below(left + 1);
        let then = if kind == 11 { self.random.below(inside + 1) } else { inside };
        let [a, b, c, d] = self.condition();
        self.table.statements.push([kind, a, b, c, d, then as i32, (inside - then) as i32]);
        self.block(then, depth + 1);
        self.block(inside - then, depth + 1);
    }

    fn bundle(&mut self, left: usize) {
        let count = 1 + self.random.below(left.min(16));
        self.table.statements.push([13, count as i32, 0, 0, 0, 0, 0]);
        for _ in 0..count {
            let record = self.plain(false);
            self.table.statements.push(record);
        }
    }

    fn condition(&mut self) -> [i32; 4] {
        let left = self.random.below(self.table.variables.len()) as i32;
        let kind = self.table.variables[left as usize][0];
        let relation = self.random.below(6) as i32;
        if self.random.chance(50) {
            return [left, relation, 1, if kind == 0 { literal(self.random) } else { 0 }];
        }
        let same =
            (0..self.table.variables.len() as i32).filter(|&v| self.table.variables[v as usize][0] == kind);
        let same: Vec<i32> = same.collect();
        [left, relation, 0, self.random.pick(&same)]
    }

    /// A statement without blocks; a check where the variables or objects for another are missing.
    fn plain(&mut self, calls: bool) -> [i32; 7] {
        let record = match 1 + self.random.below(15) {
            kind @ (1..=3 | 8 | 9) if !self.integers.is_empty() => self.of_integers(kind as i32),
            kind @ (4..=7 | 14) if !self.pointers.is_empty() => self.of_pointers(kind as i32),
            15 if calls => self.call(),
            _ => None,
        };
        record.unwrap_or_else(|| {
            let [a, b, c, d] = self.condition();
            [10, a, b, c, d, 0, 0]
        })
    }

    fn of_integers(&mut self, kind: i32) -> Option<[i32; 7]> {
        let integers = self.integers.clone();
        let (x, y, z) =
            (self.random.pick(&integers), self.random.pick(&integers), self.random.pick(&integers));
        let k = constant(self.random);
        if kind < 8 {
            return Some(match kind {
                1 => [1, x, literal(self.random), 0, 0, 0, 0],
                2 => [2, x, y, k, 0, 0, 0],
                _ => [3, x, y, z, self.random.below(3) as i32, 0, 0],
            });
        }
        let pointers = self.pointers.clone();
        let p = (!pointers.is_empty()).then(|| self.random.pick(&pointers))?;
        let i = self.integer_or_none();
        Some(if kind == 8 { [8, x, p, i, k, 0, 0] } else { [9, p, i, k, x, 0, 0] })
    }

    fn of_pointers(&mut self, kind: i32) -> Option<[i32; 7]> {
        let pointers = self.pointers.clone();
        let (p, q) = (self.random.pick(&pointers), self.random.pick(&pointers));
        let terminated = self.table.is_terminated(p);
        match kind {
            4 => Some([4, p, 0, 0, 0, 0, 0]),
            5 => {
                let o = (!self.lengths.is_empty()).then(|| self.random.below(self.lengths.len()))?;
                (!terminated || self.lengths[o] < 0).then_some([5, p, o as i32, 0, 0, 0, 0])
            }
            14 => {
                let rows = self.table.rows.as_ref().map_or(0, Vec::len);
                (rows > 0).then(|| [14, p, self.random.below(rows) as i32, 0, 0, 0, 0])
            }
            _ if terminated && !self.table.is_terminated(q) => None,
            6 => Some([6, p, q, constant(self.random), 0, 0, 0]),
            _ => {
                let integers = self.integers.clone();
                (!integers.is_empty()).then(|| [7, p, q, self.random.pick(&integers), 0, 0, 0])
            }
        }
    }

    fn call(&mut self) -> Option<[i32; 7]> {
        let callee = self.random.pick(&[0, 0, 0, 1, 2, -1, 7, 57]);
        let result = self.integer_or_none();
        let variables = self.table.variables.len() as i32;
        let mut record = [15, callee, result, -1, -1, -1, -1];
        let given = self.random.below(5);
        for field in &mut record[3..3 + given] {
            *field = self.random.below(variables as usize + 1) as i32 - 1;
        }
        Some(record)
    }
}
