//! Calls of earlier routines of a set (point 14): arguments that fit, that facts make fit, and that do not.

use super::super::layout::Callee;
use super::{Chunk, Writer};
use oracle::draft::*;

impl Writer<'_> {
    /// A call, most often a right one, now and then behind what its arguments need.
    pub(super) fn calls(&mut self) -> Option<Chunk> {
        // Most often the one just before, so that calls nest.
        let last = self.layout.callees.len() - 1;
        let number = if self.rng.chance(50) { last } else { self.rng.below(last + 1) };
        let callee = self.layout.callees[number].clone();
        let count = match self.rng.below(12) {
            0 => callee.parameters.saturating_sub(1),
            1 => (callee.parameters + 1).min(callee.variables.len()),
            _ => callee.parameters,
        };
        let given = self.arguments(&callee, count.min(4))?;
        let result = match self.rng.below(8) {
            0 | 1 => -1,
            2 => self.integer()?,
            _ => self.scratch()?,
        };
        let mut chunk = self.made_to_fit(&callee, &given);
        let mut record = call(callee.number, result, &given);
        if self.rng.chance(9) {
            self.damage(&mut record);
        }
        chunk.push(record);
        // The result as a bound for another access or call.
        if result >= 0 && self.rng.chance(20) {
            chunk.push(dynamic_check(with_variable(result, LESS_EQUAL, self.integer()?)));
        }
        Some(chunk)
    }

    /// A variable for each of the callee's first ones: pointers, then what their own bounds name in the same places.
    fn arguments(&mut self, callee: &Callee, count: usize) -> Option<Vec<i32>> {
        let mut given = vec![-1; count];
        for place in (0..count).filter(|&place| callee.variables[place][0] != 0) {
            given[place] = self.pointer_like(&callee.variables[place])?;
        }
        let anchors: Vec<usize> = (0..count).filter(|&place| given[place] >= 0).collect();
        for &place in &anchors {
            let anchor = callee.variables[place][2] as usize;
            if anchor != place && anchors.contains(&anchor) && self.rng.chance(80) {
                given[anchor] = self.layout.own[given[place] as usize][0];
            }
        }
        for place in (0..count).filter(|&place| callee.variables[place][0] == 0) {
            let named = anchors.iter().find_map(|&p| {
                let field = [3, 6].into_iter().find(|&field| callee.variables[p][field] == place as i32)?;
                Some(self.layout.own[given[p] as usize][field - 2])
            });
            let own = named.filter(|&n| n >= 0 && self.rng.chance(80));
            given[place] = own.or_else(|| self.integer())?;
        }
        Some(given)
    }

    /// A pointer of the same kind, most often with the same element size.
    fn pointer_like(&mut self, record: &[i32; 8]) -> Option<i32> {
        let pointers = self.layout.pointers.iter().copied();
        let of_kind: Vec<i32> =
            pointers.filter(|&p| self.layout.terminated[p as usize] == (record[0] == 2)).collect();
        let alike = of_kind.iter().copied().filter(|&p| self.layout.sizes[p as usize] == record[1].max(1));
        let alike: Vec<i32> = alike.collect();
        let alike = if self.rng.chance(90) { self.rng.pick_any(&alike) } else { None };
        let any = if self.rng.chance(95) { self.rng.pick_any(&of_kind) } else { self.pointer() };
        alike.or(any)
    }

    /// Statements that show what the arguments need: a count that is no greater, a pointer that is null.
    fn made_to_fit(&mut self, callee: &Callee, given: &[i32]) -> Chunk {
        let mut chunk = Chunk::new();
        for (place, &p) in given.iter().enumerate() {
            let record = callee.variables[place];
            let (0.., true) = (p, record[0] != 0) else { continue };
            let count = usize::try_from(record[6]).ok().and_then(|n| given.get(n).copied()).unwrap_or(-1);
            let own = self.layout.own[p as usize][4];
            if count >= 0 && own >= 0 && count != own && self.rng.chance(70) {
                chunk.push(dynamic_check(with_variable(
                    count,
                    self.rng.pick(&[LESS_EQUAL, LESS, EQUAL]),
                    own,
                )));
            } else if count >= 0 && self.rng.chance(15) {
                chunk.push(dynamic_check(with_literal(count, LESS_EQUAL, self.rng.range(0, 4))));
            }
            if self.rng.chance(8) {
                chunk.push(null(p));
            }
        }
        chunk
    }

    /// Another callee, a gap, an argument too many, one of another kind, a word that names nothing.
    fn damage(&mut self, record: &mut Record) {
        let last = record[3..].iter().rposition(|&word| word != -1).map_or(3, |last| last + 3);
        let any = [self.integer(), self.pointer()].into_iter().flatten().collect::<Vec<i32>>();
        match self.rng.below(8) {
            0 => record[1] = self.rng.pick(&[-1, record[1] + 1, 8, i32::MIN, i32::MAX]),
            1 => record[1] += self.rng.range(1, 7),
            2 => record.swap(last, 6.min(last + 1)),
            3 => record[6] = self.rng.pick_any(&any).unwrap_or(0),
            4 => record[(last + 1).min(6)] = self.rng.pick_any(&any).unwrap_or(0),
            5 => record[last] = self.rng.pick_any(&any).unwrap_or(0),
            6 => record[self.rng.range(3, 6) as usize] = self.rng.pick(&[-2, 16, 15, i32::MAX]),
            _ => record[2] = self.rng.pick(&[-2, 16, self.layout.pointers.first().copied().unwrap_or(-3)]),
        }
    }
}
