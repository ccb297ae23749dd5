//! A table in the making: records that can be added, taken out and written as words.

use crate::loop_facts::ENTRY_WORDS;
use crate::table::{ROW_WORDS, STATEMENT_WORDS, VARIABLE_WORDS};
use std::ops::Range;

pub type Record = [i32; STATEMENT_WORDS];
/// Left, relation, form, right.
pub type Cond = [i32; 4];

pub const LESS: i32 = 0;
pub const GREATER_EQUAL: i32 = 1;
pub const GREATER: i32 = 2;
pub const LESS_EQUAL: i32 = 3;
pub const EQUAL: i32 = 4;
pub const NOT_EQUAL: i32 = 5;

pub fn set(x: i32, literal: i32) -> Record {
    [1, x, literal, 0, 0, 0, 0]
}

pub fn add_constant(x: i32, y: i32, k: i32) -> Record {
    [2, x, y, k, 0, 0, 0]
}

pub fn operate(x: i32, y: i32, z: i32, operator: i32) -> Record {
    [3, x, y, z, operator, 0, 0]
}

pub fn null(p: i32) -> Record {
    [4, p, 0, 0, 0, 0, 0]
}

pub fn address(p: i32, object: i32) -> Record {
    [5, p, object, 0, 0, 0, 0]
}

pub fn move_pointer(p: i32, q: i32, k: i32) -> Record {
    [6, p, q, k, 0, 0, 0]
}

pub fn index_pointer(p: i32, q: i32, i: i32) -> Record {
    [7, p, q, i, 0, 0, 0]
}

pub fn load(x: i32, p: i32, i: i32, k: i32) -> Record {
    [8, x, p, i, k, 0, 0]
}

pub fn store(p: i32, i: i32, k: i32, x: i32) -> Record {
    [9, p, i, k, x, 0, 0]
}

pub fn with_variable(left: i32, relation: i32, right: i32) -> Cond {
    [left, relation, 0, right]
}

pub fn with_literal(left: i32, relation: i32, literal: i32) -> Cond {
    [left, relation, 1, literal]
}

pub fn dynamic_check([a, b, c, d]: Cond) -> Record {
    [10, a, b, c, d, 0, 0]
}

pub fn if_else([a, b, c, d]: Cond, then: Vec<Record>, other: Vec<Record>) -> Vec<Record> {
    let head = [11, a, b, c, d, then.len() as i32, other.len() as i32];
    [vec![head], then, other].concat()
}

pub fn while_loop([a, b, c, d]: Cond, body: Vec<Record>) -> Vec<Record> {
    [vec![[12, a, b, c, d, body.len() as i32, 0]], body].concat()
}

/// Kind 14: the row is the pointer's declared bound from here on.
pub fn declare(p: i32, row: i32) -> Record {
    [14, p, row, 0, 0, 0, 0]
}

/// Kind 15: the arguments, at most four, then -1.
pub fn call(callee: i32, result: i32, arguments: &[i32]) -> Record {
    let mut record = [15, callee, result, -1, -1, -1, -1];
    record[3..3 + arguments.len()].copy_from_slice(arguments);
    record
}

pub fn bundle(inner: Vec<Record>) -> Vec<Record> {
    [vec![[13, inner.len() as i32, 0, 0, 0, 0, 0]], inner].concat()
}

/// A row in the making: the lower end, then the upper end.
pub type RowRecord = [i32; ROW_WORDS];

/// An entry of a list of loop facts: while statement, x, y, k.
pub type Listed = [i32; ENTRY_WORDS];

/// The list of a table without these statements: an entry of a loop that is gone goes too.
pub fn without_statements(list: &[Listed], removed: &Range<usize>) -> Vec<Listed> {
    let [start, end] = [removed.start, removed.end].map(|s| s as i32);
    let kept = list.iter().filter(|entry| !(start..end).contains(&entry[0]));
    kept.map(|&[s, x, y, k]| [if s < end { s } else { s - (end - start) }, x, y, k]).collect()
}

/// The sections, not yet words. Records may break any rule.
#[derive(Clone, Debug, Default)]
pub struct Draft {
    pub objects: Vec<i32>,
    pub variables: Vec<[i32; VARIABLE_WORDS]>,
    pub statements: Vec<Record>,
    /// The fourth section, where there is one.
    pub rows: Option<Vec<RowRecord>>,
}

impl Draft {
    pub fn words(&self) -> Vec<i32> {
        let sections = [
            &self.objects,
            self.variables.as_flattened(),
            self.statements.as_flattened(),
            self.rows.as_deref().unwrap_or_default().as_flattened(),
        ];
        let pairs = if self.rows.is_some() { 4 } else { 3 };
        let mut offset = 2 * pairs;
        let mut words =
            Vec::with_capacity(offset + sections.iter().map(|section| section.len()).sum::<usize>());
        for section in &sections[..pairs] {
            words.extend([offset as i32, section.len() as i32]);
            offset += section.len();
        }
        words.extend(sections.into_iter().flatten());
        words
    }

    /// The sections of a table whose directory is right.
    pub fn from_words(words: &[i32]) -> Option<Draft> {
        let pairs = if words.first() == Some(&8) { 4 } else { 3 };
        let mut rest = words.get(2 * pairs..)?;
        let mut sections: [&[i32]; 4] = [&[]; 4];
        for (pair, section) in sections.iter_mut().take(pairs).enumerate() {
            let length = usize::try_from(words[2 * pair + 1]).ok()?;
            (*section, rest) = rest.split_at_checked(length)?;
        }
        let [objects, variables, statements, rows] = sections;
        let draft = Draft {
            objects: objects.to_vec(),
            variables: to_records(variables),
            statements: to_records(statements),
            rows: (pairs == 4).then(|| to_records(rows)),
        };
        (draft.words() == words).then_some(draft)
    }

    /// The blocks of the head at s, as places of their count and ranges.
    fn blocks(&self, s: usize) -> Vec<(usize, usize, usize)> {
        let record = &self.statements[s];
        let count = |field: usize| record[field].clamp(0, self.statements.len() as i32) as usize;
        match record[0] {
            11 => {
                let middle = s + 1 + count(5);
                vec![(5, s + 1, middle), (6, middle, middle + count(6))]
            }
            12 => vec![(5, s + 1, s + 1 + count(5))],
            13 => vec![(1, s + 1, s + 1 + count(1))],
            _ => Vec::new(),
        }
    }

    /// Takes out statement s, with its blocks or, `keep_blocks`, without them; the statements that are gone.
    pub fn remove(&mut self, s: usize, keep_blocks: bool) -> Range<usize> {
        let all = self.statements.len();
        let end = match self.blocks(s).last() {
            Some(&(_, _, end)) if !keep_blocks => end.min(all),
            _ => s + 1,
        };
        let removed = (end - s) as i32;
        for head in 0..s {
            for (field, from, to) in self.blocks(head) {
                if (from..to).contains(&s) {
                    let count = &mut self.statements[head][field];
                    *count = (*count - removed).max(0);
                    break;
                }
            }
        }
        self.statements.drain(s..end);
        s..end
    }
}

/// Whole records of N words.
pub fn to_records<const N: usize>(words: &[i32]) -> Vec<[i32; N]> {
    words.chunks_exact(N).map(|chunk| chunk.try_into().expect("an exact chunk")).collect()
}

#[cfg(test)]
mod tests {
    use super::*;
    use crate::table::decode;

    #[test]
    fn a_list_moves_with_its_loops() {
        let list = [[1, 0, -1, 5], [3, 0, -1, 5], [3, -1, 0, 0], [6, 0, -1, 5]];
        assert_eq!(without_statements(&list, &(3..5)), [[1, 0, -1, 5], [4, 0, -1, 5]]);
        assert_eq!(without_statements(&list, &(0..1)).iter().map(|e| e[0]).collect::<Vec<_>>(), [0, 2, 2, 5]);
    }

    #[test]
    fn removal_keeps_the_blocks_right() {
        let mut draft = Draft { variables: vec![[0; 8]], ..Draft::default() };
        let check = dynamic_check(with_literal(0, GREATER_EQUAL, 0));
        let inner = if_else([0, EQUAL, 1, 0], vec![check, check], vec![check]);
        draft.statements = while_loop([0, EQUAL, 1, 0], [vec![check], inner, vec![check]].concat());
        for s in 0..draft.statements.len() {
            for keep_blocks in [false, true] {
                let mut smaller = draft.clone();
                smaller.remove(s, keep_blocks);
                assert!(decode(&smaller.words()).is_ok(), "statement {s}");
            }
        }
    }
}
