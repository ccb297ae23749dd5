//! Routines in turn as the boundary takes them: the parts of all routines one behind the other, with their lengths.

use oracle::answer::RunAnswer;
use oracle::dispatch::{Dispatched, Member, Turns, TurnsRefusal};
use std::ops::Range;

/// Words of `lengths` a routine: of its table, list, directory, values, origins.
pub const LENGTHS: usize = 5;

#[derive(Clone, Debug, Default, PartialEq, Eq)]
pub struct Parts {
    pub tables: Vec<i32>,
    pub facts: Vec<i32>,
    pub directories: Vec<u32>,
    pub cells: Vec<u32>,
    pub values: Vec<u32>,
    pub origins: Vec<u32>,
    pub lengths: Vec<u32>,
    pub quantum: u32,
    pub total: u32,
}

/// Where part r of a slice lies: "A part that reaches past its slice is cut there."
fn part(lengths: &[u32], slice: usize, r: usize, end: usize) -> Range<usize> {
    let length = |r: usize| u64::from(lengths[LENGTHS * r + slice]);
    let start: u64 = (0..r).map(length).sum();
    let cut = |place: u64| place.min(end as u64) as usize;
    cut(start)..cut(start + length(r))
}

impl Parts {
    pub fn of(turns: &Turns) -> Parts {
        let mut parts = Parts {
            cells: turns.cells.clone(),
            quantum: turns.quantum,
            total: turns.total,
            ..Parts::default()
        };
        for Member { table, facts, directory, values, origins } in &turns.members {
            parts.tables.extend(table);
            parts.facts.extend(facts);
            parts.directories.extend(directory);
            parts.values.extend(values);
            parts.origins.extend(origins);
            let lengths = [table.len(), facts.len(), directory.len(), values.len(), origins.len()];
            parts.lengths.extend(lengths.map(|length| length as u32));
        }
        parts
    }

    /// "a length that is no multiple of five is a wrong number": none at all, which is refused alike.
    fn routines(&self) -> usize {
        if self.lengths.len() % LENGTHS == 0 {
            self.lengths.len() / LENGTHS
        } else {
            0
        }
    }

    fn values_of(&self, r: usize) -> Range<usize> {
        part(&self.lengths, 3, r, self.values.len())
    }

    /// The routines with what they are lent.
    pub fn turns(&self) -> Turns {
        let member = |r: usize| {
            let at = |slice: usize, end: usize| part(&self.lengths, slice, r, end);
            Member {
                table: self.tables[at(0, self.tables.len())].to_vec(),
                facts: self.facts[at(1, self.facts.len())].to_vec(),
                directory: self.directories[at(2, self.directories.len())].to_vec(),
                values: self.values[self.values_of(r)].to_vec(),
                origins: self.origins[at(4, self.origins.len())].to_vec(),
            }
        };
        let members = (0..self.routines()).map(member).collect();
        Turns { members, cells: self.cells.clone(), quantum: self.quantum, total: self.total }
    }

    /// Takes what routines that have run left in memory and values.
    pub fn take(&mut self, turns: &Turns) {
        self.cells.clone_from(&turns.cells);
        for (r, member) in turns.members.iter().enumerate() {
            let own = self.values_of(r);
            self.values[own].copy_from_slice(&member.values);
        }
    }
}

/// The answer words, as many as are written: outcome 0 or 3, the number of routines or of the refusal, its routine,
/// place and pointer; then the four words of each routine.
pub type TurnsWords = Vec<u32>;

pub fn turns_words(answer: &Result<Dispatched, TurnsRefusal>) -> TurnsWords {
    match answer {
        Ok(dispatched) => ran_words(&dispatched.answers),
        Err(TurnsRefusal::OutOfRange) => vec![3, 15, 0, 0, 0],
        Err(TurnsRefusal::Overlap { routine }) => vec![3, 14, *routine as u32, *routine as u32, 0],
        Err(TurnsRefusal::Routine { routine, refusal }) => {
            let pointer = refusal.pointer.unwrap_or(0).into();
            vec![3, refusal.cause.into(), *routine as u32, refusal.place, pointer]
        }
    }
}

fn ran_words(answers: &[RunAnswer]) -> TurnsWords {
    let words = answers.iter().flat_map(crate::proved::run_words);
    [0, answers.len() as u32, 0, 0, 0].into_iter().chain(words).collect()
}

#[cfg(test)]
mod tests {
    use super::*;

    #[test]
    fn parts_are_cut_where_their_slice_ends() {
        let member = |n: u32| Member {
            table: vec![n as i32; 3],
            facts: vec![],
            directory: vec![n],
            values: vec![n; 2],
            origins: vec![n; 2],
        };
        let turns = Turns { members: vec![member(1), member(2)], cells: vec![5], quantum: 1, total: 9 };
        let mut parts = Parts::of(&turns);
        assert_eq!(parts.lengths, [3, 0, 1, 2, 2, 3, 0, 1, 2, 2]);
        assert_eq!(parts.turns(), turns);
        parts.lengths[0] = 5;
        parts.lengths[3] = u32::MAX;
        let cut = parts.turns();
        assert_eq!((&cut.members[0].table[..], &cut.members[1].table[..]), (&[1, 1, 1, 2, 2][..], &[2][..]));
        assert_eq!((&cut.members[0].values[..], &cut.members[1].values[..]), (&[1, 1, 2, 2][..], &[][..]));
        parts.lengths.pop();
        assert!(parts.turns().members.is_empty());
    }
}
